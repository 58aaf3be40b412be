"""Slips that a programmer might make, each in one line of measure/plain_tally.c.

The comparison of tally with the reference must find each of them.
"""

import subprocess
from pathlib import Path
from typing import NamedTuple

SOURCE = Path(__file__).resolve().parents[2] / 'measure/plain_tally.c'


class Slip(NamedTuple):
    name: str
    old: str  # stands once in the source
    new: str


BY_MASS = 'divided(f->quantity * f->carbon * 1100, 3, up)'
BY_VOLUME = 'divided(f->quantity * f->density * f->carbon * 11, 30, up)'
LIMIT_BY_MASS = 'case MASS: return f->carbon > 10000;'
LIMITS_BY_VOLUME = 'return f->density > 2000 || f->carbon > 10000;'
READ_BY_MASS = '&f->quantity) || !read_next(t, &f->carbon)) return false;'
READ_BY_VOLUME = '|| !read_next(t, &f->density) || !read_next(t, &f->carbon)) return false;'
FUEL_END = '    return skip(t, ")");'
FACTOR_OF_SITE = 'divided(site->milligrams[up], site->generation, up)'
ABOVE_LIMIT = 'return *factor > FACTOR ? 10 : OK;'
ASK_SITE = 'captive_factor(&sites[s->site], up, factor)'
NO_GRID = 'if (on_grid(s->supply) && !l->grid.stands) return 8;'
ADD_UP = 'add_up(l, &margins, &grid, sites);'
NO_PLANT = 'if (!p->stands) continue;'
READ_SINGLE = 'return register_watt_hours(value, m->ratio, up, watt_hours);'
PRODUCT = 'u64 product = ratio * 8000 * digits;'
LIMIT_OF_PRODUCT = 'if (down + !whole > WATT_HOURS) return 3;'
ROUND_PRODUCT = '*watt_hours = down + (up && !whole);'
LIMIT_OF_COUNT = 'if (value > WATT_HOURS / m->ratio) return 3;'
COUNTED = '*watt_hours = value * m->ratio;'
READ_FIRST = 'if (reading_watt_hours(m, m->first, !last_up, &first)) return 3;'
MOVED = '*energy += m->minus ? (int64_t)first - (int64_t)last : (int64_t)last - (int64_t)first;'
RATIO_FITS = 'if (meters[i].ratio < 1 || meters[i].ratio > RATIO) return false;'
UNFIT_RATIO = ' || !ratios_fit(meters, count)) return 2;'
NO_RATIO = '*ratio = 1;'
HAS_RATIO = 'return !is_digit(t) || (read_number(t, ratio) && skip(t, " "));'
READ_RATIO = 'if (!read_ratio(t, &m->ratio)) return false;'
READ_SIGN = 'if (!m->minus && !skip(t, "+ ")) return false;'
REFUSED_16 = 'if (p.heat > 0 && has_carbon_line(fuels, count)) return 16;'
REFUSED_17 = 'if (p.heat > p.energy) return 17;'
TOO_MANY = 'if (count > FUEL_LINES || p.generation > 100000000) return 2;'
IS_CARBON = 'if (fuels[i].kind != ENERGY) return true;'
SUM_ENERGY = 'p.energy += fuels[i].quantity * fuels[i].calorific;'
STORE_PLANT = 'l->plants[number] = p;'
NO_HEAT = 'if (p->heat == 0) return p->milligrams[0];'
CONTENT = 'u64 content = p->milligrams[0] * 1000 / p->energy;'
LEFT = 'return (p->energy - p->heat) * content / 1000;'
ADD_DOWN = 'sites[p->site].milligrams[0] += baseline_milligrams(p);'
ADD_UPWARD = 'sites[p->site].milligrams[1] += p->milligrams[1];'
HAS_HEAT = 'return !skip(t, " (heat ") || (read_number(t, heat) && skip(t, ")"));'
READ_HEAT = 'if (!read_heat(t, &p.heat)) return NO_FORM;'
READ_FUEL = 'if (!read_fuel(t, &f)) return NO_FORM;'
READ_GENERATION = '|| !read_next(t, &p.generation)) return NO_FORM;'


def read_by(last: str, first: str) -> str:
    """Both readings, each by a ratio of its own."""
    return (f'struct meter a = *m, b = *m; a.ratio = {last}, b.ratio = {first};'
            ' if (reading_watt_hours(&a, m->last, last_up, &last)) return 3;'
            ' if (reading_watt_hours(&b, m->first, !last_up, &first)) return 3;')


def refused_by_any_site(condition: str) -> str:
    """Asks all sites, whoever names them, and answers for source 0 where one is so."""
    return (ADD_UP + ' for (int i = 0; i < SITES; i++) { u64 factor; int refused ='
            f' captive_factor(&sites[i], true, &factor); if ({condition})'
            ' { put_refused(refused); put(" source 0\\n"); return; } }')


def over_site(what: str) -> str:
    """A sum over the plants with heat at the site of the plant p."""
    return (f' for (int k = 0; k < PLANTS; k++) {{ const struct plant *q = &l->plants[k];'
            f' if (q->stands && q->site == p->site && q->heat > 0) {what}; }}')


SLIPS = (
    # The text
    Slip('a zero before other digits accepted', "(*first != '0' || count == 1)", 'true'),
    Slip('19 digits accepted', 'DIGITS = 18', 'DIGITS = 19'),
    Slip('upper-case hex accepted', "if (c >= 'a' && c <= 'f')",
         "if ((c |= 32) >= 'a' && c <= 'f')"),
    Slip('bytes after the last bracket accepted', 'skip(t, ")") && t->at == t->end',
         'skip(t, ")")'),
    Slip('a line of 257 bytes accepted', '> LINE_LIMIT', '> LINE_LIMIT + 1'),
    Slip('a line of 256 bytes refused', '> LINE_LIMIT', '>= LINE_LIMIT'),
    Slip('an input of 65,537 bytes accepted', 'size > INPUT_LIMIT', 'size > INPUT_LIMIT + 1'),
    Slip('an input of 65,536 bytes refused', 'size > INPUT_LIMIT', 'size >= INPUT_LIMIT'),
    Slip('the last line lost where it lacks its LF', 'if (stop == NULL) stop = end;',
         'if (stop == NULL) return;'),
    Slip('an empty line passed over', 'answer(&ledger,', 'if (stop > at) answer(&ledger,'),
    Slip('a CR taken with the LF', '(struct text){at, stop}',
         "(struct text){at, stop - (stop > at && stop[-1] == '\\r')}"),
    Slip('the input read once, however little comes',
         'size_t size = fread(input, 1, sizeof input, stdin);',
         'extern long read(int, void *, size_t);'
         ' size_t size = (size_t)read(0, input, sizeof input);'),
    Slip('numbers narrowed to 32 bits', "*value = *value * 10 + (u64)(*t->at++ - '0');",
         "*value = (uint32_t)(*value * 10 + (u64)(*t->at++ - '0'));"),
    Slip('a plant number narrowed to 8 bits',
         '{ return number >= PLANTS ? 1', '{ return (number &= 255) >= PLANTS ? 1'),
    Slip('refused without its source', 'put(" source ");', 'put("\\n"); return;'),
    Slip('the minus lost', '"reduction -"', '"reduction "'),
    Slip('an exit status other than 0', '== written ? 0 : 1', '== written ? 1 : 0'),
    # The ledger
    Slip('the first entry kept, replacements ignored', 'l->sources[number] = s;',
         'if (!l->sources[number].stands) l->sources[number] = s;'),
    Slip('a drop that takes nothing away', '*stands = false;', ''),
    Slip('4 before the 3 of a later meter', 'back |= runs_back(m);',
         'if (runs_back(m)) return 4;'),
    Slip('negative zero refused', '(bits >> 31 && digits != 0)', 'bits >> 31'),
    Slip('a - meter rounded as a + meter', 'last_up = up != m->minus', 'last_up = up'),
    Slip('P = B as greater', 'baselines == 0 || sums->project > sums->baseline',
         'baselines == 0 || sums->project >= sums->baseline'),
    Slip("P' = B' as greater", 'up || grid->project > grid->baseline',
         'up || grid->project >= grid->baseline'),
    Slip('default losses by P and B', 'loss_of(s, &grid,', 'loss_of(s, &margins,'),
    Slip('the plant factor to nearest', FACTOR_OF_SITE,
         '(site->milligrams[up] + site->generation / 2) / site->generation'),
    Slip('either the wrong way round', '(up ? combined > *factor : combined < *factor)',
         '(up ? combined < *factor : combined > *factor)'),
    Slip('the number of sources inflated', '.sources++', '.sources += 2'),
    # Sites
    Slip('the two directions of the sums exchanged', FACTOR_OF_SITE,
         'divided(site->milligrams[!up], site->generation, up)'),
    Slip("the other direction's factor", ASK_SITE, 'captive_factor(&sites[s->site], !up, factor)'),
    Slip("baseline takes project's factor", ASK_SITE,
         'captive_factor(&sites[s->site], true, factor)'),
    Slip("project takes baseline's factor", ASK_SITE,
         'captive_factor(&sites[s->site], false, factor)'),
    Slip('site 1 taken for site 0', ASK_SITE,
         'captive_factor(&sites[s->site == 0 ? 1 : s->site], up, factor)'),
    Slip('site 2 taken for site 3', ASK_SITE,
         'captive_factor(&sites[s->site == 3 ? 2 : s->site], up, factor)'),
    Slip('sites 1 and 2 exchanged', ASK_SITE,
         'captive_factor(&sites[s->site % 3 == 0 ? s->site : 3 - s->site], up, factor)'),
    Slip('site 0 taken for either', ASK_SITE,
         'captive_factor(&sites[s->supply == EITHER ? 0 : s->site], up, factor)'),
    Slip('a report refused by any site', ADD_UP, refused_by_any_site('refused != OK')),
    Slip('a report refused 9 by any site that has a plant', ADD_UP,
         refused_by_any_site('refused == 9 && sites[i].generation > 0')),
    Slip('a report refused 10 by any site', ADD_UP, refused_by_any_site('refused == 10')),
    Slip('captivedefault refused by site 0', 'if (s->supply == CAPTIVE_DEFAULT) {',
         'if (s->supply == CAPTIVE_DEFAULT) { int r = ' + ASK_SITE + '; if (r != OK) return r;'),
    Slip('the site asked before 8', NO_GRID,
         'if (s->supply == EITHER) { int r = ' + ASK_SITE + '; if (r != OK) return r; }'
         ' ' + NO_GRID),
    Slip('10 by the factor up in both directions', ABOVE_LIMIT,
         'return divided(site->milligrams[1], site->generation, true) > FACTOR ? 10 : OK;'),
    Slip('10 by the factor down in both directions', ABOVE_LIMIT,
         'return divided(site->milligrams[0], site->generation, false) > FACTOR ? 10 : OK;'),
    Slip("refused with the site's number", 'put_number((u64)i);',
         'put_number(refused == 9 || refused == 10 ? s->site : (u64)i);'),
    Slip('the sites of the first report kept', ADD_UP,
         ADD_UP + ' static struct site kept[SITES]; static bool known;'
         ' if (known) memcpy(sites, kept, sizeof kept); else memcpy(kept, sites, sizeof kept);'
         ' known = true;'),
    Slip('the sums of the report before added to', 'struct site sites[SITES] = {0};',
         'static struct site sites[SITES];'),
    Slip('a plant without generation passed over', NO_PLANT,
         'if (!p->stands || p->generation == 0) continue;'),
    Slip('a plant that was dropped counted', NO_PLANT, ''),
    # Ratios: the product
    Slip('rounded before the ratio', READ_SINGLE,
         'return register_watt_hours(value, 1, up, watt_hours) || (*watt_hours *= m->ratio)'
         ' > WATT_HOURS ? 3 : OK;'),
    Slip('the product to nearest', ROUND_PRODUCT,
         '*watt_hours = shift == 0 ? down : down + (product >> (shift - 1) & 1);'),
    Slip('the product always down', ROUND_PRODUCT, '*watt_hours = down;'),
    Slip('the product always up', ROUND_PRODUCT, '*watt_hours = down + !whole;'),
    Slip('the product in 32 bits', PRODUCT, 'u64 product = (uint32_t)(ratio * 8000 * digits);'),
    Slip('the product of a count in 32 bits', COUNTED,
         '*watt_hours = (uint32_t)(value * m->ratio);'),
    Slip('the ratio of a register passed over', PRODUCT,
         '(void)ratio; u64 product = 8000 * digits;'),
    Slip('the ratio of a count passed over', COUNTED, '*watt_hours = value;'),
    Slip('the ratio of a - meter passed over', READ_FIRST,
         READ_FIRST + ' if (m->minus) { ' + read_by('1', '1') + ' }'),
    Slip('the last reading alone by its ratio', READ_FIRST,
         READ_FIRST + ' ' + read_by('m->ratio', '1')),
    Slip('the first reading alone by its ratio', READ_FIRST,
         READ_FIRST + ' ' + read_by('1', 'm->ratio')),
    Slip("the first meter's ratio for all", READ_FIRST,
         READ_FIRST + ' ' + read_by('meters->ratio', 'meters->ratio')),
    Slip("the last meter's ratio for all", READ_FIRST,
         READ_FIRST + ' ' + read_by('meters[count - 1].ratio', 'meters[count - 1].ratio')),
    Slip("the ratio applied to a meter's energy", READ_FIRST,
         READ_FIRST + ' ' + read_by('1', '1')
         + ' first *= m->ratio, last *= m->ratio;'),
    Slip("the ratio applied to the source's energy", READ_FIRST,
         READ_FIRST + ' ' + read_by('1', '1')
         + ' if (i == count - 1) { back |= runs_back(m); ' + MOVED
         + ' *energy *= (int64_t)m->ratio; continue; }'),
    # Ratios: limits
    Slip('the limit on the reading', LIMIT_OF_PRODUCT,
         'if (down + !whole > WATT_HOURS * ratio) return 3;'),
    Slip('the limit on the count', LIMIT_OF_COUNT, 'if (value > WATT_HOURS) return 3;'),
    Slip('every count limited as by 10,000', LIMIT_OF_COUNT,
         'if (value > WATT_HOURS / RATIO || value > WATT_HOURS / m->ratio) return 3;'),
    Slip('a product at the limit refused', LIMIT_OF_COUNT,
         'if (value * m->ratio >= WATT_HOURS || value > WATT_HOURS / m->ratio) return 3;'),
    Slip("a register's product at the limit refused", LIMIT_OF_PRODUCT,
         'if (down + !whole >= WATT_HOURS) return 3;'),
    Slip('the product of a count wraps at 64 bits', LIMIT_OF_COUNT,
         'if (value * m->ratio > WATT_HOURS) return 3;'),
    Slip('the product of a count limited in 32 bits', LIMIT_OF_COUNT,
         'if ((uint32_t)value > WATT_HOURS / m->ratio) return 3;'),
    Slip('4 by the first reading alone by its ratio', 'if (!m->single) return m->last < m->first;',
         'if (!m->single) return m->last < m->first * m->ratio;'),
    Slip('a ratio of 0 accepted', RATIO_FITS, 'if (meters[i].ratio > RATIO) return false;'
         ' else if (meters[i].ratio == 0) ((struct meter *)meters)[i].ratio = 1;'),
    Slip('a ratio of 1 refused', RATIO_FITS,
         'if (meters[i].ratio <= 1 || meters[i].ratio > RATIO) return false;'),
    Slip('a ratio of 10,000 refused', RATIO_FITS,
         'if (meters[i].ratio < 1 || meters[i].ratio >= RATIO) return false;'),
    Slip('a ratio of 10,001 accepted', RATIO_FITS,
         'if (meters[i].ratio < 1 || meters[i].ratio > RATIO + 1) return false;'),
    Slip('a ratio of 65,535 accepted', RATIO_FITS,
         'if (meters[i].ratio < 1 || meters[i].ratio > 65535) return false;'),
    Slip('a ratio narrowed to 8 bits', READ_RATIO, READ_RATIO + ' m->ratio = (uint8_t)m->ratio;'),
    Slip('65,537 taken as 1', READ_RATIO, READ_RATIO + ' m->ratio = (uint16_t)m->ratio;'),
    Slip('a ratio narrowed to 32 bits', READ_RATIO,
         READ_RATIO + ' m->ratio = (uint32_t)m->ratio;'),
    Slip('a ratio above its range taken as 10,000', READ_RATIO,
         READ_RATIO + ' if (m->ratio > RATIO) m->ratio = RATIO;'),
    Slip('the ratio of the first meter alone judged', UNFIT_RATIO,
         ' || !ratios_fit(meters, 1)) return 2; for (u64 i = 1; i < count; i++)'
         ' if (meters[i].ratio == 0) ((struct meter *)meters)[i].ratio = 1;'),
    Slip('the ratios judged before 1', 'if (number >= SOURCES || s.site >= SITES) return 1;',
         'if (count <= METERS && !ratios_fit(meters, count)) return 2;'
         ' if (number >= SOURCES || s.site >= SITES) return 1;'),
    Slip('a ratio judged with the 3 of its meter', UNFIT_RATIO,
         ') return 2; for (u64 i = 0; i < count; i++) { int64_t moved;'
         ' if (!ratios_fit(meters + i, 1)) return 2;'
         ' if (judge_meters(meters + i, 1, true, &moved) == 3) return 3; }'),
    Slip('the ratios judged after 3 and 4', UNFIT_RATIO,
         ') return 2; for (u64 i = 0; i < count; i++) { struct meter m = meters[i]; int64_t moved;'
         ' if (!ratios_fit(&m, 1)) m.ratio = 1; int early = judge_meters(&m, 1, true, &moved);'
         ' if (early != OK) return early; } if (!ratios_fit(meters, count)) return 2;'),
    Slip('a ratio outside its range refused 3', UNFIT_RATIO,
         ') return 2; if (!ratios_fit(meters, count)) return 3;'),
    Slip('a ratio outside its range refused 14', UNFIT_RATIO,
         ') return 2; if (!ratios_fit(meters, count)) return 14;'),
    # Ratios: forms
    Slip('a ratio that is left out read as 0', NO_RATIO, '*ratio = 0;'),
    Slip('a ratio kept where it is left out', NO_RATIO,
         'static u64 kept = 1; if (!is_digit(t)) { *ratio = kept; return true; }'
         ' if (!read_number(t, ratio) || !skip(t, " ")) return false; kept = *ratio; return true;'),
    Slip('no ratio read', READ_RATIO, 'm->ratio = 1;'),
    Slip('a ratio asked for', HAS_RATIO, 'return read_number(t, ratio) && skip(t, " ");'),
    Slip('a ratio written as 1 no form', HAS_RATIO,
         'return !is_digit(t) || (read_number(t, ratio) && skip(t, " ") && *ratio != 1);'),
    Slip('a ratio of 0 no form', HAS_RATIO,
         'return !is_digit(t) || (read_number(t, ratio) && skip(t, " ") && *ratio != 0);'),
    Slip('a ratio of 65,536 no form', HAS_RATIO,
         'return !is_digit(t) || (read_number(t, ratio) && skip(t, " ") && *ratio < 65536);'),
    Slip('a ratio of 10 digits no form', HAS_RATIO,
         'return !is_digit(t) || (read_number(t, ratio) && skip(t, " ") && *ratio < 1000000000);'),
    Slip('a ratio of more digits accepted', HAS_RATIO,
         'for (*ratio = is_digit(t) ? 0 : 1; is_digit(t); t->at++)'
         ' *ratio = *ratio * 10 + (u64)(*t->at - \'0\'); skip(t, " "); return true;'),
    Slip('a ratio before the sign without its space', HAS_RATIO,
         'return !is_digit(t) || (read_number(t, ratio) && (skip(t, " ") || true));'),
    Slip('a second ratio passed over', READ_RATIO, READ_RATIO + ' u64 more;'
         ' if (!read_ratio(t, &more)) return false;'),
    Slip('a ratio after the sign accepted', READ_SIGN, READ_SIGN + ' struct text ahead = *t;'
         ' u64 a, b, c; if (!m->single && read_number(&ahead, &a) && read_next(&ahead, &b)'
         ' && read_next(&ahead, &c)) { m->ratio = a; read_number(t, &a); skip(t, " "); }'),
    Slip('a ratio with a + of its own accepted', READ_RATIO,
         "if (t->end - t->at > 1 && t->at[0] == '+' && t->at[1] != ' ') t->at++; " + READ_RATIO),
    # Heat: what is left
    Slip('heat for project', ADD_UPWARD,
         'sites[p->site].milligrams[1] += p->heat == 0 ? p->milligrams[1] : divided((p->energy -'
         ' p->heat) * divided(p->milligrams[1] * 1000, p->energy, true), 1000, true);'),
    Slip("leakage takes baseline's factor", ASK_SITE,
         'captive_factor(&sites[s->site], s->side == PROJECT, factor)'),
    Slip('no heat taken off', ADD_DOWN, 'sites[p->site].milligrams[0] += p->milligrams[0];'),
    Slip('heat 0 allocated', NO_HEAT, 'if (p->energy == 0) return p->milligrams[0];'),
    Slip('a heat of 1 passed over', NO_HEAT, 'if (p->heat <= 1) return p->milligrams[0];'),
    Slip('the heat of a plant without generation passed over', NO_HEAT,
         'if (p->heat == 0 || p->generation == 0) return p->milligrams[0];'),
    Slip('lines rounded up for A', CONTENT,
         'u64 content = p->milligrams[1] * 1000 / p->energy;'),
    Slip('A rounded up', CONTENT,
         'u64 content = divided(p->milligrams[0] * 1000, p->energy, true);'),
    Slip('A to nearest', CONTENT,
         'u64 content = (p->milligrams[0] * 1000 + p->energy / 2) / p->energy;'),
    Slip('A not rounded', LEFT,
         'return (u64)((unsigned __int128)(p->energy - p->heat) * p->milligrams[0] / p->energy);'),
    Slip('A not multiplied by 1,000', CONTENT, 'u64 content = p->milligrams[0] / p->energy;'),
    Slip('A multiplied by 1,000 after its quotient', CONTENT,
         'u64 content = p->milligrams[0] / p->energy * 1000;'),
    Slip('A by the heat', CONTENT, 'u64 content = p->milligrams[0] * 1000 / p->heat;'),
    Slip('A by what is left of the fuel', CONTENT,
         'u64 content = p->milligrams[0] * 1000 / (p->energy - p->heat + (p->energy == p->heat));'),
    Slip('the product for A in 32 bits', CONTENT,
         'u64 content = (uint32_t)(p->milligrams[0] * 1000) / p->energy;'),
    Slip('the product for A with a sign', CONTENT,
         'u64 content = (u64)((int64_t)(p->milligrams[0] * 1000) / (int64_t)p->energy);'),
    Slip('what is left rounded up', LEFT,
         'return divided((p->energy - p->heat) * content, 1000, true);'),
    Slip('what is left to nearest', LEFT,
         'return ((p->energy - p->heat) * content + 500) / 1000;'),
    Slip('what is left not divided by 1,000', LEFT,
         'return (p->energy - p->heat) * content;'),
    Slip('what is left divided by 1,000 first', LEFT,
         'return (p->energy - p->heat) / 1000 * content;'),
    Slip('the product of what is left in 32 bits', LEFT,
         'return (uint32_t)((p->energy - p->heat) * content) / 1000;'),
    Slip('the product of what is left with a sign', LEFT,
         'return (u64)((int64_t)((p->energy - p->heat) * content) / 1000);'),
    Slip('the fuel that is left in 32 bits', LEFT,
         'return (uint32_t)(p->energy - p->heat) * content / 1000;'),
    Slip("the heat's milligrams taken off the lines'", LEFT,
         'return p->milligrams[0] - p->heat * content / 1000;'),
    Slip("the heat's milligrams in place of what is left", LEFT,
         'return p->heat * content / 1000;'),
    Slip('a boiler at 60 percent', LEFT,
         'return p->heat / 6 * 10 > p->energy ? 0 :'
         ' (p->energy - p->heat / 6 * 10) * content / 1000;'),
    Slip('A over the site', ADD_DOWN,
         'u64 mg = 0, kj = 0;' + over_site('mg += q->milligrams[0], kj += q->energy')
         + ' sites[p->site].milligrams[0] += p->heat == 0 ? p->milligrams[0]'
         ' : (p->energy - p->heat) * (mg * 1000 / kj) / 1000;'),
    Slip('heat taken off after the sum over the site', ADD_DOWN,
         'u64 mg = 0, kj = 0, heat = 0, first = PLANTS;'
         + over_site('mg += q->milligrams[0], kj += q->energy, heat += q->heat,'
                     ' first = first == PLANTS ? (u64)k : first')
         + ' sites[p->site].milligrams[0] += p->heat == 0 ? p->milligrams[0]'
         ' : (u64)i != first ? 0 : (kj - heat) * (mg * 1000 / kj) / 1000;'),
    Slip("a site's first heat for all its plants", ADD_DOWN,
         'u64 heat = 0;' + over_site('heat = heat == 0 ? q->heat : heat')
         + ' struct plant with = *p; if (with.heat > 0 && heat <= with.energy) with.heat = heat;'
         ' sites[p->site].milligrams[0] += baseline_milligrams(&with);'),
    # Heat: refusals
    Slip('17 before 16', REFUSED_16, REFUSED_17 + ' ' + REFUSED_16),
    Slip('16 for heat 0', REFUSED_16, 'if (has_carbon_line(fuels, count)) return 16;'),
    Slip('heat beside carbon accepted', REFUSED_16, ''),
    Slip('16 by the first line alone', REFUSED_16,
         'if (p.heat > 0 && has_carbon_line(fuels, count > 0)) return 16;'),
    Slip('16 without the first line', REFUSED_16,
         'if (p.heat > 0 && count > 0 && has_carbon_line(fuels + 1, count - 1)) return 16;'),
    Slip('16 without the fourth line', REFUSED_16,
         'if (p.heat > 0 && has_carbon_line(fuels, count < 3 ? count : 3)) return 16;'),
    Slip('16 by mass alone', IS_CARBON, 'if (fuels[i].kind == MASS) return true;'),
    Slip('16 by volume alone', IS_CARBON, 'if (fuels[i].kind == VOLUME) return true;'),
    Slip('16 where all lines are carbon', IS_CARBON,
         '{ if (fuels[i].kind == ENERGY) return false; if (i + 1 == count) return true; }'),
    Slip('16 by a carbon line that is burnt', IS_CARBON,
         'if (fuels[i].kind != ENERGY && fuels[i].quantity > 0) return true;'),
    Slip('16 before 1', 'if (number >= PLANTS || p.site >= SITES) return 1;',
         'if (count <= FUEL_LINES && p.heat > 0 && has_carbon_line(fuels, count)) return 16;'
         ' if (number >= PLANTS || p.site >= SITES) return 1;'),
    Slip('16 before 2', TOO_MANY,
         'if (count <= FUEL_LINES && p.heat > 0 && has_carbon_line(fuels, count)) return 16; '
         + TOO_MANY),
    Slip('16 before the 2 of a later line', 'if (fuel_refused(&fuels[i])) return 2;',
         'if (fuel_refused(&fuels[i])) return 2;'
         ' if (p.heat > 0 && has_carbon_line(&fuels[i], 1)) return 16;'),
    Slip('17 before 2', TOO_MANY,
         'u64 fuel = 0; for (u64 i = 0; i < count && i < FUEL_LINES; i++)'
         ' fuel += fuels[i].quantity * fuels[i].calorific;'
         ' if (p.heat > fuel && !has_carbon_line(fuels, count < 4 ? count : 4)) return 17; '
         + TOO_MANY),
    Slip('heat at J refused', REFUSED_17, 'if (p.heat > 0 && p.heat >= p.energy) return 17;'),
    Slip('heat at J + 1 accepted', REFUSED_17,
         'if (p.heat > p.energy + (p.energy > 0)) return 17;'),
    Slip('heat above J taken as J', REFUSED_17,
         'if (p.heat > p.energy) p.heat = p.energy;'),
    Slip('heat without fuel accepted', REFUSED_17,
         'if (p.energy == 0) p.heat = 0; else if (p.heat > p.energy) return 17;'),
    Slip('heat limited by the milligrams', REFUSED_17,
         'if (p.heat > p.milligrams[0] && p.heat > p.energy) return 17;'),
    Slip('16 in place of 17', REFUSED_17, 'if (p.heat > p.energy) return 16;'),
    Slip('17 in place of 16', REFUSED_16,
         'if (p.heat > 0 && has_carbon_line(fuels, count)) return 17;'),
    Slip('2 in place of 17', REFUSED_17, 'if (p.heat > p.energy) return 2;'),
    Slip('J of the last line', SUM_ENERGY, 'p.energy = fuels[i].quantity * fuels[i].calorific;'),
    Slip('J of the first line', SUM_ENERGY,
         'if (i == 0) p.energy = fuels[i].quantity * fuels[i].calorific;'),
    Slip('J in 32 bits', SUM_ENERGY,
         'p.energy = (uint32_t)(p.energy + fuels[i].quantity * fuels[i].calorific);'),
    Slip('J without lines of no CO2', SUM_ENERGY,
         'if (fuels[i].content > 0) p.energy += fuels[i].quantity * fuels[i].calorific;'),
    Slip('a plant that is refused 16 stored', REFUSED_16,
         'if (p.heat > 0 && has_carbon_line(fuels, count))'
         ' { l->plants[number] = p, l->plants[number].heat = 0; return 16; }'),
    Slip('a plant that is refused 17 stored', REFUSED_17,
         'if (p.heat > p.energy)'
         ' { l->plants[number] = p, l->plants[number].heat = p.energy; return 17; }'),
    # Heat: what stands
    Slip('heat forgotten where a plant is replaced', STORE_PLANT,
         'if (l->plants[number].stands) p.heat = 0; ' + STORE_PLANT),
    Slip('the older heat kept where none is stated', STORE_PLANT,
         'if (p.heat == 0 && l->plants[number].heat <= p.energy'
         ' && !has_carbon_line(fuels, count)) p.heat = l->plants[number].heat; ' + STORE_PLANT),
    Slip('the older heat kept', STORE_PLANT,
         'if (l->plants[number].heat > 0 && l->plants[number].heat <= p.energy)'
         ' p.heat = l->plants[number].heat; ' + STORE_PLANT),
    Slip('heat cut to 32 bits', READ_HEAT, READ_HEAT + ' p.heat = (uint32_t)p.heat;'),
    Slip('heat cut to 16 bits', READ_HEAT, READ_HEAT + ' p.heat = (uint16_t)p.heat;'),
    Slip('heat above 32 bits taken as the last of them', READ_HEAT,
         READ_HEAT + ' if (p.heat > UINT32_MAX) p.heat = UINT32_MAX;'),
    Slip('heat above 31 bits as a number with a sign', READ_HEAT,
         READ_HEAT + ' if ((int32_t)p.heat < 0) p.heat = 0;'),
    # Heat: forms
    Slip('heat read and passed over', READ_HEAT, READ_HEAT + ' p.heat = 0;'),
    Slip('no heat read', READ_HEAT, ''),
    Slip('a heat asked for', HAS_HEAT,
         'return skip(t, " (heat ") && read_number(t, heat) && skip(t, ")");'),
    Slip('a heat of 0 no form', HAS_HEAT,
         'return !skip(t, " (heat ") || (read_number(t, heat) && skip(t, ")") && *heat != 0);'),
    Slip('a heat of 10 digits no form', HAS_HEAT,
         'return !skip(t, " (heat ") || (read_number(t, heat) && skip(t, ")")'
         ' && *heat < 1000000000);'),
    Slip('a heat of more digits accepted', HAS_HEAT,
         'if (!skip(t, " (heat ")) return true; const char *first = t->at;'
         ' for (; is_digit(t); t->at++) *heat = *heat * 10 + (u64)(*t->at - \'0\');'
         " return t->at > first && (*first != '0' || t->at == first + 1) && skip(t, \")\");"),
    Slip('a second heat passed over', HAS_HEAT,
         'u64 more; if (skip(t, " (heat ") && !(read_number(t, heat) && skip(t, ")")))'
         ' return false;'
         ' return !skip(t, " (heat ") || (read_number(t, &more) && skip(t, ")"));'),
    Slip('a second figure of heat passed over', HAS_HEAT,
         'u64 more; return !skip(t, " (heat ") || (read_number(t, heat)'
         ' && (skip(t, ")") || (read_next(t, &more) && skip(t, ")"))));'),
    Slip('a heat without its figure accepted', HAS_HEAT,
         'if (skip(t, " (heat)")) return true; ' + HAS_HEAT),
    Slip('heats accepted', HAS_HEAT,
         'return !(skip(t, " (heats ") || skip(t, " (heat ")) || (read_number(t, heat)'
         ' && skip(t, ")"));'),
    Slip('Heat accepted', HAS_HEAT,
         'return !(skip(t, " (Heat ") || skip(t, " (heat ")) || (read_number(t, heat)'
         ' && skip(t, ")"));'),
    Slip('heat after a fuel line accepted', READ_FUEL,
         'if (skip(t, "(heat ")) { if (!read_number(t, &p.heat) || !skip(t, ")")) return NO_FORM;'
         ' count--; continue; } ' + READ_FUEL),
    Slip('heat before G accepted', READ_GENERATION,
         '|| !read_heat(t, &p.heat) ' + READ_GENERATION),
    # Margins
    Slip('weights swapped',
         'g.operating.factor * g.operating.weight + g.build.factor * g.build.weight',
         'g.operating.factor * g.build.weight + g.build.factor * g.operating.weight'),
    Slip('baseline takes the mean rounded up', 'g.combined[0] = divided(sum, 100, false);',
         'g.combined[0] = divided(sum, 100, true);'),
    Slip('project takes the mean rounded down', 'g.combined[1] = divided(sum, 100, true);',
         'g.combined[1] = divided(sum, 100, false);'),
    Slip('the mean to nearest for baseline', 'g.combined[0] = divided(sum, 100, false);',
         'g.combined[0] = (sum + 50) / 100;'),
    Slip('either compares the mean rounded the other way',
         '(up ? combined > *factor : combined < *factor)',
         '(up ? l->grid.combined[0] > *factor : l->grid.combined[1] < *factor)'),
    Slip('15 before 2', 'if (g.operating.factor > FACTOR || g.build.factor > FACTOR) return 2;',
         'if (g.operating.weight + g.build.weight == 100'
         ' && (g.operating.factor > FACTOR || g.build.factor > FACTOR)) return 2;'),
    Slip('a margin without weight not limited', 'if (g.operating.factor > FACTOR ||',
         'if ((g.operating.factor > FACTOR && g.operating.weight != 0) ||'),
    Slip('the build margin not limited', '|| g.build.factor > FACTOR', ''),
    Slip('weights below 100 accepted', 'g.operating.weight + g.build.weight != 100',
         'g.operating.weight + g.build.weight > 100'),
    Slip('weights above 100 accepted', 'g.operating.weight + g.build.weight != 100',
         'g.operating.weight + g.build.weight < 100'),
    Slip('weights added in 8 bits', 'g.operating.weight + g.build.weight != 100',
         '(uint8_t)(g.operating.weight + g.build.weight) != 100'),
    Slip('weights added in 16 bits', 'g.operating.weight + g.build.weight != 100',
         '(uint16_t)(g.operating.weight + g.build.weight) != 100'),
    Slip('weights that do not fit stored', '!= 100) return 15;',
         '!= 100) { l->grid = with_mean(g); return 15; }'),
    Slip('the mark of margins lost', 'return read_mark(t, &g.hydro) ?',
         'bool lost; return read_mark(t, &lost) ?'),
    # Fuel by carbon content: milligrams
    Slip('by mass divided by 30', BY_MASS, 'divided(f->quantity * f->carbon * 1100, 30, up)'),
    Slip('by volume divided by 3', BY_VOLUME,
         'divided(f->quantity * f->density * f->carbon * 11, 3, up)'),
    Slip('by mass always down', BY_MASS, 'divided(f->quantity * f->carbon * 1100, 3, false)'),
    Slip('by mass always up', BY_MASS, 'divided(f->quantity * f->carbon * 1100, 3, true)'),
    Slip('by mass to nearest', BY_MASS, '(f->quantity * f->carbon * 2200 + 3) / 6'),
    Slip('by volume always down', BY_VOLUME,
         'divided(f->quantity * f->density * f->carbon * 11, 30, false)'),
    Slip('by volume always up', BY_VOLUME,
         'divided(f->quantity * f->density * f->carbon * 11, 30, true)'),
    Slip('by volume to nearest', BY_VOLUME,
         '(f->quantity * f->density * f->carbon * 11 + 15) / 30'),
    Slip('44/12 rounded first', BY_MASS, 'f->quantity * f->carbon * divided(1100, 3, up)'),
    Slip('grams of carbon by mass rounded first', BY_MASS,
         'divided(divided(f->quantity * f->carbon, 10, up) * 11000, 3, up)'),
    Slip('grams of carbon by volume rounded first', BY_VOLUME,
         'divided(divided(f->quantity * f->density * f->carbon, 10000, up) * 11000, 3, up)'),
    Slip('kg by volume rounded first', BY_VOLUME,
         'divided(divided(f->quantity * f->density, 1000, up) * f->carbon * 1100, 3, up)'),
    Slip('litres taken for kg', BY_VOLUME, BY_MASS),
    Slip('the product by mass in 32 bits', BY_MASS,
         'divided((uint32_t)(f->quantity * f->carbon * 1100), 3, up)'),
    Slip('the product by volume in 32 bits', BY_VOLUME,
         'divided((uint32_t)(f->quantity * f->density * f->carbon * 11), 30, up)'),
    Slip('the first fuel line alone rounded up', 'fuel_milligrams(&fuels[i], true)',
         'fuel_milligrams(&fuels[i], i == 0)'),
    # Limits
    Slip('Q by carbon not limited', 'if (f->quantity > 100000000) return true;',
         'if (f->kind == ENERGY && f->quantity > 100000000) return true;'),
    Slip('W of 10,001 by mass accepted', LIMIT_BY_MASS, 'case MASS: return f->carbon > 10001;'),
    Slip('W of 10,000 by mass refused', LIMIT_BY_MASS, 'case MASS: return f->carbon >= 10000;'),
    Slip('W of 0 by mass refused', LIMIT_BY_MASS,
         'case MASS: return f->carbon < 1 || f->carbon > 10000;'),
    Slip('W of 10,001 by volume accepted', LIMITS_BY_VOLUME,
         'return f->density > 2000 || f->carbon > 10001;'),
    Slip('W of 10,000 by volume refused', LIMITS_BY_VOLUME,
         'return f->density > 2000 || f->carbon >= 10000;'),
    Slip('a density of 2,001 accepted', LIMITS_BY_VOLUME,
         'return f->density > 2001 || f->carbon > 10000;'),
    Slip('a density of 2,000 refused', LIMITS_BY_VOLUME,
         'return f->density >= 2000 || f->carbon > 10000;'),
    Slip('a density of 0 refused', LIMITS_BY_VOLUME,
         'return f->density < 1 || f->density > 2000 || f->carbon > 10000;'),
    Slip('W narrowed to 16 bits', FUEL_END, '    f->carbon = (uint16_t)f->carbon;\n' + FUEL_END),
    Slip('a density narrowed to 16 bits', FUEL_END,
         '    f->density = (uint16_t)f->density;\n' + FUEL_END),
    Slip('W and a density narrowed to 32 bits', FUEL_END,
         '    f->carbon = (uint32_t)f->carbon, f->density = (uint32_t)f->density;\n' + FUEL_END),
    Slip('a fifth fuel line passed over', 'if (count > FUEL_LINES || p.generation > 100000000)',
         'if (count > FUEL_LINES) count = FUEL_LINES;\n    if (p.generation > 100000000)'),
    Slip('a plant that is refused stored', 'if (fuel_refused(&fuels[i])) return 2;',
         'if (fuel_refused(&fuels[i])) { l->plants[number] = p; return 2; }'),
    # Forms
    Slip('density and W exchanged', READ_BY_VOLUME,
         '|| !read_next(t, &f->carbon) || !read_next(t, &f->density)) return false;'),
    Slip('Q and W exchanged', READ_BY_MASS,
         '&f->carbon) || !read_next(t, &f->quantity)) return false;'),
    Slip('by volume read as by mass', 'f->kind = VOLUME;', 'f->kind = MASS;'),
    Slip('by mass read as energy', 'f->kind = MASS;', 'f->kind = ENERGY;'),
    Slip('a third figure by mass passed over', READ_BY_MASS,
         READ_BY_MASS + ' read_next(t, &f->density);'),
    Slip('by volume accepted without W', READ_BY_VOLUME,
         '|| !read_next(t, &f->density)) return false; read_next(t, &f->carbon);'),
    Slip('masses accepted', 'skip(t, "(mass")', '(skip(t, "(masses") || skip(t, "(mass"))'),
    Slip('Volume accepted', 'skip(t, "(volume")', '(skip(t, "(Volume") || skip(t, "(volume"))'),
)


def build(slip: Slip | None, folder: Path) -> Path:
    """The C program, with the slip if one is given."""
    text = SOURCE.read_text()
    if slip is not None:
        if text.count(slip.old) != 1:
            raise ValueError(f'{slip.name}: {slip.old!r} does not stand once in {SOURCE.name}')
        text = text.replace(slip.old, slip.new)
    source, program = folder / 'slip.c', folder / 'slip'
    source.write_text(text)
    subprocess.run(['cc', '-std=c11', '-O1', '-o', program, source], check=True)
    return program
