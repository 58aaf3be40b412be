// The program tally in plain C, as a programmer would write it by hand from document 01 and wishes 1 to 5
// of document 02: no proofs. The speed of tally is measured beside it, and its branches guide the fuzzer. It
// is no third opinion on the rules: its author had read tests/reference/reference.py, so the two may share a
// misreading. Comments in quotation marks are the papers' sentences; a bare number is a refusal.
#include <stdbool.h>
#include <stddef.h>
#include <stdint.h>
#ifndef FIRMWARE // box/plain_panel.c, which has its own input and output and no C library
#include <stdio.h>
#include <string.h>
#endif

typedef uint64_t u64;

enum { INPUT_LIMIT = 65536, LINE_LIMIT = 256, DIGITS = 18 };
enum { OK = 0, NO_FORM = 14 };
enum { SOURCES = 32, PLANTS = 8, SITES = 4, METERS = 4, FUEL_LINES = 4 };

static const u64 WATT_HOURS = 100000000000; // the limit of a reading by its ratio, and of E
static const u64 RATIO = 10000;             // the limit of a ratio, which is at least 1
static const u64 FACTOR = 10000000;         // the limit of F and of a margin, in mg/kWh
static const u64 SIDE_GRAMS = 1000000000000000;

enum side { PROJECT, LEAKAGE, BASELINE, SIDES };
enum supply { COMBINED, GRID_DEFAULT, CAPTIVE, CAPTIVE_DEFAULT, EITHER };
enum loss { NONE, MEASURED, DEFAULT20, DEFAULT3 };
enum fuel_kind { ENERGY, MASS, VOLUME };

struct meter { bool single, minus; u64 ratio, first, last; };
struct source { bool stands; enum side side; enum supply supply; u64 site; enum loss loss; u64 measured, energy; };
// Q, and V and C of an energy line, W of one by mass, the density and W of one by volume.
struct fuel { enum fuel_kind kind; u64 quantity, calorific, content, density, carbon; };
// Heat and fuel in kJ, H and J, and the milligrams of its lines, rounded down and up.
struct plant { bool stands; u64 site, generation, heat, energy, milligrams[2]; };
struct margin { u64 factor, weight; }; // in mg/kWh and in percent
// As entered, by a stated factor or by two margins, and the combined margin rounded down and up.
struct grid { bool stands, hydro, by_margins; u64 stated; struct margin operating, build; u64 combined[2]; };
struct ledger { struct grid grid; struct plant plants[PLANTS]; struct source sources[SOURCES]; };

// ---- The output: an input line has at least one byte and its answer at most "refused 14\n", save for a
// report, whose line has at least 8 bytes and whose answer has fewer than 144.

#ifdef FIRMWARE
static char output[144]; // of one line
#else
static char output[18 * (INPUT_LIMIT + 1)];
#endif
static size_t written;

static void put(const char *text) {
    size_t size = strlen(text);
    memcpy(output + written, text, size);
    written += size;
}

static void put_number(u64 value) {
    char digits[20];
    size_t first = sizeof digits;
    do digits[--first] = (char)('0' + value % 10); while ((value /= 10) != 0);
    memcpy(output + written, digits + first, sizeof digits - first);
    written += sizeof digits - first;
}

static void put_refused(int number) {
    put("refused ");
    put_number((u64)number);
}

// ---- Readings. No product below exceeds 64 bits: the largest are 1.2 × 10^19 of a plant with heat,
// 3 × 10^18 of a fuel line and 1.5 × 10^18 of U × F.

// "Project and leakage sources round up at every step, baseline sources down."
static bool rounds_up(enum side side) { return side != BASELINE; }

static u64 divided(u64 n, u64 d, bool up) { return n / d + (up && n % d != 0); }

// A register's Wh by its ratio: ratio × 8,000 × digits × 2^(exponent - 153), or 3.
static int register_watt_hours(u64 bits, u64 ratio, bool up, u64 *watt_hours) {
    unsigned exponent = bits >> 23 & 0xff;
    u64 digits = bits & 0x7fffff;
    if (exponent == 0) exponent = 1; else digits |= 0x800000;
    if (exponent > 153 || (bits >> 31 && digits != 0)) return 3; // 2^27 kWh and more, infinite, not a number
    u64 product = ratio * 8000 * digits;
    unsigned shift = 153 - exponent < 63 ? 153 - exponent : 63;
    u64 down = product >> shift;
    bool whole = down << shift == product;
    if (down + !whole > WATT_HOURS) return 3;
    *watt_hours = down + (up && !whole);
    return OK;
}

// "A reading's exact value is multiplied by it before rounding, and the limit of 100,000,000,000 Wh is on
// the product": a count is held against the limit's quotient, as its product may exceed 64 bits.
static int reading_watt_hours(const struct meter *m, u64 value, bool up, u64 *watt_hours) {
    if (m->single) return register_watt_hours(value, m->ratio, up, watt_hours);
    if (value > WATT_HOURS / m->ratio) return 3;
    *watt_hours = value * m->ratio;
    return OK;
}

// By exact value: accepted registers have the order of their bits, "negative zero is zero".
static bool runs_back(const struct meter *m) {
    if (!m->single) return m->last < m->first;
    return (m->last & 0x7fffffff) < (m->first & 0x7fffffff);
}

// "A meter gains a ratio from 1 to 10,000".
static bool ratios_fit(const struct meter *meters, u64 count) {
    for (u64 i = 0; i < count; i++)
        if (meters[i].ratio < 1 || meters[i].ratio > RATIO) return false;
    return true;
}

// 3, 4, or E in *energy, below 0 too: "a + meter takes last up and first down, and a - meter takes
// last down and first up; for a baseline source each is the opposite".
static int judge_meters(const struct meter *meters, u64 count, bool up, int64_t *energy) {
    bool back = false;
    *energy = 0;
    for (u64 i = 0; i < count; i++) {
        const struct meter *m = &meters[i];
        bool last_up = up != m->minus;
        u64 first, last;
        if (reading_watt_hours(m, m->last, last_up, &last)) return 3;
        if (reading_watt_hours(m, m->first, !last_up, &first)) return 3;
        back |= runs_back(m);
        *energy += m->minus ? (int64_t)first - (int64_t)last : (int64_t)last - (int64_t)first;
    }
    return back ? 4 : OK;
}

// ---- Entries and drops

static int enter_stated(struct ledger *l, u64 factor, bool hydro) {
    if (factor > FACTOR) return 2;
    l->grid = (struct grid){.stands = true, .hydro = hydro, .stated = factor, .combined = {factor, factor}};
    return OK;
}

// "the factor is their weighted mean": "The grid record keeps the mean rounded both ways".
static struct grid with_mean(struct grid g) {
    u64 sum = g.operating.factor * g.operating.weight + g.build.factor * g.build.weight;
    g.combined[0] = divided(sum, 100, false);
    g.combined[1] = divided(sum, 100, true);
    return g;
}

// "A margin above its limit is refused 2, then weights that don't sum to 100 are refused 15."
static int enter_margins(struct ledger *l, struct grid g) {
    if (g.operating.factor > FACTOR || g.build.factor > FACTOR) return 2;
    if (g.operating.weight + g.build.weight != 100) return 15;
    l->grid = with_mean(g);
    return OK;
}

// "Q keeps its limit, and W above 10,000 or a density above 2,000 is refused 2".
static bool fuel_refused(const struct fuel *f) {
    if (f->quantity > 100000000) return true;
    switch (f->kind) {
    case ENERGY: return f->calorific < 1 || f->calorific > 150000 || f->content > 200000;
    case MASS: return f->carbon > 10000;
    default: return f->density > 2000 || f->carbon > 10000;
    }
}

// "By mass the line is Q × W × 1,100 ÷ 3 mg, by volume Q × density × W × 11 ÷ 30".
static u64 fuel_milligrams(const struct fuel *f, bool up) {
    switch (f->kind) {
    case ENERGY: return divided(f->quantity * f->calorific * f->content, 1000, up);
    case MASS: return divided(f->quantity * f->carbon * 1100, 3, up);
    default: return divided(f->quantity * f->density * f->carbon * 11, 30, up);
    }
}

static bool has_carbon_line(const struct fuel *fuels, u64 count) {
    for (u64 i = 0; i < count; i++)
        if (fuels[i].kind != ENERGY) return true;
    return false;
}

// "Heat above 0 beside a carbon line is refused 16, then heat above J is refused 17, both after 2."
static int enter_plant(struct ledger *l, u64 number, struct plant p, const struct fuel *fuels, u64 count) {
    if (number >= PLANTS || p.site >= SITES) return 1;
    if (count > FUEL_LINES || p.generation > 100000000) return 2;
    for (u64 i = 0; i < count; i++) {
        if (fuel_refused(&fuels[i])) return 2;
        p.energy += fuels[i].quantity * fuels[i].calorific; // 0 of a carbon line
        p.milligrams[0] += fuel_milligrams(&fuels[i], false);
        p.milligrams[1] += fuel_milligrams(&fuels[i], true);
    }
    if (p.heat > 0 && has_carbon_line(fuels, count)) return 16;
    if (p.heat > p.energy) return 17;
    l->plants[number] = p;
    return OK;
}

static bool on_grid(enum supply s) { return s == COMBINED || s == GRID_DEFAULT || s == EITHER; }

static int enter_source(struct ledger *l, u64 number, struct source s, const struct meter *meters, u64 count) {
    if (number >= SOURCES || s.site >= SITES) return 1;
    if (count < 1 || count > METERS || s.measured > 5000 || !ratios_fit(meters, count)) return 2;
    int64_t energy;
    int refused = judge_meters(meters, count, rounds_up(s.side), &energy);
    if (refused != OK) return refused;
    if (on_grid(s.supply) == (s.loss == NONE)) return 5;
    if (energy < 0 || (u64)energy > WATT_HOURS) return 6;
    s.energy = (u64)energy;
    l->sources[number] = s;
    return OK;
}

static int drop(bool *stands) {
    if (!*stands) return 7;
    *stands = false;
    return OK;
}

static int drop_plant(struct ledger *l, u64 number) { return number >= PLANTS ? 1 : drop(&l->plants[number].stands); }

static int drop_source(struct ledger *l, u64 number) { return number >= SOURCES ? 1 : drop(&l->sources[number].stands); }

// ---- The report

struct sums { u64 project, baseline, projects, baselines; }; // of E, and how many; leakage counts with project
struct site { u64 generation, milligrams[2]; };
struct total { u64 grams, sources; };

static void add(struct sums *sums, const struct source *s) {
    if (s->side == BASELINE) {
        sums->baseline += s->energy;
        sums->baselines++;
    } else {
        sums->project += s->energy;
        sums->projects++;
    }
}

// "For baseline the plant's milligrams become (J - H) × A ÷ 1,000, where J is the plant's summed Q × V and A
// its fuel lines' rounded milligrams × 1,000 ÷ J, each rounded down". "H zero or unstated means as before."
static u64 baseline_milligrams(const struct plant *p) {
    if (p->heat == 0) return p->milligrams[0];
    u64 content = p->milligrams[0] * 1000 / p->energy;
    return (p->energy - p->heat) * content / 1000;
}

// *margins has P and B, "over combined or griddefault", *grid P' and B', over either too.
static void add_up(const struct ledger *l, struct sums *margins, struct sums *grid, struct site sites[SITES]) {
    for (int i = 0; i < SOURCES; i++) {
        const struct source *s = &l->sources[i];
        if (!s->stands || !on_grid(s->supply)) continue;
        add(grid, s);
        if (s->supply != EITHER) add(margins, s);
    }
    for (int i = 0; i < PLANTS; i++) {
        const struct plant *p = &l->plants[i];
        if (!p->stands) continue;
        sites[p->site].generation += p->generation;
        sites[p->site].milligrams[0] += baseline_milligrams(p);
        sites[p->site].milligrams[1] += p->milligrams[1];
    }
}

// 9, 10, or the captive factor.
static int captive_factor(const struct site *site, bool up, u64 *factor) {
    if (site->generation < 1000) return 9;
    *factor = divided(site->milligrams[up], site->generation, up);
    return *factor > FACTOR ? 10 : OK;
}

// 11, or the default factor.
static int default_factor(const struct sums *sums, bool hydro, u64 *factor) {
    bool alone = sums->baselines == 0 || sums->project > sums->baseline;
    if (!alone && sums->projects != 0 && sums->baseline <= sums->project) return 11;
    *factor = alone ? 1300000 : hydro ? 250000 : 400000;
    return OK;
}

// 8 to 11, or F.
static int factor_of(const struct ledger *l, const struct source *s, const struct sums *margins,
                     const struct site sites[SITES], u64 *factor) {
    bool up = rounds_up(s->side);
    u64 combined = l->grid.combined[up];
    if (on_grid(s->supply) && !l->grid.stands) return 8;
    if (s->supply == COMBINED) {
        *factor = combined;
        return OK;
    }
    if (s->supply == GRID_DEFAULT) return default_factor(margins, l->grid.hydro, factor);
    if (s->supply == CAPTIVE_DEFAULT) {
        *factor = up ? 1300000 : 400000;
        return OK;
    }
    int refused = captive_factor(&sites[s->site], up, factor);
    if (refused == OK && s->supply == EITHER && (up ? combined > *factor : combined < *factor)) *factor = combined;
    return refused;
}

// 12, or T.
static int loss_of(const struct source *s, const struct sums *grid, u64 *loss) {
    bool up = rounds_up(s->side);
    switch (s->loss) {
    case NONE: *loss = 0; return OK;
    case MEASURED: *loss = s->measured; return OK;
    case DEFAULT20: *loss = 2000; return up || grid->project > grid->baseline ? OK : 12;
    default: *loss = 300; return !up || grid->project < grid->baseline ? OK : 12;
    }
}

static void put_report(const struct total totals[SIDES]) {
    static const char *names[SIDES] = {"project ", "leakage ", "baseline "};
    int64_t reduction = 0;
    for (int side = 0; side < SIDES; side++) {
        u64 tonnes = divided(totals[side].grams, 1000000, rounds_up(side));
        reduction += side == BASELINE ? (int64_t)tonnes : -(int64_t)tonnes;
        put(names[side]);
        put_number(tonnes);
        put(" ");
        put_number(totals[side].grams);
        put(" ");
        put_number(totals[side].sources);
        put("\n");
    }
    put(reduction < 0 ? "reduction -" : "reduction ");
    put_number((u64)(reduction < 0 ? -reduction : reduction));
    put("\n");
}

static void report(const struct ledger *l) {
    struct sums margins = {0}, grid = {0};
    struct site sites[SITES] = {0};
    struct total totals[SIDES] = {0};
    add_up(l, &margins, &grid, sites);
    for (int i = 0; i < SOURCES; i++) {
        const struct source *s = &l->sources[i];
        if (!s->stands) continue;
        u64 factor, loss;
        int refused = factor_of(l, s, &margins, sites, &factor);
        if (refused == OK) refused = loss_of(s, &grid, &loss);
        if (refused != OK) {
            put_refused(refused);
            put(" source ");
            put_number((u64)i);
            put("\n");
            return;
        }
        u64 with_losses = divided(s->energy * (10000 + loss), 10000, rounds_up(s->side));
        totals[s->side].grams += divided(with_losses * factor, 1000000, rounds_up(s->side));
        totals[s->side].sources++;
    }
    for (int side = 0; side < SIDES; side++)
        if (totals[side].grams > SIDE_GRAMS) {
            put("refused 13\n");
            return;
        }
    put_report(totals);
}

// ---- Lines. A reader that fails leaves *at anywhere, save for `skip`, which leaves it where it was.

struct text { const char *at, *end; };

static bool skip(struct text *t, const char *word) {
    size_t size = strlen(word);
    if ((size_t)(t->end - t->at) < size || memcmp(t->at, word, size) != 0) return false;
    t->at += size;
    return true;
}

static bool is_digit(const struct text *t) { return t->at < t->end && *t->at >= '0' && *t->at <= '9'; }

// "a decimal of more than 18 digits or with a zero before its other digits" is no number.
static bool read_number(struct text *t, u64 *value) {
    const char *first = t->at;
    *value = 0;
    while (is_digit(t) && t->at - first <= DIGITS) *value = *value * 10 + (u64)(*t->at++ - '0');
    ptrdiff_t count = t->at - first;
    return count >= 1 && count <= DIGITS && (*first != '0' || count == 1);
}

// The next figure of several.
static bool read_next(struct text *t, u64 *value) { return skip(t, " ") && read_number(t, value); }

// "a register is 8 lower-case hexadecimal digits, highest first"
static bool read_register(struct text *t, u64 *value) {
    if (t->end - t->at < 8) return false;
    *value = 0;
    for (int i = 0; i < 8; i++) {
        char c = *t->at++;
        if (c >= '0' && c <= '9') *value = *value << 4 | (u64)(c - '0');
        else if (c >= 'a' && c <= 'f') *value = *value << 4 | (u64)(c - 'a' + 10);
        else return false;
    }
    return true;
}

static bool read_side(struct text *t, struct source *s) {
    if (skip(t, " project")) s->side = PROJECT;
    else if (skip(t, " leakage")) s->side = LEAKAGE;
    else if (skip(t, " baseline")) s->side = BASELINE;
    else return false;
    return true;
}

static bool read_supply(struct text *t, struct source *s) {
    if (skip(t, " (combined)")) s->supply = COMBINED;
    else if (skip(t, " (griddefault)")) s->supply = GRID_DEFAULT;
    else if (skip(t, " (captivedefault)")) s->supply = CAPTIVE_DEFAULT;
    else {
        if (skip(t, " (captive ")) s->supply = CAPTIVE;
        else if (skip(t, " (either ")) s->supply = EITHER;
        else return false;
        return read_number(t, &s->site) && skip(t, ")");
    }
    return true;
}

static bool read_loss(struct text *t, struct source *s) {
    if (skip(t, " (default20)")) s->loss = DEFAULT20;
    else if (skip(t, " (default3)")) s->loss = DEFAULT3;
    else if (skip(t, " (none)")) s->loss = NONE;
    else {
        s->loss = MEASURED;
        return skip(t, " (loss ") && read_number(t, &s->measured) && skip(t, ")");
    }
    return true;
}

// A ratio is "written before its sign; left out, it is 1".
static bool read_ratio(struct text *t, u64 *ratio) {
    *ratio = 1;
    return !is_digit(t) || (read_number(t, ratio) && skip(t, " "));
}

static bool read_meter(struct text *t, struct meter *m) {
    if (skip(t, "(whole ")) m->single = false;
    else if (skip(t, "(single ")) m->single = true;
    else return false;
    if (!read_ratio(t, &m->ratio)) return false;
    m->minus = skip(t, "- ");
    if (!m->minus && !skip(t, "+ ")) return false;
    bool (*read)(struct text *, u64 *) = m->single ? read_register : read_number;
    return read(t, &m->first) && skip(t, " ") && read(t, &m->last) && skip(t, ")");
}

// "The forms are (fuel Q V C), (mass Q W) and (volume Q density W)".
static bool read_fuel(struct text *t, struct fuel *f) {
    *f = (struct fuel){0};
    if (skip(t, "(fuel")) {
        f->kind = ENERGY;
        if (!read_next(t, &f->quantity) || !read_next(t, &f->calorific) || !read_next(t, &f->content)) return false;
    } else if (skip(t, "(mass")) {
        f->kind = MASS;
        if (!read_next(t, &f->quantity) || !read_next(t, &f->carbon)) return false;
    } else if (skip(t, "(volume")) {
        f->kind = VOLUME;
        if (!read_next(t, &f->quantity) || !read_next(t, &f->density) || !read_next(t, &f->carbon)) return false;
    } else {
        return false;
    }
    return skip(t, ")");
}

// The last bracket of a form, with nothing after it.
static bool ends(struct text *t) { return skip(t, ")") && t->at == t->end; }

// The mark and the end of a grid's form.
static bool read_mark(struct text *t, bool *hydro) {
    *hydro = skip(t, " hydro");
    return (*hydro || skip(t, " thermal")) && ends(t);
}

// "the two margins, then their weights"
static int margins_line(struct ledger *l, struct text *t) {
    struct grid g = {.stands = true, .by_margins = true};
    if (!read_number(t, &g.operating.factor) || !read_next(t, &g.build.factor)) return NO_FORM;
    if (!read_next(t, &g.operating.weight) || !read_next(t, &g.build.weight)) return NO_FORM;
    return read_mark(t, &g.hydro) ? enter_margins(l, g) : NO_FORM;
}

static int grid_line(struct ledger *l, struct text *t) {
    u64 factor;
    bool hydro;
    if (skip(t, "margins ")) return margins_line(l, t);
    return read_number(t, &factor) && read_mark(t, &hydro) ? enter_stated(l, factor, hydro) : NO_FORM;
}

// "as (heat H) after G"
static bool read_heat(struct text *t, u64 *heat) {
    *heat = 0;
    return !skip(t, " (heat ") || (read_number(t, heat) && skip(t, ")"));
}

static int plant_line(struct ledger *l, struct text *t) {
    struct plant p = {.stands = true};
    struct fuel fuels[FUEL_LINES];
    u64 number, count = 0;
    if (!read_number(t, &number) || !read_next(t, &p.site) || !read_next(t, &p.generation)) return NO_FORM;
    if (!read_heat(t, &p.heat)) return NO_FORM;
    for (; skip(t, " "); count++) {
        struct fuel f;
        if (!read_fuel(t, &f)) return NO_FORM;
        if (count < FUEL_LINES) fuels[count] = f;
    }
    return ends(t) ? enter_plant(l, number, p, fuels, count) : NO_FORM;
}

static int source_line(struct ledger *l, struct text *t) {
    struct source s = {.stands = true};
    struct meter meters[METERS];
    u64 number, count = 0;
    if (!read_number(t, &number) || !read_side(t, &s) || !read_supply(t, &s) || !read_loss(t, &s)) return NO_FORM;
    for (; skip(t, " "); count++) {
        struct meter m;
        if (!read_meter(t, &m)) return NO_FORM;
        if (count < METERS) meters[count] = m;
    }
    return ends(t) ? enter_source(l, number, s, meters, count) : NO_FORM;
}

static int drop_line(struct ledger *l, struct text *t) {
    u64 number;
    bool source = skip(t, "source ");
    if (!source && !skip(t, "plant ")) return NO_FORM;
    if (!read_number(t, &number) || !ends(t)) return NO_FORM;
    return source ? drop_source(l, number) : drop_plant(l, number);
}

static int entry_line(struct ledger *l, struct text *t) {
    if (t->end - t->at > LINE_LIMIT) return NO_FORM;
    if (skip(t, "(source ")) return source_line(l, t);
    if (skip(t, "(plant ")) return plant_line(l, t);
    if (skip(t, "(grid ")) return grid_line(l, t);
    if (skip(t, "(drop ")) return drop_line(l, t);
    return NO_FORM;
}

static void answer(struct ledger *l, struct text line) {
    if (line.end - line.at == 8 && memcmp(line.at, "(report)", 8) == 0) {
        report(l);
        return;
    }
    int refused = entry_line(l, &line);
    if (refused == OK) put("ok"); else put_refused(refused);
    put("\n");
}

#ifndef FIRMWARE
// "lines ended by LF (the last may lack it)"
static void answer_lines(const char *input, size_t size) {
    static struct ledger ledger;
    const char *end = input + size;
    for (const char *at = input; at < end;) {
        const char *stop = memchr(at, '\n', (size_t)(end - at));
        if (stop == NULL) stop = end;
        answer(&ledger, (struct text){at, stop});
        at = stop + 1;
    }
}

// Reads all of standard input, or as much as shows that it is too long, and answers into `output`.
static void tally(void) {
    static char input[INPUT_LIMIT + 1];
    size_t size = fread(input, 1, sizeof input, stdin);
    if (size > INPUT_LIMIT) put("refused 14\n"); else answer_lines(input, size);
}

int main(void) {
    tally();
    return fwrite(output, 1, written, stdout) == written ? 0 : 1;
}
#endif
