"""In words, why a line was refused: which part, which limit, what to do.

tally answers by a number alone. Here every part is looked at and not only the first that is wrong,
so that a line is mended once. `why` raises NoWords unless the least number found is the one that
was answered: words for another refusal are never shown.
"""

import re
from collections.abc import Callable
from fractions import Fraction

from explanation.decimals import counted, shown
from explanation.figures import FIGURES
from explanation.forms import form_findings
from explanation.lines import Finding
from explanation.rows import reading_words
from tests.reference import reference
from tests.reference.reference import (
    GRID_SUPPLIES, EnergyLine, FuelLine, Ledger, Loss, Meter, Plant, Refused, Source, Supply,
    VolumeLine)

# What became of the entry under a kind and a number, as '(dropped on line 12)', or ''.
Told = Callable[[str, int | None], str]


class NoWords(Exception):
    """A refusal for which nothing was found, or something of another number."""


def why(ledger: Ledger, line: bytes, answer: int | Refused, told: Told) -> list[Finding]:
    """By rising number. `ledger` is as the line found it."""
    if isinstance(answer, Refused):
        number, findings = answer.number, report_findings(ledger, answer, told)
    else:
        number, findings = answer, line_findings(ledger, line, told)
    if not findings or min(finding.number for finding in findings) != number:
        raise NoWords(f'refused {number}, and no words for it')
    return sorted(findings, key=lambda finding: finding.number)


def line_findings(ledger: Ledger, line: bytes, told: Told) -> list[Finding]:
    if len(line) > reference.LINE_LIMIT:
        return form_findings(line)
    for pattern, find in ((reference.GRID_FORM, grid_findings),
                          (reference.MARGINS_FORM, margins_findings),
                          (reference.PLANT_FORM, plant_findings),
                          (reference.SOURCE_FORM, source_findings)):
        parts = pattern.fullmatch(line)
        if parts:
            return find(parts)
    parts = reference.DROP_FORM.fullmatch(line)
    if parts:
        return drop_findings(ledger, parts[1].decode(), int(parts[2]), told)
    return form_findings(line)


# 1. Limits


def above(key: str, value: int, limit: int, place: str = '') -> list[Finding]:
    """2 where a figure is above its limit."""
    if value <= limit:
        return []
    named = FIGURES[key]
    hint = f'look at the unit, {named.unit}' if named.unit else ''
    return [Finding(2, f'{place}{named.name} is {shown(value)}, above its limit of {shown(limit)}',
                    f'{hint}: {named.hint}' if hint and named.hint else hint)]


def beyond(kind: str, number: int, last: int) -> list[Finding]:
    """1 where there is no such number."""
    if number <= last:
        return []
    return [Finding(1, f'there is no {kind} {shown(number)}', f'{kind}s are numbered 0 to {last}')]


# 2. The grid


def grid_findings(parts: re.Match) -> list[Finding]:
    return above('F', int(parts[1]), reference.FACTOR_LIMIT)


def margins_findings(parts: re.Match) -> list[Finding]:
    O, B, X, Y = (int(part) for part in parts.groups()[:4])
    findings = [*above('O', O, reference.FACTOR_LIMIT), *above('B', B, reference.FACTOR_LIMIT)]
    if X + Y != reference.WEIGHT_SUM:
        findings.append(Finding(
            15, f'the weights are {shown(X)} and {shown(Y)}, together {shown(X + Y)} percent and '
            f'not {reference.WEIGHT_SUM}', 'first the two margins, then their two weights'))
    return findings


# 3. Plants


def plant_findings(parts: re.Match) -> list[Finding]:
    number, plant = int(parts[1]), reference.read_plant(parts)
    findings = [*beyond('plant', number, reference.LAST_PLANT),
                *beyond('site', plant.site, reference.LAST_SITE)]
    if len(plant.fuel_lines) > reference.FUEL_LINE_LIMIT:
        findings.append(Finding(
            2, f'{len(plant.fuel_lines)} fuels; a plant has at most {reference.FUEL_LINE_LIMIT}',
            'enter the others as a second plant of the same site, with G 0; heat is divided as '
            'the energy of the fuels is'))
    findings += above('G', plant.generation, reference.GENERATION_LIMIT)
    for at, line in enumerate(plant.fuel_lines, 1):
        findings += fuel_findings(f'fuel {at}, ', line)
    return findings + heat_findings(plant)


def fuel_findings(place: str, line: FuelLine) -> list[Finding]:
    findings = above('Q', line.quantity, reference.QUANTITY_LIMIT, place)
    if not isinstance(line, EnergyLine):
        findings += above('W', line.carbon, reference.CARBON_LIMIT, place)
        if isinstance(line, VolumeLine):
            findings += above('density', line.density, reference.DENSITY_LIMIT, place)
        return findings
    V, least = line.net_calorific_value, reference.LEAST_NET_CALORIFIC_VALUE
    if V < least:
        named = FIGURES['V']
        findings.append(Finding(2, f'{place}{named.name} is {V}; it is at least {least}',
                                f'write it in {named.unit}: {named.hint}'))
    return (findings + above('V', V, reference.NET_CALORIFIC_VALUE_LIMIT, place)
            + above('C', line.emission_factor, reference.EMISSION_FACTOR_LIMIT, place))


def heat_findings(plant: Plant) -> list[Finding]:
    if plant.gives_heat and any(not isinstance(line, EnergyLine) for line in plant.fuel_lines):
        return [Finding(16, 'heat beside a fuel by carbon, whose energy is not stated',
                        'enter that fuel as (fuel Q V C); or leave the heat out, where the plant '
                        'serves no baseline')]
    if plant.heat > plant.fuel_energy:
        return [Finding(17, f'the heat H is {shown(plant.heat)} kJ, more than the energy of the '
                        f'fuel, Q × V: {shown(plant.fuel_energy)} kJ',
                        f'look at the unit, kJ: {FIGURES["H"].hint}; look at Q and V')]
    return []


# 4. Sources


def source_findings(parts: re.Match) -> list[Finding]:
    number, source = int(parts[1]), reference.read_source(parts)
    supply, loss, meters = source.supply, source.loss, source.meters
    findings = beyond('source', number, reference.LAST_SOURCE)
    if supply.site is not None:
        findings += beyond('site', supply.site, reference.LAST_SITE)
    findings += count_findings(len(meters))
    if loss.name == 'loss':
        findings += above('T', loss.measured, reference.MEASURED_LOSS_LIMIT)
    unreadable = [finding for at, meter in enumerate(meters, 1)
                  for finding in meter_findings(at, meter)]
    findings += unreadable
    if (loss.name == 'none') == (supply.name in GRID_SUPPLIES):
        findings.append(loss_finding(supply, loss))
    return findings if unreadable else findings + energy_findings(source)


def count_findings(meters: int) -> list[Finding]:
    if 1 <= meters <= reference.METER_LIMIT:
        return []
    return [Finding(2, f'{counted(meters, "meter") if meters else "no meter"}; a source has 1 to '
                    f'{reference.METER_LIMIT}',
                    'enter the others, + meters, as a second source of the same side, supply and '
                    'loss' if meters else 'write its meters last, as (whole + first last)')]


def energy_findings(source: Source) -> list[Finding]:
    E = source.energy
    if E > reference.ENERGY_LIMIT_WH:
        return [Finding(6, f'the energy E comes to {shown(E)} Wh, above its limit of '
                        f'{shown(reference.ENERGY_LIMIT_WH)}',
                        'look at the units and ratios; enter a greater energy as two sources')]
    if E >= 0:
        return []
    if reference.exact_energy(source.meters) >= 0:
        do = ('the meters moved by nothing, or by less than was rounded off: leave the source '
              'out, or drop it')
    elif source.side == 'leakage':
        do = ('look at the signs: + adds, - takes off; leave out a leakage source whose '
              'consumption went down')
    else:
        do = 'look at the signs: + adds, - takes off'
    return [Finding(6, f'the energy E comes to {shown(E)} Wh, below 0', do)]


def loss_finding(supply: Supply, loss: Loss) -> Finding:
    entered = supply.name if supply.site is None else f'{supply.name} {supply.site}'
    if supply.name in GRID_SUPPLIES:
        return Finding(5, f'({entered}) is grid electricity, which needs a loss, and the line has '
                       '(none)', 'write (loss T), (default20) or (default3); (loss 0) where the '
                       'measured loss is 0')
    typed = loss.name if loss.measured is None else f'loss {loss.measured}'
    return Finding(5, f'({entered}) is electricity of captive plants, which carries no loss, and '
                   f'the line has ({typed})', f'write (none) in place of ({typed})')


def meter_findings(number: int, meter: Meter) -> list[Finding]:
    if reference.ratio_refused(meter.ratio):
        return [Finding(2, f'meter {number}, the ratio is {shown(meter.ratio)}; it is 1 to '
                        f'{shown(reference.RATIO_LIMIT)}',
                        f'{FIGURES["ratio"].hint}; leave it out where there is no transformer')]
    findings = [finding for key, value in (('first', meter.first), ('last', meter.last))
                for finding in reading_findings(f'meter {number}, {FIGURES[key].name}', meter,
                                                value)]
    if not findings and meter.exact_last < meter.exact_first:
        findings.append(Finding(
            4, f'meter {number}, the last reading, {reading_words(meter, meter.last)}, is below '
            f'the first, {reading_words(meter, meter.first)}',
            'look whether the two, or two digits, changed places; enter a meter that was '
            'exchanged, or began again at 0, as two: until then, and from then on'))
    return findings


def reading_findings(name: str, meter: Meter, value: int) -> list[Finding]:
    if not reference.reading_refused(meter.kind, value, meter.ratio):
        return []
    ratio = '' if meter.ratio == 1 else f' × ratio {shown(meter.ratio)}'
    limit = f'above {shown(reference.READING_LIMIT_WH)} Wh'
    if meter.kind == 'whole':
        twice = ', and whether the reading is multiplied by the ratio already' if ratio else ''
        return [Finding(3, f'{name}: {reading_words(meter, value)}{ratio} is {limit}',
                        f'look at the unit, Wh{twice}')]
    read = reference.watt_hours_read('single', value)
    what = (f'{value:08x} is infinite or not a number' if read is None
            else f'{reading_words(meter, value)}, is below zero' if read < 0
            else f'{reading_words(meter, value)}{ratio}, is {limit}')
    return [Finding(3, f'{name}: {what}', order_hint(meter, value))]


def order_hint(meter: Meter, value: int) -> str:
    """A register that can be, by the digits of one that cannot: a meter may send them so."""
    for words, other in (
            ('with its two halves exchanged', value >> 16 | (value & 0xFFFF) << 16),
            ('with its bytes in the other order',
             int.from_bytes(value.to_bytes(4, 'big'), 'little'))):
        exact = reference.register_value(other)
        if (exact is not None and exact >= Fraction(1, 1000)
                and not reference.reading_refused('single', other, meter.ratio)):
            return (f'{words} it would be {reading_words(meter, other)}: look at the order in '
                    'which the meter gives its digits')
    return 'look at the order of its digits; else have the meter seen to'


# 5. Drops


def drop_findings(ledger: Ledger, kind: str, number: int, told: Told) -> list[Finding]:
    last, standing = ((reference.LAST_SOURCE, ledger.sources) if kind == 'source'
                      else (reference.LAST_PLANT, ledger.plants))
    if number > last:
        return beyond(kind, number, last)
    if number in standing:
        return []
    others = ', '.join(map(str, sorted(standing))) or 'none'
    return [Finding(7, f'there is no {kind} {number} to drop{told(kind, number)}',
                    f'{kind}s that are entered: {others}')]


# 6. Reports


def source_name(number: int, source: Source) -> str:
    supply = ' '.join(str(part) for part in source.supply if part is not None)
    return f'source {number} ({source.side}, {supply})'


def report_findings(ledger: Ledger, answer: Refused, told: Told) -> list[Finding]:
    """Of the source that a report was refused for; of none without a source."""
    source = ledger.sources.get(answer.source)
    if source is None or answer.number not in AT_A_REPORT:
        return []
    what, do = AT_A_REPORT[answer.number](ledger, answer.source, source, told)
    return [Finding(answer.number, f'{source_name(answer.source, source)} {what}', do)]


def no_grid(ledger: Ledger, number: int, source: Source, told: Told) -> tuple[str, str]:
    return (f'uses grid electricity, and no grid is entered{told("grid", None)}',
            'enter the grid: (grid F thermal) or (grid F hydro)')


def little_generation(ledger: Ledger, number: int, source: Source, told: Told) -> tuple[str, str]:
    site = source.supply.site
    plants = reference.plants_at(ledger, site)
    have = (f'its {counted(len(plants), "plant")} generated '
            f'{shown(reference.generation_at(ledger, site))} kWh' if plants
            else 'no plant is entered there')
    elsewhere = sorted({plant.site for plant in ledger.plants.values()} - {site})
    hint = (f'; plants are entered at site {", ".join(map(str, elsewhere))}'
            if elsewhere and not plants else '')
    return (f'needs {shown(reference.LEAST_GENERATION)} kWh or more generated at site {site}, and '
            f'{have}{hint}', 'enter the plants of the site; look at their sites, and at G in kWh')


def factor_too_large(ledger: Ledger, number: int, source: Source, told: Told) -> tuple[str, str]:
    site = source.supply.site
    F = reference.captive_factor(ledger, site, reference.rounds_up(source.side))
    return (f'would have the factor of site {site}, {shown(F)} mg/kWh, above '
            f'{shown(reference.FACTOR_LIMIT)}; {shown(reference.generation_at(ledger, site))} kWh '
            'were generated there', "look at the units of the site's fuels, and at G in kWh")


def no_default_factor(ledger: Ledger, number: int, source: Source, told: Told) -> tuple[str, str]:
    sums = reference.totals_over(ledger, reference.DEFAULT_SUPPLIES)
    return (f'has no default factor: project and leakage use as much grid electricity as the '
            f'baseline, P = B = {shown(sums.project)} Wh', f'enter source {number} with (combined)')


def no_default_loss(ledger: Ledger, number: int, source: Source, told: Told) -> tuple[str, str]:
    sums = reference.totals_over(ledger, GRID_SUPPLIES)
    other, more = (('default3', 'project and leakage use') if source.loss.name == 'default20'
                   else ('default20', 'the baseline uses'))
    return (f'has ({source.loss.name}), which is open to it only where {more} more grid '
            f"electricity: P' = {shown(sums.project)} Wh, B' = {shown(sums.baseline)} Wh",
            f'enter source {number} with ({other}) or a measured loss, (loss T)')


AT_A_REPORT = {8: no_grid, 9: little_generation, 10: factor_too_large, 11: no_default_factor,
               12: no_default_loss}
