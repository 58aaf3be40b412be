"""A report followed from meter to tonnes: each figure beside its exact value.

Stands on the reference for the rules and the exact values, and on steps.py for the limits; no rule
is written here again. Every row is checked: `follow` raises Unsafe where a figure leans to the
unsafe side, or by its limit or more, or where what is shown as a sum is none.
"""

from fractions import Fraction
from typing import NamedTuple

from explanation import steps
from explanation.decimals import MILLION, shown
from tests.reference import reference
from tests.reference.reference import (
    SIDES, EnergyLine, Figure, FuelLine, Ledger, Margins, MassLine, Meter, Plant, Report, Source,
    excess, rounds_up)


class Row(NamedTuple):
    step: str  # of STEPS or STEPS_WITH_HEAT
    name: str
    how: str  # what it is worked out from
    exact: Fraction
    value: Fraction | int
    lean: Fraction  # to the safe side; below 0 is unsafe
    limit: Fraction
    unit: str

    @property
    def stands(self) -> bool:
        return steps.LEAST_LEAN <= self.lean < self.limit


class SitePart(NamedTuple):
    """A site that a source names, in the source's direction."""

    site: int
    up: bool
    rows: list[Row]  # of its plants, then its factor


class SourcePart(NamedTuple):
    number: int
    source: Source
    figure: Figure
    K: Fraction | None  # of a baseline source that names a site with heat
    rows: list[Row]  # readings, E, U, F, grams

    @property
    def grams(self) -> Row:
        return self.rows[-1]


class SidePart(NamedTuple):
    side: str
    sources: list[SourcePart]
    summed: Row  # the grams of its sources added up, in tonnes
    printed: Row

    @property
    def up(self) -> bool:
        return rounds_up(self.side)

    @property
    def tonnes_first(self) -> int:
        """What tonnes rounded source by source would give: a slip, and said to be one."""
        return sum(reference.side_tonnes(part.figure.grams, self.up) for part in self.sources)


class Followed(NamedTuple):
    ledger: Ledger  # as it was at the report
    given: Report
    sites: list[SitePart]
    sources: dict[int, SourcePart]
    sides: dict[str, SidePart]
    reduction: Row

    @property
    def summed_reduction(self) -> Fraction:
        """From the sums of the sources, before their rounding to tonnes."""
        sums = {side: part.summed.value for side, part in self.sides.items()}
        return sums['baseline'] - sums['project'] - sums['leakage']


class Unsafe(Exception):
    """A figure that may not be shown."""

    def __init__(self, step: str, name: str, why: str):
        super().__init__(f'{name}: {why}')
        self.step, self.name = step, name


def checked(place: str, row: Row) -> Row:
    if not row.stands:
        raise Unsafe(row.step, f'{place}, {row.name}',
                     f'{shown(row.value)} {row.unit} leans {shown(row.lean)} {row.unit}, which is '
                     f'not from {shown(steps.LEAST_LEAN)} to less than {shown(row.limit)}')
    return row


def agree(step: str, name: str, figure: Fraction | int, expected: Fraction | int):
    if figure != expected:
        raise Unsafe(step, name, f'{shown(figure)} is not {shown(expected)}')


def rounding(up: bool) -> str:
    return f'rounded {"up" if up else "down"}'


# 1. Readings


def reading_words(meter: Meter, value: int) -> str:
    """A reading as it was entered."""
    if meter.kind == 'single':
        return f'{value:08x}, {shown(reference.register_value(value))} kWh'
    return f'{shown(value)} Wh'


def reading_rows(source: Source, number: int, meter: Meter) -> list[Row]:
    """What adds leans as the source does, what is taken the other way."""
    up = rounds_up(source.side)
    first, last = reference.meter_readings(up, meter)
    ratio = '' if meter.ratio == 1 else f', × {shown(meter.ratio)}'
    rows = []
    for name, entered, exact, value, adds in (
            ('last', meter.last, meter.exact_last, last, meter.sign == '+'),
            ('first', meter.first, meter.exact_first, first, meter.sign == '-')):
        lean = excess(source.side, value, exact)
        way = '' if value == exact else f', {rounding(up == adds)}'
        rows.append(Row('reading', f'meter {number} ({meter.sign}), {name}',
                        f'{reading_words(meter, entered)}{ratio}{way}', exact, value,
                        lean if adds else -lean, steps.READING_WH, 'Wh'))
    return rows


def energy_words(source: Source) -> str:
    """As 900 − 100 − (30 − 20): the rounded readings that E is the sum of."""
    words = ''
    for meter in source.meters:
        first, last = reference.meter_readings(rounds_up(source.side), meter)
        moved = f'{shown(last)} − {shown(first)}'
        if meter.sign == '-':
            words += f' − ({moved})'
        else:
            words += f' + {moved}' if words else moved
    return words.strip()


# 2. Sites


def fuel_words(line: FuelLine) -> str:
    quantity = shown(line.quantity)
    if isinstance(line, EnergyLine):
        return (f'{quantity} × {shown(line.net_calorific_value)} kJ × '
                f'{shown(line.emission_factor)} mg/MJ ÷ {steps.THOUSAND:,}')
    mass = (f'{quantity} kg' if isinstance(line, MassLine)
            else f'{quantity} litres × {shown(line.density)} g')
    co2 = reference.CO2_OF_CARBON
    return (f'{mass} × {shown(line.carbon)} ten-thousandths of carbon × '
            f'{co2.numerator} ÷ {co2.denominator}')


def line_rows(number: int, plant: Plant, up: bool) -> list[Row]:
    rows = []
    for at, line in enumerate(plant.fuel_lines, 1):
        exact = reference.exact_fuel_milligrams(line)
        value = reference.fuel_milligrams(line, up)
        rows.append(Row('line', f'plant {number}, fuel line {at}',
                        f'{fuel_words(line)}, {rounding(up)}', exact, value,
                        value - exact if up else exact - value, steps.LINE_MG, 'mg'))
    return rows


def plant_rows(number: int, plant: Plant, up: bool) -> list[Row]:
    """Its fuel lines, and for a baseline what counts of them where it gives heat."""
    rows = line_rows(number, plant, up)
    if up or not plant.gives_heat:
        return rows
    J, H, lines = plant.fuel_energy, plant.heat, sum(row.value for row in rows)
    A = reference.rounded(Fraction(lines * steps.THOUSAND, J), up)
    exact = reference.exact_plant_milligrams(plant, up)
    value = reference.plant_milligrams(plant, up)
    how = (f'A = {shown(lines)} mg × {steps.THOUSAND:,} ÷ J, {shown(J)} kJ, {rounding(up)}: '
           f'{shown(A)}; (J − H, {shown(H)} kJ) × A ÷ {steps.THOUSAND:,}, {rounding(up)}')
    return [*rows, Row('plant', f'plant {number} without its heat', how, exact, value,
                       exact - value, steps.plant_limit(J), 'mg')]


def site_part(ledger: Ledger, site: int, up: bool) -> SitePart:
    rows, milligrams, exact = [], 0, Fraction(0)
    for number, plant in sorted(ledger.plants.items()):
        if plant.site == site:
            rows += plant_rows(number, plant, up)
            milligrams += reference.plant_milligrams(plant, up)
            exact += reference.exact_plant_milligrams(plant, up)
    generation = reference.generation_at(ledger, site)
    value, exact = reference.captive_factor(ledger, site, up), exact / generation
    K = None if up else reference.site_heat(ledger, site)
    rows.append(Row('factor', f'factor of site {site}',
                    f'{shown(milligrams)} mg ÷ {shown(generation)} kWh, {rounding(up)}', exact,
                    value, value - exact if up else exact - value, steps.factor_limit(K),
                    'mg/kWh'))
    return SitePart(site, up, [checked(f'site {site}, {rounding(up)}', row) for row in rows])


def site_parts(ledger: Ledger) -> list[SitePart]:
    named = {(source.supply.site, rounds_up(source.side)) for source in ledger.sources.values()
             if source.supply.site is not None}
    return [site_part(ledger, site, up)
            for site, up in sorted(named, key=lambda each: (each[0], not each[1]))]


# 3. Sources


def factor_words(ledger: Ledger, source: Source, option: str) -> str:
    if option != 'combined':
        return {'captive': f'the plants of site {source.supply.site}',
                'griddefault': 'the default for the grid',
                'captivedefault': 'the default for captive plants'}[option]
    entered = ledger.grid.entered
    if not isinstance(entered, Margins):
        return 'the combined margin as entered'
    O, B, X, Y = map(shown, entered)
    return (f'({O} × {X} + {B} × {Y}) ÷ {reference.WEIGHT_SUM}, '
            f'{rounding(rounds_up(source.side))}')


def source_part(ledger: Ledger, given: Report, number: int) -> SourcePart:
    source, figure = ledger.sources[number], given.figures[number]
    E, T, U, option, F, grams = figure
    K = reference.source_heat(ledger, source)
    way = rounding(rounds_up(source.side))
    energy = reference.exact_energy(source.meters)
    with_losses = energy * Fraction(steps.LOSS_UNITS + T, steps.LOSS_UNITS)

    def row(step: str, name: str, how: str, exact: Fraction, value: int, limit: Fraction,
            unit: str) -> Row:
        return Row(step, name, how, exact, value, excess(source.side, value, exact), limit, unit)
    rows = [
        *(each for at, meter in enumerate(source.meters, 1)
          for each in reading_rows(source, at, meter)),
        row('energy', 'E', energy_words(source), energy, E, steps.ENERGY_WH, 'Wh'),
        row('losses', f'U, with T = {shown(T)}',
            f'E × {shown(steps.LOSS_UNITS + T)} ÷ {steps.LOSS_UNITS:,}, {way}', with_losses, U,
            steps.LOSSES_WH, 'Wh'),
        row('factor', f'F, {option}', factor_words(ledger, source, option),
            reference.exact_factor(ledger, source, figure), F, steps.factor_limit(K), 'mg/kWh'),
        row('grams', 'grams', f'U × F ÷ {MILLION:,}, {way}',
            reference.exact_figure(ledger, source, figure), grams, steps.grams_limit(F, U, K),
            'g')]
    part = SourcePart(number, source, figure, K,
                      [checked(f'source {number}', each) for each in rows])
    if K is None:
        checked(f'source {number}', by_weight(part))
    return part


def by_weight(part: SourcePart) -> Row:
    return part.grams._replace(step='weight', limit=steps.weight_limit())


# 4. Sides and reduction


def side_part(ledger: Ledger, given: Report, side: str, sources: list[SourcePart]) -> SidePart:
    exact, tonnes = reference.exact_side(ledger, given, side), given.sides[side].tonnes
    summed = Fraction(sum(part.figure.grams for part in sources), MILLION)
    allowances = sum((steps.allowance(part.grams.limit, part.K) for part in sources), Fraction(0))
    limit = sum((part.grams.limit for part in sources), Fraction(0)) / MILLION
    added = ' + '.join(shown(part.figure.grams) for part in sources)
    part = SidePart(side, sources,
                    Row('tonnes', 'sum of its sources', f'{added} g', exact, summed,
                        excess(side, summed, exact), limit, 't'),
                    Row('tonnes', side, f'the sum of its sources, {rounding(rounds_up(side))}',
                        exact, tonnes, excess(side, tonnes, exact), steps.SIDE_T + allowances,
                        't'))
    if sources:
        checked(side, part.summed)
    checked('sides', part.printed)
    beyond = part.printed.lean - part.summed.lean
    checked(f'{side}, beyond its sum', part.printed._replace(lean=beyond, limit=steps.SIDE_T))
    return part


def reduction_row(ledger: Ledger, given: Report, sources: list[SourcePart]) -> Row:
    exact = reference.exact_reduction(ledger, given)
    allowances = sum((steps.allowance(part.grams.limit, part.K) for part in sources), Fraction(0))
    tonnes = {side: shown(given.sides[side].tonnes) for side in SIDES}
    return checked('sides', Row(
        'reduction', 'reduction',
        f'{tonnes["baseline"]} − {tonnes["project"]} − {tonnes["leakage"]}', exact,
        given.reduction, exact - given.reduction, steps.REDUCTION_T + allowances, 't'))


# 5. The report


def standing(ledger: Ledger) -> Ledger:
    """A copy, which later lines do not change."""
    copy = Ledger()
    copy.grid = ledger.grid
    copy.plants, copy.sources = dict(ledger.plants), dict(ledger.sources)
    return copy


def follow(ledger: Ledger, given: Report) -> Followed:
    """Raises Unsafe where a figure may not be shown."""
    ledger = standing(ledger)
    sites = site_parts(ledger)
    sources = {number: source_part(ledger, given, number) for number in sorted(ledger.sources)}
    sides = {side: side_part(ledger, given, side, [part for part in sources.values()
                                                   if part.source.side == side])
             for side in SIDES}
    followed = Followed(ledger, given, sites, sources, sides,
                        reduction_row(ledger, given, list(sources.values())))
    check_sums(followed)
    check_limits(followed)
    return followed


def check_sums(followed: Followed):
    """What is shown as a sum, a count or a difference is one."""
    for number, part in followed.sources.items():
        adds, takes = reference.meter_sums(rounds_up(part.source.side), part.source.meters)
        agree('energy', f'source {number}, E', part.figure.energy, adds - takes)
    for side, part in followed.sides.items():
        printed = followed.given.sides[side]
        agree('tonnes', f'{side}, grams', printed.grams,
              sum(each.figure.grams for each in part.sources))
        agree('tonnes', f'{side}, number of sources', printed.sources, len(part.sources))
    tonnes = {side: part.printed.value for side, part in followed.sides.items()}
    agree('reduction', 'reduction', followed.given.reduction,
          tonnes['baseline'] - tonnes['project'] - tonnes['leakage'])


def check_limits(followed: Followed):
    """The leans and limits of grams, tonnes and reduction are those of demand 3."""
    rows = {'reduction, t': followed.reduction}
    rows |= {f'{side}, t': part.printed for side, part in followed.sides.items()}
    for number, part in followed.sources.items():
        if part.K is None:
            rows[f'gap {number} by F and U, g'] = part.grams
            rows[f'gap {number} by weight, g'] = by_weight(part)
        else:
            rows[f'gap {number} by F, U and K, g'] = part.grams
    for what, off, limit in reference.demand_3(followed.ledger, followed.given):
        row = rows.pop(what)
        agree(row.step, f'{what}, how far it is off', row.lean, off)
        agree(row.step, f'{what}, its limit', row.limit, limit)
    agree('grams', 'rows that demand 3 does not state', len(rows), 0)
