"""A second implementation of document 01 with wishes 1 to 5 of document 02, to compare
the programs tally and panel with.

Written from these papers alone, with an exact fraction wherever they have an
exact value. Comments in quotation marks are the papers' sentences; a bare
number in a comment is the refusal that the line decides.
"""

import functools
import math
import re
import sys
from fractions import Fraction
from typing import NamedTuple

# An accepted entry or drop. A refused one answers its number.
OK = None

SIDES = ('project', 'leakage', 'baseline')


class Refused(NamedTuple):
    """A refusal, where a bare number could be taken for a result."""

    number: int
    source: int | None = None


# 1. Rounding


def rounded(value: Fraction, up: bool) -> int:
    """Up: the least whole number not below; down: the greatest not above."""
    return math.ceil(value) if up else math.floor(value)


def rounds_up(side: str) -> bool:
    # "Project and leakage sources round up at every step, baseline sources down."
    return side != 'baseline'


# 2. Readings

# "the limit of 100,000,000,000 Wh is on the product" of a reading and its meter's ratio.
READING_LIMIT_WH = 100_000_000_000
RATIO_LIMIT = 10_000


def register_value(register: int) -> Fraction | None:
    """A binary32 register by its fields; None if infinite or not a number."""
    sign = -1 if register >> 31 else 1
    exponent = (register >> 23) & 0xFF
    fraction = register & 0x7FFFFF
    if exponent == 0xFF:
        return None
    if exponent == 0:  # zero and the subnormals: no hidden bit
        return sign * fraction * Fraction(2) ** -149
    return sign * (0x800000 + fraction) * Fraction(2) ** (exponent - 150)


@functools.cache
def watt_hours_read(kind: str, value: int) -> Fraction | None:
    """What a whole reading counts, "1,000 times the register" of a single."""
    if kind == 'whole':
        return Fraction(value)
    kilowatt_hours = register_value(value)
    return None if kilowatt_hours is None else 1000 * kilowatt_hours


@functools.cache
def exact_watt_hours(kind: str, value: int, ratio: int) -> Fraction | None:
    # "A reading's exact value is multiplied by it before rounding"
    read = watt_hours_read(kind, value)
    return None if read is None else read * ratio


def ratio_refused(ratio: int) -> bool:
    # "A ratio outside its range is refused 2."
    return not 1 <= ratio <= RATIO_LIMIT


def reading_refused(kind: str, value: int, ratio: int) -> bool:
    """3: "above its limit, a register below zero, infinite or not a number"."""
    read = watt_hours_read(kind, value)
    # "negative zero is zero": its exact value is plain 0
    return read is None or read < 0 or read * ratio > READING_LIMIT_WH


@functools.cache
def reading_watt_hours(kind: str, value: int, ratio: int, up: bool) -> int | Refused:
    if ratio_refused(ratio):
        return Refused(2)
    if reading_refused(kind, value, ratio):
        return Refused(3)
    return rounded(exact_watt_hours(kind, value, ratio), up)


# 3. Meters and the energy of a source

METER_LIMIT = 4  # "A source has 1 to 4 meters."
ENERGY_LIMIT_WH = 100_000_000_000


class Meter(NamedTuple):
    # "A meter has a sign, + or -, and a first and a last reading, both of one kind."
    kind: str  # 'whole' or 'single'
    sign: str  # '+' or '-'
    first: int
    last: int
    ratio: int = 1  # "A meter gains a ratio from 1 to 10,000"

    @property
    def exact_first(self) -> Fraction | None:
        return exact_watt_hours(self.kind, self.first, self.ratio)

    @property
    def exact_last(self) -> Fraction | None:
        return exact_watt_hours(self.kind, self.last, self.ratio)


def judge_meters(side: str, meters: list[Meter]) -> int | tuple[int, int]:
    """2, 3 or 4, "each number tested over all meters before the next";
    otherwise the watt-hours that add and those that take."""
    if not 1 <= len(meters) <= METER_LIMIT:
        return 2
    if any(ratio_refused(m.ratio) for m in meters):
        return 2
    if any(reading_refused(m.kind, r, m.ratio) for m in meters for r in (m.first, m.last)):
        return 3
    if any(m.exact_last < m.exact_first for m in meters):
        return 4
    return meter_sums(rounds_up(side), meters)


def meter_readings(up: bool, meter: Meter) -> tuple[int, int]:
    """First and last in whole Wh. For project and leakage "a + meter takes last up and
    first down, and a - meter takes last down and first up"; for baseline "each is the
    opposite"."""
    last_up = up if meter.sign == '+' else not up
    return (reading_watt_hours(meter.kind, meter.first, meter.ratio, not last_up),
            reading_watt_hours(meter.kind, meter.last, meter.ratio, last_up))


def meter_sums(up: bool, meters: list[Meter]) -> tuple[int, int]:
    """The watt-hours that add and those that take: a + meter's last adds, a - meter's first."""
    adds = takes = 0
    for meter in meters:
        first, last = meter_readings(up, meter)
        adds += last if meter.sign == '+' else first
        takes += first if meter.sign == '+' else last
    return adds, takes


def energy_refused(adds: int, takes: int) -> bool:
    """6: "E below 0 or above its limit"."""
    return not 0 <= adds - takes <= ENERGY_LIMIT_WH


def exact_energy(meters: list[Meter]) -> Fraction:
    """e: "the sum of the + meters less the - meters", each last minus first."""
    total = Fraction(0)
    for meter in meters:
        moved = meter.exact_last - meter.exact_first
        total += moved if meter.sign == '+' else -moved
    return total


# 4. Fuel lines


# "A fuel line becomes one of three kinds": "energy, as now; carbon by mass (kg and W in
# ten-thousandths); carbon by volume (litres, density in g a litre up to 2,000, W)".


class EnergyLine(NamedTuple):
    quantity: int  # Q, mass or volume units
    net_calorific_value: int  # V, kJ a unit
    emission_factor: int  # C, mg CO2 a MJ


class MassLine(NamedTuple):
    quantity: int  # Q, kg
    carbon: int  # W, ten-thousandths of the mass


class VolumeLine(NamedTuple):
    quantity: int  # Q, litres
    density: int  # g a litre
    carbon: int  # W, ten-thousandths of the mass


FuelLine = EnergyLine | MassLine | VolumeLine

# "from 44/12 in the fossil fuel combustion tool"
CO2_OF_CARBON = Fraction(44, 12)

QUANTITY_LIMIT = 100_000_000  # Q
LEAST_NET_CALORIFIC_VALUE = 1  # V
NET_CALORIFIC_VALUE_LIMIT = 150_000
EMISSION_FACTOR_LIMIT = 200_000  # C
CARBON_LIMIT = 10_000  # W
DENSITY_LIMIT = 2_000


def fuel_refused(line: FuelLine) -> bool:
    """2, of a line of any kind."""
    # "Q keeps its limit"
    if line.quantity > QUANTITY_LIMIT:
        return True
    if isinstance(line, EnergyLine):
        # "V outside 1 to 150,000, or C above 200,000"
        V = line.net_calorific_value
        return (not LEAST_NET_CALORIFIC_VALUE <= V <= NET_CALORIFIC_VALUE_LIMIT
                or line.emission_factor > EMISSION_FACTOR_LIMIT)
    # "W above 10,000 or a density above 2,000 is refused 2"
    return (line.carbon > CARBON_LIMIT
            or isinstance(line, VolumeLine) and line.density > DENSITY_LIMIT)


def exact_fuel_milligrams(line: FuelLine) -> Fraction:
    if isinstance(line, EnergyLine):
        # "Each fuel line of each plant at S gives Q × V × C ÷ 1,000 mg"
        return Fraction(line.quantity * line.net_calorific_value * line.emission_factor, 1000)
    # "By mass the line is Q × W × 1,100 ÷ 3 mg, by volume Q × density × W × 11 ÷ 30": here
    # from the grams of fuel and of the carbon in it
    grams = line.quantity * (line.density if isinstance(line, VolumeLine) else 1000)
    return 1000 * CO2_OF_CARBON * grams * Fraction(line.carbon, 10_000)


def fuel_milligrams(line: FuelLine, up: bool) -> int:
    return rounded(exact_fuel_milligrams(line), up)


# 5. The ledger: what stands after the calls so far

# "Sources are numbered 0 to 31, plants 0 to 7, sites 0 to 3."
LAST_SOURCE = 31
LAST_PLANT = 7
LAST_SITE = 3

MEASURED_LOSS_LIMIT = 5_000  # T, ten-thousandths
FACTOR_LIMIT = 10_000_000  # F, mg/kWh
WEIGHT_SUM = 100  # percent
FUEL_LINE_LIMIT = 4  # of a plant
GENERATION_LIMIT = 100_000_000  # kWh, of a plant
LEAST_GENERATION = 1_000  # kWh, of a site that a source names

DEFAULT_SUPPLIES = ('combined', 'griddefault')  # those that P and B are over
GRID_SUPPLIES = ('combined', 'griddefault', 'either')
SITE_SUPPLIES = ('captive', 'either')


class Margins(NamedTuple):
    # "two margins in mg/kWh (at most 10,000,000 each) and two weights in percent"
    operating: int  # O
    build: int  # B
    operating_weight: int  # X
    build_weight: int  # Y


class Grid(NamedTuple):
    entered: int | Margins  # mg/kWh
    mark: str  # 'thermal' or 'hydro'

    @property
    def combined_margin(self) -> Fraction:
        """Rounded nowhere."""
        return exact_combined_margin(self.entered)


class Plant(NamedTuple):
    site: int
    generation: int  # kWh
    fuel_lines: list[FuelLine]
    heat: int = 0  # H, "A plant may state heat H in kJ"

    @property
    def fuel_energy(self) -> int:
        """J in kJ, "the plant's summed Q × V"; a line by carbon has no V."""
        return sum(line.quantity * line.net_calorific_value
                   for line in self.fuel_lines if isinstance(line, EnergyLine))

    @property
    def gives_heat(self) -> bool:
        """Whether it is one of "such plants"."""
        # "H zero or unstated means as before."
        return self.heat > 0


class Supply(NamedTuple):
    name: str  # combined, griddefault, captive, captivedefault or either
    site: int | None = None  # captive and either


class Loss(NamedTuple):
    name: str  # loss, default20, default3 or none
    measured: int | None = None  # T of a measured loss


class Source(NamedTuple):
    side: str
    supply: Supply
    loss: Loss
    meters: list[Meter]

    @property
    def energy(self) -> int:
        """E, "the signed sum of these"."""
        adds, takes = meter_sums(rounds_up(self.side), self.meters)
        return adds - takes


class Ledger:
    """What stands. A refused call returns before it stores."""

    def __init__(self):
        # "A new ledger is empty."
        self.grid: Grid | None = None
        self.plants: dict[int, Plant] = {}
        self.sources: dict[int, Source] = {}

    def enter_grid(self, entered: int | Margins, mark: str) -> int | None:
        """The combined margin as stated, or the margins that it is worked out from."""
        refusal = margin_refused(entered)
        if refusal is not OK:
            return refusal
        self.grid = Grid(entered, mark)
        return OK

    def enter_plant(self, number: int, plant: Plant) -> int | None:
        if number > LAST_PLANT or plant.site > LAST_SITE:
            return 1
        if len(plant.fuel_lines) > FUEL_LINE_LIMIT or plant.generation > GENERATION_LIMIT:
            return 2
        if any(fuel_refused(line) for line in plant.fuel_lines):
            return 2
        refusal = heat_refused(plant)
        if refusal is not OK:
            return refusal
        self.plants[number] = plant
        return OK

    def enter_source(self, number: int, source: Source) -> int | None:
        refusal = source_refused(number, source)
        if refusal is not OK:
            return refusal
        self.sources[number] = source
        return OK

    def drop_plant(self, number: int) -> int | None:
        return drop(self.plants, number, LAST_PLANT)

    def drop_source(self, number: int) -> int | None:
        return drop(self.sources, number, LAST_SOURCE)


def margin_refused(entered: int | Margins) -> int | None:
    if not isinstance(entered, Margins):
        return 2 if entered > FACTOR_LIMIT else OK
    # "A margin above its limit is refused 2, then weights that don't sum to 100 are
    # refused 15."
    if entered.operating > FACTOR_LIMIT or entered.build > FACTOR_LIMIT:
        return 2
    return 15 if entered.operating_weight + entered.build_weight != WEIGHT_SUM else OK


def exact_combined_margin(entered: int | Margins) -> Fraction:
    # "the factor is their weighted mean"
    if not isinstance(entered, Margins):
        return Fraction(entered)
    return Fraction(entered.operating * entered.operating_weight
                    + entered.build * entered.build_weight, WEIGHT_SUM)


def heat_refused(plant: Plant) -> int | None:
    # "Heat above 0 beside a carbon line is refused 16, then heat above J is refused 17,
    # both after 2."
    beside_carbon = any(not isinstance(line, EnergyLine) for line in plant.fuel_lines)
    if plant.gives_heat and beside_carbon:
        return 16
    return 17 if plant.heat > plant.fuel_energy else OK


def source_refused(number: int, source: Source) -> int | None:
    """The refusals 1 to 6 of a source entry, in the order tested."""
    site = source.supply.site
    if number > LAST_SOURCE or (site is not None and site > LAST_SITE):
        return 1
    if source.loss.name == 'loss' and source.loss.measured > MEASURED_LOSS_LIMIT:
        return 2
    judged = judge_meters(source.side, source.meters)  # 2, 3 and 4
    if isinstance(judged, int):
        return judged
    # "5 loss none with combined, griddefault or either, or another loss with
    # captive or captivedefault."
    if (source.loss.name == 'none') == (source.supply.name in GRID_SUPPLIES):
        return 5
    if energy_refused(*judged):
        return 6
    return OK


def drop(standing: dict, number: int, highest: int) -> int | None:
    # "1 number above its range. 7 nothing stands there."
    if number > highest:
        return 1
    if number not in standing:
        return 7
    del standing[number]
    return OK


# 6. The report


class Totals(NamedTuple):
    """Sums of E and numbers of sources; `project` counts leakage with it."""

    project: int
    baseline: int
    project_sources: int
    baseline_sources: int


class Figure(NamedTuple):
    energy: int  # E
    loss: int  # T
    energy_with_losses: int  # U
    option: str  # the supply that F is taken from; tells which one `either` chose
    factor: int  # F
    grams: int


class SideReport(NamedTuple):
    tonnes: int
    grams: int
    sources: int


class Report(NamedTuple):
    figures: dict[int, Figure]
    sides: dict[str, SideReport]
    reduction: int


def totals_over(ledger: Ledger, supplies: tuple) -> Totals:
    """The sum of E "over project and leakage sources" with one of these supplies,
    and "over baseline sources"."""
    chosen = [s for s in ledger.sources.values() if s.supply.name in supplies]
    project = [s.energy for s in chosen if s.side in ('project', 'leakage')]
    baseline = [s.energy for s in chosen if s.side == 'baseline']
    return Totals(sum(project), sum(baseline), len(project), len(baseline))


def grid_default_factor(ledger: Ledger) -> int | None:
    """griddefault: F by P and B; None where "it is not open"."""
    sums = totals_over(ledger, DEFAULT_SUPPLIES)
    # "F is 1,300,000 if no such baseline source stands or P > B."
    if sums.baseline_sources == 0 or sums.project > sums.baseline:
        return 1_300_000
    # "F is 400,000 (grid marked thermal) or 250,000 (marked hydro ...) if no
    # such project or leakage source stands or B > P."
    if sums.project_sources == 0 or sums.baseline > sums.project:
        return 400_000 if ledger.grid.mark == 'thermal' else 250_000
    return None


def transmission_loss(ledger: Ledger, source: Source) -> int | None:
    """T; None where a default loss is not open. P' and B' are sums "over
    combined, griddefault and either"."""
    if source.loss.name == 'none':
        return 0
    if source.loss.name == 'loss':
        return source.loss.measured
    sums = totals_over(ledger, GRID_SUPPLIES)
    if source.loss.name == 'default20':
        # "open to project and leakage always, to baseline if P' > B'"
        is_open = source.side != 'baseline' or sums.project > sums.baseline
        return 2_000 if is_open else None
    # default3: "open to baseline always, to project and leakage if P' < B'"
    is_open = source.side == 'baseline' or sums.project < sums.baseline
    return 300 if is_open else None


def plants_at(ledger: Ledger, site: int) -> list[Plant]:
    return [plant for plant in ledger.plants.values() if plant.site == site]


def generation_at(ledger: Ledger, site: int) -> int:
    """The plants' summed generation, "no plant counts as 0"."""
    return sum(plant.generation for plant in plants_at(ledger, site))


def factor_over(milligrams: int, generation: int, up: bool) -> int:
    return rounded(Fraction(milligrams, generation), up)


def without_heat(plant: Plant, milligrams: int, up: bool) -> int:
    """What a plant's "fuel lines' rounded milligrams" become."""
    # "For project and leakage nothing changes."
    if up or not plant.gives_heat:
        return milligrams
    # "For baseline the plant's milligrams become (J - H) × A ÷ 1,000, where J is the plant's
    # summed Q × V and A its fuel lines' rounded milligrams × 1,000 ÷ J, each rounded down"
    J = plant.fuel_energy
    A = rounded(Fraction(milligrams * 1_000, J), up)
    return rounded(Fraction((J - plant.heat) * A, 1_000), up)


def plant_milligrams(plant: Plant, up: bool) -> int:
    return without_heat(plant, sum(fuel_milligrams(line, up) for line in plant.fuel_lines), up)


def captive_factor(ledger: Ledger, site: int, up: bool) -> int:
    # "F is the sum of these rounded lines over the plants' summed generation in kWh"
    milligrams = sum(plant_milligrams(plant, up) for plant in plants_at(ledger, site))
    return factor_over(milligrams, generation_at(ledger, site), up)


def combined_factor(grid: Grid, up: bool) -> int:
    # "The grid record keeps the mean rounded both ways and each side takes its own."
    return rounded(grid.combined_margin, up)


def emission_factor(ledger: Ledger, source: Source) -> tuple[str, int]:
    """The supply that F is taken from, and F. Refusals 8 to 11 are ruled out."""
    name, site = source.supply
    up = rounds_up(source.side)
    if name == 'combined':
        return name, combined_factor(ledger.grid, up)
    if name == 'griddefault':
        return name, grid_default_factor(ledger)
    if name == 'captivedefault':
        # "1,300,000 for project and leakage, 400,000 for baseline"
        return name, 400_000 if source.side == 'baseline' else 1_300_000
    captive = captive_factor(ledger, site, up)
    if name == 'captive':
        return name, captive
    # either: "the greater of combined and captive for project and leakage, the
    # smaller for baseline"; "of two equal factors under either, combined".
    combined = combined_factor(ledger.grid, up)
    takes_captive = captive > combined if up else captive < combined
    return ('captive', captive) if takes_captive else ('combined', combined)


def site_refused(ledger: Ledger, site: int, up: bool) -> int | None:
    """9 or 10, of a site that a source names in this direction."""
    if generation_at(ledger, site) < LEAST_GENERATION:
        return 9
    return 10 if captive_factor(ledger, site, up) > FACTOR_LIMIT else OK


def figure_refused(ledger: Ledger, source: Source) -> int | None:
    """The refusals 8 to 12 of one source, in the order tested."""
    name, site = source.supply
    if name in GRID_SUPPLIES and ledger.grid is None:
        return 8
    if name in SITE_SUPPLIES:
        refusal = site_refused(ledger, site, rounds_up(source.side))
        if refusal is not OK:
            return refusal
    if name == 'griddefault' and grid_default_factor(ledger) is None:
        return 11
    if transmission_loss(ledger, source) is None:
        return 12
    return OK


def energy_with_losses(E: int, T: int, up: bool) -> int:
    # "U is E × (10,000 + T) ÷ 10,000"
    return rounded(Fraction(E * (10_000 + T), 10_000), up)


def source_grams(U: int, F: int, up: bool) -> int:
    # "The source figure in grams is U × F ÷ 1,000,000."
    return rounded(Fraction(U * F, 1_000_000), up)


def source_figure(ledger: Ledger, source: Source) -> Figure:
    up = rounds_up(source.side)
    E = source.energy
    T = transmission_loss(ledger, source)
    U = energy_with_losses(E, T, up)
    option, F = emission_factor(ledger, source)
    return Figure(E, T, U, option, F, source_grams(U, F, up))


def numbers_of(ledger: Ledger, side: str) -> list[int]:
    """The numbers of the standing sources of a side, rising."""
    return [n for n in sorted(ledger.sources) if ledger.sources[n].side == side]


def report(ledger: Ledger) -> Report | Refused:
    # "for each source, by rising number": 8 to 12; "After all sources, 13 a side
    # above 1,000,000,000,000,000 grams."
    figures = {}
    for number in sorted(ledger.sources):
        refusal = figure_refused(ledger, ledger.sources[number])
        if refusal is not OK:
            return Refused(refusal, number)
        figures[number] = source_figure(ledger, ledger.sources[number])
    sides = {side: side_report(ledger, figures, side) for side in SIDES}
    if any(side.grams > 1_000_000_000_000_000 for side in sides.values()):
        return Refused(13)
    return Report(figures, sides, reduction_of(sides))


def reduction_of(sides: dict[str, SideReport]) -> int:
    # "baseline less project less leakage tonnes, signed"
    return (sides['baseline'].tonnes - sides['project'].tonnes
            - sides['leakage'].tonnes)


def side_tonnes(grams: int, up: bool) -> int:
    # "its tonnes (grams ÷ 1,000,000, rounded as the side)"
    return rounded(Fraction(grams, 1_000_000), up)


def side_report(ledger: Ledger, figures: dict, side: str) -> SideReport:
    # "its grams (sum of source figures), its tonnes .. and its number of standing sources"
    numbers = numbers_of(ledger, side)
    grams = sum(figures[number].grams for number in numbers)
    return SideReport(side_tonnes(grams, rounds_up(side)), grams, len(numbers))


# 7. Exact values, and how near the report is to them


def exact_plant_milligrams(plant: Plant, up: bool) -> Fraction:
    """Of a plant that gives heat it depends on the direction."""
    milligrams = sum((exact_fuel_milligrams(line) for line in plant.fuel_lines), Fraction(0))
    if up or not plant.gives_heat:
        return milligrams
    # "The exact value uses the unrounded quotient": nor is a line rounded
    return (plant.fuel_energy - plant.heat) * milligrams / plant.fuel_energy


def exact_factor(ledger: Ledger, source: Source, figure: Figure) -> Fraction:
    """F with unrounded quotients, of the option that the rounded factors chose."""
    if figure.option == 'combined':
        # "The exact side value uses the unrounded mean"
        return ledger.grid.combined_margin
    if figure.option != 'captive':
        return Fraction(figure.factor)  # fixed, so exact as it is
    milligrams = sum(exact_plant_milligrams(plant, rounds_up(source.side))
                     for plant in plants_at(ledger, source.supply.site))
    return milligrams / generation_at(ledger, source.supply.site)


def exact_figure(ledger: Ledger, source: Source, figure: Figure) -> Fraction:
    # "its figure with e for E, unrounded quotients and the same chosen options";
    # below zero where e is
    with_losses = exact_energy(source.meters) * Fraction(10_000 + figure.loss, 10_000)
    return with_losses * exact_factor(ledger, source, figure) / 1_000_000


def exact_side(ledger: Ledger, given: Report, side: str) -> Fraction:
    # "the sum of the exact figures of its standing sources ÷ 1,000,000, in tonnes,
    # and 0 where none stands"
    return sum((exact_figure(ledger, ledger.sources[n], given.figures[n])
                for n in numbers_of(ledger, side)), Fraction(0)) / 1_000_000


def exact_reduction(ledger: Ledger, given: Report) -> Fraction:
    # "the exact baseline less project less leakage value"
    return (exact_side(ledger, given, 'baseline')
            - exact_side(ledger, given, 'project')
            - exact_side(ledger, given, 'leakage'))


def excess(side: str, value: int, exact: Fraction) -> Fraction:
    """How far a value is off towards its safe side; below zero if unsafe."""
    return value - exact if rounds_up(side) else exact - value


def gap(ledger: Ledger, given: Report, number: int) -> Fraction:
    """The "grams between the two"; below zero if on the unsafe side."""
    source, figure = ledger.sources[number], given.figures[number]
    return excess(source.side, figure.grams, exact_figure(ledger, source, figure))


class Constants(NamedTuple):
    """Those of demand 3; tests/cases/counterexamples.py makes each one smaller."""

    factor_multiple: int = 13
    energy_multiple: int = 11
    heated_energy_multiple: int = 2  # beside K
    heat_by_factor: int = 1  # how often K counts beside F, and beside the 2
    heat_by_energy: int = 1
    gap_kilograms: int = 200
    side_tonnes: int = 1
    reduction_tonnes: int = 3
    allowance_kilograms: int = 200  # a standing source
    heated_kilograms: int | None = None  # one that names a site with heat; None: its gap's limit


DEMAND_3 = Constants()


class Broken(Exception):
    """An inequality of demand 3, or what a check asks for, does not hold."""


def site_heat(ledger: Ledger, site: int) -> Fraction | None:
    """K of a site; None where none of its plants gives heat."""
    # "With K as the summed J of such plants at the site over 1,000 × its generation"
    energies = [plant.fuel_energy for plant in plants_at(ledger, site) if plant.gives_heat]
    return Fraction(sum(energies), 1_000 * generation_at(ledger, site)) if energies else None


def source_heat(ledger: Ledger, source: Source) -> Fraction | None:
    """K of "baseline sources that name the site", whichever option they take; None for the
    others, which keep document 01's limit."""
    if source.side != 'baseline' or source.supply.name not in SITE_SUPPLIES:
        return None
    return site_heat(ledger, source.supply.site)


def gap_limit(figure: Figure, K: Fraction | None = None,
              constants: Constants = DEMAND_3) -> Fraction:
    F, U = figure.factor, figure.energy_with_losses
    if K is None:
        # "1 + (13 × (F + 2) + 11 × U ÷ 10) ÷ 1,000,000 grams"
        milligrams = (constants.factor_multiple * (F + 2)
                      + Fraction(constants.energy_multiple * U, 10))
    else:
        # "1 + (13 × (F + 2 + K) + (2 + K) × U) ÷ 1,000,000 grams"
        milligrams = (constants.factor_multiple * (F + 2 + constants.heat_by_factor * K)
                      + (constants.heated_energy_multiple + constants.heat_by_energy * K) * U)
    return 1 + milligrams / 1_000_000


def allowance(figure: Figure, K: Fraction | None, constants: Constants = DEMAND_3) -> Fraction:
    """What a standing source adds to that of its side and of the reduction, in tonnes."""
    # "in place of document 01's limit and of demand 3's 200 kilograms, for the side and for
    # the reduction": where it is smaller too
    if K is None:
        return Fraction(constants.allowance_kilograms, 1_000)
    if constants.heated_kilograms is not None:
        return Fraction(constants.heated_kilograms, 1_000)
    return gap_limit(figure, K, constants) / 1_000_000


class Inequality(NamedTuple):
    """On the safe side, which is off from 0, and off by less than the limit."""

    what: str
    off: Fraction
    limit: Fraction

    @property
    def holds(self) -> bool:
        return 0 <= self.off < self.limit


def gap_inequalities(ledger: Ledger, report: Report, number: int,
                     constants: Constants) -> list[Inequality]:
    figure, K = report.figures[number], source_heat(ledger, ledger.sources[number])
    off, limit = gap(ledger, report, number), gap_limit(figure, K, constants)
    if K is not None:  # "in place of document 01's limit and of demand 3's 200 kilograms"
        return [Inequality(f'gap {number} by F, U and K, g', off, limit)]
    weight = Fraction(constants.gap_kilograms * 1_000)
    return [Inequality(f'gap {number} by F and U, g', off, limit),
            Inequality(f'gap {number} by weight, g', off, weight)]


def demand_3(ledger: Ledger, report: Report,
             constants: Constants = DEMAND_3) -> list[Inequality]:
    """Each inequality of demand 3 at a report given on what stands."""
    allowances = {number: allowance(figure, source_heat(ledger, ledger.sources[number]), constants)
                  for number, figure in report.figures.items()}
    inequalities = [inequality for number in report.figures
                    for inequality in gap_inequalities(ledger, report, number, constants)]
    for side in SIDES:
        off = excess(side, report.sides[side].tonnes, exact_side(ledger, report, side))
        limit = constants.side_tonnes + sum(allowances[n] for n in numbers_of(ledger, side))
        inequalities.append(Inequality(f'{side}, t', off, limit))
    off = exact_reduction(ledger, report) - report.reduction
    limit = constants.reduction_tonnes + sum(allowances.values())
    return inequalities + [Inequality('reduction, t', off, limit)]


def check_demand_3(ledger: Ledger, report: Report):
    """Raises Broken where an inequality fails."""
    for what, off, limit in demand_3(ledger, report):
        if off < 0:
            raise Broken(f'{what}: on the unsafe side by {float(-off)}')
        if off >= limit:
            raise Broken(f'{what}: off by {float(off)}, limit {float(limit)}')
    for side in SIDES:
        if report.sides[side].sources != len(numbers_of(ledger, side)):
            raise Broken(f'{side}: {report.sides[side].sources} sources reported')


# 8. The text

INPUT_LIMIT = 65_536
LINE_LIMIT = 256

# 14: "a decimal of more than 18 digits or with a zero before its other digits"
NUMBER_DIGITS = 18
NUMBER = rb'(?:0|[1-9][0-9]{0,%d})' % (NUMBER_DIGITS - 1)
# "a register is 8 lower-case hexadecimal digits, highest first"
REGISTER_DIGITS = 8
REGISTER = rb'[0-9a-f]{%d}' % REGISTER_DIGITS


def form(text: bytes) -> re.Pattern:
    return re.compile(text.replace(b'<number>', NUMBER).replace(b'<register>', REGISTER))


GRID_FORM = form(rb'\(grid (<number>) (thermal|hydro)\)')
# "the two margins, then their weights"
MARGINS_FORM = form(rb'\(grid margins (<number>) (<number>) (<number>) (<number>)'
                    rb' (thermal|hydro)\)')
# "Any count of fuel lines or meters, none included, is a form; the entry judges it."
# "The forms are (fuel Q V C), (mass Q W) and (volume Q density W)"
# "A plant may state heat H in kJ, as (heat H) after G."
PLANT_FORM = form(rb'\(plant (<number>) (<number>) (<number>)(?: \(heat (<number>)\))?'
                  rb'((?: \((?:fuel <number> <number> <number>|mass <number> <number>'
                  rb'|volume <number> <number> <number>)\))*)\)')
# A ratio is "written before its sign".
SOURCE_FORM = form(rb'\(source (<number>) (project|leakage|baseline)'
                   rb' \((combined|griddefault|captive <number>|captivedefault|either <number>)\)'
                   rb' \((loss <number>|default20|default3|none)\)'
                   rb'((?: \((?:whole (?:<number> )?[+-] <number> <number>'
                   rb'|single (?:<number> )?[+-] <register> <register>)\))*)\)')
DROP_FORM = form(rb'\(drop (source|plant) (<number>)\)')
REPORT_FORM = form(rb'\(report\)')

# These take a form apart that one of the patterns above has already passed.
FUEL_PARTS = re.compile(rb'\((fuel|mass|volume) ([0-9 ]+)\)')
METER_PARTS = re.compile(rb'\((whole|single) (?:([0-9]+) )?([+-]) ([0-9a-f]+) ([0-9a-f]+)\)')


def read_named(part: bytes) -> tuple:
    """A supply or a loss: its name, and its number if it carries one."""
    name, *number = part.split(b' ')
    return (name.decode(), *map(int, number))


FUEL_KINDS = {b'fuel': EnergyLine, b'mass': MassLine, b'volume': VolumeLine}


def read_fuel_line(word: bytes, figures: bytes) -> FuelLine:
    return FUEL_KINDS[word](*map(int, figures.split(b' ')))


def read_meter(kind: bytes, ratio: bytes, sign: bytes, first: bytes, last: bytes) -> Meter:
    base = 10 if kind == b'whole' else 16
    # "left out, it is 1"
    return Meter(kind.decode(), sign.decode(), int(first, base), int(last, base),
                 int(ratio or b'1'))


def grid_call(ledger: Ledger, parts: re.Match):
    return ledger.enter_grid(int(parts[1]), parts[2].decode())


def margins_call(ledger: Ledger, parts: re.Match):
    *margins, mark = parts.groups()
    return ledger.enter_grid(Margins(*map(int, margins)), mark.decode())


def read_plant(parts: re.Match) -> Plant:
    lines = [read_fuel_line(*line) for line in FUEL_PARTS.findall(parts[5])]
    return Plant(int(parts[2]), int(parts[3]), lines, int(parts[4] or b'0'))


def plant_call(ledger: Ledger, parts: re.Match):
    return ledger.enter_plant(int(parts[1]), read_plant(parts))


def read_source(parts: re.Match) -> Source:
    meters = [read_meter(*meter) for meter in METER_PARTS.findall(parts[5])]
    return Source(parts[2].decode(), Supply(*read_named(parts[3])),
                  Loss(*read_named(parts[4])), meters)


def source_call(ledger: Ledger, parts: re.Match):
    return ledger.enter_source(int(parts[1]), read_source(parts))


def drop_call(ledger: Ledger, parts: re.Match):
    if parts[1] == b'source':
        return ledger.drop_source(int(parts[2]))
    return ledger.drop_plant(int(parts[2]))


def report_call(ledger: Ledger, parts: re.Match):
    return report(ledger)


CALLS = ((GRID_FORM, grid_call), (MARGINS_FORM, margins_call), (PLANT_FORM, plant_call),
         (SOURCE_FORM, source_call), (DROP_FORM, drop_call), (REPORT_FORM, report_call))


def perform(ledger: Ledger, line: bytes) -> None | int | Refused | Report:
    """The answer to one line, given without its LF."""
    if len(line) > LINE_LIMIT:
        return 14
    for pattern, call in CALLS:
        parts = pattern.fullmatch(line)
        if parts:
            return call(ledger, parts)
    return 14


def answer_text(answer: None | int | Refused | Report) -> str:
    # "Each line prints `ok`, `refused N`, or for a report `refused N source K` (no
    # source part with 13) or four lines: side, tonnes, grams, sources; then reduction."
    if answer is OK:
        return 'ok\n'
    if isinstance(answer, int):
        return f'refused {answer}\n'
    if isinstance(answer, Refused):
        source = '' if answer.source is None else f' source {answer.source}'
        return f'refused {answer.number}{source}\n'
    sides = ''.join(f'{side} {s.tonnes} {s.grams} {s.sources}\n'
                    for side, s in answer.sides.items())
    return f'{sides}reduction {answer.reduction}\n'


def lines_of(data: bytes) -> list[bytes]:
    # "lines ended by LF (the last may lack it)"
    if not data:
        return []
    return data.removesuffix(b'\n').split(b'\n')


def answers(data: bytes, on_report=None) -> list[bytes]:
    """The answer to each line, however many bytes there are: what the program panel
    writes. `on_report(ledger, report)` sees each report given."""
    ledger = Ledger()
    output = []
    for line in lines_of(data):
        answer = perform(ledger, line)
        if on_report and isinstance(answer, Report):
            on_report(ledger, answer)
        output.append(answer_text(answer).encode())
    return output


def tally(data: bytes, on_report=None) -> bytes:
    """The whole output of the program tally."""
    # "Input above 65,536 bytes prints only `refused 14`."
    if len(data) > INPUT_LIMIT:
        return b'refused 14\n'
    return b''.join(answers(data, on_report))


# 9. The program

if __name__ == '__main__':
    sys.stdout.buffer.write(tally(sys.stdin.buffer.read()))
