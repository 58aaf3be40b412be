"""Lists of calls on the ledger, made by hand.

vectors.py writes and checks them with the other vectors. A call is a vector of
28 fields after its kind: its operation and its arguments, as the module calls.rt
of the program `vectors` reads them. Unlike a line of text, a call always holds
four fuel lines or meters beside their count, and its numbers go up to the last
ones of their types.

A grid entry has six arguments: its form, a stated factor (0) or margins (1), then
F or O, then B, X and Y, which are 0 with a stated factor, and the mark, thermal (0)
or hydro (1). A grid record that is stored has these six, and then the combined
margin rounded up and rounded down, whatever they are.

A fuel line has four arguments: its kind, energy (0), mass (1) or volume (2), and three
figures, Q, V and C, or Q, W and one that is not read, or Q, density and W. A plant entry has
its number, site, generation, heat and count before its four lines, 21 arguments in all, and a
plant record that is stored 22. A meter has five: its ratio, sign, kind, first and last
reading. The widest call is a source entry, with 27.
"""

from collections import Counter
from itertools import combinations, cycle, product

from tests.comparison import replay
from tests.comparison.generate import (
    DECIDING_LINES, FRACTIONS_BY_RATIO, FUEL_LIMITS, HEAT_CASES, HEAT_STEPS, LARGEST,
    LARGEST_FACTORS, LARGEST_LINES, LAST_REGISTER, LITTLE_ABOVE, LITTLE_BELOW, RATIO_CASES,
    RATIO_LIMIT, REFUSED_ASIDE, SOURCE_KINDS, SOURCE_MEANS, SOURCES_BY_HEAT, deciding_lines,
    fractions_by_ratio, heat_cases, heat_steps, kinds_of, last_register, means_of, ratio_cases,
    refused_aside, sources_by_heat, with_rest)
from tests.comparison.replay import (
    DROP_PLANT, DROP_SOURCE, GRID, KINDS, LOSSES, MARKS, NEW, PLANT, REPORT, SIDES, SIGNS, SOURCE,
    STORED_GRID, STORED_PLANT, STORED_SOURCE, SUPPLIES)
from tests.reference import reference
from tests.reference.reference import (
    EnergyLine, FuelLine, Loss, Margins, MassLine, Meter, Plant, Supply, VolumeLine)

FIELDS = 28
FUEL_KINDS = (EnergyLine, MassLine, VolumeLine)

LAST_U8 = 2**8 - 1
LAST_U16 = 2**16 - 1
LAST_U32 = 2**32 - 1
LAST_U64 = 2**64 - 1
LIMIT = reference.ENERGY_LIMIT_WH  # and the limit of a reading
FACTOR_LIMIT = reference.FACTOR_LIMIT

# What fills the places beyond the count: refused where it is read.
NO_LINES = (EnergyLine(LAST_U32, 0, LAST_U32), MassLine(LAST_U32, LAST_U32),
            VolumeLine(LAST_U32, LAST_U32, LAST_U32), EnergyLine(0, 0, 0))
NO_METERS = tuple(Meter('single', '-', 0x7FC00000, LAST_U32, ratio)
                  for ratio in (0, RATIO_LIMIT + 1, LAST_U16, 1))
# The figure of a line by mass that is not read: within and beyond each limit of the others.
UNREAD = (LAST_U32, 0, 1, 2_001, 10_001)

NONE, DEFAULT20, DEFAULT3 = Loss('none'), Loss('default20'), Loss('default3')
COMBINED, GRID_DEFAULT = Supply('combined'), Supply('griddefault')
CAPTIVE_DEFAULT = Supply('captivedefault')


def captive(site: int) -> Supply:
    return Supply('captive', site)


def either(site: int) -> Supply:
    return Supply('either', site)


def measured(loss: int) -> Loss:
    return Loss('loss', loss)


def whole(last: int, first: int = 0, sign: str = '+', ratio: int = 1) -> Meter:
    return Meter('whole', sign, first, last, ratio)


def placed(items: tuple, fillers: tuple) -> list:
    """Four of them, with what fills their places where there are fewer."""
    return [*items, *fillers[len(items):]][:4]


def fuel_fields(line: FuelLine, unread: int) -> tuple[int, ...]:
    figures = (*line, unread) if isinstance(line, MassLine) else line
    return (FUEL_KINDS.index(type(line)), *figures)


def grid_fields(entered: int | Margins, mark: str) -> tuple[int, ...]:
    figures = (1, *entered) if isinstance(entered, Margins) else (0, entered, 0, 0, 0)
    return (*figures, MARKS.index(mark))


def source_fields(number: int, side: str, supply: Supply, loss: Loss) -> tuple[int, ...]:
    """All but the count and the meters. A site or a loss that is not there is the
    last number of its type, so that it would be refused."""
    return (number, SIDES.index(side),
            SUPPLIES.index(supply.name), LAST_U8 if supply.site is None else supply.site,
            LOSSES.index(loss.name), LAST_U16 if loss.measured is None else loss.measured)


def meter_fields(meters: list[Meter]) -> list[int]:
    return [field for m in meters
            for field in (m.ratio, SIGNS.index(m.sign), KINDS.index(m.kind), m.first, m.last)]


class Calls:
    """Makes calls on the reference, keeps their fields, and notes what they meet."""

    def __init__(self):
        self.vectors: list[tuple[int, ...]] = []
        self.refusals = Counter()
        self.reports = self.given = self.damages = 0
        self.kinds = set()  # of the sources in reports given
        self.means = set()
        self.lines = set()  # that decide a captive factor
        self.aside = set()  # refusals of sites that reports given do not show
        self.ratios = set()  # what source entries meet
        self.fractions = set()  # readings by a ratio that are no whole Wh
        self.heats = set()  # what plant entries meet
        self.by_heat = set()  # sources that name a site with heat
        self.steps = set()  # what factors of a baseline show of heat
        self.damaged_heats = set()  # refusals 16 and 17 that records stored would have met
        self.box = replay.Box(reference)

    def add(self, *fields: int):
        fields = (*fields, *(FIELDS - len(fields)) * (0,))
        self.vectors.append(fields)
        answer = self.box.call(*fields)
        if isinstance(answer, (int, reference.Refused)):
            self.refusals[answer if isinstance(answer, int) else answer.number] += 1
        return answer

    def new(self):
        """Each list takes the figures that are not read from the first on."""
        self.unread = cycle(UNREAD)
        self.add(NEW)

    def grid(self, entered: int | Margins, mark: str = 'thermal'):
        return self.add(GRID, *grid_fields(entered, mark))

    def plant_fields(self, number: int, plant: Plant, count: int | None) -> tuple[int, ...]:
        lines = plant.fuel_lines
        fields = [field for line in placed(lines, NO_LINES)
                  for field in fuel_fields(line, next(self.unread))]
        return (number, plant.site, plant.generation, plant.heat,
                len(lines) if count is None else count, *fields)

    def plant(self, number: int, site: int, generation: int, *lines: FuelLine, heat: int = 0,
              count: int | None = None):
        fields = self.plant_fields(number, Plant(site, generation, lines, heat), count)
        answer = self.add(PLANT, *fields)
        self.heats |= heat_cases(replay.plant_of(reference, fields[1:]), answer)
        return answer

    def source(self, number: int, side: str, supply: Supply, loss: Loss, *meters: Meter,
               count: int | None = None):
        count = len(meters) if count is None else count
        fields = meter_fields(placed(meters, NO_METERS))
        answer = self.add(SOURCE, *source_fields(number, side, supply, loss), count, *fields)
        self.ratios |= ratio_cases(replay.meters_of(reference, count, fields), answer, RATIO_CASES)
        return answer

    def drop_plant(self, number: int):
        return self.add(DROP_PLANT, number)

    def drop_source(self, number: int):
        return self.add(DROP_SOURCE, number)

    def report(self):
        return self.add_report(REPORT)

    def add_report(self, *fields: int):
        answer, ledger = self.add(*fields), self.box.ledger
        self.reports += 1
        self.damages += answer == replay.DAMAGED
        if isinstance(answer, reference.Report):
            reference.check_demand_3(ledger, answer)
            self.given += 1
            self.kinds |= kinds_of(ledger, answer)
            self.means |= means_of(ledger, answer)
            self.lines |= deciding_lines(ledger, answer)
            self.aside |= refused_aside(ledger)
            self.fractions |= fractions_by_ratio(ledger)
            self.by_heat |= sources_by_heat(ledger, answer)
            self.steps |= heat_steps(ledger, answer)
        return answer

    # Records stored as no call does

    def store_grid(self, entered: int | Margins, mark: str = 'thermal', more_up: int = 0,
                   more_down: int = 0):
        """With so much more than the combined margin rounded up, and rounded down."""
        exact = reference.exact_combined_margin(entered)
        stored = [min(max(reference.rounded(exact, up) + more, 0), LAST_U32)
                  for up, more in ((True, more_up), (False, more_down))]
        return self.add_report(STORED_GRID, *grid_fields(entered, mark), *stored)

    def store_plant(self, number: int, site: int, generation: int, *lines: FuelLine,
                    heat: int = 0, count: int | None = None, stands: bool = True):
        fields = self.plant_fields(number, Plant(site, generation, lines, heat), count)
        if stands:
            plant = replay.plant_of(reference, fields[1:])
            self.damaged_heats |= {reference.Ledger().enter_plant(number, plant)} & {16, 17}
        return self.add_report(STORED_PLANT, *fields, int(stands))

    def store_source(self, number: int, side: str, supply: Supply, loss: Loss, energy: int,
                     stands: bool = True):
        return self.add_report(STORED_SOURCE, *source_fields(number, side, supply, loss),
                               int(stands), energy)


# 1. Entries: limits, counts and figures

BENCH_LINE = EnergyLine(1_000, 43_000, 74_100)
LINE = EnergyLine(1, 1, 1)
ONE_OF_EACH = tuple(kind(*(1 for _ in limits)) for kind, limits in FUEL_LIMITS.items())


def milligrams(whole: int) -> EnergyLine:
    """A line of so many."""
    return EnergyLine(whole, 1, 1_000)


def around(limit: int, last: int) -> tuple[int, ...]:
    """The limit, its neighbours and the type's last numbers."""
    return limit - 1, limit, limit + 1, last - 1, last


def report_accepted(calls: Calls, answer):
    """That a refused entry changes nothing is for other lists."""
    if answer is reference.OK:
        calls.report()


def listing(calls: Calls):
    calls.grid(812_400)
    calls.plant(0, 1, 7_000, BENCH_LINE)
    calls.source(0, 'project', COMBINED, DEFAULT20, whole(1_000_001))
    calls.source(1, 'baseline', captive(1), NONE, whole(500_003))
    calls.report()


def grid_and_plant_limits(calls: Calls):
    calls.source(0, 'project', either(0), measured(0), whole(1_000_003))
    calls.report()
    calls.plant(0, 0, 1_000)
    for at, margin in enumerate(around(FACTOR_LIMIT, LAST_U32)):
        calls.grid(margin, MARKS[at % 2])
        calls.report()
    for number in around(7, LAST_U8):
        calls.plant(number, 0, 1_000, LINE)
    for site in around(3, LAST_U8):
        calls.plant(1, site, 1_000, LINE)
    for generation in (0, *around(100_000_000, LAST_U32)):
        calls.plant(0, 0, generation, LINE)
        calls.report()


def with_figure(line: FuelLine, at: int, figure: int) -> FuelLine:
    return type(line)(*line[:at], figure, *line[at + 1:])


def fuel_limits(calls: Calls):
    """Each figure of each kind at its limits, by turns at each place; then all at theirs."""
    calls.source(0, 'project', captive(0), NONE, whole(1_000_003))
    calls.source(1, 'baseline', captive(0), NONE, whole(1_000_003))
    calls.plant(0, 0, 1_000)
    for line, limits in zip(ONE_OF_EACH, FUEL_LIMITS.values()):
        for at, limit in enumerate(limits):
            for turn, figure in enumerate((0, limit, limit + 1, 65_536 + limit, LAST_U32)):
                before = (ONE_OF_EACH[1:] + ONE_OF_EACH)[:(at + turn) % 4]
                report_accepted(calls, calls.plant(2, 0, 7_000, *before,
                                                   with_figure(line, at, figure)))
    for line in LARGEST_LINES:
        calls.plant(2, 0, 100_000_000, line)
        calls.report()


def parts_of_milligrams(calls: Calls):
    """Beside whole milligrams that bring the sum below, to and above 1,000 mg/kWh; then lines
    of one kind and of all kinds in one plant, near 10."""
    calls.source(0, 'project', captive(0), NONE, whole(1_000_000_000))
    calls.source(1, 'baseline', captive(0), NONE, whole(1_000_000_000))
    for little in (LITTLE_ABOVE, LITTLE_BELOW):
        for line, near in product(little, (999_998, 999_999, 1_000_000)):
            calls.plant(0, 0, 1_000, line,
                        milligrams(near - reference.fuel_milligrams(line, False)))
            calls.report()
        for row, near in product((*(3 * [line] for line in little), little),
                                 (9_997, 10_000)):
            calls.plant(0, 0, 1_000, *with_rest(row, little, near))
            calls.report()


def unread_figures(calls: Calls):
    """What stands beyond the count, and the last figure of a line by mass, change nothing."""
    calls.source(0, 'project', captive(0), NONE, whole(1_000_000_000))
    lines = (MassLine(1, 2_727), VolumeLine(1, 910, 2_997), milligrams(101))  # 2,000,000 mg
    for count, line in product(range(4), (NO_LINES[0], ONE_OF_EACH[1], LARGEST_LINES[2])):
        calls.plant(0, 0, 1_000, *lines[:count], *(4 - count) * [line], count=count)
        calls.report()
        calls.store_plant(0, 0, 1_000, *lines[:count], *(4 - count) * [line], count=count)
    for _ in UNREAD:  # each of them at each place
        calls.plant(0, 0, 1_000, *4 * [MassLine(3, 909)])
        calls.report()


# Of 8 bits each, that do not sum to 100; 356 is 100 in 8 bits.
UNFIT_WEIGHTS = ((0, 0), (50, 49), (49, 50), (50, 51), (101, 0), (0, 101), (100, 100),
                 (255, 101), (101, 255), (206, 150), (LAST_U8, 0), (0, LAST_U8),
                 (LAST_U8, LAST_U8))


def margins_limits(calls: Calls):
    """2 of either margin, whatever its weight, then 15; a refused entry leaves the old one."""
    for number, side in enumerate(SIDES):
        calls.source(number, side, COMBINED, measured(0), whole(1_000_000_003))
    calls.grid(Margins(5, 7, 50, 51))
    calls.report()
    for margin in (0, *around(FACTOR_LIMIT, LAST_U32)):
        for pair in ((margin, 5), (5, margin)):
            calls.grid(Margins(*pair, 49, 51))
            calls.report()
    for pair, weights in product(((FACTOR_LIMIT + 1, 5), (5, FACTOR_LIMIT + 1)),
                                 ((0, 100), (100, 0), (100, 1), (0, 0))):
        calls.grid(Margins(*pair, *weights))
    for number, weights in enumerate(UNFIT_WEIGHTS):
        calls.grid(Margins(number, FACTOR_LIMIT, *weights))
    calls.report()
    for first in (0, 1, 50, 99, 100):
        calls.grid(Margins(FACTOR_LIMIT, FACTOR_LIMIT - 1, first, 100 - first))
        calls.report()
    for stated in (3, FACTOR_LIMIT + 1):
        calls.grid(stated)
        calls.report()


def source_limits(calls: Calls):
    calls.grid(1_000_000)  # 1 g a Wh, so that each report shows U
    calls.plant(0, 3, 1_000, LINE)
    for number in around(31, LAST_U8):
        calls.source(number, 'leakage', CAPTIVE_DEFAULT, NONE, whole(1))
    calls.report()
    for supply, site in product((captive, either), around(3, LAST_U8)):
        report_accepted(calls, calls.source(
            2, 'project', supply(site), NONE if supply is captive else DEFAULT20, whole(1)))
    for loss in (0, 1, *around(5_000, LAST_U16)):
        for number, side in ((2, 'project'), (6, 'baseline')):
            calls.source(number, side, COMBINED, measured(loss), whole(9_999))
        calls.report()
    for last in (0, 1, *around(LIMIT, LAST_U64)):
        calls.source(3, 'baseline', COMBINED, measured(0), whole(last))
        calls.source(4, 'project', COMBINED, measured(5_000), whole(LIMIT, first=last))
        calls.report()
    for side, last in zip(SIDES, (4, 5, 6)):
        calls.source(5, side, COMBINED, measured(0), whole(last), whole(5, sign='-'))
        calls.source(5, side, COMBINED, measured(0), whole(LIMIT), whole(last), whole(5, 0, '-'))
    calls.report()


def counts(calls: Calls):
    """Places beyond the count hold what would be refused."""
    calls.grid(1_000_000)
    for count in (0, 1, 2, 3, 4, 5, 128, LAST_U8):
        calls.plant(7, 3, 1_000, *count % 5 * [EnergyLine(500_000, 1, 1)], count=count)
        calls.plant(6, 3, 1_000, *ONE_OF_EACH, LINE, count=count)
        calls.source(31, 'project', captive(3), NONE, *count % 5 * [whole(7)], count=count)
        calls.source(30, 'baseline', COMBINED, measured(0), *4 * [whole(9)], count=count)
        calls.report()


def registers(calls: Calls):
    """As last and as first reading, of + and of - meters; 1 g a Wh."""
    calls.grid(1_000_000)
    for at, register in enumerate((0, 0x80000000, 1, 0x80000001, 0x3A83126F, 0x42F6E979,
                                   LAST_REGISTER, LAST_REGISTER + 1, 0x7F800000, 0x7FC00000)):
        for meters in ([Meter('single', '+', 0, register)],
                       [Meter('single', '-', register, LAST_REGISTER), whole(LIMIT)]):
            report_accepted(calls, calls.source(0, SIDES[at % 3], COMBINED, measured(0), *meters))


def ratios_of_meters(calls: Calls):
    """In range and out of it at each place, and out of it beyond the count; then what the
    products are limited to, and readings that are no whole Wh, on each side and of each sign;
    1 g a Wh."""
    calls.grid(1_000_000)
    for place in range(4):
        for ratio in (0, RATIO_LIMIT + 1, (32_768, LAST_U16)[place % 2],
                      (1, 2, RATIO_LIMIT - 1, RATIO_LIMIT)[place]):
            meters = [whole(7, ratio=2 + at) for at in range(4)]
            meters[place] = whole(9, 3, ratio=ratio)
            report_accepted(calls, calls.source(0, 'project', COMBINED, measured(0), *meters))
        meters[place] = NO_METERS[place % 3]
        report_accepted(calls, calls.source(0, 'project', COMBINED, measured(0), *meters,
                                            count=place))
    for ratio, off in product((2, 9_697, RATIO_LIMIT), (-1, 0, 1)):
        count, register = LIMIT // ratio + off, last_register(ratio) + off
        for at, meter in enumerate((whole(count, ratio=ratio),
                                    Meter('single', '+', 0, register, ratio))):
            report_accepted(calls, calls.source(0, SIDES[(at + ratio) % 3], COMBINED, measured(0),
                                                meter))
    for side, sign, ratio in product(SIDES, SIGNS, (40, RATIO_LIMIT)):
        calls.source(0, side, COMBINED, measured(0), whole(2_000_000_000, ratio=3),
                     Meter('single', sign, 0x42F6E979, 0x42F6E97A, ratio))
        calls.report()


def refused_by_ratio(calls: Calls):
    """Each refusal that a ratio other than 1 has a part in, and 2 before 3."""
    for meters in ([whole(5, ratio=0), Meter('single', '+', 0, 0x7FC00000)],
                   [whole(2**64 // 40 + 1, ratio=40)], [whole(4, 5, ratio=40)],
                   [Meter('single', '+', 0x42F6E97A, 0x42F6E979, 40)],
                   [Meter('single', '+', 0x42F6E979, 0x42F6E979, 40)]):
        calls.source(0, 'baseline', COMBINED, measured(0), *meters)


# 2. Heat


def heat_limits(calls: Calls):
    """Round J of several rows of lines, of which some burn nothing or make no CO2, to the last
    numbers of the type."""
    for number, side in enumerate(('baseline', 'project')):
        calls.source(number, side, captive(0), NONE, whole(1_000_000_000))
    calls.plant(0, 0, 1_000)
    for row in ((BENCH_LINE,), (LINE, EnergyLine(0, 9, 9), EnergyLine(1, 1, 0)), (),
                (EnergyLine(50_000, 100_000, 1_000),), (EnergyLine(99_999, 1, 1_001), LINE),
                4 * (LARGEST_LINES[0],)):
        energy = Plant(0, 0, row).fuel_energy
        for kilojoules in sorted({0, 1, max(energy - 1, 0), energy, energy + 1, 2**32 + energy,
                                  LAST_U64}):
            report_accepted(calls, calls.plant(0, 0, 100_000_000, *row, heat=kilojoules))
    for kilojoules in (LARGEST, 2**63, 2**63 + energy, LAST_U64 - energy):
        calls.plant(0, 0, 100_000_000, *row, heat=kilojoules)
    for kilojoules in (LAST_U32, 2**32):
        calls.plant(0, 0, 100_000_000, EnergyLine(50_000, 100_000, 1_000), heat=kilojoules)
        calls.report()


def heat_beside_carbon(calls: Calls):
    """A carbon line at each place, two of them unburnt, with heat of 0, within J and above it;
    beyond the count a line is neither fuel nor carbon."""
    for number, side in enumerate(('baseline', 'project')):
        calls.source(number, side, captive(0), NONE, whole(1_000_000_000))
    for place, carbon in enumerate((*ONE_OF_EACH[1:], MassLine(0, 0), VolumeLine(0, 0, 0))):
        row = [milligrams(1_000_000) for _ in range(4)]
        row[place] = carbon
        for kilojoules in (0, 1, 3_000_000, 3_000_001, LAST_U64):
            report_accepted(calls, calls.plant(0, 0, 1_000, *row, heat=kilojoules))
        for kilojoules in (place * 1_000_000, place * 1_000_000 + 1):
            report_accepted(calls, calls.plant(0, 0, 1_000, *row, heat=kilojoules, count=place))


def steps_of_heat(calls: Calls):
    """What is left is round whole factors, of one plant and of two; then two beside one without
    heat, and one more whose A is another."""
    for number, side in enumerate(SIDES):
        calls.source(number, side, captive(0), NONE, whole(1_000_000_000))
    for content, quantity, more in product((7, 1_001, 74_093), (1_000, 999), (-1, 0, 1)):
        kilojoules = quantity * 149_999 - 1_000_000 // content - more
        calls.plant(0, 0, 1_000, EnergyLine(quantity, 149_999, content), heat=kilojoules)
        calls.report()
    for number, kilojoules in enumerate((1_001, 999)):  # 499.5 mg are left, and 500.5
        calls.plant(number, 0, 500, EnergyLine(2_000, 1, 500), heat=kilojoules)
    calls.report()
    half_left = (EnergyLine(10**8, 5_000, 1), EnergyLine(10**8, 5_000, 2))
    calls.plant(2, 0, 200, MassLine(1, 10_000))
    for heats in ((0, 0), (0, 1), (1, 0), (1, 500_000_000), (500_000_000, 1)):
        for number, (kilojoules, lines) in enumerate(zip(heats, (half_left[:1], half_left))):
            calls.plant(number, 0, 500, *lines, heat=kilojoules)
        calls.report()
    calls.plant(3, 0, 300, half_left[1], heat=1)
    calls.report()


def largest_heat(calls: Calls):
    """A sixtieth of the largest plant is left, then nearly all of it; of another one so much
    that the sum would be within the factor's limit, were the first product taken for one below
    0."""
    largest = 4 * [LARGEST_LINES[0]]
    calls.source(0, 'baseline', captive(0), NONE, whole(1_000_000))
    for number, kilojoules in ((0, 59 * 10**12), (0, 1), (1, 27_500_000_000_000)):
        calls.plant(number, 0, 100_000_000, *largest, heat=kilojoules)
        calls.report()


def named_with_heat(calls: Calls):
    """By each side and supply, beside a grid below, between and above the site's factors."""
    calls.plant(5, 2, 1_000, BENCH_LINE, heat=21_500_000)
    for supply, loss in ((captive(2), NONE), (either(2), measured(500)), (CAPTIVE_DEFAULT, NONE)):
        for number, side in enumerate(SIDES):
            calls.source(number, side, supply, loss, whole(1_000_003))
        for margin in (1, 1_593_150, 2_000_000, 3_186_301):
            calls.grid(margin)
            calls.report()


# 3. Factors, losses and reports


def means(calls: Calls):
    """Round captive factors of 7 and of 7.5 mg/kWh; 1,000 g a mg/kWh."""
    for number, (side, supply) in enumerate(product(SIDES, (COMBINED, either(0), either(1)))):
        calls.source(number, side, supply, measured(0), whole(1_000_000_000))
    calls.plant(0, 0, 1_000, milligrams(7_000))
    calls.plant(1, 1, 1_000, milligrams(7_500))
    halves = ((5, 6), (6, 7), (7, 6), (7, 8), (8, 8), (9, 8))
    for pair, first in (*((pair, 50) for pair in halves),
                        *product(((6, 7), (7, 8)), (1, 99))):
        calls.grid(Margins(*pair, first, 100 - first))
        calls.report()


def marks_of_margins(calls: Calls):
    """griddefault takes the mark of margins, and none of their figures."""
    for side in SIDES:
        calls.source(0, side, GRID_DEFAULT, measured(0), whole(1_000_003))
        for mark in MARKS:
            calls.grid(Margins(5, 7, 33, 67), mark)
            calls.report()


def every_supply_and_loss(calls: Calls):
    """Beside a greater source of the other direction. Of the two sites one is above the
    combined margin and one below. Then those that do not go together."""
    calls.plant(3, 2, 1_001, BENCH_LINE)
    calls.plant(4, 1, 1_001, LINE)
    on_grid = (COMBINED, GRID_DEFAULT, either(2), either(1))
    losses = (measured(5_000), DEFAULT20, DEFAULT3)
    captives = (captive(2), CAPTIVE_DEFAULT)
    for number, side in zip((0, 15, 31), SIDES):
        calls.grid(400_001 + number, MARKS[number % 2])
        other = 'project' if side == 'baseline' else 'baseline'
        calls.source(31 - number, other, COMBINED, measured(1), whole(700_002))
        for supply, loss in (*product(on_grid, losses), *product(captives, [NONE])):
            calls.source(number, side, supply, loss, whole(700_001))
            calls.report()
        calls.drop_source(31 - number)
        calls.drop_source(number)
    for supply, loss in (*product(on_grid, [NONE]), *product(captives, losses)):
        calls.source(0, 'leakage', supply, loss, whole(700_001))


def generation_limits(calls: Calls):
    """9 and 10 at their limits; 10,000,000,000 mg is 10,000,000 mg/kWh. Sites that no source
    names are refused nowhere."""
    full = EnergyLine(100_000_000, 1_000, 100)
    calls.plant(2, 2, 1_000, full, full)
    calls.plant(3, 3, 999, full)
    calls.source(1, 'baseline', captive(0), NONE, whole(3))
    for generation, more in ((999, 0), (1_000, 0), (1_000, 1), (1_000, 999_999),
                             (1_000, 1_000_000), (1_001, 1_000_000)):
        calls.plant(0, 0, generation, full, EnergyLine(more, 1, 1))
        calls.source(0, 'project', captive(0), NONE, whole(3))
        calls.report()
        calls.drop_source(0)
        calls.report()
    calls.plant(0, 0, 500)
    calls.plant(1, 1, 500)
    calls.report()
    calls.plant(1, 0, 499)  # from site to site
    calls.report()
    calls.plant(7, 0, 1)
    calls.report()
    calls.drop_plant(7)
    calls.report()


def plants_without_generation(calls: Calls):
    """They count where another one generates, with heat and without."""
    for number, side in enumerate(SIDES):
        calls.source(number, side, captive(0), NONE, whole(1_000_000_000))
    calls.plant(0, 0, 0, milligrams(9_000), heat=4_000)
    calls.report()
    calls.plant(1, 0, 1_000)
    calls.report()
    calls.plant(2, 0, 0, milligrams(2_000))
    calls.report()


def alone_at_zero(calls: Calls):
    """Sums of 0: a default is open by who stands."""
    calls.plant(0, 0, 1_000)
    calls.grid(5, 'hydro')
    for side, (supply, loss) in product(SIDES, (
            (GRID_DEFAULT, measured(0)), (GRID_DEFAULT, DEFAULT20), (either(0), DEFAULT3))):
        for number, energy in ((3, 0), (2, 0), (2, 700_001)):
            calls.source(number, side, supply, loss, whole(energy))
            calls.report()


def comparisons(calls: Calls):
    """P against B and P' against B' one below, equal and one above, equal at 0 too, which is not
    that none stands; then beyond 32 bits."""
    calls.plant(0, 0, 1_000)
    for mark, supply, loss in (('thermal', COMBINED, DEFAULT20), ('hydro', COMBINED, DEFAULT3),
                               ('hydro', GRID_DEFAULT, measured(1)),
                               ('thermal', either(0), DEFAULT3), ('hydro', either(0), DEFAULT20)):
        calls.grid(700_001, mark)
        for energies in ((1_000, 999), (1_000, 1_000), (1_000, 1_001), (0, 0)):
            calls.source(0, 'leakage', supply, loss, whole(energies[0]))
            calls.source(1, 'baseline', GRID_DEFAULT, loss, whole(energies[1]))
            calls.report()
        calls.drop_source(0)
        calls.report()
    for (supply, loss), energies in product(
            ((GRID_DEFAULT, measured(1)), (either(0), DEFAULT20)), ((2**32, 1), (1, 2**32))):
        calls.source(0, 'leakage', supply, loss, whole(energies[0]))
        calls.source(1, 'baseline', GRID_DEFAULT, loss, whole(energies[1]))
        calls.report()


def sums_of_all_sources(calls: Calls):
    """P = B and P' = B' of 32 sources, each of which the sums need."""
    calls.grid(700_001)
    for number in range(31):
        calls.source(number, ('project', 'leakage')[number // 2 % 2] if number % 2 else 'baseline',
                     COMBINED, measured(1), whole(1_000 + number // 2))
    calls.source(31, 'leakage', GRID_DEFAULT, measured(1), whole(1_015))
    calls.report()
    calls.source(31, 'leakage', COMBINED, DEFAULT3, whole(1_015))
    calls.report()


def either_both_ways(calls: Calls):
    """Captive below, at and above the combined margin, and between it and the next:
    3 mg over 1,000 kWh is 1 up and 0 down."""
    for number, side in enumerate(SIDES):
        calls.source(number, side, either(0), measured(0), whole(1_000_000))
    for line, margins in ((milligrams(7_000), (6, 7, 8)), (EnergyLine(3_000, 1, 1), (0, 1, 2))):
        calls.plant(0, 0, 1_000, line)
        for margin in margins:
            calls.grid(margin)
            calls.report()


def largest_report(calls: Calls):
    """32 sources at every limit; 32 fuel lines of each kind first above the factor's limit,
    then at it, with a combined margin that either takes for baseline alone."""
    calls.grid(9_999_999)
    for number in range(32):
        supply, loss = ((COMBINED, measured(5_000)), (either(3), measured(5_000)),
                        (captive(3), NONE))[number % 3]
        calls.source(number, 'project', supply, loss, whole(LIMIT))
    for line in (*LARGEST_LINES, *LARGEST_FACTORS):
        for number in range(8):
            calls.plant(number, 3, 100_000_000, *4 * [line])
        calls.report()
    for number in range(32):
        calls.source(number, 'baseline', either(3), measured(5_000), *2 * [whole(LIMIT // 2)])
    calls.report()


# 4. The order of the refusals, replacements and drops


def plant_precedence(calls: Calls):
    """Each set of defects: the first number of the set answers."""
    for defects, one in product(range(16), range(2)):
        has = [defects >> bit & 1 for bit in range(4)]
        row = [LINE, *has[2] * [MassLine(1, 1)], *has[1] * one * [EnergyLine(1, 0, 1)]]
        number, site = (7 + has[0], 3) if one else (7, 3 + has[0])
        calls.plant(number, site, 100_000_000 + has[1] * (1 - one), *row,
                    heat=(5, LAST_U64)[one] if has[3] else 1)


def source_precedence(calls: Calls):
    """None of the six defects, each, each two of them, and all: the first number answers. For 2
    it is the measured loss or the count, then the count or the loss, then a ratio."""
    for defects in ((), *combinations(range(6), 1), *combinations(range(6), 2), range(6)):
        one, two, three, four, five, six = (int(defect in defects) for defect in range(6))
        turn = sum(defects) % 3
        meters = [whole(1, sign='-' if six else '+')]
        meters += four * [Meter('single', '+', 0x3F800001, 0x3F800000)]
        meters += three * [Meter('single', '-', 0, 0x7FC00000)]
        unfit_count = (0, 5, LAST_U8)[turn]
        calls.source(31 + one, 'project', COMBINED, NONE if five else measured(5_000 + two),
                     *meters, count=unfit_count if two and five else None)
        calls.source(0, 'baseline', captive(3 + one), measured(5_000 + two) if five else NONE,
                     *meters, count=unfit_count if two and not five else None)
        unfit = two * [whole(5, 5, ratio=(0, RATIO_LIMIT + 1, LAST_U16)[turn])]
        calls.source(31 + one, 'leakage', COMBINED, NONE if five else measured(1), *meters, *unfit)


def report_precedence(calls: Calls):
    """Sources with several reasons to refuse, taken away one by one."""
    calls.source(9, 'project', either(0), DEFAULT3, whole(1_000))
    calls.source(20, 'baseline', GRID_DEFAULT, DEFAULT20, whole(1_000))
    calls.source(5, 'leakage', GRID_DEFAULT, DEFAULT3, whole(1_000))
    for mend in (lambda: calls.grid(1, 'hydro'), lambda: calls.drop_source(5),
                 lambda: calls.plant(0, 0, 999, EnergyLine(100_000_000, 1_000, 101)),
                 lambda: calls.plant(1, 0, 1), lambda: calls.plant(0, 0, 1_000),
                 lambda: calls.source(21, 'baseline', COMBINED, measured(0), whole(1)),
                 lambda: calls.drop_source(20),
                 lambda: calls.source(22, 'baseline', COMBINED, measured(0), whole(999)),
                 lambda: calls.source(22, 'baseline', COMBINED, measured(0), whole(1_000))):
        calls.report()
        mend()
    calls.report()


def replacements(calls: Calls):
    """A refused entry leaves the one that stands, an accepted one takes its place."""
    calls.grid(1_000_000)
    calls.plant(0, 0, 1_000, BENCH_LINE)
    for number, side, loss, meter in (
            (0, 'project', measured(0), whole(LIMIT + 1)), (0, 'leakage', measured(0), whole(4, 5)),
            (31, 'baseline', NONE, whole(1)), (31, 'project', measured(0), whole(1, sign='-'))):
        calls.source(number, side, COMBINED, measured(0), whole(1_000_001 + number))
        calls.report()
        calls.source(number, side, COMBINED, loss, meter)  # 3, 4, 5 and 6
        calls.report()
        calls.source(number, side, captive(0), NONE, whole(2_000_001 + number))
        calls.report()
    calls.grid(FACTOR_LIMIT + 1)
    for refused, kilojoules in ((NO_LINES[0], 0), (MassLine(1, 1), 1), (BENCH_LINE, 43_000_001)):
        calls.plant(0, 0, 7_000, refused, heat=kilojoules)  # 2, 16 and 17
        calls.report()
    calls.grid(0, 'hydro')
    calls.plant(0, 0, 7_000)
    calls.report()


def drops(calls: Calls):
    """Plants and sources are numbered apart; each of them has a part in the report."""
    for number in range(8):
        calls.plant(number, number % 4, 1_000 + number, EnergyLine(10_007 + number, 1_009, 1_013))
    for number in range(32):
        calls.source(number, SIDES[number % 3], captive(number % 4), NONE,
                     whole(1_000_003 * (number + 1)))
    calls.report()
    for number in (0, 7, 8, 31, 32, 128, LAST_U8):
        for _ in range(2):
            calls.drop_plant(number)
            calls.drop_source(number)
        calls.report()
    calls.new()
    calls.drop_plant(0)
    calls.drop_source(0)
    calls.report()


# 5. Damaged records

# Each figure of each kind one above its limit, and V below its own
DAMAGED_LINES = (*(with_figure(line, at, limit + 1)
                   for line, limits in zip(ONE_OF_EACH, FUEL_LIMITS.values())
                   for at, limit in enumerate(limits)), EnergyLine(1, 0, 1))
DAMAGED_PLANTS = ((4, 1_000), (LAST_U8, 1_000), (0, 100_000_001), (0, LAST_U32),
                  *((0, 1_000, *at % 4 * [LINE], line) for at, line in enumerate(DAMAGED_LINES)))
DAMAGED_SOURCES = (
    (captive(4), NONE, 1), (either(LAST_U8), DEFAULT20, 1), (COMBINED, measured(5_001), 1),
    (either(0), measured(LAST_U16), 1), (GRID_DEFAULT, DEFAULT3, LIMIT + 1),
    (CAPTIVE_DEFAULT, NONE, LAST_U64), (COMBINED, NONE, 1), (GRID_DEFAULT, NONE, 1),
    (either(0), NONE, 1), (captive(0), measured(0), 1), (captive(0), DEFAULT3, 1), (CAPTIVE_DEFAULT, DEFAULT20, 1))


def damaged_plants(calls: Calls):
    """Each figure beyond its limit. Nothing in a record that does not stand, or in
    lines beyond the count, is damage."""
    calls.source(4, 'project', captive(0), NONE, whole(5))
    for number, damage in enumerate(DAMAGED_PLANTS):
        calls.store_plant(number % 8, *damage)
        if number % 3 == 0:
            calls.drop_plant(number % 8)
        else:
            calls.plant(number % 8, 0, 1_000)
        calls.store_plant(7 - number % 8, *damage, stands=False)
    for count in (0, 1, 4, 5, 200, LAST_U8):
        calls.store_plant(5, 0, 1_000, *ONE_OF_EACH, LINE, count=count)
    calls.store_plant(5, 0, 1_000, count=1)
    calls.store_plant(5, 0, 1_000, count=0)
    calls.store_plant(5, 0, 1_000, count=1)
    calls.new()
    calls.report()


def damaged_heats(calls: Calls):
    """Heat above J, and heat beside a carbon line, in a record that stands, at each place and
    whoever names the site; what stands beyond the count is neither fuel nor carbon."""
    for number, side in enumerate(SIDES):
        calls.source(number, side, captive(number), NONE, whole(5_000_000))
    for site in range(3):
        calls.plant(site, site, 1_000, BENCH_LINE, heat=site)
    rows = ((BENCH_LINE,), (LINE, BENCH_LINE), (LINE, MassLine(1, 1)), (VolumeLine(0, 0, 0),), (),
            (EnergyLine(0, 1, 1), LINE, LINE), 4 * (LARGEST_LINES[0],))
    for at, row in enumerate(rows):
        number, place, energy = 3 + at % 5, (at % 4, 70_000_000), Plant(0, 0, row).fuel_energy
        calls.store_plant(number, *place, *row, heat=energy)
        calls.store_plant(number, *place, *row, heat=2**32 + energy)
        calls.store_plant(number, *place, *row, heat=energy + 1, stands=False)
        calls.store_plant(number, *place, *row, heat=energy + 1)
        calls.plant(number, *place, *row, heat=LAST_U64)  # refused, so it mends nothing
        calls.report()
        calls.drop_plant(number)
    calls.report()
    for count in range(6):
        calls.store_plant(7, 0, 1_000, LINE, LINE, MassLine(1, 1), LINE, heat=2, count=count)
    calls.plant(7, 0, 1_000, LINE, LINE, heat=2)
    calls.report()


def damaged_sources(calls: Calls):
    """The same of sources, at each number, and of a loss that does not go with the supply; mended
    by a drop, by an entry, or where the record stands no more."""
    for number in range(32):
        side, damage = SIDES[number % 3], DAMAGED_SOURCES[number % len(DAMAGED_SOURCES)]
        calls.store_source(number, side, *damage)
        if number < 3:
            calls.source(number, side, COMBINED, NONE, whole(1))  # refused, so it mends nothing
            calls.report()
        if number % 3 == 0:
            calls.drop_source(number)
        elif number % 3 == 1:
            calls.source(number, side, CAPTIVE_DEFAULT, NONE, whole(number))
        else:
            calls.store_source(number, side, *damage, stands=False)
    calls.store_source(9, 'leakage', CAPTIVE_DEFAULT, NONE, LIMIT)


def damaged_grids(calls: Calls):
    """A record that no entry leaves: an entry that would be refused, or one of the two
    roundings another than the entry's."""
    calls.source(0, 'project', COMBINED, measured(0), whole(1_000_000_000))
    calls.source(1, 'baseline', COMBINED, measured(0), whole(1_000_000_000))
    for margin in around(FACTOR_LIMIT, LAST_U32):
        calls.store_grid(margin, 'hydro')
    calls.grid(LAST_U32)  # refused, so it mends nothing
    calls.report()
    calls.grid(1)
    calls.report()
    more_or_less = ((0, 0), (1, 0), (0, 1), (-1, 0), (0, -1), (-1, 1), (1, 1), (LAST_U32, 0),
                    (0, LAST_U32))
    for entered, more in product((7, Margins(6, 7, 50, 50)), more_or_less):
        calls.store_grid(entered, 'thermal', *more)
    for entered, more in product((FACTOR_LIMIT, Margins(6, 8, 50, 50), Margins(6, 7, 40, 60),
                                  Margins(FACTOR_LIMIT, FACTOR_LIMIT - 1, 1, 99),
                                  Margins(FACTOR_LIMIT, 0, 0, 100)), more_or_less[:3]):
        calls.store_grid(entered, 'thermal', *more)
    for weights in UNFIT_WEIGHTS:
        calls.store_grid(Margins(6, 7, *weights))
    calls.grid(Margins(6, 7, *UNFIT_WEIGHTS[0]))
    calls.report()
    calls.grid(Margins(6, 7, 49, 51), 'hydro')
    calls.report()
    for pair, weights in product(((FACTOR_LIMIT + 1, 5), (LAST_U32, 5)), ((0, 100), (1, 99))):
        calls.store_grid(Margins(*pair, *weights))
        calls.store_grid(Margins(*pair[::-1], *weights[::-1]))
    calls.grid(Margins(6, 7, 1, 99))
    calls.report()


# 6. All lists

LISTS = (listing, grid_and_plant_limits, fuel_limits, parts_of_milligrams, unread_figures,
         margins_limits, source_limits, counts, registers, ratios_of_meters, refused_by_ratio,
         heat_limits, heat_beside_carbon, steps_of_heat, largest_heat, named_with_heat, means,
         marks_of_margins, every_supply_and_loss, generation_limits, plants_without_generation,
         alone_at_zero, comparisons, sums_of_all_sources, either_both_ways, largest_report,
         plant_precedence, source_precedence, report_precedence, replacements, drops,
         damaged_plants, damaged_heats, damaged_sources, damaged_grids)


class NotMet(Exception):
    """Something that the lists are for does not come up in them."""


def check_met(calls: Calls):
    met = {'every refusal of 1 to 12 and 15 to 17 is met':
               set(calls.refusals) == {*range(1, 13), 15, 16, 17},
           'every kind of source is reported': len(calls.kinds) == SOURCE_KINDS,
           'every kind of source by a mean is reported': len(calls.means) == SOURCE_MEANS,
           'every kind of fuel line decides a factor up and down':
               len(calls.lines) == DECIDING_LINES,
           'sites are refused that no source names, or names the other way':
               calls.aside == REFUSED_ASIDE,
           'every case of ratios is met': calls.ratios == set(RATIO_CASES),
           'readings by a ratio are no whole Wh on each side and of each sign':
               len(calls.fractions) == FRACTIONS_BY_RATIO,
           'every case of heat is met': calls.heats == set(HEAT_CASES),
           'every kind of source names a site with heat': len(calls.by_heat) == SOURCES_BY_HEAT,
           'every step of heat is shown by a factor': calls.steps == HEAT_STEPS,
           'heat above J and beside carbon is damage': calls.damaged_heats == {16, 17},
           'damage is met': calls.damages > 0,
           'a third of the reports is given': calls.given * 3 >= calls.reports}
    missing = [what for what, holds in met.items() if not holds]
    if missing:
        raise NotMet('not so: ' + '; '.join(missing))


def call_vectors() -> list[tuple[int, ...]]:
    """The fields of each call, in the order of the calls."""
    calls = Calls()
    for add_list in LISTS:
        calls.new()
        add_list(calls)
    check_met(calls)
    return calls.vectors
