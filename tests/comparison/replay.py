"""The answer of a reference to a vector, worked out from the vector's fields alone.

This is in Python what crates/vectors/src is in Rattle: it reads the fields as calls on the
reference. The reference is an argument, so that the same fields can go through the reference
and through a changed copy of it. vectors.py takes its answers from here; mutants.py answers
the vectors once more with each of its changed copies.
"""

from collections.abc import Callable, Iterable, Iterator
from fractions import Fraction
from types import ModuleType

from tests.comparison.generate import SUPPLIES
from tests.reference.reference import SIDES

QUOTIENT, FUEL_LINE, READING, SOURCE_METERS, CALL = range(5)
(NEW, GRID, PLANT, SOURCE, DROP_PLANT, DROP_SOURCE, REPORT,
 STORED_GRID, STORED_PLANT, STORED_SOURCE) = range(10)

LOSSES = ('none', 'loss', 'default20', 'default3')
MARKS = ('thermal', 'hydro')
KINDS = ('whole', 'single')
SIGNS = ('+', '-')

LAST_U64 = 2**64 - 1
MULTIPLY_DIVIDE = 2  # and the operation after it; those before divide alone
PLACES = 4  # of fuel lines and of meters

DAMAGED = 'damaged'


# 1. Fields


def groups_of(size: int, fields: tuple[int, ...]) -> list[tuple[int, ...]]:
    return [fields[at:at + size] for at in range(0, PLACES * size, size)]


def counted(items: list, count: int) -> list:
    """The first `count` of four; of a larger count the last one is there several times."""
    return (items + max(count - PLACES, 0) * items[-1:])[:count]


def fuel_line(rules: ModuleType, kind: int, quantity: int, second: int, third: int):
    """The last figure of a line by mass is not read."""
    if kind == 1:
        return rules.MassLine(quantity, second)
    return (rules.VolumeLine if kind else rules.EnergyLine)(quantity, second, third)


def meters_of(rules: ModuleType, count: int, fields: tuple[int, ...]) -> list:
    return counted([rules.Meter(KINDS[kind], SIGNS[sign], first, last, ratio)
                    for ratio, sign, kind, first, last in groups_of(5, fields)], count)


def plant_of(rules: ModuleType, fields: tuple[int, ...]):
    site, generation, heat, count, *lines = fields
    return rules.Plant(site, generation, counted(
        [fuel_line(rules, *line) for line in groups_of(4, lines)], count), heat)


def grid_entry(rules: ModuleType, fields: tuple[int, ...]) -> tuple:
    """The stated factor or the margins, and the mark."""
    by_margins, *figures, mark = fields
    return rules.Margins(*figures) if by_margins else figures[0], MARKS[mark]


def source_of(rules: ModuleType, fields: tuple[int, ...], meters: list):
    """A site or a loss that the source has none of is not read."""
    side, supply, site, loss, measured = fields
    supply_name, loss_name = SUPPLIES[supply], LOSSES[loss]
    return rules.Source(
        SIDES[side],
        rules.Supply(supply_name, site if supply_name in rules.SITE_SUPPLIES else None),
        rules.Loss(loss_name, measured if loss_name == 'loss' else None), meters)


# 2. Vectors that stand alone


def quotient(rules: ModuleType, operation: int, a: int, b: int, d: int) -> str:
    if d == 0:  # by 0 the crate answers 0
        return '0'
    exact = Fraction(a if operation < MULTIPLY_DIVIDE else a * b, d)
    whole = rules.rounded(exact, operation % 2 == 0)
    return str(whole) if whole <= LAST_U64 else 'too large'


def milligrams(rules: ModuleType, direction: int, *fields: int) -> str:
    line = fuel_line(rules, *fields)
    if rules.fuel_refused(line):
        return 'refused 2'
    return str(rules.fuel_milligrams(line, direction == 0))


def reading(rules: ModuleType, ratio: int, kind: int, value: int) -> str:
    down, up = (rules.reading_watt_hours(KINDS[kind], value, ratio, up) for up in (False, True))
    if isinstance(down, rules.Refused):
        return f'refused {down.number}'
    return f'{down} {up}'


def source_energy(rules: ModuleType, direction: int, count: int, *fields: int) -> str:
    side = 'baseline' if direction else 'project'
    judged = rules.judge_meters(side, meters_of(rules, count, fields))
    if isinstance(judged, int):
        return f'refused {judged}'
    adds, takes = judged
    return 'refused 6' if rules.energy_refused(adds, takes) else str(adds - takes)


ALONE = {QUOTIENT: quotient, FUEL_LINE: milligrams, READING: reading,
         SOURCE_METERS: source_energy}


# 3. Calls on the ledger


def grid_damaged(rules: ModuleType, entered, refusal: int | None, up: int, down: int) -> bool:
    """A grid record holds its entry, and the combined margin rounded up and down."""
    exact = rules.exact_combined_margin(entered)
    kept = [rules.rounded(exact, way) for way in (True, False)]
    return refusal is not rules.OK or [up, down] != kept


class Box:
    """The ledger that the calls so far left, and which of its records are damaged.

    A stored record stands as if entered. Where an entry would be refused it is
    damaged, and so is the ledger until an entry or a drop takes its place."""

    def __init__(self, rules: ModuleType):
        self.rules = rules
        self.new()

    def new(self, *unread: int):
        self.ledger = self.rules.Ledger()
        self.damaged = set()
        return self.rules.OK

    def entered(self, place: tuple, answer):
        if answer is self.rules.OK:
            self.damaged.discard(place)
        return answer

    def grid(self, *fields: int):
        return self.entered(('grid',), self.ledger.enter_grid(*grid_entry(self.rules, fields[:6])))

    def plant(self, number: int, *fields: int):
        plant = plant_of(self.rules, fields[:20])
        return self.entered(('plant', number), self.ledger.enter_plant(number, plant))

    def source(self, number: int, *fields: int):
        meters = meters_of(self.rules, fields[5], fields[6:])
        source = source_of(self.rules, fields[:5], meters)
        return self.entered(('source', number), self.ledger.enter_source(number, source))

    def drop_plant(self, number: int, *unread: int):
        return self.entered(('plant', number), self.ledger.drop_plant(number))

    def drop_source(self, number: int, *unread: int):
        return self.entered(('source', number), self.ledger.drop_source(number))

    def report(self, *unread: int):
        return DAMAGED if self.damaged else self.rules.report(self.ledger)

    # Records stored as no call does, each with a report after it

    def mark(self, place: tuple, is_damaged: bool):
        self.damaged.discard(place)
        if is_damaged:
            self.damaged.add(place)

    def stored_grid(self, *fields: int):
        entered, mark = grid_entry(self.rules, fields[:6])
        refusal = self.ledger.enter_grid(entered, mark)
        self.mark(('grid',), grid_damaged(self.rules, entered, refusal, *fields[6:8]))
        return self.report()

    def stored_plant(self, number: int, *fields: int):
        plant, stands = plant_of(self.rules, fields[:20]), fields[20]
        return self.stored(('plant', number), self.ledger.plants, plant, stands,
                           self.ledger.enter_plant)

    def stored_source(self, number: int, *fields: int):
        """Of so much energy, which one meter counts."""
        stands, energy = fields[5:7]
        source = source_of(self.rules, fields[:5],
                           [self.rules.Meter('whole', '+', 0, energy, 1)])
        return self.stored(('source', number), self.ledger.sources, source, stands,
                           self.ledger.enter_source)

    def stored(self, place: tuple, records: dict, record, stands: int, enter: Callable):
        """Nothing in a record that does not stand is damage."""
        _, number = place
        if stands:
            self.mark(place, enter(number, record) is not self.rules.OK)
            records[number] = record
        else:
            self.mark(place, False)
            records.pop(number, None)
        return self.report()

    def call(self, operation: int, *arguments: int):
        operations = {NEW: self.new, GRID: self.grid, PLANT: self.plant, SOURCE: self.source,
                      DROP_PLANT: self.drop_plant, DROP_SOURCE: self.drop_source,
                      REPORT: self.report, STORED_GRID: self.stored_grid,
                      STORED_PLANT: self.stored_plant, STORED_SOURCE: self.stored_source}
        return operations[operation](*arguments)


def answer_text(rules: ModuleType, answer) -> str:
    return answer if answer == DAMAGED else rules.answer_text(answer).removesuffix('\n')


# 4. Vectors one after the other


def answers(rules: ModuleType, vectors: Iterable[tuple[int, ...]]) -> Iterator[str]:
    """The answer to each vector, given with its kind; calls go on from the calls before."""
    box = Box(rules)
    for kind, *fields in vectors:
        if kind == CALL:
            yield answer_text(rules, box.call(*fields))
        else:
            yield ALONE[kind](rules, *fields)
