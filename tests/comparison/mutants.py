"""Small wrong versions of the rules, each of which the kept vectors must find.

    python3 -m tests.comparison.mutants           by the vectors in crates/vectors
    python3 -m tests.comparison.mutants FOLDER    by the files stdin and stdout of a folder

A mutant is the reference, or what replay.py adds to it, with one change: an operator, a
number, a word, a direction, a rounding, a condition, the order of two refusals, a place that
is left out, a number that is cut to fewer bits. Its answers to the kept vectors are worked out
from their fields; it is found where one of them differs, or where it raises or does not end.
So the vectors hold an input for every edge of the rules that such a change moves, and vectors
that are fewer and find the same mutants have lost no such edge.

Left out are the reference's parts 7 and 8, exact values and text, which decide no answer of a
vector. EQUIVALENT lists the mutants that no input can tell from the reference.

Prints what is not found, and last `N passed, M failed`.
"""

import ast
import multiprocessing
import os
import signal
import sys
from collections import Counter, deque
from collections.abc import Callable, Iterator
from itertools import combinations
from pathlib import Path
from types import ModuleType
from typing import NamedTuple

from tests.comparison import replay
from tests.reference import reference

ROOT = Path(__file__).resolve().parents[2]
SECONDS = 20  # for the answers of one mutant
PROCESSES = min(2, len(os.sched_getaffinity(0)))


class WrongTable(Exception):
    """A table of this module names what is not in the source."""


# 1. The kept vectors


class Piece(NamedTuple):
    """A vector, or a list of calls from a new ledger on, with the answers."""

    name: str
    vectors: list[tuple[int, ...]]
    answers: list[str]


def answers_in(text: str) -> Iterator[str]:
    """A report has four lines."""
    lines = deque(text.splitlines())
    while lines:
        yield '\n'.join(lines.popleft() for _ in range(4 if lines[0].startswith('project') else 1))


def pieces_in(folder: Path) -> list[Piece]:
    pieces = []
    answers = answers_in((folder / 'stdout').read_text())
    for number, line in enumerate((folder / 'stdin').read_text().splitlines(), 1):
        vector = tuple(int(field, 16) for field in line.split())
        if vector[0] != replay.CALL or vector[1] == replay.NEW:
            pieces.append(Piece(f'line {number}', [], []))
        pieces[-1].vectors.append(vector)
        pieces[-1].answers.append(next(answers))
    return pieces


def differs(answering: ModuleType, rules: ModuleType, piece: Piece) -> bool:
    return any(answer != due for answer, due
               in zip(answering.answers(rules, piece.vectors), piece.answers))


# 2. The source


class File(NamedTuple):
    """A source, and the rules in it by name: functions, numbers, words."""

    name: str
    lines: list[str]
    tree: ast.Module
    rules: list[tuple[str, ast.stmt]]


END_OF_RULES = '# 7. Exact values, and how near the report is to them'
NO_RULES = ('exact_energy', 'FuelLine')  # used by part 7 alone, or a type
REPLAYED = ('quotient', 'grid_damaged', 'entered', 'report', 'mark', 'stored')


def named_in(statements: list[ast.stmt]) -> Iterator[tuple[str, ast.stmt]]:
    """Functions and methods, and numbers and words that are given a name."""
    for statement in statements:
        if isinstance(statement, ast.ClassDef):
            yield from named_in([each for each in statement.body
                                 if isinstance(each, ast.FunctionDef)])
        elif isinstance(statement, ast.FunctionDef):
            yield statement.name, statement
        elif isinstance(statement, ast.Assign):
            yield ast.unparse(statement.targets[0]), statement


def file_of(module: ModuleType, is_rule: Callable[[str, int], bool]) -> File:
    """With the rules of which the name and the line are such."""
    path = Path(module.__file__)
    text = path.read_text()
    tree = ast.parse(text)
    return File(path.name, text.splitlines(), tree,
                [(name, rule) for name, rule in named_in(tree.body) if is_rule(name, rule.lineno)])


def end_of_rules() -> int:
    lines = Path(reference.__file__).read_text().splitlines()
    if END_OF_RULES not in lines:
        raise WrongTable(f'the reference has no line {END_OF_RULES!r}')
    return lines.index(END_OF_RULES) + 1


def files() -> list[File]:
    end = end_of_rules()
    rules = file_of(reference, lambda name, line: line < end and name not in NO_RULES)
    replayed = file_of(replay, lambda name, line: name in REPLAYED)
    if len(replayed.rules) != len(REPLAYED):
        raise WrongTable(f'{replayed.name} lacks one of {", ".join(REPLAYED)}')
    return [rules, replayed]


class Slot(NamedTuple):
    """Where a node of a tree is held."""

    parent: ast.AST
    field: str
    at: int | None  # in a list

    def put(self, node):
        if self.at is None:
            setattr(self.parent, self.field, node)
        else:
            getattr(self.parent, self.field)[self.at] = node


NOT_CHANGED = ('annotation', 'returns', 'decorator_list', 'ctx')


def slots_in(node: ast.AST, line: int = 0) -> Iterator[tuple[Slot, ast.AST, int]]:
    """Each node below, where it is held, and its line; docstrings and types left out."""
    for field, value in ast.iter_fields(node):
        for at, child in enumerate(value if isinstance(value, list) else [value]):
            is_text = isinstance(child, ast.Expr) and isinstance(child.value, ast.Constant)
            if isinstance(child, ast.AST) and field not in NOT_CHANGED and not is_text:
                below = getattr(child, 'lineno', line)
                yield Slot(node, field, at if isinstance(value, list) else None), child, below
                yield from slots_in(child, below)


# 3. What a node may be changed into

EXCHANGED = {
    ast.Lt: ast.LtE, ast.LtE: ast.Lt, ast.Gt: ast.GtE, ast.GtE: ast.Gt, ast.Eq: ast.NotEq,
    ast.NotEq: ast.Eq, ast.In: ast.NotIn, ast.NotIn: ast.In, ast.Is: ast.IsNot,
    ast.IsNot: ast.Is, ast.And: ast.Or, ast.Or: ast.And, ast.Add: ast.Sub, ast.Sub: ast.Add,
    ast.Mult: ast.FloorDiv, ast.Div: ast.Mult, ast.FloorDiv: ast.Mult, ast.Mod: ast.FloorDiv,
    ast.Pow: ast.Mult, ast.RShift: ast.LShift, ast.BitAnd: ast.BitOr}
# Names that one could take for each other; those after a point have it.
PAIRS = (('any', 'all'), ('min', 'max'), ('.ceil', '.floor'), ('first', 'last'),
         ('.first', '.last'), ('.exact_first', '.exact_last'), ('adds', 'takes'),
         ('project', 'baseline'), ('.project', '.baseline'),
         ('.project_sources', '.baseline_sources'), ('.operating', '.build'),
         ('.operating_weight', '.build_weight'), ('.plants', '.sources'),
         ('captive', 'combined'), ('.density', '.carbon'),
         ('.net_calorific_value', '.emission_factor'), ('E', 'T'), ('U', 'F'), ('J', 'A'))
OTHER_NAMES = {name: other for pair in PAIRS for name, other in (pair, pair[::-1])}
DIRECTIONS = ('up', 'last_up')
WORDS = (replay.SIDES, replay.SUPPLIES, replay.LOSSES, replay.MARKS, replay.KINDS, replay.SIGNS)
# What loops walk over, without one of its places.
PLACES = {
    'meters': (4, '[each for at, each in enumerate(meters) if at != {}]'),
    'plant.fuel_lines': (4, '[each for at, each in enumerate(plant.fuel_lines) if at != {}]'),
    'self.fuel_lines': (4, '[each for at, each in enumerate(self.fuel_lines) if at != {}]'),
    'ledger.plants.values()': (8, '[each for at, each in ledger.plants.items() if at != {}]'),
    'ledger.sources.values()': (32, '[each for at, each in ledger.sources.items() if at != {}]'),
    'sorted(ledger.sources)': (32, '[each for each in sorted(ledger.sources) if each != {}]')}


def expression(text: str) -> ast.expr:
    return ast.parse(text, mode='eval').body


def other_constants(value) -> list[ast.expr]:
    """A number's neighbours, the other truth, or the other words of its kind."""
    if isinstance(value, bool):
        return [ast.Constant(not value)]
    if isinstance(value, int):
        return [ast.Constant(value + 1), ast.Constant(value - 1)]
    return [ast.Constant(other) for words in WORDS if value in words
            for other in words if other != value]


def other_names(node: ast.Name | ast.Attribute) -> list[ast.expr]:
    if isinstance(node, ast.Attribute):
        other = OTHER_NAMES.get(f'.{node.attr}')
        return [ast.Attribute(node.value, other[1:], node.ctx)] if other else []
    changed = [ast.UnaryOp(ast.Not(), node)] if node.id in DIRECTIONS else []
    if node.id in OTHER_NAMES:
        changed.append(ast.Name(OTHER_NAMES[node.id], node.ctx))
    return changed


def other_calls(node: ast.Call) -> list[ast.expr]:
    """Each way of another rounding, of which those by a whole more are wrong at a whole number
    alone; a quotient, which is written as a Fraction of two; what is added up or sorted."""
    called, given = ast.unparse(node.func), [ast.unparse(each) for each in node.args]
    texts = []
    if called in ('rounded', 'rules.rounded'):
        value, up = given
        texts = [value, f'round({value})', f'int({value} // 1) + ({up})',
                 f'-int(-({value}) // 1) - (not {up})']
    elif called == 'Fraction' and len(given) == 2:
        texts = [f'Fraction(({given[0]}) * ({given[1]}))']
    elif called == 'rounds_up':
        texts = [f'not {ast.unparse(node)}']
    elif called == 'sum':
        texts = [f'max([*({given[0]})], default=0)']
    elif called == 'sorted':
        texts = [f'sorted({given[0]}, reverse=True)']
    return [expression(text) for text in texts]


def without_one(node: ast.BoolOp, at: int) -> ast.expr:
    """A condition of several without one of them."""
    rest = node.values[:at] + node.values[at + 1:]
    return ast.BoolOp(node.op, rest) if len(rest) > 1 else rest[0]


def other_statement(node: ast.stmt) -> list[ast.stmt]:
    """What stores, adds or takes away is left out."""
    if isinstance(node, ast.Assign) and isinstance(node.targets[0], ast.Name | ast.Tuple):
        return []
    left_out = isinstance(node, ast.Assign | ast.AugAssign | ast.Delete) or (
        isinstance(node, ast.Expr) and isinstance(node.value, ast.Call))
    return [ast.Pass()] if left_out else []


def by_type(node: ast.AST) -> list[ast.AST]:
    if type(node) in EXCHANGED:
        return [EXCHANGED[type(node)]()]
    if isinstance(node, ast.Constant):
        return other_constants(node.value)
    if isinstance(node, ast.Name | ast.Attribute) and isinstance(node.ctx, ast.Load):
        return other_names(node)
    if isinstance(node, ast.Call):
        return other_calls(node)
    if isinstance(node, ast.UnaryOp):
        return [node.operand]
    if isinstance(node, ast.Compare) and isinstance(node.ops[0], ast.Gt):  # 0 is refused too
        return [expression(f'{ast.unparse(node)} or {ast.unparse(node.left)} == 0')]
    if isinstance(node, ast.BoolOp):
        return [without_one(node, at) for at in range(len(node.values))]
    return other_statement(node) if isinstance(node, ast.stmt) else []


def by_place(slot: Slot, node: ast.AST) -> list[ast.AST]:
    """A condition always holds or never, a loop leaves out one of its places."""
    if slot.field in ('test', 'ifs'):
        return [ast.Constant(True), ast.Constant(False)]
    if slot.field == 'iter' and ast.unparse(node) in PLACES:
        count, without = PLACES[ast.unparse(node)]
        return [expression(without.format(place)) for place in range(count)]
    return []


def refuses(statement: ast.stmt) -> bool:
    """Whether it tests for a refusal: returns a number, or one that was found."""
    if isinstance(statement, ast.If):
        return refuses(statement.body[-1])
    if not isinstance(statement, ast.Return):
        return False
    value = statement.value
    return (isinstance(value, ast.Constant) and isinstance(value.value, int)
            or isinstance(value, ast.Name) and value.id in ('refusal', 'judged')
            or isinstance(value, ast.Call) and ast.unparse(value.func) == 'Refused')


# 4. Changes by hand: the function, an expression in it, and what it is changed into

WEIGHTS = 'entered.operating_weight + entered.build_weight'
MARGINS = 'entered.operating > FACTOR_LIMIT or entered.build > FACTOR_LIMIT'
MEAN = ('Fraction(entered.operating * entered.operating_weight'
        ' + entered.build * entered.build_weight, WEIGHT_SUM)')
CARBON = '1000 * CO2_OF_CARBON * grams * Fraction(line.carbon, 10000)'
IS_ENERGY = 'isinstance(line, EnergyLine)'
CONTENT = 'rounded(Fraction(milligrams * 1000, J), up)'
TOO_MUCH = 'len(plant.fuel_lines) > FUEL_LINE_LIMIT or plant.generation > GENERATION_LIMIT'
LEFT = 'rounded(Fraction((J - plant.heat) * A, 1000), up)'
NO_GENERATION = 'generation_at(ledger, site) < LEAST_GENERATION'
REFUSAL = 'figure_refused(ledger, ledger.sources[number])'
DAMAGED = 'enter(number, record) is not self.rules.OK'
STORE_PLANT = 'self.plants.update({number: plant})'

# A number that is cut to so many bits.
CUTS = (
    ('quotient', 'a * b', 64), ('reading_refused', 'read * ratio', 32),
    ('reading_refused', 'read * ratio', 64), ('exact_watt_hours', 'read * ratio', 32),
    ('energy_refused', 'adds - takes', 32), ('energy', 'adds - takes', 32),
    ('fuel_refused', 'line.carbon', 16), ('fuel_refused', 'line.density', 16),
    ('exact_fuel_milligrams',
     'line.quantity * line.net_calorific_value * line.emission_factor', 32),
    ('exact_fuel_milligrams', '1000 * CO2_OF_CARBON * grams', 32), ('margin_refused', WEIGHTS, 8),
    ('fuel_energy', 'line.quantity * line.net_calorific_value', 32),
    ('gives_heat', 'self.heat', 32), ('heat_refused', 'plant.heat', 32),
    ('heat_refused', 'plant.fuel_energy', 32), ('without_heat', 'plant.heat', 32),
    ('without_heat', 'milligrams * 1000', 32), ('without_heat', '(J - plant.heat) * A', 32),
    ('totals_over', 'sum(project)', 32), ('totals_over', 'sum(baseline)', 32),
    ('energy_with_losses', 'E * (10000 + T)', 32), ('source_grams', 'U * F', 32))
# What is rounded, limited or added up at another place.
OTHER_STEPS = (
    ('exact_watt_hours', 'read * ratio', 'rounded(read, False) * ratio'),
    ('exact_watt_hours', 'read * ratio', 'rounded(read, True) * ratio'),
    ('exact_watt_hours', 'read * ratio', "read * (ratio if kind == 'whole' else 1)"),
    ('exact_watt_hours', 'read * ratio', "read * (ratio if kind == 'single' else 1)"),
    ('reading_refused', 'read * ratio', 'read'),
    ('meter_sums', 'meter_readings(up, meter)',
     'meter_readings(up, meter._replace(ratio=meters[0].ratio))'),
    ('meter_sums', 'meter_readings(up, meter)',
     'meter_readings(up, meter._replace(ratio=meters[-1].ratio))'),
    ('exact_combined_margin', MEAN, 'Fraction(entered.operating * entered.operating_weight // 100'
     ' + entered.build * entered.build_weight // 100)'),
    ('margin_refused', 'entered.operating > FACTOR_LIMIT',
     'entered.operating > FACTOR_LIMIT and entered.operating_weight > 0'),
    ('margin_refused', 'entered.build > FACTOR_LIMIT',
     'entered.build > FACTOR_LIMIT and entered.build_weight > 0'),
    ('exact_fuel_milligrams', CARBON,
     '1000 * CO2_OF_CARBON * (grams * line.carbon // 10000)'),
    ('plant_milligrams', 'fuel_milligrams(line, up)', 'exact_fuel_milligrams(line)'),
    ('plants_at', 'plant.site == site', 'plant.site == site and plant.generation > 0'),
    ('gives_heat', 'self.heat > 0', 'self.heat > 0 and self.generation > 0'),
    ('fuel_energy', IS_ENERGY, f'{IS_ENERGY} and line.emission_factor > 0'),
    ('heat_refused', f'not {IS_ENERGY}', f'not {IS_ENERGY} and line.quantity > 0'),
    ('heat_refused', f'not {IS_ENERGY}', 'isinstance(line, MassLine)'),
    ('heat_refused', f'not {IS_ENERGY}', 'isinstance(line, VolumeLine)'),
    ('without_heat', CONTENT, 'rounded(Fraction(milligrams, J), up) * 1000'),
    ('without_heat', '(J - plant.heat) * A', '(J - plant.heat) // 1000 * 1000 * A'),
    ('without_heat', LEFT, 'milligrams - rounded(Fraction(plant.heat * A, 1000), up)'),
    ('without_heat', '(J - plant.heat) * A',
     '((J - plant.heat) * A + 2 ** 63) % 2 ** 64 - 2 ** 63'),
    ('site_refused', 'captive_factor(ledger, site, up)', 'captive_factor(ledger, site, True)'),
    ('site_refused', 'captive_factor(ledger, site, up)', 'captive_factor(ledger, site, False)'),
    ('transmission_loss', 'totals_over(ledger, GRID_SUPPLIES)',
     'totals_over(ledger, DEFAULT_SUPPLIES)'),
    ('grid_default_factor', 'totals_over(ledger, DEFAULT_SUPPLIES)',
     'totals_over(ledger, GRID_SUPPLIES)'),
    ('side_report', 'side_tonnes(grams, rounds_up(side))',
     'sum(side_tonnes(figures[number].grams, rounds_up(side)) for number in numbers)'),
    *(('report', REFUSAL, f'{REFUSAL} or ({number} if {number} in [site_refused(ledger, site, up)'
       ' for site in range(4) for up in (True, False) if plants_at(ledger, site)] else OK)')
      for number in (9, 10)))
# The later of two refusals is tested first.
OTHER_ORDERS = (
    ('margin_refused', MARGINS, f'({MARGINS}) and {WEIGHTS} == 100'),
    ('heat_refused', 'plant.gives_heat and beside_carbon',
     'plant.gives_heat and beside_carbon and plant.heat <= plant.fuel_energy'),
    ('site_refused', NO_GENERATION,
     f'{NO_GENERATION} and (generation_at(ledger, site) == 0'
     f' or captive_factor(ledger, site, up) <= FACTOR_LIMIT)'))
# What is refused with this number is stored all the same.
STORED_REFUSED = tuple(
    (function, text, f'(({text}), ({text}) == {number} and {store})[0]')
    for function, text, store, numbers in (
        ('enter_grid', 'margin_refused(entered)',
         "setattr(self, 'grid', Grid(entered, mark))", (2, 15)),
        ('enter_plant', TOO_MUCH, STORE_PLANT, (True,)),
        ('enter_plant', 'any((fuel_refused(line) for line in plant.fuel_lines))', STORE_PLANT,
         (True,)),
        ('enter_plant', 'heat_refused(plant)', STORE_PLANT, (16, 17)),
        ('enter_source', 'source_refused(number, source)',
         'self.sources.update({number: source})', range(1, 7))) for number in numbers)
# Plants of one site, and damage at one place, are overlooked.
OVERLOOKED = (
    *(('plants_at', 'plant.site == site', f'plant.site == site != {site}') for site in range(4)),
    *(('stored', DAMAGED, f"{DAMAGED} and place != ('{records}', {number})")
      for records, count in (('plant', 8), ('source', 32)) for number in range(count)))
BY_HAND = (*((function, text, f'({text}) % 2 ** {bits}') for function, text, bits in CUTS),
           *OTHER_STEPS, *OTHER_ORDERS, *STORED_REFUSED, *OVERLOOKED)


# 5. Mutants


class Mutant(NamedTuple):
    file: File
    function: str
    line: int
    change: str
    slot: Slot
    old: ast.AST | list
    new: ast.AST | list

    @property
    def text(self) -> str:
        """The line that the change is in."""
        return self.file.lines[self.line - 1].strip()

    @property
    def key(self) -> tuple[str, str, str]:
        return self.function, self.text, self.change


def shown(slot: Slot, node: ast.AST, new: ast.AST) -> str:
    """An operator with what it stands between, a number with its sign."""
    if isinstance(node, ast.expr | ast.stmt) and not isinstance(slot.parent, ast.UnaryOp):
        return f'{ast.unparse(node)} -> {ast.unparse(new)}'
    before = ast.unparse(slot.parent)
    slot.put(new)
    after = ast.unparse(slot.parent)
    slot.put(node)
    return f'{before} -> {after}'


def changed_nodes(file: File) -> Iterator[Mutant]:
    for name, rule in file.rules:
        for slot, node, line in slots_in(rule):
            for new in (*by_type(node), *by_place(slot, node)):
                yield Mutant(file, name, line, shown(slot, node, new), slot, node, new)


def moved_tests(file: File) -> Iterator[Mutant]:
    """Each test for a refusal is made after a later one of the same block."""
    for name, rule in file.rules:
        for node in ast.walk(rule):
            block = node.body if isinstance(node, ast.FunctionDef | ast.For | ast.If) else []
            tests = [at for at, each in enumerate(block)
                     if isinstance(each, ast.If) and refuses(each)]
            for at, later in combinations(tests, 2):
                moved = [*block[:at], *block[at + 1:later + 1], block[at], *block[later + 1:]]
                yield Mutant(file, name, block[at].lineno,
                             f'tested after {ast.unparse(block[later].test)}',
                             Slot(node, 'body', None), block, moved)


def changed_by_hand(file: File) -> Iterator[Mutant]:
    for name, rule in file.rules:
        for slot, node, line in slots_in(rule):
            for function, text, new in BY_HAND:
                if name == function and isinstance(node, ast.expr) and ast.unparse(node) == text:
                    yield Mutant(file, name, line, f'{text} -> {new}', slot, node, expression(new))


def all_mutants() -> list[Mutant]:
    """Of those that read alike the later ones say so."""
    mutants, seen = [], Counter()
    for file in files():
        for mutant in (*changed_nodes(file), *moved_tests(file), *changed_by_hand(file)):
            seen[mutant.key] += 1
            times = seen[mutant.key]
            mutants.append(mutant if times == 1
                           else mutant._replace(change=f'{mutant.change}, change {times}'))
    made = {(mutant.function, mutant.change) for mutant in mutants}
    for function, text, new in BY_HAND:
        if (function, f'{text} -> {new}') not in made:
            raise WrongTable(f'{function} has no {text}')
    return mutants


# 6. Mutants that no input can tell from the reference


class Same(NamedTuple):
    function: str
    text: str
    changes: tuple[str, ...]
    reason: str


def words_for(word: str) -> tuple[str, ...]:
    return tuple(f'{word!r} -> {other!r}' for other in replay.SUPPLIES if other != word)


NO_13 = ('32 sources of at most 150,000,000,000 Wh at 10,000,000 mg/kWh are 48,000,000,000,000 g,'
         ' so that 13 does not occur')
FOR_PART_7 = 'a report shows the grams of a figure; the others are for the exact values of part 7'
DOWN_ALONE = 'heat is taken off for a baseline, whose direction is down'

EQUIVALENT = (
    Same('register_value', 'sign = -1 if register >> 31 else 1', ('-1 -> -2',),
         'a register below zero is refused 3, and twice zero is zero'),
    Same('register_value', 'if exponent == 0xFF:',
         ('exponent == 255 -> False', '255 -> 256', '255 -> 254'),
         'taken for numbers, those of exponent 255 are above the limit or below zero and refused'
         ' 3 all the same; so are those of exponent 254, taken for none'),
    Same('register_value', 'return sign * fraction * Fraction(2) ** -149',
         ('2 -> 3', '-149 -> -150'),
         'made smaller, a register without the hidden bit is still above 0 Wh, below 1 Wh by'
         ' every ratio, and below every register with it'),
    Same('exact_watt_hours', 'return None if read is None else read * ratio',
         ('read is None -> False',), 'it is asked of no reading that is refused 3'),
    Same('judge_meters', 'if not 1 <= len(meters) <= METER_LIMIT:',
         ('tested after any((ratio_refused(m.ratio) for m in meters))',), 'both are refused 2'),
    Same('meter_sums', 'adds = takes = 0', ('0 -> 1', '0 -> -1'),
         'both sums begin with it, and what is used of them is their difference'),
    Same('enter_plant', f'if {TOO_MUCH}:',
         ('tested after any((fuel_refused(line) for line in plant.fuel_lines))',),
         'both are refused 2'),
    Same('without_heat', 'A = rounded(Fraction(milligrams * 1_000, J), up)',
         (f'{CONTENT} -> int(Fraction(milligrams * 1000, J) // 1) + up',), DOWN_ALONE),
    Same('without_heat', 'return rounded(Fraction((J - plant.heat) * A, 1_000), up)',
         (f'{LEFT} -> int(Fraction((J - plant.heat) * A, 1000) // 1) + up',), DOWN_ALONE),
    Same('emission_factor', 'takes_captive = captive > combined if up else captive < combined',
         ('captive > combined -> captive >= combined', 'captive < combined -> captive <= combined'),
         'of two equal factors either one is F'),
    Same('emission_factor',
         "return ('captive', captive) if takes_captive else ('combined', combined)",
         (*words_for('captive'), *words_for('combined')), FOR_PART_7),
    Same('figure_refused', 'if name in SITE_SUPPLIES:',
         ("tested after name == 'griddefault' and grid_default_factor(ledger) is None",),
         'griddefault names no site'),
    Same('source_figure', 'return Figure(E, T, U, option, F, source_grams(U, F, up))',
         ('E -> T', 'T -> E', 'U -> F', 'F -> U'), FOR_PART_7),
    Same('numbers_of',
         'return [n for n in sorted(ledger.sources) if ledger.sources[n].side == side]',
         ('sorted(ledger.sources) -> sorted(ledger.sources, reverse=True)',),
         'the grams of a side are added up, in whatever order'),
    Same('report', 'if any(side.grams > 1_000_000_000_000_000 for side in sides.values()):',
         ('any((side.grams > 1000000000000000 for side in sides.values())) -> False',
          'any -> all', 'side.grams > 1000000000000000 -> side.grams >= 1000000000000000',
          '1000000000000000 -> 1000000000000001', '1000000000000000 -> 999999999999999'), NO_13),
    Same('report', 'return Refused(13)', ('13 -> 14', '13 -> 12'), NO_13))


# 7. Running


def changed_modules(mutant: Mutant) -> tuple[ModuleType, ModuleType]:
    """What answers the vectors, and by which rules."""
    module = ModuleType(mutant.file.name)
    mutant.slot.put(mutant.new)
    try:
        tree = ast.fix_missing_locations(mutant.file.tree)
        exec(compile(tree, mutant.file.name, 'exec'), vars(module))
    finally:
        mutant.slot.put(mutant.old)
    return (replay, module) if mutant.file.name == 'reference.py' else (module, reference)


def give_up(*unread):
    raise TimeoutError


class Finder:
    """Looks for a piece that finds a mutant; those that found one of the same function lately
    come first, then the short ones."""

    def __init__(self, pieces: list[Piece]):
        self.pieces = sorted(pieces, key=lambda piece: len(piece.vectors))
        self.lately: dict[str, deque] = {}
        signal.signal(signal.SIGALRM, give_up)

    def find(self, mutant: Mutant) -> str | None:
        """The name of the piece; a mutant that does not even load needs none."""
        lately = self.lately.setdefault(mutant.function, deque(maxlen=8))
        piece = Piece('no piece', [], [])
        signal.alarm(SECONDS)
        try:
            modules = changed_modules(mutant)
            for piece in (*lately, *self.pieces):
                if differs(*modules, piece):
                    break
            else:
                return None
        except Exception:
            pass  # it raises or does not end, so it is found
        finally:
            signal.alarm(0)
        if piece not in lately:
            lately.appendleft(piece)
        return piece.name


def found_in_part(folder: Path, part: int) -> list[str | None]:
    """Of each second mutant, where there are two processes."""
    finder = Finder(pieces_in(folder))
    return [finder.find(mutant) for mutant in all_mutants()[part::PROCESSES]]


def found_by(folder: Path, count: int) -> list[str | None]:
    """By which piece each of so many mutants is found."""
    found: list[str | None] = count * [None]
    with multiprocessing.Pool(PROCESSES) as pool:
        parts = pool.starmap(found_in_part, [(folder, part) for part in range(PROCESSES)])
    for part, pieces in enumerate(parts):
        found[part::PROCESSES] = pieces
    return found


def judged(mutants: list[Mutant], found: list[str | None]) -> tuple[int, list[str]]:
    """How many passed, and what failed."""
    listed = {(same.function, same.text, change) for same in EQUIVALENT for change in same.changes}
    failed = [f'listed as equivalent, but there is none: {" | ".join(key)}'
              for key in sorted(listed - {mutant.key for mutant in mutants})]
    passed = 0
    for mutant, piece in zip(mutants, found):
        if (piece is None) == (mutant.key in listed):
            passed += 1
        else:
            how = 'not found' if piece is None else f'listed as equivalent, but found by {piece}'
            failed.append(f'{how}: {mutant.file.name}, line {mutant.line}, {mutant.function}: '
                          f'{mutant.change}\n    in {mutant.text}')
    return passed, failed


def run(folder: Path) -> int:
    wrong = [piece.name for piece in pieces_in(folder) if differs(replay, reference, piece)]
    if wrong:
        print(f'FAILED the reference answers otherwise than {folder}/stdout, first at {wrong[0]}')
        print('0 passed, 1 failed')
        return 1
    mutants = all_mutants()
    found = found_by(folder, len(mutants))
    passed, failed = judged(mutants, found)
    for what in failed:
        print(f'FAILED {what}')
    print(f'{len(mutants)} mutants, {len(found) - found.count(None)} found')
    print(f'{passed} passed, {len(failed)} failed')
    return 1 if failed else 0


if __name__ == '__main__':
    if len(sys.argv) > 2:
        sys.exit(__doc__)
    sys.exit(run(Path(sys.argv[1]) if sys.argv[1:] else ROOT / 'crates/vectors'))
