"""Writes docs/ANSWER.md: which of two totals counts, and how a manager knows that it is safe.

    python3 -m tests.documents.answer    writes the page
    --check       compares the page with what would be written, and looks up the laws that it and
                  ./explain name; changes nothing
    --self-test   breaks one rounding after the other; each must be refused at its row

The first report of examples/site.txt is followed from meter to tonnes by the rows of ./explain; the
page shows two of its sources. Every number is computed. Each figure, shown or not, must lean to the
safe side, by at least 0 and by less than the limit of its row; otherwise the row is named, nothing
is written and the status is 1.
"""

import ast
import re
import sys
import tempfile
import textwrap
from collections.abc import Iterable
from contextlib import contextmanager
from fractions import Fraction
from pathlib import Path
from typing import NamedTuple

from explanation import steps
from explanation.decimals import DECIMALS, MILLION, shown
from explanation.rows import (
    Followed, Row, Unsafe, follow, line_rows, reading_rows, rounding)
from explanation.sentences import relation
from explanation.steps import (
    ALL_REPORTS, AT_THE_BOX, LEAST_LEAN, LOSS_UNITS, SOURCE_KG, STEPS, STEPS_WITH_HEAT, THOUSAND,
    Step, laws_named)
from tests.reference import reference
from tests.reference.reference import (
    SIDES, EnergyLine, Ledger, Loss, MassLine, Meter, Plant, Report, Source, Supply, VolumeLine,
    rounds_up)

ROOT = Path(__file__).resolve().parents[2]
EXAMPLE = ROOT / 'examples' / 'site.txt'
PAGE = ROOT / 'docs' / 'ANSWER.md'

WIDTH = 118  # of a line of the page
SHOWN = (1, 4)  # of the sources: captive plants of one site, once rounded up and once down
EXPLAIN = '''\
    ./explain < site.txt                       the same as text, step by step
    ./explain --html < site.txt > site.html    as a page with pictures, to show and to print'''
# demand-3 states the limits of the other steps; these are stated by their own laws.
BY_OTHER_LAWS = ('reading', 'energy', 'losses', 'line', 'factor')


# 1. Text


def cells(*texts: str) -> str:
    return '| ' + ' | '.join(texts) + ' |'


def table(head: tuple, rows: list[str]) -> str:
    return '\n'.join([cells(*head), '|' + '---|' * len(head), *rows])


def paragraph(text: str) -> str:
    return textwrap.fill(' '.join(text.split()), WIDTH, break_long_words=False,
                         break_on_hyphens=False)


def quoted(laws: Iterable[str]) -> str:
    return ', '.join(f'`{law}`' for law in laws)


def chain(chained: dict[str, Step]) -> str:
    return table(('Step', 'Rounded', 'Off by less than', 'Proved by'),
                 [cells(step.name, step.rounding, step.limit, quoted(step.laws))
                  for step in chained.values()])


def row_text(row: Row) -> str:
    return cells(row.name, f'{shown(row.exact)} {row.unit}', f'{shown(row.value)} {row.unit}',
                 f'{shown(row.lean)} {row.unit}', f'{shown(row.limit)} {row.unit}', row.how)


# 2. The report


def followed() -> Followed:
    """The first report of the example. Raises Unsafe where a figure may not stand."""
    found: list[Followed] = []

    def on_report(ledger: Ledger, given: Report):
        if not found:
            found.append(follow(ledger, given))
    reference.tally(EXAMPLE.read_bytes(), on_report)
    return found[0]


def source_rows(report: Followed, number: int) -> list[Row]:
    """With those of the plants that it takes its factor from, before F and grams."""
    part = report.sources[number]
    plants = [row for site in report.sites for row in site.rows[:-1]
              if part.figure.option == 'captive' and site.site == part.source.supply.site
              and site.up == rounds_up(part.source.side)]
    return [*part.rows[:-2], *plants, *part.rows[-2:]]


def grams_of(report: Followed, side: str) -> list[int]:
    return [part.figure.grams for part in report.sides[side].sources]


# 3. The page


def sum_row(report: Followed, side: str) -> str:
    """The sources' grams, their sum and the printed tonnes, in order of safety."""
    part = report.sides[side]
    return cells(f'{side}, {rounding(part.up)}', ' + '.join(map(shown, grams_of(report, side))),
                 f'{shown(part.summed.value)} t', f'{shown(part.printed.value)} t',
                 f'{shown(part.printed.exact)} t', relation(part))


def which_is_true(report: Followed) -> list[str]:
    rows = [sum_row(report, side) for side in SIDES]
    project, leakage, baseline = (report.sides[side].printed for side in SIDES)
    grams = grams_of(report, 'project')
    printed = reference.answer_text(report.given).splitlines()[SIDES.index('project')]
    return [
        '## "I add up the sources and get less than the printed total. Which is true?"',
        paragraph('''Neither is too low, and the printed total is what counts. Project and leakage
            must not be stated too low: their safe side is up. A baseline must not be stated too high:
            its safe side is down.'''),
        paragraph(f'''Take the project in the first report of `examples/site.txt`. Its sources are
            {' g + '.join(map(shown, grams))} g. Together that is {shown(sum(grams))} g, or
            {shown(Fraction(sum(grams), MILLION))} t. The report prints {shown(project.value)} t: it
            adds up the grams as you did, then rounds the sum once, up to whole tonnes. The exact
            value, rounded nowhere, is {shown(project.exact)} t.'''),
        paragraph(f'''The line `{printed}` has the tonnes, the grams and the number of sources. Of a
            baseline your sum is more than the printed total, and neither is above the exact value.'''),
        table(('Side', 'Grams of its sources', 'Their sum', 'Printed', 'Exact', 'In order'), rows),
        paragraph(f'''The reduction is taken from the printed tonnes: {shown(baseline.value)} −
            {shown(project.value)} − {shown(leakage.value)} = {shown(report.reduction.value)} t. The
            exact reduction is {shown(report.reduction.exact)} t. So no tonne is claimed that was
            not saved.'''),
        paragraph(f'''A number with more than {DECIMALS} decimals is shown by its first {DECIMALS};
            ".." stands for the others.'''),
        'For your own file, with what is wrong with each refused line in words:',
        EXPLAIN]


def how_we_know() -> list[str]:
    return [
        '## "How do you know that the printed figure stands on the safe side?"',
        paragraph('''Because every step from the meter to the printed tonne is rounded to the safe
            side, and because a machine has checked a proof of it: for every list of entries that a
            manager can type, not for the cases that somebody thought of. The proof also says how
            far a figure can be off at most. A figure that is safe because it is far too high would
            be worthless.'''),
        paragraph(f'''E is the energy of a source, in watt-hours (Wh). T is the loss on its way
            through the grid, in parts of {LOSS_UNITS:,}. U is the energy with this loss. F is the
            emission factor, in milligrams of CO2 for each kilowatt-hour (mg/kWh). Beside each limit
            stands the law that proves it; docs/PROVED.md says where.'''),
        chain(STEPS),
        paragraph(f'''A plant that also makes heat burns a part of its fuel for it. For project and
            leakage nothing of that is taken off; for a baseline source it is, rounded down. H is the
            heat and J the energy of the plant's fuel, in kJ. K is J of all plants with heat at the
            site, ÷ {THOUSAND:,}, ÷ the kWh that the site generated.'''),
        paragraph(f'''A baseline source that names such a site has these limits, and the last of them
            in place of {shown(SOURCE_KG)} kg in the tonnes and in the reduction:'''),
        chain(STEPS_WITH_HEAT)]


def step_by_step(report: Followed) -> list[str]:
    head = ('Step', 'Exact', 'In the report', 'Leans', 'Off by less than', 'From')
    parts = [
        '## One report, step by step',
        paragraph(f'''Two sources of the same report, on the plants of one site: a project source is
            rounded up, a baseline source down. "Exact" is worked out from the formulas of document 01
            with fractions, and rounded nowhere. "Leans" is how far the figure in the report is off to
            the safe side: {shown(LEAST_LEAN)} is exact, and below that would be unsafe.'''),
        paragraph(f'''`python3 -m tests.documents.answer` computes every number on this page. It writes
            the page only if each figure of all {shown(len(report.sources))} sources leans by
            {shown(LEAST_LEAN)} or more and by less than its limit.''')]
    for number in SHOWN:
        source = report.ledger.sources[number]
        supply = ' '.join(str(part) for part in source.supply if part is not None)
        parts += [f'### Source {number}: {source.side}, {supply}',
                  table(head, [row_text(row) for row in source_rows(report, number)])]
    rows = [*(part.printed for part in report.sides.values()), report.reduction]
    return parts + ['### Sides and reduction', table(head, [row_text(row) for row in rows])]


def closing() -> list[str]:
    others = quoted(law for step in BY_OTHER_LAWS for law in STEPS[step].laws)
    return [
        '## For every report',
        paragraph(f'''That is no accident of this example. `{ALL_REPORTS}` says of every report given,
            after any entries and drops from an empty ledger, refused ones included: the grams of each
            source, the tonnes of each side and the reduction are on the safe side, and off by less
            than their limits; the grams of a source also by less than {shown(SOURCE_KG)} kg, unless it
            is a baseline source at a site with heat.'''),
        paragraph(f'''Of readings, E, U, fuel lines and F the other laws say it, of every accepted
            entry: {others}. At the box, where each line is answered as it is typed, the same holds of
            every list of lines: `{AT_THE_BOX}`.''')]


def page() -> str:
    """Raises Unsafe where a figure may not stand."""
    report = followed()
    parts = ['# The answer to the manager',
             paragraph('''For the manager who asks, and for those who train managers: which of two
                 totals is true, and how we know that it is safe.'''),
             *which_is_true(report), *how_we_know(), *step_by_step(report), *closing()]
    return '\n\n'.join(parts) + '\n'


def write(path: Path = PAGE) -> int:
    try:
        text = page()
    except Unsafe as refusal:
        print(f'not written: {refusal}')
        return 1
    path.write_text(text, encoding='utf-8')
    return 0


# 4. The check


def laws_missing() -> list[str]:
    """The laws named that no crate proves in public under that name, or more than one."""
    proofs = '\n'.join(path.read_text(encoding='utf-8')
                       for path in sorted(ROOT.glob('crates/*/proofs/*.antt')))
    return [law for law in laws_named()
            if len(re.findall(rf'^ *pub {re.escape(law)} :', proofs, re.MULTILINE)) != 1]


def check() -> int:
    """One check for the page and one for each law."""
    failures = [f'{law} is not one public law' for law in laws_missing()]
    try:
        if not PAGE.exists() or PAGE.read_text(encoding='utf-8') != page():
            failures.append('docs/ANSWER.md is not what would be written')
    except Unsafe as refusal:
        failures.append(str(refusal))
    return ended(1 + len(laws_named()), failures)


def ended(checks: int, failures: list[str]) -> int:
    for failure in failures:
        print(f'FAILED {failure}')
    print(f'{checks - len(failures)} passed, {len(failures)} failed')
    return 1 if failures or not checks else 0


# 5. The self-test


class Slip(NamedTuple):
    name: str
    step: str  # at whose row it must be refused
    owner: object
    attribute: str
    broken: object  # what stands in place of the attribute


def wrong_way(step, direction: bool):
    """A step that rounds the other way where it is asked for this direction."""
    return lambda *given: step(*given[:-1], not direction if given[-1] == direction else given[-1])


def too_far(step, direction: bool, by: int):
    """A step that goes further by so much where it is asked for this direction."""
    def broken(*given):
        value = step(*given)
        return value if given[-1] != direction else value + by if direction else value - by
    return broken


# The functions that round, by step, each with its direction as the last argument, and how far
# is too far.
ROUNDING = {'reading': ('reading_watt_hours', steps.READING_WH),
            'losses': ('energy_with_losses', steps.LOSSES_WH),
            'line': ('fuel_milligrams', steps.LINE_MG),
            'factor': ('factor_over', 2 * steps.FACTOR_MG_PER_KWH),
            'grams': ('source_grams', steps.GRAM * MILLION),
            'tonnes': ('side_tonnes', 2 * steps.SIDE_T)}


def slips() -> list[Slip]:
    made = []
    for step, (function, by) in ROUNDING.items():
        original = getattr(reference, function)
        for direction, way in ((True, 'up'), (False, 'down')):
            made += [Slip(f'{function}, {way}, rounds the wrong way', step, reference, function,
                          wrong_way(original, direction)),
                     Slip(f'{function}, {way}, goes too far', step, reference, function,
                          too_far(original, direction, int(by)))]
    energy, readings = Source.energy.fget, reference.meter_readings
    reduction = reference.reduction_of
    made.append(Slip('a - meter is rounded as a + meter', 'reading', reference, 'meter_readings',
                     lambda up, meter: readings(up, meter._replace(sign='+'))))
    made += [Slip(f'E is off by {off}', 'energy', Source, 'energy',
                  property(lambda source, off=off: energy(source) + off))
             for off in (-int(steps.ENERGY_WH), -1, 1, int(steps.ENERGY_WH))]
    made += [Slip(f'the reduction is off by {off}', 'reduction', reference, 'reduction_of',
                  lambda sides, off=off: reduction(sides) + off) for off in (-3, 2)]
    # Grams that keep the limit by F and U keep that by weight too; so here the limit is broken.
    return made + [Slip('the limit by weight is nothing', 'weight', steps, 'SOURCE_KG',
                        Fraction(0))]


@contextmanager
def broken_by(slip: Slip):
    original = vars(slip.owner)[slip.attribute]
    setattr(slip.owner, slip.attribute, slip.broken)
    try:
        yield
    finally:
        setattr(slip.owner, slip.attribute, original)


def refused_at(slip: Slip, path: Path) -> str:
    """'' where the slip is refused at its own step and nothing is written."""
    print(slip.name, end=': ')
    with broken_by(slip):
        if write(path) != 1 or path.exists():
            return f'{slip.name}: the page is written'
        try:
            page()
        except Unsafe as refusal:
            return '' if refusal.step == slip.step else f'{slip.name}: refused at {refusal.name}'
    return f'{slip.name}: not refused'


# Of each kind one that is not whole milligrams; the example has energy lines alone.
LINES_OF_EACH_KIND = (EnergyLine(1, 1, 1), MassLine(1, 1), VolumeLine(1, 1, 1))


def lines_standing(side: str) -> list[bool]:
    """Whether the row of a line of each kind stands on a side."""
    plant = Plant(0, 0, list(LINES_OF_EACH_KIND))
    return [row.stands for row in line_rows(0, plant, rounds_up(side))]


def lines_with_slips() -> list[list]:
    """The same with each slip of fuel lines, on two sides: first the one that it breaks."""
    found = []
    for slip in slips():
        if slip.step == 'line':
            with broken_by(slip):
                found.append(sorted(lines_standing(side) for side in ('project', 'baseline')))
    return found


# Each reading is more than a ratio's part of a Wh off a whole one, on both sides.
BY_RATIO = (Meter('single', '+', 0x42F6E979, 0x42F6E97A, reference.RATIO_LIMIT),
            Meter('single', '-', 0x3A000000, 0x3F801062, 7))


def readings_standing(side: str) -> list[bool]:
    """Whether the rows of these readings stand: last and first of +, last and first of -."""
    source = Source(side, Supply('captivedefault'), Loss('none'), list(BY_RATIO))
    return [row.stands for meter in BY_RATIO for row in reading_rows(source, 1, meter)]


def rounded_before_the_ratio(kind: str, value: int, ratio: int, up: bool) -> int:
    return ratio * reference.rounded(reference.exact_watt_hours(kind, value, 1), up)


def readings_with_slips() -> list[list[bool]]:
    """The same with each slip of readings, and with readings rounded before their ratio."""
    made = [slip for slip in slips() if slip.owner is reference and slip.step == 'reading']
    made.append(Slip('rounded before the ratio', 'reading', reference, 'reading_watt_hours',
                     rounded_before_the_ratio))
    found = []
    for slip in made:
        with broken_by(slip):
            found.append(readings_standing('project'))
    return found


# Those rounded up fall twice, those rounded down twice, then those of the - meter, and all.
READINGS_BROKEN = [*2 * [[False, True, True, False]], *2 * [[True, False, False, True]],
                   [True, True, False, False], 4 * [False]]


NO_NUMBERS = 'document 01|demand-3|CO2|python3|utf-8'  # names that hold digits


def numbers_as_text(path: Path, names: str = NO_NUMBERS) -> list[str]:
    """Texts of a module that hold a number which is no part of these names; docstrings and the
    figures of examples, which are computed with, are left out."""
    tree = ast.parse(path.read_text(encoding='utf-8'))
    left_out = {id(node.body[0].value) for node in ast.walk(tree)
                if isinstance(node, (ast.Module, ast.FunctionDef, ast.ClassDef))
                and ast.get_docstring(node) is not None}
    left_out |= {id(part) for node in ast.walk(tree) if isinstance(node, ast.Call)
                 and ast.unparse(node.func) == 'example' for part in node.args}
    texts = [node.value for node in ast.walk(tree) if isinstance(node, ast.Constant)
             and isinstance(node.value, str) and id(node) not in left_out]
    return [text for text in texts if re.search(r'\d', re.sub(names, '', text))]


def self_test() -> int:
    made = slips()
    row = Row('grams', 'grams', '', Fraction(0), 0, Fraction(0), Fraction(2), 'g')
    eighths, sevenths = ([Fraction(n, d) for n in range(-d, d) if n] for d in (8, 7))
    wanted = {
        'no number stands as text': not numbers_as_text(Path(__file__)),
        'a row of a fuel line of each kind stands':
            [lines_standing(side) for side in SIDES] == [3 * [True]] * len(SIDES),
        'a slip of fuel lines lets no row stand, of any kind, on the side that it breaks':
            lines_with_slips() == [[3 * [False], 3 * [True]]] * 4,
        'a row of a reading by a ratio stands':
            [readings_standing(side) for side in SIDES] == [4 * [True]] * len(SIDES),
        'a slip of readings lets no row stand that it breaks, by a ratio':
            readings_with_slips() == READINGS_BROKEN,
        'a row stands from nothing to below its limit':
            [lean for lean in (-1, 0, 1, 2) if row._replace(lean=lean).stands] == [0, 1],
        'a decimal that ends is shown in full': [Fraction(shown(n)) for n in eighths] == eighths,
        'one that goes on is shown with dots':
            all(shown(n).endswith('..') for n in sevenths if n.denominator > 1)}
    failures = [what for what, holds in wanted.items() if not holds]
    failures += [f'no slip breaks {step}' for step in STEPS.keys() - {slip.step for slip in made}]
    with tempfile.TemporaryDirectory() as folder:
        path = Path(folder) / 'ANSWER.md'
        failures += filter(None, [refused_at(slip, path) for slip in made])
        if write(path) != 0 or not path.exists():
            failures.append('the page is not written without a slip')
    return ended(len(wanted) + len(STEPS) + len(made) + 1, failures)


if __name__ == '__main__':
    sys.exit({(): write, ('--check',): check, ('--self-test',): self_test}.get(
        tuple(sys.argv[1:]), lambda: __doc__)())
