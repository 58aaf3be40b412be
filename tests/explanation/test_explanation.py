"""Tests of ./explain: every refusal has words, every report is followed, and nothing is shown that
was not checked.

    python3 -m tests.explanation.test_explanation          the test, some seconds
    python3 -m tests.explanation.test_explanation SEEDS    with so many random inputs
    python3 -m tests.explanation.test_explanation --keep   writes the pictures that are compared

Prints each failure and, last, `N passed, M failed`.
"""

import re
import shutil
import subprocess
import sys
import tempfile
from collections import Counter
from collections.abc import Iterable, Iterator
from pathlib import Path
from unittest import mock
from xml.etree import ElementTree
from xml.etree.ElementTree import Element

from explanation import page, picture, refusals, text
from explanation.history import Failed, History, RefusedLine, explained
from explanation.lines import is_form
from tests.comparison import generate
from tests.documents import answer
from tests.explanation import typed
from tests.programs import terminal
from tests.reference import reference
from tests.reference.test_reference import Checks

ROOT = Path(__file__).resolve().parents[2]
EXAMPLE = (ROOT / 'examples/site.txt').read_bytes()
SEEDS = 30
LINES = 60  # of a long input of the generator, at most
# Every kind of row: margins, fuels of each kind, heat, ratios, either, defaults.
EVERYTHING = b'''\
(grid margins 1012400 612501 50 50 hydro)
(plant 0 0 1234567 (heat 21500001) (fuel 98700 43000 74100) (fuel 1241 43033 74103))
(plant 1 0 0 (fuel 7 48001 56103))
(plant 2 3 268900 (mass 61150 8651) (volume 1241 961 8653))
(source 0 project (combined) (default20) (whole 40 + 1000 9001) (single - 42f0ccc0 4317bbb0))
(source 1 project (either 0) (loss 455) (single 7 + 47e7412e 4800017a))
(source 2 leakage (griddefault) (loss 1) (whole + 0 20000001))
(source 3 baseline (captive 0) (none) (single + 477ad2b3 47bc5c13))
(source 4 baseline (either 3) (default3) (whole + 1 30000001))
(source 5 baseline (combined) (default20) (whole + 0 10000001))
(source 6 baseline (captivedefault) (none) (whole + 0 7350251))
(source 7 leakage (captive 3) (none) (whole + 0 999999))
(source 8 project (captivedefault) (none) (whole + 0 7350251))
(report)
'''


def explain(data: bytes) -> History:
    return explained(data, reference.tally)


def lines(*forms: str) -> bytes:
    return '\n'.join(forms).encode()


def why_not(data: bytes, run=reference.tally) -> str:
    """Why nothing is shown; '' where it is."""
    try:
        explanation = explained(data, run)
        text.written(explanation)
        page.written(explanation)
    except Failed as reason:
        return str(reason)
    return ''


# 1. Words


def words_of(line: RefusedLine) -> str:
    return ' '.join(f'{finding.what}. {finding.do}.' for finding in line.findings)


def lacking(words: Iterable[str], said: str) -> list[str]:
    return [each for each in words if each not in said]


def hand_words(checks: Checks):
    numbers = {14}
    for line, words, meant in typed.NO_FORMS:
        refused, = explain(line.encode() + b'\n').refused
        said = words_of(refused)
        checks.equal(f'words for {line!r}: {said}', lacking(words, said), [])
        checks.equal(f'{line!r} as perhaps meant', refused.meant, meant)
    for number, line, words in typed.ENTRIES:
        numbers.add(number)
        refused, = explain(line.encode()).refused
        said = words_of(refused)
        checks.equal(f'{line!r}', refused.answer, f'refused {number}')
        checks.equal(f'words for {line!r}: {said}', lacking(words, said), [])
    for number, before, words in typed.REPORTS:
        numbers.add(number)
        refused = explain(lines(*before, '(report)')).refused[-1]
        said = words_of(refused)
        checks.equal(f'{before}', refused.answer, f'refused {number} source 0')
        checks.equal(f'words after {before}: {said}', lacking(words, said), [])
    # 13 does not occur: docs/DECISIONS.md, row 16.
    checks.equal('a hand case of every refusal', numbers, {*range(1, 18)} - {13})


# 2. What a refused line leaves, at the line and at each report

COUNTS = '(source 0 project (captivedefault) (none) (whole + 0 7))'
MISTYPED = '(source 0 project (captivedefault) (none) (whole + 0 8)'
STORIES = (
    ('a source left out', ('\ufeff' + COUNTS, '(report)'),
     ['line 1 was refused: source 0 is not entered, and does not count'], {}),
    ('a correction', (COUNTS, MISTYPED, '(report)'),
     ['line 2 was refused: source 0 still counts as entered on line 1'], {}),
    ('a correction of a correction', (COUNTS, MISTYPED, MISTYPED, COUNTS, '(report)'), [],
     {2: 4, 3: 4}),
    ('a drop mistyped', (COUNTS, '(drop source 0', '(report)'),
     ['line 2 was refused: source 0 still counts as entered on line 1'], {}),
    ('a drop in place of a mistyped entry', (COUNTS, MISTYPED, '(drop source 0)', '(report)'), [],
     {2: 3}),
    ('a mistyped first word', ('(sorce 3 project (captivedefault) (none) (whole + 0 1))',
                               '(report)'),
     ['line 1 was refused: source 3 is not entered, and does not count'], {}),
    ('a line of nobody knows what', ('(3 7)', 'x', '(report)'),
     ['lines 1 and 2 were refused, and it cannot be told what was to be entered'], {}),
    ('an empty line and a comment', ('', '# (source 0', '(report)'), [], {}),
    ('the grid', ('(grid 1 thermal)', '(grid 2 termal)', '(report)'),
     ['line 2 was refused: the grid still counts as entered on line 1'], {}),
    ('a report asked for again', ('(Report)', '(report)'), [], {1: 2}),
    ('a report refused, then given',
     (typed.ON_SITE_1, '(report)', '(plant 0 1 1000)', '(report)'), [], {2: 4}),
)


def stories(checks: Checks):
    for name, typed_lines, missing, mended in STORIES:
        told = explain(lines(*typed_lines))
        checks.equal(f'{name}: what the report lacks', told.reports[-1].missing, missing)
        checks.equal(f'{name}: what was mended', told.mended, mended)
        for written in (text.written(told), page.written(told)):
            said = re.sub(r'\s+', ' ', written)  # where a sentence begins with a capital
            checks.equal(f'{name}: said at the report',
                         lacking([words[1:] for words in missing], said), [])
    dropped = explain(lines(COUNTS, '(drop source 0)', '(drop source 0)')).refused[0]
    checks.equal('a drop of what was dropped', '(dropped on line 2)' in words_of(dropped), True)
    for between, repeats in (('(report)', 1), ('(Report)', 1), ('# x', 1),
                             ('(grid 1 thermal', None), ('(grid 1 thermal)', None)):
        told = explain(lines('(report)', between, '(report)'))
        checks.equal(f'a report again after {between!r}', told.reports[-1].repeats, repeats)
    example = explain(EXAMPLE)
    checks.equal('the line that the example mends', example.mended, {9: 10})
    shown = page.written(example)
    checks.equal('on a page a mended line stands behind the reports',
                 shown.index('The report of line 14') < shown.index('mended later'), True)
    together = text.written(explain(EXAMPLE.replace(b'\n', b'\r\n')))
    checks.equal('lines of one fault go together',
                 lacking(['Lines 1 to 14, the first of them:\n',
                          'So these are not entered: the grid, plant 0, plant 1, source 0,'],
                         together), [])
    for data, words in ((EXAMPLE.decode().encode('utf-16'), 'The file is UTF-16'),
                        (EXAMPLE.replace(b'\n', b'\r'), 'The lines end with CR alone')):
        for written in (text.written(explain(data)), page.written(explain(data))):
            checks.equal(words, words in written, True)
    again = text.written(explain(lines(COUNTS, *3 * [MISTYPED], COUNTS)))
    checks.equal('what still counts after them, and that they were mended',
                 lacking(['These still count as entered before: source 0 as on line 1.',
                          'Mended later: lines 2 to 4.'], again), [])


# 3. Nothing is shown that was not checked


def slips(checks: Checks):
    """Each slip in the reference makes a row unsafe, though tally has the same slip."""
    for data in (EXAMPLE, EVERYTHING):
        checks.equal('without a slip all is shown', why_not(data), '')
        for slip in answer.slips():
            with answer.broken_by(slip):
                checks.equal(f'{slip.name}: shown', bool(why_not(data)), True)
    without_heat, exact = reference.without_heat, reference.exact_figure
    for name, owner, attribute, broken in (
            ('too little taken off for heat', reference, 'without_heat',
             lambda plant, milligrams, up: without_heat(plant, milligrams, up) + 10**9 * (not up)),
            ('an exact value twice as large', reference, 'exact_figure',
             lambda *given: 2 * exact(*given)),
            ('no words', refusals, 'form_findings', lambda line: []),
            ('words for another refusal', refusals, 'form_findings',
             lambda line: [refusals.Finding(2, '')])):
        with mock.patch.object(owner, attribute, broken):
            checks.equal(f'{name}: shown', bool(why_not(EVERYTHING + b'x')), True)


def other_answers(checks: Checks):
    """tally's output with one line other, left out or twice."""
    output = reference.tally(EXAMPLE)
    answers = output.splitlines(keepends=True)
    changed = [output.replace(b'project 94', b'project 95', 1), b'', output + b'ok\n']
    for at, line in enumerate(answers):
        changed += [b''.join([*answers[:at], *more, *answers[at + 1:]])
                    for more in ([b'refused 1\n'], [], [line, line])]
    for other in changed:
        reason = why_not(EXAMPLE, lambda data, other=other: other)
        checks.equal(f'another output is explained: {reason}', 'differ' in reason, True)


# 4. Pages


def numbers_in(element: Element) -> list[float]:
    """Each number of a picture, in order."""
    return [float(number.replace(',', '').replace('−', '-'))
            for each in element.iter() for part in (*each.attrib.values(), each.text or '')
            for number in re.findall(r'[-−]?[0-9](?:[0-9,]*[0-9])?(?:\.[0-9]+)?', part)]


# Where a mark points to, by its shape: a circle, a square of 18, the top of a triangle.
POINTED = {'circle': lambda mark: float(mark.get('cx')),
           'rect': lambda mark: float(mark.get('x')) + 9,
           'path': lambda mark: float(mark.get('d').split(' ')[4].removeprefix('L'))}


def marks(svg: Element, kind: str) -> list[float]:
    """Of a kind, from the line above to the one below."""
    return [POINTED[each.tag](each) for each in svg.iter()
            if each.get('class') == kind and each.tag in POINTED]


def picture_faults(svg: Element) -> Iterator[str]:
    """Marks out of their order or off their tick, and what is drawn outside."""
    up = svg.get('aria-label').startswith('exact')
    for exact, summed in zip(marks(svg, 'exact'), marks(svg, 'sum')):
        if (summed - exact if up else exact - summed) < -0.1:
            yield 'the sum is drawn on the unsafe side'
    printed, summed = marks(svg, 'printed')[0], marks(svg, 'sum')[0]
    if (printed - summed if up else summed - printed) < -0.1:
        yield 'the printed total is drawn on the unsafe side of the sum'
    texts = {each.text: float(each.get('x')) for each in svg.iter('text')}
    name = next(each for each in texts if each.startswith('printed '))
    tick = texts.get(name.removeprefix('printed '))
    if tick is not None and 40 < tick < picture.WIDTH - 40 and abs(tick - printed) > 0.1:
        yield f'{name} is drawn at {printed}, and its tick at {tick}'
    for each in svg.iter():
        for key in ('x', 'x1', 'x2', 'cx'):
            if not -1 <= float(each.get(key, 0)) <= picture.WIDTH + 1:
                yield f'drawn outside: {each.tag} {each.attrib}'


def page_faults(explanation: History) -> Iterator[str]:
    """A page that is not well-formed does not parse."""
    written = page.written(explanation)
    root = ElementTree.fromstring(written)
    unended = re.search(r'<(?!meta)[^>]*/>', written)
    if unended:
        yield f'in HTML it does not end: {unended[0]}'
    outside = [name for each in root.iter() for name in each.attrib
               if each.tag == 'script' or name.endswith(('src', 'href')) or name.startswith('on')]
    if outside or re.search(r'url\((?!#unsafe\))|@import|<script', written):
        yield f'an outside part: {outside}'
    pictures = [each for each in root.iter('svg') if each.get('role') == 'img']
    for svg in pictures:
        yield from picture_faults(svg)
    shown = {each.text for each in root.iter('pre')}
    yield from (f'line {report.number} is not shown as tally printed it'
                for report in explanation.reports if report.answer not in shown)
    sides = sum(1 + sum(bool(part.sources) for part in report.followed.sides.values())
                for report in explanation.reports if not report.repeats)
    if len(pictures) != sides:
        yield f'{len(pictures)} pictures of {sides}'


KEPT = ('project', 'baseline')  # sides of the example's first report, as pictures


def kept_pictures() -> dict[Path, Element]:
    sides = explain(EXAMPLE).reports[0].followed.sides
    return {Path(__file__).with_name(f'{side}.svg'): picture.side_picture(sides[side])
            for side in KEPT}


def keep():
    for path, svg in kept_pictures().items():
        svg.set('xmlns', 'http://www.w3.org/2000/svg')
        path.write_text(ElementTree.tostring(svg, encoding='unicode') + '\n', encoding='utf-8')


def broken_pictures(checks: Checks):
    """A picture that tells something else is found."""
    at, example = picture.Axis.at, explain(EXAMPLE)
    for name, broken in (('mirrored', lambda axis, value: picture.WIDTH - at(axis, value)),
                         ('another scale for what is printed',
                          lambda axis, value: at(axis, value) * (0.9 if type(value) is int else 1)),
                         ('drawn outside', lambda axis, value: at(axis, value) + 1_000)):
        with mock.patch.object(picture.Axis, 'at', broken):
            checks.equal(f'{name}: not found', bool([*page_faults(example)]), True)
    checks.equal('faults of the example', [*page_faults(example)], [])


def pictures(checks: Checks):
    for path, svg in kept_pictures().items():
        kept = ElementTree.fromstring(path.read_text(encoding='utf-8'))
        kept_numbers, numbers = numbers_in(kept), numbers_in(svg)
        checks.equal(f'how many numbers {path.name} has', len(numbers), len(kept_numbers))
        checks.equal(f'{path.name}: a number that differs',
                     [pair for pair in zip(numbers, kept_numbers) if abs(pair[0] - pair[1]) > 0.11],
                     [])


# 5. The generator's inputs


def shortened(data: bytes) -> bytes:
    """At most so many of its lines, spread over it."""
    given = data.split(b'\n')
    return b'\n'.join(given[::len(given) // LINES + 1])


def digits_typed(line: str) -> str:
    """Without zeros, which a line as perhaps meant may lack."""
    return re.sub('[^1-9]', '', line)


def refused_faults(line: RefusedLine) -> Iterator[str]:
    if line.meant and not is_form(line.meant.encode()):
        yield f'no form is perhaps meant: {line.meant}'
    if line.meant and digits_typed(line.meant) != digits_typed(line.typed.decode(errors='replace')):
        yield f'{line.typed} has other digits than {line.meant}'


def generated(checks: Checks, seeds: int):
    met = Counter()
    inputs = [(f'by hand {at}', shortened(data) if len(data) <= reference.INPUT_LIMIT else data)
              for at, data in enumerate(generate.boundary_inputs())]
    inputs += [(f'seed {seed}', generate.random_input(seed)) for seed in range(seeds)]
    for at, (name, data) in enumerate(inputs):
        try:
            explanation = explain(data)
            text.written(explanation)
            faults = [each for line in explanation.refused for each in refused_faults(line)]
            if at % 5 == 0:
                faults += page_faults(explanation)
        except Failed as reason:
            explanation, faults = None, [str(reason)]
        checks.equal(name, faults, [])
        if explanation:
            met.update(line.answer.split(' source')[0] for line in explanation.refused)
            met.update({'accepted': explanation.accepted, 'reports': len(explanation.reports),
                        'meant': sum(line.meant is not None for line in explanation.refused)})
    print(', '.join(f'{name} {count}' for name, count in sorted(met.items())))
    wanted = {f'refused {number}' for number in {*range(1, 18)} - {13}}
    checks.equal('refusals that no input met', wanted - met.keys(), set())


# 6. The words themselves

# Digits that are no limit: names, formats, patterns, the least numbers 0 and 1.
NO_LIMITS = (r'default20|default3|demand[- ]3|utf-8|UTF-8|UTF-16|SHA-256|CO2|08x|0x|[.]1f'
             r'|\[[^\]]*\]|\{[0-9,]*\}|\\[a-z0-9]+|(?<![0-9.])[01](?!\.?[0-9])')
WORDS = ('steps', 'rows', 'figures', 'lines', 'forms', 'meant', 'refusals', 'sentences', 'history')


def no_limit_as_text(checks: Checks):
    """Each limit that words quote is a name of the reference, not a number in the words."""
    for name in WORDS:
        path = ROOT / 'explanation' / f'{name}.py'
        checks.equal(f'numbers in the words of {name}.py',
                     answer.numbers_as_text(path, NO_LIMITS), [])


# 7. The program


def run(arguments: list[str], data: bytes, folder: Path = ROOT, **more) -> tuple[int, bytes, str]:
    done = subprocess.run([folder / 'explain', *arguments], input=data, capture_output=True, **more)
    return done.returncode, done.stdout, done.stderr.decode()


def program(checks: Checks):
    for data in (EXAMPLE, EVERYTHING, b'', bytes(range(256)), generate.random_input(1)):
        told = explain(data)
        checks.equal(f'as text: {data[:20]}', run([], data), (0, text.written(told).encode(), ''))
    html = run(['--html'], EXAMPLE)
    checks.equal('as a page', html, (0, page.written(explain(EXAMPLE)).encode(), ''))
    usage = 'usage: ./explain [--html] < FILE\n'
    for arguments in (['x'], ['--html', 'x'], ['--help'], ['']):
        checks.equal(f'arguments {arguments}', run(arguments, EXAMPLE), (2, b'', usage))
    too_long = b'(report)\n' * 8_000
    checks.equal('too long', b'more than 65,536 bytes' in run([], too_long)[1], True)
    escaped = run(['--html'], b'<script>alert(1)</script>&<b>\n')[1]
    checks.equal('what is typed is no HTML', b'<script' in escaped or b'<b>' in escaped, False)
    ended = terminal.run([ROOT / 'explain'], typed=b'(report)\n' + terminal.CTRL_D)
    checks.equal('typed', (ended.status, ended.words),
                 (0, 'explain: type or paste lines; Ctrl-D ends them\n'))


SHELL = (
    ('./explain < examples', 1, 'is a directory'), ('./explain <&-', 1, 'input is closed'),
    ('./explain < examples/site.txt >&-', 1, 'output is closed'),
    ('./explain < examples/site.txt > /dev/full', 1, 'could not be written'),
    ('{ ./explain < examples/site.txt; echo $? >&2; } | true', 0, '141'),
    ('yes | ./explain > /dev/null', 0, ''))


def in_a_shell(checks: Checks):
    for command, status, words in SHELL:
        done = subprocess.run(['sh', '-c', command], cwd=ROOT, capture_output=True, text=True)
        checks.equal(f'{command}: {done.stderr}', (done.returncode, words in done.stderr),
                     (status, True))


TALLIES = (('exit 3', 'ended with status 3'), ('echo ok', 'differ'),
           ('cat; echo built >&2', 'built'), ('cat', 'First in line 1 of the output'))


def beside_another_tally(checks: Checks):
    """Nothing is shown where ./tally fails or answers otherwise."""
    with tempfile.TemporaryDirectory() as room:
        folder = Path(room)
        shutil.copy(ROOT / 'explain', folder)
        shutil.copytree(ROOT / 'explanation', folder / 'explanation')
        shutil.copytree(ROOT / 'tests/reference', folder / 'tests/reference')
        status, shown, words = run([], EXAMPLE, folder)
        checks.equal('no tally', (status, shown, 'cannot be run' in words), (1, b'', True))
        for script, reason in TALLIES:
            (folder / 'tally').write_text(f'#!/bin/sh\n{script}\n')
            (folder / 'tally').chmod(0o755)
            status, shown, words = run(['--html'], EXAMPLE, folder)
            checks.equal(f'{script}: {words}', (status, shown, reason in words), (1, b'', True))


def main(arguments: list[str]) -> int:
    if arguments == ['--keep']:
        keep()
        return 0
    checks = Checks()
    for part in (hand_words, stories, slips, other_answers, pictures, broken_pictures,
                 no_limit_as_text, program, in_a_shell, beside_another_tally):
        part(checks)
    generated(checks, int(arguments[0]) if arguments else SEEDS)
    print(f'{checks.passed} passed, {checks.failed} failed')
    return 1 if checks.failed else 0


if __name__ == '__main__':
    sys.exit(main(sys.argv[1:]))
