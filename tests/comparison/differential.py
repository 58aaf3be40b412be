"""Runs inputs through tally, panel and the reference, and compares every byte.

    python3 -m tests.comparison.differential
                     2,000 random inputs by seed, and inputs made by hand
    --lines 100000   so many lines at random, of other seeds, in inputs of 60 and of 1,000
                     lines by turns
    --seed SEED      the random input of one seed
    --inputs DIR     each file of a folder
    --self-test      slips made in measure/plain_tally.c must each be found

Both programs get the same inputs. They differ in two things: of an input above 65,536
bytes panel answers each line, and it answers a line before the next one comes.
`--program PATH` runs another program alone: as panel where its file is named panel, and
else as tally.

Each input counts once for each program: it passes where the program ends with status 0
and writes what the reference writes, and where demand 3's inequalities hold on the
reference's exact values at each report given. Prints what fails, the first inputs
shrunk to few lines, and last `N passed, M failed`; fails if M is not 0.
"""

import argparse
import contextlib
import fcntl
import itertools
import os
import re
import select
import struct
import subprocess
import sys
import tempfile
import termios
import time
from collections.abc import Callable
from pathlib import Path
from typing import BinaryIO, NamedTuple

from tests.comparison import generate, slips
from tests.reference import reference

ROOT = Path(__file__).resolve().parents[2]
PROGRAMS = (ROOT / 'target/bin/tally', ROOT / 'target/bin/panel')
EXAMPLE = ROOT / 'examples/site.txt'

SEEDS = 2_000
LONG = 1_000  # lines of a long input, mostly within 65,536 bytes
SECONDS = 20  # for one run of a program
ANSWER_SECONDS = 5  # for one answer, where the next line waits for it
SHOWN = 3  # failing inputs that are shrunk and shown
TRIALS = 300  # runs of the program for shrinking one


class Case(NamedTuple):
    name: str
    data: bytes
    piece: int | None = None  # bytes written at a time; None: the whole input
    at_once: bool = False  # each line once the line before is answered; for panel alone


class Outcome(NamedTuple):
    output: bytes
    status: int | str


def is_panel(program: Path) -> bool:
    return program.name == 'panel'


class Outputs(NamedTuple):
    """What the reference writes as each program."""

    tally: bytes
    panel: bytes

    def of(self, program: Path) -> bytes:
        return self.panel if is_panel(program) else self.tally


def lines_with_ends(data: bytes) -> list[bytes]:
    return re.findall(rb'[^\n]*\n|[^\n]+', data)


# 1. Running a program


def start(program: Path, case: Case) -> Callable[[], Outcome]:
    """What it returns waits for the outcome. A whole input is answered meanwhile; the
    other runs begin with the waiting."""
    if case.at_once:
        return lambda: run_at_once(program, case.data)
    if case.piece is not None:
        return lambda: run_in_pieces(program, case.data, case.piece)
    output = tempfile.TemporaryFile()
    with tempfile.TemporaryFile() as given:
        given.write(case.data)
        given.seek(0)
        process = subprocess.Popen([program], stdin=given, stdout=output)
    return lambda: finished(process, output)


def run(program: Path, case: Case) -> Outcome:
    return start(program, case)()


def finished(process: subprocess.Popen, output: BinaryIO) -> Outcome:
    """Waits for the end of a program that writes into a file, and closes the file."""
    with output:
        try:
            process.wait(SECONDS)
        except subprocess.TimeoutExpired:
            process.kill()
            process.wait()
            return Outcome(b'', f'none after {SECONDS} s')
        output.seek(0)
        return Outcome(output.read(), process.returncode)


def run_in_pieces(program: Path, data: bytes, size: int) -> Outcome:
    """Through a pipe, each piece once the piece before has been read."""
    reader, writer = os.pipe()
    output = tempfile.TemporaryFile()
    process = subprocess.Popen([program], stdin=reader, stdout=output)
    for at in range(0, len(data), size):
        os.write(writer, data[at:at + size])
        if not all_read(reader, process):
            break
    os.close(reader)
    os.close(writer)
    return finished(process, output)


def all_read(pipe: int, process: subprocess.Popen) -> bool:
    """Waits until nothing is left in the pipe; False if the program reads no more."""
    end = time.monotonic() + SECONDS
    while unread(pipe):
        if process.poll() is not None or time.monotonic() > end:
            return False
        time.sleep(0.00001)
    return True


def unread(pipe: int) -> int:
    """Bytes in the pipe."""
    return struct.unpack('i', fcntl.ioctl(pipe, termios.FIONREAD, bytes(4)))[0]


def run_at_once(program: Path, data: bytes) -> Outcome:
    """Through pipes, each line once the line before is answered. A last line without
    its LF is answered at the end of the input."""
    output = due = b''
    with subprocess.Popen([program], bufsize=0, stdin=subprocess.PIPE,
                          stdout=subprocess.PIPE) as process:
        try:
            for line, answer in zip(lines_with_ends(data), reference.answers(data)):
                with contextlib.suppress(BrokenPipeError):  # the output shows it
                    process.stdin.write(line)
                if line.endswith(b'\n'):
                    due += answer
                    output = answered(process.stdout.fileno(), output, due)
                if output != due:
                    return Outcome(output, f'none: no such answer at once to {line[:70]!r}')
            rest, _ = process.communicate(timeout=SECONDS)
            return Outcome(output + rest, process.returncode)
        except subprocess.TimeoutExpired:
            return Outcome(output, f'none after {SECONDS} s')
        finally:
            process.kill()


def answered(pipe: int, output: bytes, due: bytes) -> bytes:
    """The output and what follows it, until it is what is due, differs, or time is up."""
    end = time.monotonic() + ANSWER_SECONDS
    while output != due and due.startswith(output):
        ready, _, _ = select.select([pipe], [], [], max(0, end - time.monotonic()))
        more = os.read(pipe, 65_536) if ready else b''
        if not more:
            break
        output += more
    return output


# 2. Comparing, shrinking and showing


def outputs_of(data: bytes, met: generate.Met) -> Outputs:
    """Counts in `met` what the input meets. Raises Broken where demand 3 fails."""
    output = met.run(data)
    if len(data) <= reference.INPUT_LIMIT:
        return Outputs(output, output)
    answers = reference.answers(data, on_report=reference.check_demand_3)
    return Outputs(output, b''.join(answers))


def difference(outcome: Outcome, expected: bytes) -> str:
    """What is wrong with an outcome, '' if nothing."""
    wrong = []
    if outcome.output != expected:
        pairs = zip(outcome.output, expected)
        alike = sum(1 for _ in itertools.takewhile(lambda pair: pair[0] == pair[1], pairs))
        line = expected.count(b'\n', 0, alike) + 1
        wrong.append(f'outputs differ from byte {alike}, in line {line} of the output')
    if outcome.status != 0:
        wrong.append(f'exit status {outcome.status}')
    return '; '.join(wrong)


def wrong_with(program: Path, case: Case) -> str:
    """'' for an input that passes."""
    try:
        expected = outputs_of(case.data, generate.Met()).of(program)
    except reference.Broken as error:
        return f'demand 3: {error}'
    return difference(run(program, case), expected)


def shrunk(case: Case, fails) -> Case:
    """Lines taken away, half of them first and one at last, while it still fails."""
    lines = lines_with_ends(case.data)
    trials = 0
    size = len(lines) // 2
    while size:
        at = 0
        while at < len(lines) and trials < TRIALS:
            fewer = case._replace(data=b''.join(lines[:at] + lines[at + size:]))
            trials += 1
            if fails(fewer):
                case, lines = fewer, lines[:at] + lines[at + size:]
            else:
                at += size
        size //= 2
    return case


def show(name: str, data: bytes, lines: int = 12, width: int = 300):
    """The first lines, as Python writes bytes."""
    parts = data.split(b'\n')
    for part in parts[:lines]:
        print(f'    {name} {part[:width]!r}' + (' ..' if len(part) > width else ''))
    if len(parts) > lines:
        print(f'    {name} .. {len(parts) - lines} more')


class Comparison:
    def __init__(self, programs: list[Path]):
        self.programs = programs
        self.passed = self.failed = 0

    def fail(self, what: str):
        self.failed += 1
        print(f'FAILED {what}')

    def compare(self, case: Case, met: generate.Met):
        """The programs run while the reference answers."""
        programs = [program for program in self.programs
                    if is_panel(program) or not case.at_once]
        if not programs:
            return
        outcomes = [start(program, case) for program in programs]
        outputs, broken = Outputs(b'', b''), ''
        try:
            outputs = outputs_of(case.data, met)
        except reference.Broken as error:
            broken = f'demand 3: {error}'
        for program, outcome in zip(programs, outcomes):
            wrong = difference(outcome(), outputs.of(program))
            self.count(program, case, broken or wrong)

    def count(self, program: Path, case: Case, wrong: str):
        if not wrong:
            self.passed += 1
            return
        self.fail(f'{program.name}, {case.name}: {wrong}')
        if self.failed <= SHOWN:
            self.explain(program, case)

    def explain(self, program: Path, case: Case):
        few = case
        if not case.at_once:  # a trial of these may take seconds
            few = shrunk(case, lambda c: wrong_with(program, c))
            print(f'  shrunk: {wrong_with(program, few)}')
        show('input   ', few.data)
        answers = Outputs(reference.tally(few.data), b''.join(reference.answers(few.data)))
        show('expected', answers.of(program))
        show('actual  ', run(program, few).output)

    def end(self) -> int:
        print(f'{self.passed} passed, {self.failed} failed')
        return 0 if self.passed and not self.failed else 1


# 3. The inputs


def long_lines() -> bytes:
    """Each would be a form to a program that keeps a part of it, takes it for several
    lines, or counts its bytes in 8 or 16 bits."""
    lines = [line.ljust(1_000) for line in generate.line_lengths().splitlines()]
    for length in (264, 265, 520, 65_544, 100_000):
        lines += [b'(report)'.ljust(length), b'(report)'.rjust(length)]
    return b'\n'.join([*lines, b'(report)\n'])


def by_hand() -> list[Case]:
    cases = [Case(f'by hand {n}', data)
             for n, data in enumerate(generate.boundary_inputs())]
    cases.append(Case('examples/site.txt', EXAMPLE.read_bytes()))
    listing, largest = generate.listing(), generate.full_input(2)
    above = generate.random_input(5, 3 * LONG)
    cases += [Case('by hand, lines of up to 100,000 bytes', long_lines()),
              Case('by hand, the end inside a line', listing + b'(drop source 0'),
              Case(f'by hand, {len(above)} bytes', above),
              Case(f'by hand, {len(above)} bytes and a part of a line', above + b'(repo')]
    pieces = [(b'', 7), (b'\n', 7), (listing, 1), (listing, 7), (listing[:-1], 7),
              (largest, 4_000), (largest + b'\n', 4_000), (largest, 65_535)]
    cases += [Case(f'by hand, {len(data)} bytes in pieces of {size}', data, size)
              for data, size in pieces]
    return cases + [Case(f'seed {seed} in pieces of 7', generate.random_input(seed), 7)
                    for seed in range(10)]


def line_by_line() -> list[Case]:
    listing = generate.listing()
    inputs = {'listing': listing, 'listing without its last LF': listing[:-1],
              'listing and a part of a line': listing + b'(drop source 0',
              'seed 5': generate.random_input(5)}
    return [Case(f'{name}, line by line', data, at_once=True) for name, data in inputs.items()]


def at_random(seeds: int = SEEDS):
    return (Case(f'seed {seed}', generate.random_input(seed)) for seed in range(seeds))


def at_length(lines: int):
    """Inputs of other seeds than `at_random`, until they have so many lines."""
    for seed in itertools.count(SEEDS):
        if lines <= 0:
            return
        wanted = LONG if seed % 2 else generate.LINES
        data = generate.random_input(seed, wanted)
        lines -= len(reference.lines_of(data))
        yield Case(f'seed {seed} with {wanted} lines', data)


def compare_all(comparison: Comparison):
    random, hand = generate.Met(), generate.Met()
    if reference.tally(EXAMPLE.read_bytes()) != EXAMPLE.with_suffix('.out').read_bytes():
        comparison.fail('examples/site.out is not what the reference answers')
    for case in [*by_hand(), *line_by_line()]:
        comparison.compare(case, hand)
    for case in at_random():
        comparison.compare(case, random)
    hand.show('by hand')
    random.show('at random')
    for what in generate.missing(random, hand):
        comparison.fail(f'coverage: {what}')


def compare_some(comparison: Comparison, name: str, cases):
    met = generate.Met()
    for case in cases:
        comparison.compare(case, met)
    met.show(name)


# 4. The self-test


def self_test() -> int:
    """Needs cc. The C program itself must pass, and each slip in it be found."""
    passed = failed = 0
    cases = [*by_hand(), *at_random(200)]
    expected = [reference.tally(case.data) for case in cases]
    with tempfile.TemporaryDirectory() as folder:
        for slip in (None, *slips.SLIPS):
            program = slips.build(slip, Path(folder))
            wrong = [case for case, answers in zip(cases, expected)
                     if difference(run(program, case), answers)]
            good = bool(wrong) == (slip is not None)
            passed, failed = passed + good, failed + (not good)
            print(f'{slip.name if slip else "no slip"}: '
                  f'{len(wrong)} of {len(cases)} inputs differ'
                  + (f', the first shrunk to {lines_left(program, wrong[0])} lines'
                     if wrong else ''))
    print(f'{passed} passed, {failed} failed')
    return 1 if failed else 0


def lines_left(program: Path, case: Case) -> int:
    few = shrunk(case, lambda c: difference(run(program, c), reference.tally(c.data)))
    return len(reference.lines_of(few.data))


# 5. The command


def arguments() -> argparse.Namespace:
    parser = argparse.ArgumentParser(description=__doc__.split('\n')[0])
    parser.add_argument('--program', type=Path)
    parser.add_argument('--lines', type=int)
    parser.add_argument('--seed', type=int)
    parser.add_argument('--inputs', type=Path)
    parser.add_argument('--self-test', action='store_true')
    return parser.parse_args()


def compare_given(comparison: Comparison, given: argparse.Namespace):
    if given.lines is not None:
        compare_some(comparison, 'at random', at_length(given.lines))
    elif given.seed is not None:
        case = Case(f'seed {given.seed}', generate.random_input(given.seed))
        compare_some(comparison, case.name, [case])
    elif given.inputs is not None:
        files = sorted(path for path in given.inputs.rglob('*') if path.is_file())
        compare_some(comparison, str(given.inputs),
                     (Case(str(path), path.read_bytes()) for path in files))
    else:
        compare_all(comparison)


def main() -> int:
    given = arguments()
    if given.self_test:
        return self_test()
    comparison = Comparison([given.program.absolute()] if given.program else list(PROGRAMS))
    for program in comparison.programs:
        if not os.access(program, os.X_OK):
            comparison.fail(f'there is no program {program}')
    if not comparison.failed:
        compare_given(comparison, given)
    return comparison.end()


if __name__ == '__main__':
    sys.exit(main())
