"""Compares a firmware's answers with the x86-64 program's, byte by byte, and measures the firmware.

    compare.py PROGRAM ELF INPUTS [--peer NAME=ELF].. [--ram BYTES] [--limit BYTES] [--seconds N]

INPUTS is a folder (inputs.py). Each input counts as one: it passes where both programs end well with
the same answers, and the firmware tells how much of its stack it used, its mark. One more has failed
where the largest mark is above the limit, where the deepest stack by frames is below that mark or
does not fit RAM, and where something could not be measured. Prints what was measured and what
failed, and last `N passed, M failed`; fails if M is not 0.

A peer is another firmware for the same lines. Each input counts as one for each peer too, and where
nothing failed the figures of all are printed side by side. The limit is not the peers', and their
deepest stack may be one that cannot be measured.
"""

import argparse
import itertools
import re
import sys
from pathlib import Path
from typing import NamedTuple

import machine
import measure

ROOT = Path(__file__).resolve().parent.parent
FAULT = 3  # the status of start.c
MARK = re.compile(rb'stack ([0-9a-f]{8}) of ([0-9a-f]{8})\n')
SHOWN = 10  # inputs that fail
# What the x86-64 program has to answer here: two programs that print nothing would be alike.
KNOWN = {'example': re.escape((ROOT / 'examples/site.out').read_bytes()),
         'full': rb'(ok\n){41}project .*\nleakage .*\nbaseline .*\nreduction .*\n'}
OURS = 'panel'  # beside the names of the peers
LINES = ('report', 'source', 'plant')


class Verdict(NamedTuple):
    wrong: str  # '' where nothing is
    mark: int = 0


class Figures(NamedTuple):
    """Of one firmware. The costs are by the kind of the line."""
    flash: int
    static: int
    mark: int
    deepest: int | None  # None where it cannot be measured
    costs: dict[str, measure.Cost]


# 1. The answers


def difference(answers: bytes, expected: bytes) -> str:
    """Where two answers that are not the same begin to differ."""
    pairs = itertools.zip_longest(answers, expected)
    alike = sum(1 for _ in itertools.takewhile(lambda pair: pair[0] == pair[1], pairs))
    line = expected.count(b'\n', 0, alike) + 1
    return f'the answers differ from byte {alike:,}, in line {line:,}'


def wrong_with_program(name: str, outcome: machine.Outcome) -> str:
    if outcome.status != 0:
        return f'the x86-64 program ended with status {outcome.status}'
    if name in KNOWN and not re.fullmatch(KNOWN[name], outcome.output):
        return 'the x86-64 program does not answer as it should'
    return ''


def verdict(expected: bytes, outcome: machine.Outcome) -> Verdict:
    said = outcome.error.decode(errors='replace').partition('\n')[0]
    if outcome.status == FAULT and outcome.error == b'fault\n':
        return Verdict('the firmware faults')
    if outcome.status != 0:
        return Verdict(f'the firmware ended with status {outcome.status}: {said}')
    if outcome.output != expected:
        return Verdict(difference(outcome.output, expected))
    mark = MARK.fullmatch(outcome.error)
    if mark is None or not 0 < int(mark[1], 16) <= int(mark[2], 16):
        return Verdict(f'the firmware tells no mark: {said}')
    return Verdict('', int(mark[1], 16))


def compare(given: argparse.Namespace, name: str, data: bytes) -> dict[str, Verdict]:
    """By firmware; where the x86-64 program is wrong, of ours alone."""
    expected = machine.run([str(given.program)], data, given.seconds)
    wrong = wrong_with_program(name, expected)
    if wrong:
        return {OURS: Verdict(wrong)}
    return {firmware: verdict(expected.output,
                              machine.run(machine.command(elf, given.ram), data, given.seconds))
            for firmware, elf in {OURS: given.elf, **given.peers}.items()}


def failures(firmware: str, verdicts: dict[str, Verdict]) -> list[str]:
    of_peer = '' if firmware == OURS else f'peer {firmware}: '
    return [f'{name}: {of_peer}{verdict.wrong}' for name, verdict in verdicts.items()
            if verdict.wrong]


# 2. The figures


def stack(code: measure.Code, mark: int, limit: int | None, chain: measure.Chain) -> list[str]:
    """Prints its figures, and returns what is wrong with them."""
    size = code.stack_size()
    limit = size if limit is None else limit
    print(f'stack, largest mark: {mark:,} bytes; the limit is {limit:,}')
    print(f'stack, deepest by frames: {chain.size:,} bytes of {size:,}')
    print(f'  {" > ".join(chain.names)}')
    wrong = []
    if mark > limit:
        wrong.append(f'the mark, {mark:,}, is above the limit, {limit:,}')
    if not mark <= chain.size <= size:
        wrong.append(f'the deepest stack by frames, {chain.size:,}, is below the mark, {mark:,}, '
                     f'or above what there is, {size:,}')
    return wrong


def costs(code: measure.Code, ram: int, full: bytes) -> dict[str, measure.Cost]:
    """Of one line more on a full ledger: a report, and its last source and plant once more."""
    *ledger, report = full.splitlines(keepends=True)
    before = measure.cost(code, ram, b''.join(ledger))
    found = {}
    for kind in LINES:
        line = [line for line in (*ledger, report) if line.startswith(f'({kind}'.encode())][-1]
        found[kind] = measure.cost(code, ram, b''.join((*ledger, line))).less(before)
    return found


def print_costs(found: dict[str, measure.Cost]):
    print('assumed: 16 MHz, no wait states, a multiplier of one cycle; '
          'cycles by ARM DDI 0432C, table 3-1')
    print('on a full ledger, a grid of margins, 8 plants of 4 fuel lines on 4 sites, two of them of'
          ' all kinds and six with heat, and 32 sources of 4 meters:')
    for kind, cost in found.items():
        print(f'  {kind} line: {cost.instructions:,} instructions, {cost.cycles:,} cycles, '
              f'{cost.milliseconds():.2f} ms')


def figures(given: argparse.Namespace, marks: dict[str, int], full: bytes | None) -> list[str]:
    """Prints them, and returns what is wrong with them. `full` is None where an input failed: costs
    are told of a firmware that is right."""
    code = measure.Code(given.elf)
    flash, static = code.sizes()
    print(f'flash: {flash:,} bytes')
    print(f'static RAM: {static:,} bytes of {given.ram:,}')
    try:
        chain = measure.deepest(code, code.start_of('reset'))
        wrong = stack(code, marks[OURS], given.limit, chain)
        if full is not None and not wrong:
            ours = Figures(flash, static, marks[OURS], chain.size, costs(code, given.ram, full))
            print_costs(ours.costs)
            wrong = beside_peers(given, marks, full, ours)
    except machine.Unexpected as error:
        return [f'not measured: {error}']
    return wrong


# 3. The peers


def deepest(code: measure.Code) -> int | None:
    """None where a call goes through a register, as plain C may, or something else is not known."""
    try:
        return measure.deepest(code, code.start_of('reset')).size
    except machine.Unexpected:
        return None


def beside_peers(given: argparse.Namespace, marks: dict[str, int], full: bytes,
                 ours: Figures) -> list[str]:
    """Prints the figures of all, and returns what could not be measured."""
    found = {OURS: ours}
    for name, elf in given.peers.items():
        code = measure.Code(elf)
        try:
            found[name] = Figures(*code.sizes(), marks[name], deepest(code),
                                  costs(code, given.ram, full))
        except machine.Unexpected as error:
            return [f'peer {name}: not measured: {error}']
    if given.peers:
        print_table(found)
    return []


def rows(found: list[Figures]) -> dict[str, list[float | None]]:
    """By their titles."""
    table = {'flash, bytes': [one.flash for one in found],
             'static RAM, bytes': [one.static for one in found],
             'stack, largest mark': [one.mark for one in found],
             'stack, deepest by frames': [one.deepest for one in found]}
    for kind in LINES:
        of_kind = [one.costs[kind] for one in found]
        table[f'{kind} line, instructions'] = [cost.instructions for cost in of_kind]
        table[f'{kind} line, cycles'] = [cost.cycles for cost in of_kind]
        table[f'{kind} line, ms'] = [cost.milliseconds() for cost in of_kind]
    return table


def written(number: float | None) -> str:
    if number is None:
        return 'not measured'
    return f'{number:,.2f}' if isinstance(number, float) else f'{number:,}'


def print_table(found: dict[str, Figures]):
    """The figures of all firmwares, and ours as a ratio of each peer's."""
    _, *peers = found
    print('beside the plain C of measure/plain_tally.c, as firmware at the same level:')
    heads = [*found, *(f'times {peer}' for peer in peers)]
    print(f'  {"":25}{"".join(f"{head:>14}" for head in heads)}')
    for title, (ours, *others) in rows(list(found.values())).items():
        ratios = ['' if ours is None or not other else f'{ours / other:.2f}' for other in others]
        cells = [*map(written, (ours, *others)), *ratios]
        print(f'  {title:25}{"".join(f"{cell:>14}" for cell in cells)}'.rstrip())


# 4. The command


def named(text: str) -> tuple[str, Path]:
    name, _, elf = text.partition('=')
    return name, Path(elf)


def arguments() -> argparse.Namespace:
    parser = argparse.ArgumentParser(description=__doc__.split('\n')[0])
    parser.add_argument('program', type=Path)
    parser.add_argument('elf', type=Path)
    parser.add_argument('inputs', type=Path)
    parser.add_argument('--peer', type=named, action='append', default=[], metavar='NAME=ELF')
    parser.add_argument('--ram', type=int, default=8_192)
    parser.add_argument('--limit', type=int, help='of the mark; else what RAM has for the stack')
    parser.add_argument('--seconds', type=float, default=machine.SECONDS, help='for one run')
    given = parser.parse_args()
    given.peers = dict(given.peer)
    return given


def print_failures(found: list[str]):
    for failure in found[:SHOWN]:
        print(f'FAILED {failure}')
    if len(found) > SHOWN:
        print(f'.. and {len(found) - SHOWN} more inputs')


def main() -> int:
    given = arguments()
    inputs = {path.name: path.read_bytes() for path in sorted(given.inputs.iterdir())}
    verdicts = {firmware: {} for firmware in (OURS, *given.peers)}
    for name, data in inputs.items():
        for firmware, found in compare(given, name, data).items():
            verdicts[firmware][name] = found
    lines = sum(len(re.findall(rb'[^\n]*\n|[^\n]+', data)) for data in inputs.values())
    print(f'inputs: {len(inputs):,}, of {lines:,} lines in all')
    failed = [failures(firmware, found) for firmware, found in verdicts.items()]
    marks = {firmware: max((verdict.mark for verdict in found.values()), default=0)
             for firmware, found in verdicts.items()}
    wrong = figures(given, marks, None if any(failed) else inputs['full'])
    for found in (*failed, wrong):
        print_failures(found)
    inputs_failed = sum(map(len, failed))
    passed = sum(map(len, verdicts.values())) - inputs_failed
    print(f'{passed} passed, {inputs_failed + len(wrong)} failed')
    return 1 if inputs_failed or wrong else 0


if __name__ == '__main__':
    sys.exit(main())
