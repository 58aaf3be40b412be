"""The vectors that the program `vectors` runs, with the answers of the reference.

    python3 -m tests.comparison.vectors
              writes crates/vectors/stdin and stdout
    --check   compares these two files with what it would write, byte for byte, and counts
              them; that the program answers stdin by stdout is for `rt ci` to see, which
              runs it

A vector is a line of stdin and its answer in stdout, a line or more. Its fields
are numbers of 64 bits, each written as 16 hexadecimal digits. The first one is
the kind of the vector.

The vectors are few, chosen for the edges: each limit with its neighbours, each refusal
and each two of them, the last numbers of the types, each direction, side and place.
mutants.py makes sure that no edge of the rules is missing; random inputs by the thousand
are for differential.py. Each random part below draws from numbers of its own seed, and no
list of calls from any, so that a case more in one part leaves the lines of the others as
they are: a change of one rule changes few lines of stdin.
"""

import random
import struct
import sys
from itertools import permutations, product
from pathlib import Path
from typing import NamedTuple

from tests.cases.counterexamples import register_above
from tests.comparison import replay
from tests.comparison.generate import FUEL_LIMITS, RATIO_LIMIT, last_register
from tests.comparison.ledger_vectors import (
    LAST_U16, UNREAD, call_vectors, fuel_fields, meter_fields)
from tests.reference import reference
from tests.reference.reference import EnergyLine, FuelLine, MassLine, Meter, VolumeLine

ROOT = Path(__file__).resolve().parents[2]

LAST_U32 = 2**32 - 1
LAST_U64 = 2**64 - 1

Fields = tuple[int, ...]


class Numbers:
    """Random numbers that are the same in every version of Python, of which only
    `random()` is promised to be."""

    def __init__(self, seed: int):
        self.random = random.Random(seed).random

    def below(self, limit: int) -> int:
        high, low = int(self.random() * 2**32), int(self.random() * 2**32)
        return (high << 32 | low) % limit

    def of_any_size(self, limit: int) -> int:
        return self.below(limit) >> self.below(limit.bit_length())

    def pick(self, items):
        return items[self.below(len(items))]


def in_both_directions(cases) -> list[tuple]:
    """Each case after a direction: 0 is up, 1 down."""
    return [(direction, *case) for case in cases for direction in (0, 1)]


# 1. Rounding: operation, a, b, d

DIVIDE = 0  # up, as replay.MULTIPLY_DIVIDE is; one more is down


def divisions() -> list[tuple[int, int, int]]:
    """Edges of the type, then exact quotients and those just off, then any."""
    edges = (0, 1, 2, 2**32, LAST_U64 - 1, LAST_U64)
    cases = [(a, 0, d) for a, d in product(edges, edges)]
    near, other = Numbers(11), Numbers(12)
    for _ in range(4):
        d = 2 + near.of_any_size(2**32)
        exact = (1 + near.below(2**64 // d - 1)) * d
        cases += [(a, 0, d) for a in (exact - 1, exact, exact + 1)]
    return cases + [(other.below(2**64), 0, other.of_any_size(2**64)) for _ in range(4)]


def products() -> list[tuple[int, int, int]]:
    cases = list(product((0, 1, LAST_U64), (0, 1, 2, LAST_U32), (0, 1, 2, LAST_U32)))
    # Quotients of 2^64 - 1, then 2^64 - 1/2, then 2^64, all exact.
    cases += [(LAST_U64 // 3, 3, 1), (LAST_U64 // 3 * 2, 3, 2), ((2**65 - 1) // 31, 31, 2),
              (2**63, 2, 1), (2**62 * 3, 4, 3)]
    # Little more than 1, so that the quotients of neighbouring a lie little more than 1 apart.
    near, other = Numbers(13), Numbers(14)
    ratios = [(LAST_U32, LAST_U32), (LAST_U32, LAST_U32 - 1), (3, 2), (10_001, 10_000)]
    ratios += [(d + near.of_any_size(d), d)
               for d in (2 + near.below(2**31 - 2) for _ in range(3))]
    for b, d in ratios:
        highest = min(2**64 * d // b, LAST_U64)
        cases += [(a, b, d) for a in range(highest - 2, min(highest + 1, LAST_U64) + 1)]
    cases += [(2**64 * d // b + off, b, d) for b, d in ((LAST_U32, 1), (1_300_000, 10_000))
              for off in (-1, 0, 1)]
    return cases + [(other.of_any_size(2**64), other.of_any_size(2**32),
                     1 + other.of_any_size(LAST_U32)) for _ in range(8)]


def rounding_vectors() -> list[Fields]:
    return [(operation + direction, *case)
            for operation, group in ((DIVIDE, divisions()), (replay.MULTIPLY_DIVIDE, products()))
            for direction, *case in in_both_directions(group)]


# 2. Fuel lines: direction, kind, and three figures, of which the last of a line by mass is not read

BENCH_LINES = (EnergyLine(1_000, 43_000, 74_100), MassLine(1_000, 8_590),
               VolumeLine(1_000, 991, 8_590))


def edge_lines(bench: FuelLine) -> list[FuelLine]:
    """One figure at its edges, beside the others of the bench; then each at 0 or at its limit,
    and all at the type's end."""
    kind, limits = type(bench), FUEL_LIMITS[type(bench)]
    figures = [(*bench[:at], value, *bench[at + 1:]) for at, limit in enumerate(limits)
               for value in (0, 1, limit - 1, limit, limit + 1, 65_536, 65_536 + limit, 2**31,
                             LAST_U32)]
    figures += [*product(*((0, limit) for limit in limits)), len(limits) * [LAST_U32]]
    return [bench, *(kind(*each) for each in figures)]


def random_lines(kind: type, seed: int) -> list[FuelLine]:
    numbers = Numbers(seed)
    return [kind(*(numbers.of_any_size(limit) + 1 for limit in FUEL_LIMITS[kind]))
            for _ in range(8)]


def fuel_lines() -> list[FuelLine]:
    """Also each part of a milligram that a line by carbon may have."""
    lines = [EnergyLine(1, 1, C) for C in (499, 500, 501, 999, 1_000, 1_001, 1_999, 2_000, 2_001)]
    lines += [MassLine(1, W) for W in range(1, 4)]
    lines += [VolumeLine(1, 1, W) for W in range(1, 31)]
    for seed, bench in enumerate(BENCH_LINES, 21):
        lines += [*edge_lines(bench), *random_lines(type(bench), seed)]
    return lines


def fuel_vectors() -> list[Fields]:
    cases = [fuel_fields(line, UNREAD[sum(line) % len(UNREAD)]) for line in fuel_lines()]
    cases += [fuel_fields(line, unread) for line in (
        MassLine(1, 1), MassLine(3, 1), MassLine(1, 10_001)) for unread in UNREAD]
    return in_both_directions(cases)


# 3. Readings: ratio, kind, and a count of watt-hours or a register's bits

LIMIT = reference.READING_LIMIT_WH
LAST_REGISTER = 0x4CBEBC20  # 100,000,000 kWh
SIGN_BIT = 0x80000000
# (a) to (e) of the paper's bench table
BENCH_REGISTERS = (0x3F800000, 0x42F6E979, 0x00000001, SIGN_BIT, LAST_REGISTER, LAST_REGISTER + 1)
INFINITIES = (0x7F800000, 0xFF800000)
NANS = (0x7F800001, 0x7FBFFFFF, 0x7FC00000, 0x7FFFFFFF, 0xFF800001, 0xFFC00000, 0xFFFFFFFF)
EDGE_RATIOS = (1, 2, 3, 7, 128, 255, 256, 8_923, 9_697, RATIO_LIMIT - 1, RATIO_LIMIT)
# Of 16 bits; by these every reading is refused 2.
UNFIT_RATIOS = (0, RATIO_LIMIT + 1, 32_767, 32_768, LAST_U16 - 1, LAST_U16)


def register_of(kilowatt_hours: float) -> int:
    return struct.unpack('>I', struct.pack('>f', kilowatt_hours))[0]


def counts() -> list[int]:
    numbers = Numbers(31)
    edges = [0, 1, 999, 1_000, LIMIT - 1, LIMIT, LIMIT + 1, LAST_U32, 2**32, 2**63, LAST_U64]
    return edges + [numbers.of_any_size(LIMIT + 1) for _ in range(8)]


def registers_by_exponent() -> list[int]:
    """Each exponent with the least and the largest fraction, those from about 1 Wh to the limit
    with two more; and some of registers below zero."""
    numbers = Numbers(32)
    values = [exponent << 23 | fraction for exponent in range(256) for fraction in (0, 0x7FFFFF)]
    values += [exponent << 23 | fraction for exponent in range(117, 154)
               for fraction in (1, numbers.below(0x800000))]
    return values + [SIGN_BIT + (exponent << 23) + fraction for fraction in (0, 1, 0x7FFFFF)
                     for exponent in (0, 1, 64, 117, 127, 128, 153, 154, 254, 255)]


def near_whole() -> list[int]:
    """Registers of whole watt-hours, which are eighths of a kWh, and those next to
    them; and the two registers round a count of watt-hours."""
    wholes, counted = Numbers(33), Numbers(34)
    eighths = [1, 2, 3, 7, 8] + [1 + wholes.of_any_size(2**24) for _ in range(8)]
    exact = [register_of(n / 8) for n in eighths]
    above = [register_above(counted.of_any_size(LIMIT)) for _ in range(12)]
    return ([register + off for register in exact for off in (-1, 0, 1)]
            + [register + off for register in above for off in (-1, 0)])


def around_limit(ratio: int) -> list[tuple[int, int]]:
    """The last count and the last register within the limit by this ratio, and their
    neighbours; counts of which the product is just beyond 2^32 and 2^64."""
    wrapping = [-(-2**bits // ratio) for bits in (32, 64)] if ratio > 1 else []
    return ([(0, LIMIT // ratio + off) for off in (-1, 0, 1)]
            + [(1, last_register(ratio) + off) for off in (-1, 0, 1)]
            + [(0, count + off) for count in wrapping for off in (-1, 0, 1)])


def readings_by_ratio() -> list[Fields]:
    """Each edge of the ratios with its own limits and with readings of every kind, then any
    ratios with registers of each size."""
    numbers = Numbers(35)
    values = [(0, value) for value in (0, 1, LIMIT, LIMIT + 1, LAST_U64 - 1, LAST_U64)]
    values += [(1, value) for value in (
        *BENCH_REGISTERS, 0x3A800000, 0x3F800001, 0x42F6E97A, SIGN_BIT + 1, *INFINITIES,
        *NANS[2:4], 0x7F7FFFFF, 0xFF7FFFFF)]
    cases = [(ratio, *value) for ratio in EDGE_RATIOS for value in (*values, *around_limit(ratio))]
    cases += [(ratio, *value) for ratio in UNFIT_RATIOS for value in values[::3]]
    return cases + [(1 + numbers.of_any_size(RATIO_LIMIT), 1,
                     exponent << 23 | numbers.below(0x800000)) for exponent in range(84, 154)]


def reading_vectors() -> list[Fields]:
    """Without a ratio, then by ratios."""
    numbers = Numbers(36)
    registers = [*BENCH_REGISTERS, LAST_REGISTER - 1, SIGN_BIT + LAST_REGISTER, *INFINITIES,
                 *NANS, *registers_by_exponent(), *near_whole()]
    registers += [LAST_REGISTER + 1 + numbers.of_any_size(0x7FFFFF) for _ in range(4)]
    cases = [(1, 0, value) for value in counts()] + [(1, 1, value) for value in registers]
    return cases + readings_by_ratio()


# 4. Sources: direction, number of meters, then the ratio, sign, kind, first and last of four meters

SIGNS = replay.SIGNS

REST = Meter('whole', '+', 0, 0)
FRACTIONAL = 0x42F6E979  # between 123,456 and 123,457 Wh
SMALLEST = 0x00000001
LAST_SUBNORMAL = 0x007FFFFF
ACCEPTED = (Meter('whole', '+', 0, 1_000), Meter('whole', '-', 0, 10),
            Meter('single', '+', 0, FRACTIONAL), Meter('single', '-', 0, SMALLEST))
BY_RATIO = (Meter('whole', '+', 3, 28, 40), Meter('single', '-', FRACTIONAL, FRACTIONAL + 1, 40),
            Meter('single', '+', SMALLEST, FRACTIONAL, RATIO_LIMIT), Meter('whole', '-', 5, 5, 7))
# Refused 2, whatever the readings are.
UNFIT = (Meter('whole', '+', 0, 1, 0), Meter('single', '-', 0, SMALLEST, RATIO_LIMIT + 1),
         Meter('single', '+', NANS[2], NANS[3], LAST_U16), Meter('whole', '-', LAST_U64, 0, 0))
# Refused 3: above the limit, below zero, infinite, not a number.
UNREADABLE = (Meter('whole', '+', 0, LIMIT + 1), Meter('whole', '-', LAST_U64, 0),
              Meter('single', '-', 0, LAST_REGISTER + 1),
              Meter('single', '+', SIGN_BIT + 1, FRACTIONAL),
              *(Meter('single', '+', 0, register) for register in INFINITIES),
              *(Meter('single', '-', register, FRACTIONAL) for register in NANS[2:4]),
              Meter('whole', '+', 0, LIMIT // RATIO_LIMIT + 1, RATIO_LIMIT),
              Meter('whole', '-', 2**64 // 40 + 1, 2**64 // 40 + 1, 40),
              Meter('single', '+', 0, LAST_REGISTER, 2),
              Meter('single', '-', SIGN_BIT + 1, FRACTIONAL, RATIO_LIMIT))
# Refused 4. Neighbouring registers run back by less than a watt-hour, so they round alike.
RUNNING_BACK = (Meter('whole', '+', 5, 4), Meter('whole', '-', LIMIT, 0),
                Meter('single', '+', FRACTIONAL + 1, FRACTIONAL),
                Meter('single', '-', SMALLEST + 1, SMALLEST),
                Meter('single', '+', SMALLEST, SIGN_BIT),
                Meter('whole', '+', 5, 4, RATIO_LIMIT),
                Meter('single', '-', FRACTIONAL + 1, FRACTIONAL, 40),
                Meter('single', '+', LAST_SUBNORMAL + 1, LAST_SUBNORMAL))
REFUSED = (*UNFIT, *UNREADABLE, *RUNNING_BACK)


def whole(*moved: int) -> list[Meter]:
    """Counts from 0, of + meters, or of - meters where below 0."""
    return [Meter('whole', '+' if wh >= 0 else '-', 0, abs(wh)) for wh in moved]


def single(sign: str, first: int, last: int, ratio: int = 1) -> Meter:
    return Meter('single', sign, first, last, ratio)


def source_fields(direction: int, meters: list[Meter], count: int | None = None) -> Fields:
    """Meters at rest fill the places that are left."""
    return (direction, len(meters) if count is None else count,
            *meter_fields((meters + 4 * [REST])[:4]))


def meter_counts() -> list[Fields]:
    """2 comes first, and a meter beyond the count is not read."""
    refused = (RUNNING_BACK[0], *UNREADABLE[-3:])
    cases = [source_fields(count % 2, list(meters), count)
             for meters in (ACCEPTED, BY_RATIO, refused, UNFIT)
             for count in (0, 1, 2, 3, 4, 5, 6, 255)]
    for at, bad in enumerate(REFUSED):
        count = 1 + at % 3
        cases.append(source_fields(at % 2, [*ACCEPTED[:count], bad, *ACCEPTED[count:3]], count))
    return cases


def whole_sources() -> list[list[Meter]]:
    """E at 0, at the limit and one off, of counts."""
    return [whole(*moved) for moved in (
        (0,), (1,), (-1,), (LIMIT - 1,), (LIMIT,), (-LIMIT,), (5, -5), (5, -6), (-5, 5), (-6, 5),
        (LIMIT, 1), (LIMIT, 1, -1), (LIMIT, 1, -2), (-1, LIMIT, 1), (LIMIT, -LIMIT),
        (LIMIT, -LIMIT, -1), (LIMIT, LIMIT, -LIMIT), (LIMIT, LIMIT, -LIMIT + 1),
        (LIMIT, LIMIT, LIMIT, LIMIT), (-LIMIT, -LIMIT, -LIMIT, -LIMIT),
        (LIMIT, LIMIT, -LIMIT, -LIMIT))] + [
        [Meter('whole', sign, first, last)] for sign in SIGNS
        for first, last in ((7, 7), (LIMIT, LIMIT), (LIMIT - 1, LIMIT), (1, LIMIT), (3, 1_000))]


def single_sources() -> list[list[Meter]]:
    """Registers at rest, at zero of either sign and at the limit, beside counts
    that bring E back to 0 or to the limit; and from the last subnormal to the next register."""
    unmoved = [single(sign, value, value) for sign in SIGNS for value in (FRACTIONAL, SMALLEST)]
    cases = [[meter, *whole(*moved)] for meter in unmoved
             for moved in ((), (1,), (-1,), (LIMIT,), (LIMIT - 1,))]
    cases += [n * [meter] for meter in unmoved for n in (2, 4)]
    cases += [[*unmoved[:3], *whole(moved)] for moved in (2, 3, 4, -2, -3, -4)]
    zeros = (0, SIGN_BIT)
    cases += [[single(sign, first, last)] for sign in SIGNS for first in zeros
              for last in (*zeros, SMALLEST, LAST_REGISTER)]
    cases += [[single('+', first, LAST_REGISTER), *whole(*moved)]
              for first in (SIGN_BIT, SMALLEST, LAST_REGISTER - 1) for moved in ((), (1,), (-1,))]
    cases += [[single('+', FRACTIONAL, LAST_REGISTER), *whole(moved)]
              for moved in (123_456, 123_457)]
    return cases + [[single('+', LAST_SUBNORMAL, LAST_SUBNORMAL + 1)]]


def sources_by_ratio() -> list[list[Meter]]:
    """Products that bring E to 0, to the limit and one beyond; registers at rest by ratios that
    make them whole Wh, and by others; two meters, each by its own ratio."""
    half = LIMIT // 2 // RATIO_LIMIT
    top = Meter('whole', '+', 0, LIMIT // RATIO_LIMIT, RATIO_LIMIT)
    cases = [[top, *whole(*moved)] for moved in ((), (1,), (-1,), (1, -1), (1, -2), (-LIMIT,))]
    cases += [[Meter('whole', '+', 0, half, RATIO_LIMIT), Meter('whole', '+', 0, LIMIT // 4, 2),
               *whole(*moved)] for moved in ((), (1,), (1, -1))]
    cases += [[Meter('whole', '-', 0, 1, RATIO_LIMIT), *whole(moved)]
              for moved in (RATIO_LIMIT - 1, RATIO_LIMIT, RATIO_LIMIT + 1)]
    cases += [[single(sign, value, value, ratio), *whole(*moved)] for sign in SIGNS
              for value in (FRACTIONAL, 0x3A800000) for ratio in (127, 128, RATIO_LIMIT)
              for moved in ((), (1,))]
    cases += [[single('+', 0, last_register(ratio), ratio), *whole(*moved)]
              for ratio in (2, 3, 8_923, 9_697, RATIO_LIMIT) for moved in ((), (1,))]
    return cases + [[Meter('whole', sign, 3, 8, ratio), Meter('whole', '+', 0, 7, other)]
                    for sign, ratio, other in product(SIGNS, (2, RATIO_LIMIT), (1, 40))]


def refused_sources() -> list[Fields]:
    """2, 3 and 4 at each place, then two of them, in either order: each is tested over all
    meters before the next."""
    cases = [source_fields(place % 2, [*ACCEPTED[:place], bad, *BY_RATIO[place + 1:]])
             for at, bad in enumerate(REFUSED) for place in (at % 4, (at + 1) % 4)]
    for earlier, later in ((UNFIT, UNREADABLE), (UNFIT, RUNNING_BACK), (UNREADABLE, RUNNING_BACK)):
        for turn, (place, other) in enumerate(permutations(range(4), 2)):
            meters = list(ACCEPTED)
            meters[place] = earlier[turn % len(earlier)]
            meters[other] = later[turn % len(later)]
            cases.append(source_fields(turn % 2, meters))
    return cases


def random_register(numbers: Numbers, ratio: int) -> int:
    """From a fraction of a watt-hour up."""
    return min((112 + numbers.below(41)) << 23 | numbers.below(0x800000), last_register(ratio))


def random_meter(numbers: Numbers) -> Meter:
    """A - meter moves little, so that E is mostly not below 0."""
    kind, sign = numbers.pick(replay.KINDS), numbers.pick('++-')
    ratio = numbers.pick((1, 1, 1 + numbers.of_any_size(RATIO_LIMIT)))
    last = (random_register(numbers, ratio) if kind == 'single'
            else numbers.of_any_size(LIMIT // ratio))
    moved = numbers.of_any_size(last + 1) if sign == '+' else numbers.below(min(last, 99) + 1)
    return Meter(kind, sign, last - moved, last, ratio)


def random_meters(numbers: Numbers, most: int) -> list[Meter]:
    return [random_meter(numbers) for _ in range(1 + numbers.below(most))]


def settled_sources() -> list[Fields]:
    """Random meters and a count that brings E to 0, to the limit or one beyond."""
    numbers = Numbers(41)
    cases = []
    for _ in range(3):
        meters = random_meters(numbers, 3)
        for direction, side in enumerate(('project', 'baseline')):
            adds, takes = reference.judge_meters(side, meters)
            cases += [source_fields(direction, [*meters, *whole(target - adds + takes)])
                      for target in (-1, 0, LIMIT, LIMIT + 1)]
    return cases


def source_vectors() -> list[Fields]:
    numbers = Numbers(42)
    both_ways = [*whole_sources(), *single_sources(), *sources_by_ratio(),
                 *(random_meters(numbers, 4) for _ in range(12))]
    return [*meter_counts(), *refused_sources(), *settled_sources(),
            *(source_fields(direction, meters) for meters in both_ways for direction in (0, 1))]


# 5. The files

# The last are calls on the ledger: operation, and up to 27 arguments.
KINDS_OF_VECTORS = {'quotients': rounding_vectors, 'fuel lines': fuel_vectors,
                    'readings': reading_vectors, 'sources': source_vectors,
                    'calls on the ledger': call_vectors}


class Case(NamedTuple):
    """A vector as it stands in the files."""
    name: str
    stdin: bytes
    stdout: bytes


def fields_of(number: int, kind: str) -> list[Fields]:
    """Each vector once, save calls, whose answers go by the calls before; with the kind first."""
    vectors = [(number, *fields) for fields in KINDS_OF_VECTORS[kind]()]
    return vectors if number == replay.CALL else list(dict.fromkeys(vectors))


def cases_of(number: int, kind: str) -> list[Case]:
    vectors = fields_of(number, kind)
    return [Case(f'{kind}, vector {at}',
                 ' '.join(f'{field:016x}' for field in vector).encode() + b'\n',
                 answer.encode() + b'\n')
            for at, (vector, answer) in enumerate(
                zip(vectors, replay.answers(reference, vectors)), 1)]


def all_cases() -> list[Case]:
    cases = []
    for number, kind in enumerate(KINDS_OF_VECTORS):
        of_kind = cases_of(number, kind)
        print(f'{kind}: {len(of_kind)} vectors')
        cases += of_kind
    print(f'{len(cases)} vectors in all')
    return cases


FILES = ('stdin', 'stdout')


def path_of(name: str) -> Path:
    return ROOT / 'crates/vectors' / name


def write(cases: list[Case]):
    for name in FILES:
        path_of(name).write_bytes(b''.join(getattr(case, name) for case in cases))


def difference(name: str, cases: list[Case]) -> str | None:
    """Where a file first differs from what would be written."""
    if not path_of(name).exists():
        return 'is missing'
    kept, at = path_of(name).read_bytes(), 0
    for case in cases:
        expected = getattr(case, name)
        found = kept[at:at + len(expected)]
        if found != expected:
            return f'differs at {case.name}: {found!r} in place of {expected!r}'
        at += len(expected)
    return None if at == len(kept) else f'goes on after the last vector: {kept[at:at + 80]!r}'


def check(cases: list[Case]) -> int:
    failed = 0
    for name in FILES:
        wrong = difference(name, cases)
        if wrong is not None:
            print(f'{path_of(name).relative_to(ROOT)} {wrong}')
            failed += 1
    print(f'{len(FILES) - failed} passed, {failed} failed')
    return 1 if failed else 0


if __name__ == '__main__':
    if sys.argv[1:] == ['--check']:
        sys.exit(check(all_cases()))
    write(all_cases())
