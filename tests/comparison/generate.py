"""Inputs for comparing tally with the reference.

    python3 -m tests.comparison.generate SEED    writes the random input of a seed
    --full SEED      writes a random input of 65,536 bytes
    --fuzz DIR       writes small inputs and words for a fuzzer to start from
    --self-check     runs 300 seeds and the boundary inputs through the reference and counts
                     what they meet
"""

import functools
import random
import re
import sys
from collections import Counter
from fractions import Fraction
from itertools import product
from pathlib import Path

from tests.cases import counterexamples, fuels, heat, margins, ratios, sites
from tests.reference import reference
from tests.reference.reference import EnergyLine, FuelLine, MassLine, Meter, Plant, VolumeLine

LINES = 60

SUPPLIES = ('combined', 'griddefault', 'captive', 'captivedefault', 'either')
# Fields narrower than the number as written would wrap at these.
WRAPS = (2**8, 2**16, 2**32)
LARGEST = 10**18 - 1
LAST_REGISTER = 0x4CBEBC20  # 100,000,000 kWh
SPECIAL_REGISTERS = (
    0x00000000, 0x80000000, 0x00000001, 0x80000001, 0x007FFFFF, 0x00800000, 0x807FFFFF,
    0x3A83126E, 0x3A83126F, 0x3F800000, 0x42F6E979, 0xBF800000, LAST_REGISTER - 1,
    LAST_REGISTER, LAST_REGISTER + 1, 0x7F7FFFFF, 0xFF7FFFFF, 0x7F800000, 0xFF800000,
    0x7F800001, 0x7FC00000, 0xFFC00000, 0x7FFFFFFF, 0xFFFFFFFF)
# Few, so that P = B and P' = B' come up, and off by one too; with ratios that divide some.
EQUAL_ENERGIES = (0, 500, 1000, 1000, 1001)
EQUAL_RATIOS = (1, 4, 7, 40, 500)
READING_LIMIT = reference.READING_LIMIT_WH
RATIO_LIMIT = reference.RATIO_LIMIT
# Out of range, though some would be within it in 16 or 32 bits.
UNFIT_RATIOS = (0, RATIO_LIMIT + 1, RATIO_LIMIT + 2, 65_535, 65_536, 65_537, 65_576, 75_536,
                2**32, 2**32 + 1, LARGEST)
FACTOR_LIMIT = reference.FACTOR_LIMIT
FIRST_WEIGHTS = (0, 1, 25, 33, 50, 50, 67, 75, 99, 100)
# Weights that do not sum to 100, though some would in 8, 16 or 32 bits.
UNFIT_WEIGHTS = ((0, 0), (50, 49), (49, 50), (50, 51), (99, 0), (101, 0), (0, 101), (100, 100),
                 (255, 101), (256, 100), (206, 150), (0, 356), (356, 0), (65_636, 0),
                 (65_586, 50), (2**32 + 50, 50), (LARGEST, 0), (LARGEST - 99, 200),
                 (LARGEST, LARGEST))
# The kinds of fuel lines, with the limits of their figures; V is at least 1.
FUEL_LIMITS = {EnergyLine: (100_000_000, 150_000, 200_000), MassLine: (100_000_000, 10_000),
               VolumeLine: (100_000_000, 2_000, 10_000)}
# Each part of a milligram that a line by carbon may have, and some that one of energy may have.
PARTS_OF_MILLIGRAMS = (*(MassLine(1, W) for W in (1, 2, 3)),
                       *(VolumeLine(1, 1, W) for W in range(1, 31)),
                       *(EnergyLine(1, 1, C) for C in (1, 499, 500, 501, 999, 1_000)))
# A line of each kind by 1/1000, 1/3 and 1/30 above whole milligrams, and as much below.
LITTLE_ABOVE = (EnergyLine(1, 1, 1), MassLine(1, 2), VolumeLine(1, 1, 11))
LITTLE_BELOW = (EnergyLine(999, 1, 1), MassLine(1, 1), VolumeLine(1, 1, 19))


@functools.cache
def last_register(ratio: int) -> int:
    """The last one within the limit of a reading by this ratio."""
    return counterexamples.register_above(Fraction(READING_LIMIT, ratio)) - 1


# Malformed lines: each takes a line and returns one that should not be a form,
# though a few of them happen to leave one.


def replaced(rng: random.Random, line: bytes, pattern: bytes, new) -> bytes:
    """One random match of the pattern replaced; a byte appended where none is."""
    matches = list(re.finditer(pattern, line))
    if not matches:
        return line + b'x'
    match = rng.choice(matches)
    return line[:match.start()] + new(match[0]) + line[match.end():]


def inserted(rng: random.Random, line: bytes, new: bytes) -> bytes:
    at = rng.randrange(len(line) + 1)
    return line[:at] + new + line[at:]


DAMAGES = (
    lambda rng, line: replaced(rng, line, b' ', lambda m: b''),
    lambda rng, line: replaced(rng, line, b' ', lambda m: b'  '),
    lambda rng, line: replaced(rng, line, b' ', lambda m: b'\t'),
    lambda rng, line: replaced(rng, line, rb'[()]', lambda m: b''),
    lambda rng, line: replaced(rng, line, rb'[()]', lambda m: m + m),
    lambda rng, line: replaced(rng, line, rb'\(', lambda m: b'( '),
    lambda rng, line: replaced(rng, line, rb'\)', lambda m: b' )'),
    lambda rng, line: replaced(rng, line, rb' [0-9]', lambda m: b' 0' + m[1:]),
    lambda rng, line: replaced(rng, line, rb' [0-9]', lambda m: b' -' + m[1:]),
    lambda rng, line: replaced(rng, line, rb' [0-9]+', lambda m: b' 1' + 18 * b'0'),
    lambda rng, line: replaced(rng, line, rb' [0-9]+', lambda m: b' ' + 18 * b'9'),
    lambda rng, line: replaced(rng, line, rb' [0-9]+', lambda m: b' '),
    lambda rng, line: replaced(rng, line, rb' [0-9]+', lambda m: b''),
    lambda rng, line: replaced(rng, line, rb' [a-z]+\)', lambda m: b')'),
    lambda rng, line: replaced(rng, line, rb' [0-9]+\)', lambda m: m[:-1] + m),
    lambda rng, line: replaced(rng, line, rb'\b(?:fuel|mass|volume|heat)\b',
                               lambda m: rng.choice((b'fuel', b'mass', b'volume', b'heat'))),
    lambda rng, line: replaced(rng, line, rb' \(heat [0-9]+\)', lambda m: m + m),
    lambda rng, line: replaced(rng, line, rb' \(heat [0-9]+\) \([^)]*\)',
                               lambda m: m[m.index(b')') + 1:] + m[:m.index(b')') + 1]),
    lambda rng, line: replaced(rng, line, rb' [0-9]+ \(heat [0-9]+\)',
                               lambda m: m[m.index(b' ('):] + m[:m.index(b' (')]),
    lambda rng, line: replaced(rng, line, rb'[a-z]', bytes.upper),
    lambda rng, line: replaced(rng, line, rb'[a-z]+', lambda m: m[:-1]),
    lambda rng, line: replaced(rng, line, rb'[0-9a-f]{8}', lambda m: m[1:]),
    lambda rng, line: replaced(rng, line, rb'[0-9a-f]{8}', lambda m: m.upper()),
    lambda rng, line: replaced(rng, line, rb'[0-9a-f]{8}', lambda m: m + b'0'),
    lambda rng, line: replaced(rng, line, rb' [+-]', lambda m: b''),
    lambda rng, line: replaced(rng, line, rb' [0-9]+ [+-]', lambda m: m[-2:] + m[:-2]),
    lambda rng, line: replaced(rng, line, rb' [+-]',
                               lambda m: rng.choice((b' 2', b' 02', b' +2', b'  2', b' 2 ')) + m),
    lambda rng, line: replaced(rng, line, rb'(?s).', lambda m: bytes([rng.randrange(256)])),
    lambda rng, line: inserted(rng, line, b'\0'),
    lambda rng, line: inserted(rng, line, bytes([rng.randrange(128, 256)])),
    lambda rng, line: inserted(rng, line, b'\n'),
    lambda rng, line: line + rng.choice((b' ', b')', b'0', b'\0', b'\xff', line)),
    lambda rng, line: line + b'\r',
    lambda rng, line: b' ' + line,
    lambda rng, line: line[:rng.randrange(len(line))],
    lambda rng, line: b'',
    lambda rng, line: line + b' ' * 256,
)


def captive_factors(ledger: reference.Ledger) -> list[int]:
    """Those that sources with either compare, or of any site where there is no such source;
    one above the limit as the limit."""
    compared = {(source.supply.site, reference.rounds_up(source.side))
                for source in ledger.sources.values() if source.supply.name == 'either'}
    return [min(reference.captive_factor(ledger, site, up), FACTOR_LIMIT)
            for site, up in sorted(compared) or product(range(4), (False, True))
            if reference.generation_at(ledger, site) >= 1_000]


def fuel_text(line: FuelLine) -> str:
    word = next(word for word, kind in reference.FUEL_KINDS.items() if isinstance(line, kind))
    return f'({word.decode()} {" ".join(map(str, line))})'


def with_rest(lines: list[FuelLine], little: tuple, milligrams: int) -> list[FuelLine]:
    """Lines taken from these, and one more of energy that brings their sum near so many: it
    shows whether each line is rounded, or their sum."""
    whole = sum(reference.fuel_milligrams(line, up=False) for line in lines)
    rest = 1_000 * max(milligrams - whole, 0) + little[0].quantity
    return [*lines, EnergyLine(min(rest, 100_000_000), 1, 1)]


def plant_text(number: int, plant: Plant, heat_shown: bool) -> str:
    """A heat of 0 may be left out."""
    heat_part = [f'(heat {plant.heat})'] if heat_shown else []
    return ' '.join([f'(plant {number} {plant.site} {plant.generation}', *heat_part,
                     *map(fuel_text, plant.fuel_lines)]) + ')'


class Generator:
    """Writes lines and follows them on a ledger, so that it can mend what makes
    a report refused and reports are given often."""

    def __init__(self, seed: int):
        self.rng = rng = random.Random(seed)
        self.ledger = reference.Ledger()
        self.lines: list[bytes] = []
        self.malformed = rng.choice((0, 0.03, 0.03, 0.5))
        self.out_of_range = rng.choice((0, 0.02, 0.06))
        self.equal_energies = rng.random() < 0.3
        self.last_source = 5 if self.equal_energies else 31

    def chance(self, probability: float) -> bool:
        return self.rng.random() < probability

    def emit(self, line: str):
        """Adds the line, at times damaged, and returns the reference's answer."""
        data = line.encode()
        if self.chance(self.malformed):
            data = self.rng.choice(DAMAGES)(self.rng, data)
        self.lines.append(data)
        for part in data.split(b'\n'):
            answer = reference.perform(self.ledger, part)
        return answer

    def above(self, limit: int) -> int:
        wrapping = self.rng.choice(WRAPS) + self.rng.randrange(4)
        return self.rng.choice((limit + 1, limit + 1, LARGEST, wrapping))

    def number(self, limit: int) -> int:
        """Mostly within the limit and of any size, at times at it or above."""
        if self.chance(self.out_of_range):
            return self.above(limit)
        if self.chance(0.1):
            return self.rng.choice((limit - 1, limit))
        return self.rng.randrange(limit + 1) >> self.rng.randrange(limit.bit_length() + 1)

    def index(self, highest: int) -> int:
        if self.chance(self.out_of_range):
            return self.above(highest)
        return self.rng.randint(0, highest)

    # Readings and meters

    def any_register(self) -> int:
        if self.chance(0.4):
            return self.rng.choice(SPECIAL_REGISTERS)
        fraction = self.rng.choice((0, 1, 0x7FFFFF, self.rng.randrange(0x800000)))
        return self.rng.randrange(512) << 23 | fraction

    def single_readings(self, sign: str, ratio: int) -> tuple[int, int]:
        """A - meter mostly moves little, so that E is mostly not below 0."""
        highest = last_register(ratio)
        if self.chance(self.out_of_range):
            beyond = 0, highest + 1
            return self.rng.choice(((self.any_register(), self.any_register()), beyond))
        if self.chance(0.2):
            first = self.rng.choice((0x00000000, 0x80000000))
            return first, self.rng.choice((first, self.rng.randrange(highest + 1)))
        if self.chance(0.6):  # 0.5 Wh to 500 MWh
            first = self.rng.randrange(0x3A000000, min(highest, 0x49000000))
        else:
            first = self.rng.randrange(highest + 1)
        far = 0x02000000 if sign == '+' else 0x100
        moved = self.rng.choice((0, 1, 2, *3 * [self.rng.randrange(far)]))
        return first, min(first + moved, highest)

    def whole_readings(self, sign: str, ratio: int) -> tuple[int, int]:
        if self.equal_energies:
            first = self.rng.choice((0, 7))
            return first, first + self.rng.choice(
                [energy // ratio for energy in EQUAL_ENERGIES if energy % ratio == 0])
        first, last = (self.number(READING_LIMIT // ratio) for _ in range(2))
        if sign == '-' and self.chance(0.9):
            return first, first + self.rng.randint(0, 9)
        if not self.chance(0.05):
            first, last = min(first, last), max(first, last)
        return first, last

    def ratio(self) -> int | None:
        """None where it is left out."""
        if self.chance(0.5):
            return None
        if self.equal_energies:
            return self.rng.choice(EQUAL_RATIOS)
        return self.rng.choice((1, 2, self.rng.randint(3, 12), self.rng.randint(1, RATIO_LIMIT),
                                RATIO_LIMIT - 1, RATIO_LIMIT))

    def meter(self, sign: str) -> str:
        return self.meter_by(self.ratio(), sign)

    def meter_by(self, ratio: int | None, sign: str) -> str:
        """Readings within the limit for a ratio that is out of range are those for none."""
        before = sign if ratio is None else f'{ratio} {sign}'
        times = 1 if ratio is None or reference.ratio_refused(ratio) else ratio
        if self.chance(0.5) and not self.equal_energies:
            return '(single {} {:08x} {:08x})'.format(before, *self.single_readings(sign, times))
        return '(whole {} {} {})'.format(before, *self.whole_readings(sign, times))

    def meters(self) -> list[str]:
        if self.chance(0.03):
            return [self.meter('+')] * self.rng.choice((0, 5, 6))
        count = self.rng.choice((1, 1, 1, 2, 3, 4))
        signs = [self.rng.choice('++-') for _ in range(count)]
        if not self.chance(0.1):
            signs[0] = '+'
        meters = [self.meter(sign) for sign in signs]
        return self.with_unfit_ratio(meters) if self.chance(self.out_of_range) else meters

    def with_unfit_ratio(self, meters: list[str]) -> list[str]:
        """At times beside a meter that would be refused 3."""
        unreadable = ['(single + 00000000 7fc00000)'] if self.chance(0.5) else []
        meters = [*meters[:2], self.meter_by(self.rng.choice(UNFIT_RATIOS), '+'), *unreadable]
        self.rng.shuffle(meters)
        return meters

    # Calls

    def grid(self) -> str:
        entered = self.margins() if self.chance(0.6) else self.number(FACTOR_LIMIT)
        return f'(grid {entered} {self.rng.choice(("thermal", "hydro"))})'

    def margins(self) -> str:
        """Half of them round a captive factor, which either compares their mean with."""
        if self.chance(0.5):
            near = self.rng.choice(captive_factors(self.ledger) or [self.number(FACTOR_LIMIT)])
            pair = [max(near + self.rng.randint(-1, 1), 0) for _ in range(2)]
        else:
            pair = [self.number(FACTOR_LIMIT) for _ in range(2)]
        return 'margins {} {} {} {}'.format(*pair, *self.weights(max(pair) > FACTOR_LIMIT))

    def weights(self, beside_refused: bool) -> tuple[int, int]:
        """Beside a margin that is refused 2, half of them would be refused 15."""
        if self.chance(0.5 if beside_refused else 0.1):
            return self.rng.choice(UNFIT_WEIGHTS)
        first = self.rng.choice((*FIRST_WEIGHTS, self.rng.randint(0, 100)))
        return first, 100 - first

    def fuel(self, generation: int, kinds: tuple = tuple(FUEL_LIMITS)) -> FuelLine:
        """Burnt for so many kWh, mostly at less than 10,000,000 mg/kWh."""
        kind = self.rng.choice(kinds)
        limits = FUEL_LIMITS[kind]
        if self.chance(0.2):
            return kind(*map(self.number, limits))
        if self.chance(0.4):
            return kind(*(self.rng.randint(1, 12) for _ in limits))
        return kind(self.rng.randint(0, generation),
                    *(self.rng.randint(1, limit // 3) for limit in limits[1:]))

    def tight_fuels(self, generation: int) -> list[FuelLine]:
        """Their sum is near a whole factor."""
        near = generation * self.rng.randint(1, max(1, 90_000 // generation))
        little = self.rng.choice((LITTLE_ABOVE, LITTLE_BELOW))
        return with_rest([self.rng.choice(little) for _ in range(3)], little,
                         near - self.rng.randint(0, 4))

    def plant(self) -> str:
        generation = self.rng.choice((500, 999, 1000, 7000, self.number(100_000_000)))
        # 0 to 3 mostly keep the plants that bring their sites above 1,000 kWh.
        number = self.index(7) if self.chance(0.3) else self.rng.randint(4, 7)
        return self.plant_at(number, self.index(3), generation)

    def plant_at(self, number: int, site: int, generation: int) -> str:
        if self.chance(0.45):
            return plant_text(number, self.plant_with_heat(site, generation), heat_shown=True)
        if generation > 0 and self.chance(0.3):
            lines = self.tight_fuels(generation)
        else:
            count = self.rng.choice((0, 1, 1, 2, 3, 4, 4, self.rng.randint(0, 6)))
            lines = [self.fuel(generation) for _ in range(count)]
        return plant_text(number, Plant(site, generation, lines), heat_shown=self.chance(0.1))

    def plant_with_heat(self, site: int, generation: int) -> Plant:
        """Mostly of energy lines alone."""
        if generation > 0 and self.chance(0.3):
            return self.tight_heat(site, generation)
        kinds = tuple(FUEL_LIMITS) if self.chance(0.15) else (EnergyLine,)
        lines = [self.fuel(generation, kinds) for _ in range(self.rng.choice((1, 1, 2, 3, 4, 0)))]
        if self.chance(self.out_of_range):
            lines += 4 * [self.fuel(generation, kinds)]
        plant = Plant(site, generation, lines)
        return plant._replace(heat=self.heat(plant.fuel_energy))

    def tight_heat(self, site: int, generation: int) -> Plant:
        """What is left is near a whole factor: so many kJ of C mg a MJ each."""
        content = self.rng.choice((1, 7, 500, 999, 1_000, 1_001, self.rng.randint(1, 200_000)))
        factor = self.rng.randint(1, 9)
        left = factor * generation * 1_000 // content + self.rng.randint(-1, 1)
        line = EnergyLine(self.rng.choice((1_000, 999)) * self.rng.randint(1, 100),
                          self.rng.randint(1, 150_000), content)
        energy = line.quantity * line.net_calorific_value
        return Plant(site, generation, [line], max(energy - max(left, 0), 1))

    def heat(self, energy: int) -> int:
        """Of so many kJ of fuel; mostly not above it."""
        if self.chance(0.1 + self.out_of_range):
            return self.rng.choice((energy + 1, energy + 1, 2 * energy + 1, LARGEST,
                                    2**32 + self.rng.randint(0, energy)))
        return self.rng.choice((1, energy, max(energy - 1, 0), energy // 2, 0,
                                self.rng.randint(0, energy), self.rng.randint(0, energy)))

    def loss(self, supply: str) -> str:
        if self.chance(0.03):
            return self.rng.choice(('none', 'default20', 'loss 5001', 'loss 0'))
        if supply in ('captive', 'captivedefault'):
            return 'none'
        measured = f'loss {self.number(5_000)}'
        return self.rng.choice((measured, measured, 'loss 5000', 'default20', 'default3'))

    def source(self) -> str:
        side = self.rng.choice(reference.SIDES)
        more = ('griddefault', 'griddefault') if self.equal_energies else ()
        supply = self.rng.choice(SUPPLIES + more)
        site = f' {self.index(3)}' if supply in reference.SITE_SUPPLIES else ''
        return ' '.join([f'(source {self.index(self.last_source)} {side} ({supply}{site})'
                         f' ({self.loss(supply)})', *self.meters()]) + ')'

    def drop(self) -> str:
        kind, standing, highest = self.rng.choice((
            ('source', self.ledger.sources, 31), ('plant', self.ledger.plants, 7)))
        if standing and self.chance(0.7):
            return f'(drop {kind} {self.rng.choice(sorted(standing))})'
        return f'(drop {kind} {self.number(highest)})'

    def mend(self, refused: reference.Refused) -> str:
        """A call after which a refused report gets further."""
        source = self.ledger.sources[refused.source]
        if refused.number == 8:
            return self.grid()
        if refused.number == 9 and self.chance(0.7):
            site, generation = source.supply.site, self.rng.choice((999, 1000, 7000))
            return self.plant_at(site, site, generation)
        return f'(drop source {refused.source})'

    def report(self):
        """A report, and often others after what keeps it from being given."""
        answer = self.emit('(report)')
        while isinstance(answer, reference.Refused) and self.chance(0.85):
            self.emit(self.mend(answer))
            answer = self.emit('(report)')

    def beginning(self):
        """Mostly plants and a grid, without which few reports are given."""
        for site in range(4):
            if self.chance(0.8):
                generation = self.rng.choice((1000, 1001, 7000, 10**8))
                self.emit(self.plant_at(site, site, generation))
        if self.chance(0.8):
            self.emit(self.grid())

    def text(self, lines: int) -> bytes:
        self.beginning()
        calls = (self.grid, self.plant, self.source, self.drop, self.report)
        while len(self.lines) < lines:
            call = self.rng.choices(calls, (2, 2, 9, 2, 2))[0]
            line = call()
            if line is not None:
                self.emit(line)
            if call == self.grid and self.chance(0.5):
                self.report()
        self.report()
        return b'\n'.join(self.lines) + (b'' if self.chance(0.2) else b'\n')


def random_input(seed: int, lines: int = LINES) -> bytes:
    """So many lines, and some more that mend the last report."""
    return Generator(seed).text(lines)


def full_input(seed: int) -> bytes:
    """As many bytes as an input may have; the last line is cut."""
    return random_input(seed, reference.INPUT_LIMIT // 30)[:reference.INPUT_LIMIT]


# Inputs made by hand


def joined(lines) -> bytes:
    return ''.join(f'{line}\n' for line in lines).encode()


def listing() -> bytes:
    return joined(['(grid 812400 thermal)', '(plant 0 1 7000 (fuel 1000 43000 74100))',
                   '(source 0 project (combined) (default20) (whole + 0 1000001))',
                   '(source 1 baseline (captive 1) (none) (whole + 0 500003))', '(report)'])


def every_exponent(sign: int, side: str, meter: str) -> bytes:
    """1 g a Wh, so that each report shows E."""
    lines = ['(grid 1000000 hydro)']
    for exponent in range(256):
        for fraction in (0, 0x2AAAAB, 0x7FFFFF):
            single = meter.format(f'{sign << 31 | exponent << 23 | fraction:08x}')
            lines += [f'(source 0 {side} (combined) (loss 0) (single {single}))', '(report)']
    return joined(lines)


def registers_at_rest() -> bytes:
    lines = ['(grid 1000000 hydro)']
    for side, ratio in product(('project', 'baseline'), ('', '128 ', '10000 ')):
        for register, sign in product(SPECIAL_REGISTERS, '+-'):
            meter = f'(single {ratio}{sign} {register:08x} {register:08x})'
            lines += [f'(source 0 {side} (combined) (loss 0) {meter} (whole + 0 9))', '(report)']
    return joined(lines)


def ratios_at_the_limit() -> bytes:
    """The last count and the last register within the limit by each ratio, and their neighbours,
    as last and as first reading; 1 g a Wh."""
    lines = ['(grid 1000000 hydro)']
    for ratio, off in product((1, 2, 3, 7, 40, 128, 997, 8_923, 9_697, 9_999, RATIO_LIMIT),
                              (-1, 0, 1)):
        count, register = READING_LIMIT // ratio + off, last_register(ratio) + off
        for side, meter in (('project', f'(whole {ratio} + 0 {count})'),
                            ('leakage', f'(whole {ratio} - {count} {count})'),
                            ('baseline', f'(single {ratio} + 00000000 {register:08x})'),
                            ('project', f'(single {ratio} - {register:08x} {register:08x})')):
            lines += [f'(source 0 {side} (combined) (loss 0) {meter})', '(report)']
    return joined(lines)


def products_that_wrap() -> bytes:
    """Counts of up to 18 digits that by their ratio are just beyond a multiple of 2^32 or 2^64."""
    lines = ['(grid 1000000 hydro)']
    for ratio, bits, times in product((2, 3, 19, 40, 4_096, 9_999, RATIO_LIMIT), (32, 64),
                                      (1, 2, 500, 9_999)):
        count = -(-times * 2**bits // ratio)
        if count <= LARGEST:
            lines += [f'(source 0 project (combined) (loss 0) (whole {ratio} + 0 {count}))',
                      '(report)']
    return joined(lines)


def ratios_and_signs() -> bytes:
    """Readings that are not whole Wh, by each ratio and sign and on each side, beside a count
    that keeps E from 0 to its limit; 1 g a Wh."""
    lines = ['(grid 1000000 hydro)']
    for ratio, sign, side in product((1, 2, 40, 780, 781, 9_999, RATIO_LIMIT), '+-',
                                     reference.SIDES):
        for readings in ('00000001 00000002', '3a800000 42f6e979', '42f6e979 42f6e97a',
                         '3a83126f 3f800001'):
            lines += [f'(source 0 {side} (combined) (loss 0) (single {ratio} {sign} {readings})'
                      ' (whole 3 + 0 2000000000))', '(report)']
    return joined(lines)


def register_pairs() -> bytes:
    """Order is by exact value: negative zero is not below zero."""
    return joined(f'(source 0 leakage (combined) (loss 0) (single - {a:08x} {b:08x})'
                  ' (whole + 0 100000000000))'
                  for a in SPECIAL_REGISTERS for b in SPECIAL_REGISTERS)


def around(limit: int) -> list[int]:
    """The limit, its neighbours, and what would wrap to a small number."""
    return [limit - 1, limit, limit + 1, *(w + 1 for w in WRAPS), LARGEST, LARGEST + 1]


FIELDS = (
    ('(grid {} hydro)', 10_000_000), ('(grid margins {} 0 50 50 hydro)', 10_000_000),
    ('(grid margins 0 {} 100 0 thermal)', 10_000_000), ('(grid margins 5 7 {} 60 hydro)', 40),
    ('(grid margins 5 7 60 {} hydro)', 40), ('(grid margins 5 7 {} 0 thermal)', 100),
    ('(plant {} 0 0)', 7), ('(plant 0 {} 0)', 3),
    ('(plant 0 0 {})', 100_000_000), ('(plant 0 0 0 (fuel {} 1 0))', 100_000_000),
    ('(plant 0 0 0 (fuel 0 {} 0))', 1), ('(plant 0 0 0 (fuel 0 {} 0))', 150_000),
    ('(plant 0 0 0 (fuel 0 1 0) (fuel 0 1 {}))', 200_000),
    ('(plant 0 0 0 (mass {} 0))', 100_000_000), ('(plant 0 0 0 (mass 100000000 {}))', 10_000),
    ('(plant 0 0 0 (volume {} 0 0))', 100_000_000),
    ('(plant 0 0 0 (mass 0 0) (volume 0 {} 10000))', 2_000),
    ('(plant 0 0 0 (volume 0 0 0) (volume 100000000 0 {}))', 10_000),
    ('(plant 0 0 0 (heat {}) (fuel 100 100 0))', 10_000), ('(plant 0 0 0 (heat {}) (mass 1 1))', 1),
    ('(plant 0 0 0 (heat {}) (fuel 100000000 150000 1))', 15 * 10**12),
    ('(plant 0 0 0 (heat 100000) (fuel {} 100 0))', 1_000),
    ('(plant 0 0 0 (heat 100000) (fuel 100 {} 0))', 1_000),
    ('(source {} project (combined) (loss 0) (whole + 0 1))', 31),
    ('(source 0 project (captive {}) (none) (whole + 0 1))', 3),
    ('(source 0 project (either {}) (loss 0) (whole + 0 1))', 3),
    ('(source 0 project (combined) (loss {}) (whole + 0 1))', 5_000),
    ('(source 0 project (combined) (loss 0) (whole + 0 {}))', 100_000_000_000),
    ('(source 0 project (combined) (loss 0) (whole + {} 100000000000))', 100_000_000_000),
    ('(source 0 baseline (combined) (loss 0) (whole + 0 {}) (whole + 0 1))', 99_999_999_999),
    ('(source 0 baseline (combined) (loss 0) (whole + 0 {}) (whole - 0 5))', 5),
    ('(source 0 project (combined) (loss 0) (whole {} + 0 1))', 1),
    ('(source 0 project (combined) (loss 0) (whole {} + 0 1))', RATIO_LIMIT),
    ('(source 0 baseline (combined) (loss 0) (whole + 0 1) (single {} - 00000000 00000000))',
     RATIO_LIMIT),
    ('(source 0 project (combined) (loss 0) (whole 10000 + 0 {}))', 10_000_000),
    ('(source 0 project (combined) (loss 0) (whole 3 + {} 33333333333))', 33_333_333_333),
    ('(source 0 baseline (combined) (loss 0) (whole 40 + 0 {}) (whole 2 - 0 20))', 1),
    ('(drop source {})', 31), ('(drop plant {})', 7))


def limits() -> bytes:
    return joined(form.format(value) for form, limit in FIELDS for value in around(limit))


# Within every limit, and with a decimal in every field that a form has.
NUMBERED = ('(grid 1000000 hydro)', '(grid margins 1000001 500000 40 60 thermal)',
            '(plant 7 3 1000 (fuel 1000 43000 7410) (fuel 2000 1000 999))',
            '(plant 5 3 2000 (mass 1000 859) (volume 200 991 8590) (volume 3 700 9))',
            '(plant 4 3 300 (heat 6000000) (fuel 1000 8000 70) (fuel 90 50 1009))',
            '(plant 0 0 5' + 4 * ' (fuel 0 1 0)' + ')',
            '(source 31 project (captive 3) (none) (whole + 1000 500000))',
            '(source 1 baseline (either 3) (loss 1000) (whole + 0 90000) (whole - 200 300))',
            '(source 2 leakage (combined) (default20)' + 4 * ' (whole + 30 40000)' + ')',
            '(source 3 project (combined) (loss 0) (whole 40 + 9 25000) (whole 3 - 20 500))',
            '(source 4 baseline (captivedefault) (none) (single 60 + 3f800000 42f6e979))',
            '(drop source 30)', '(drop plant 6)')
# Around the largest values of narrow fields, and of the most digits, or one too many.
WIDE = (*(wrap + off for wrap in WRAPS for off in (-1, 0, 1, 5)), 10**17, LARGEST - 1,
        LARGEST, LARGEST + 1, 10 * LARGEST + 9)
ZEROS_BEFORE = ('00', '01', '0' * 17 + '1', '0' * 18, '0' * 18 + '1')


def numbers_in_fields(values) -> bytes:
    """Each field of each form holding each value, then a report, then the form as it was."""
    lines = [*NUMBERED, '(report)']
    for line in NUMBERED:
        for field in re.finditer(r'\b[0-9]+\b', line):
            for value in values:
                edited = f'{line[:field.start()]}{value}{line[field.end():]}'
                lines += [edited, '(report)', line]
    return joined(lines)


def generation_limits() -> bytes:
    """9 and 10 at and around their limits; 10,000,000,000 mg is 10,000,000 mg/kWh."""
    lines = ['(source 0 project (captive 0) (none) (whole + 0 3))',
             '(source 1 baseline (captive 0) (none) (whole + 0 3))']
    for generation in (999, 1000, 1001):
        for extra in ('', ' (fuel 1 1 1)', ' (fuel 999999 1 1)', ' (fuel 1000000 1 1)'):
            lines += [f'(plant 0 0 {generation} (fuel 100000000 1000 100){extra})', '(report)']
            lines += ['(drop source 0)', '(report)',
                      '(source 0 project (captive 0) (none) (whole + 0 3))']
    lines += ['(plant 0 0 500)', '(plant 1 1 500)', '(report)', '(plant 1 0 499)', '(report)',
              '(plant 7 0 1)', '(report)', '(drop plant 7)', '(report)']
    return joined(lines)


def alone_at_zero() -> bytes:
    """Nothing to compare with, and sums of 0: a default is open by who stands."""
    lines = ['(plant 0 0 1000)', '(grid 5 hydro)']
    for side in reference.SIDES:
        for supply in ('griddefault) (loss 0', 'griddefault) (default20', 'either 0) (default3',
                       'captivedefault) (none', 'captive 0) (none'):
            lines += [f'(source {n} {side} ({supply}) (whole + 0 {energy}))'
                      for n, energy in ((3, 0), (2, 0))] + ['(report)']
            lines += [f'(source 2 {side} ({supply}) (whole + 0 700001))', '(report)']
    return joined(lines)


def hand_worked() -> list[bytes]:
    return [joined(line for line, _ in pairs)
            for lists in (margins.LISTS, fuels.LISTS, sites.LISTS, ratios.LISTS, heat.LISTS)
            for pairs in lists.values()]


def margins_and_weights() -> bytes:
    """Each pair of margins with each pair of weights: 2, 15 or accepted, then a report
    that shows what stands."""
    lines = ['(source 0 project (combined) (loss 0) (whole + 0 1000000000))',
             '(source 1 baseline (combined) (loss 0) (whole + 0 1000000000))']
    pairs = product((0, 3, FACTOR_LIMIT - 1, FACTOR_LIMIT, FACTOR_LIMIT + 1), repeat=2)
    fit = [(first, 100 - first) for first in FIRST_WEIGHTS[::3]]
    for pair, weights in product(pairs, (*fit, *UNFIT_WEIGHTS[::2])):
        lines += ['(grid margins {} {} {} {} hydro)'.format(*pair, *weights), '(report)']
    return joined(lines)


def means_by_captive() -> bytes:
    """Means below, at and above a captive factor of 7 down and 8 up, and one of 7 both ways,
    beside the mean itself; of each mg/kWh a report shows 1,000 g."""
    lines = [f'(source {n} {side} ({supply}) (loss 0) (whole + 0 1000000000))'
             for n, (side, supply) in enumerate(product(
                 reference.SIDES, ('combined', 'either 0', 'either 1')))]
    lines += ['(plant 0 0 1000 (fuel 7500 1 1000))', '(plant 1 1 1000 (fuel 7000 1 1000))']
    for pair, first in product(product((5, 6, 7, 8, 9), repeat=2), (1, 50, 99)):
        lines += ['(grid margins {} {} {} {} thermal)'.format(*pair, first, 100 - first),
                  '(report)']
    return joined(lines)


def largest_means() -> bytes:
    """A mean next to the factor's limit, at the limit of E and with the largest loss."""
    lines = [f'(source {n} {side} (combined) (loss 5000) (whole + 0 100000000000))'
             for n, side in enumerate(reference.SIDES)]
    for first in range(101):
        lines += [f'(grid margins 10000000 9999999 {first} {100 - first} hydro)', '(report)']
    return joined(lines)


def captive_on_both_sides() -> list[str]:
    """Of each mg/kWh a report shows 1,000 g."""
    return [f'(source {n} {side} (captive 0) (none) (whole + 0 1000000000))'
            for n, side in enumerate(('project', 'baseline'))]


def parts_of_milligrams() -> bytes:
    """Beside whole milligrams that bring the sum below, to and above 1,000 mg/kWh."""
    lines = captive_on_both_sides()
    for line, near in product(PARTS_OF_MILLIGRAMS, (999_998, 999_999, 1_000_000)):
        whole = near - reference.fuel_milligrams(line, up=False)
        lines += [f'(plant 0 0 1000 {fuel_text(line)} (fuel {whole} 1 1000))', '(report)']
    return joined(lines)


def mixed_kinds() -> bytes:
    """Up to four lines in every order of kinds, on both sides of whole milligrams."""
    lines = captive_on_both_sides()
    for little in (LITTLE_ABOVE, LITTLE_BELOW):
        rows = [row for count in range(5) for row in product(little, repeat=count)]
        rows += [with_rest(row, little, near) for row, near in product(
            product(little, repeat=3), range(9_996, 10_001))]
        for row in rows:
            lines += [' '.join(['(plant 0 0 1000', *map(fuel_text, row)]) + ')', '(report)']
    return joined(lines)


def heat_around_fuel() -> bytes:
    """Each heat round J of each row of lines, by itself and beside the next plant's."""
    lines = captive_on_both_sides()
    rows = ([EnergyLine(1, 43_000, 74_100)], [EnergyLine(1, 3, 1_000), EnergyLine(1, 4, 1)],
            [EnergyLine(10**8, 5_000, 1), EnergyLine(10**8, 5_000, 2)],
            [EnergyLine(99_999, 1, 1_001)], [EnergyLine(0, 9, 9), EnergyLine(5, 1, 200_000)],
            4 * [EnergyLine(50_000, 100_000, 7)], [EnergyLine(0, 1, 1)], [])
    for at, row in enumerate(rows):
        energy = Plant(0, 0, row).fuel_energy
        for kilojoules in sorted({0, 1, energy // 2, max(energy - 1, 0), energy, energy + 1,
                                  2**32 + energy, 2**32 + 1, 2**32, LARGEST}):
            plant = Plant(0, 1_000, row, kilojoules)
            lines += [plant_text(at % 2, plant, heat_shown=True), '(report)']
    return joined(lines)


def heat_and_steps() -> bytes:
    """What is left is round whole factors, of contents of which 1,000 is no multiple, and of Q ×
    V × C that are whole milligrams and not; of each mg/kWh a report shows 1,000 g."""
    lines = captive_on_both_sides()
    for content, quantity in product((1, 7, 999, 1_000, 1_001, 1_999, 74_093, 200_000),
                                     (1_000, 999, 10**6, 10**6 - 1)):
        energy = quantity * 149_999
        for left, more in product((1_000, 2_000, 999_000), (-1, 0, 1)):
            kilojoules = energy - left * 1_000 // content - more
            if 0 < kilojoules <= energy:
                lines += [f'(plant 0 0 1000 (heat {kilojoules})'
                          f' (fuel {quantity} 149999 {content}))', '(report)']
    return joined(lines)


def heat_and_carbon() -> bytes:
    """A carbon line at each place, or none, with heats below, at and above J, and 0."""
    lines = captive_on_both_sides()
    for count, carbon, at in product((1, 2, 3, 4), (MassLine(1, 1), VolumeLine(1, 1, 1)),
                                     range(-1, 4)):
        row = [carbon if place == at else EnergyLine(1, 100, 1_000) for place in range(count)]
        for kilojoules in (0, 1, 100 * count - 100, 100 * count, 100 * count + 1, 2**32):
            plant = Plant(0, 1_000, row, kilojoules)
            lines += [plant_text(at % 3, plant, heat_shown=True), '(report)']
    return joined(lines)


def sites_with_heat() -> bytes:
    """Three plants at a site, with heat or without, each by turns, and one at the next site; all
    sides name the first, by captive and by either, whose grid lies below, between and above."""
    lines = [f'(source {n} {side} ({supply}) ({loss}) (whole + 0 1000000000))'
             for n, (side, (supply, loss)) in enumerate(product(reference.SIDES, (
                 ('captive 0', 'none'), ('either 0', 'loss 0'), ('either 1', 'loss 5000'),
                 ('captivedefault', 'none'))))]
    lines.append('(plant 3 1 1000 (heat 9) (fuel 10 1000 99))')
    for heats in product((None, 0, 1, 200_000_000, 500_000_000), repeat=3):
        for at, (kilojoules, content) in enumerate(zip(heats, (1, 3, 7))):
            row = [EnergyLine(10**5, 5_000, content), EnergyLine(3, 11, 997)]
            plant = Plant(0, 300 + 100 * at, row, kilojoules or 0)
            lines.append(plant_text(at, plant, heat_shown=kilojoules is not None))
        for margin in (0, 1_000, 3_000, 10_000):
            lines += [f'(grid {margin} hydro)', '(report)']
    return joined(lines)


def plant_precedence() -> bytes:
    """Each set of defects in a plant entry: the first number of the set answers. For 1 it is the
    number or the site, for 2 the generation, a line or the count of lines."""
    lines = []
    for defects, one, two in product(range(16), range(2), range(3)):
        has = [defects >> bit & 1 for bit in range(4)]
        row = ['(fuel 1 10 1)', *has[2] * ['(mass 1 1)']]
        row += (has[1] and two == 1) * ['(fuel 1 0 1)'] + (has[1] and two == 2) * 4 * row[:1]
        number, site = (8, 0) if has[0] and one == 0 else (0, 3 + has[0])
        generation = 100_000_000 + (has[1] and two == 0)
        kilojoules = 9 if not has[3] else (51, LARGEST)[one]
        lines.append(f'(plant {number} {site} {generation} (heat {kilojoules}) {" ".join(row)})')
    return joined(lines)


def comparisons() -> bytes:
    """P against B and P' against B' one below, equal and one above."""
    lines = ['(plant 0 0 1000)']
    for mark in ('thermal', 'hydro'):
        lines.append(f'(grid 700001 {mark})')
        for supply in ('combined', 'griddefault', 'either 0'):
            for loss in ('default20', 'default3', 'loss 1'):
                for energy in (999, 1000, 1001):
                    lines += [
                        f'(source 0 leakage ({supply}) ({loss}) (whole + 0 1000))',
                        f'(source 1 baseline (griddefault) ({loss}) (whole + 0 {energy}))',
                        '(report)']
        lines += ['(drop source 0)', '(report)', '(drop source 1)', '(report)']
    return joined(lines)


# Of each kind, at every limit; then 32 of which, over 800,000,000 kWh, are just within the
# limit of the factor.
LARGEST_LINES = (EnergyLine(10**8, 150_000, 200_000), MassLine(10**8, 10_000),
                 VolumeLine(10**8, 2_000, 10_000))
LARGEST_FACTORS = (EnergyLine(10**8, 50_000, 50_000), MassLine(68_181_818, 10_000),
                   VolumeLine(34_090_909, 2_000, 10_000))


def largest_report() -> bytes:
    """32 sources at every limit; 32 fuel lines first above the factor's limit, then
    at it, with a combined margin that either takes for baseline alone."""
    lines = ['(grid 9999999 thermal)']
    for line in (*LARGEST_LINES, *LARGEST_FACTORS):
        row = ' '.join(4 * [fuel_text(line)])
        lines += [f'(plant {n} 3 100000000 {row})' for n in range(8)]
        for supply in ('combined) (loss 5000', 'either 3) (loss 5000', 'captive 3) (none'):
            for side in reference.SIDES:
                lines += [f'(source {n} {side} ({supply}) (whole + 0 100000000000))'
                          for n in range(32)] + ['(report)']
    return joined(lines)


def largest_heat() -> bytes:
    """8 plants of 4 lines at every limit, with heats that leave them at the factor's limit and
    round it, named by sources at every limit."""
    lines = ['(grid 10000000 thermal)']
    at_limit = 5 * 10**12
    for left in (1, 10**12 - 1, at_limit, at_limit + 499_999, at_limit + 500_000, 6 * 10**13 - 1):
        plant = Plant(3, 10**8, 4 * [LARGEST_LINES[0]], 6 * 10**13 - left)
        lines += [plant_text(n, plant, heat_shown=True) for n in range(8)]
        for supply, side in product(('either 3) (loss 5000', 'captive 3) (none'),
                                    ('baseline', 'project')):
            lines += [f'(source {n} {side} ({supply}) (whole + 0 100000000000))'
                      for n in range(32)] + ['(report)']
    return joined(lines)


def counts() -> bytes:
    """Any count of fuel lines or meters is a form, up to the length of a line."""
    lines = ['(plant 0 0 1000' + n * fuel + ')'
             for fuel in (' (fuel 1 1 1)', ' (mass 1 1)', ' (volume 1 1 1)') for n in range(23)]
    lines += [f'(plant 0 0 1000 (heat {kilojoules})' + n * ' (fuel 1 1 1)' + ')'
              for kilojoules in (0, 3) for n in range(18)]
    lines += ['(source 0 project (combined) (loss 0)' + n * meter + ')'
              for meter in (' (whole + 0 1)', ' (whole 9 + 0 1)') for n in range(17)]
    lines += ['(source 0 project (combined) (loss 0)' + n * ' (single - 00000000 00000000)' + ')'
              for n in range(9)]
    return joined(lines)


def line_lengths() -> bytes:
    """The same entries at 255, 256 and 257 bytes: refused 2, 2 and 14."""
    lines = []
    for line in ('(plant 0 0 1000' + 18 * ' (fuel 1 1 1)' + ')',
                 '(plant 0 0 1000 (heat 1)' + 17 * ' (fuel 1 1 1)' + ')',
                 '(source 0 project (combined) (loss 1000)' + 15 * ' (whole + 0 1)' + ')'):
        lines += [line.replace('1000', '1' + (length - len(line) + 3) * '0')
                  for length in (255, 256, 257)]
    return joined(lines)


def long_last_lines() -> list[bytes]:
    """Each of these as a last line with its LF, without, and with a CR."""
    lines = [line + b'\n' for line in line_lengths().splitlines()]
    return [b'(report)\n' + line[:-1] + end for line in lines for end in (b'\n', b'', b'\r\n')]


def odd_bytes() -> bytes:
    """Each byte as a line, and before, within and after a form."""
    lines = []
    for byte in (bytes([value]) for value in range(256)):
        lines += [byte, byte + b'(report)', b'(report' + byte + b')', b'(report)' + byte,
                  b'(drop' + byte + b'plant 0)', b'(drop plant ' + byte + b')']
    return b'\n'.join(lines)


def source_precedence() -> bytes:
    """Each set of defects in a source entry: the first number of the set answers. For 2 there
    are too many meters, or a ratio out of range."""
    lines = []
    for defects, unfit in product(range(64), (4 * ['(whole + 5 5)'], ['(whole 10001 + 5 5)'],
                                              ['(single 0 - 3f800000 3f800000)'])):
        has = [defects >> bit & 1 for bit in range(6)]
        meters = ['(whole - 0 1)' if has[5] else '(whole + 0 1)']
        meters += ['(single + 3f800001 3f800000)'] * has[3]
        meters += ['(single - 00000000 7fc00000)'] * has[2]
        meters += unfit * has[1]
        loss = 'none' if has[4] else 'loss 1'
        lines.append(f'(source {31 + has[0]} project (combined) ({loss}) {" ".join(meters)})')
        lines.append(f'(source 0 project (captive {3 + has[0]})'
                     f' ({"default3" if has[4] else "none"}) {" ".join(meters)})')
    return joined(lines)


def report_precedence() -> bytes:
    """One source with several reasons to refuse, taken away one by one."""
    lines = ['(source 9 project (either 0) (default3) (whole + 0 1000))',
             '(source 20 baseline (griddefault) (default20) (whole + 0 1000))',
             '(source 5 leakage (griddefault) (default3) (whole + 0 1000))']
    mends = ['(grid 1 hydro)', '(drop source 5)', '(plant 0 0 999 (fuel 100000000 1000 101))',
             '(plant 1 0 1)', '(plant 0 0 1000)',
             '(source 21 baseline (combined) (loss 0) (whole + 0 1))', '(drop source 20)',
             '(source 22 baseline (combined) (loss 0) (whole + 0 999))',
             '(source 22 baseline (combined) (loss 0) (whole + 0 1000))']
    for mend in mends:
        lines += ['(report)', mend]
    return joined([*lines, '(report)'])


SAMPLES = ('(grid 812400 thermal)', '(grid 1 hydro)', '(grid margins 812401 20 100 0 thermal)',
           '(grid margins 7 8 49 51 hydro)', '(plant 0 1 7000 (fuel 1000 43000 74100))',
           '(plant 1 1 5 (mass 90 8600) (fuel 1 2 3) (volume 20 991 8590))',
           '(plant 2 1 60 (heat 70) (fuel 10 9 8))',
           '(source 10 project (captive 1) (none) (whole + 10 11))',
           '(source 0 leakage (either 1) (loss 20) (single - 3f800000 4cbebc20))',
           '(source 0 baseline (griddefault) (default3) (whole - 0 0))',
           '(source 3 project (captivedefault) (none) (whole 40 + 5 6)'
           ' (single 9 - 3f800000 3f800001))',
           '(source 0 baseline (captivedefault) (default20))', '(drop source 0)',
           '(drop plant 0)', '(report)')


def edited_at_each_place(edit) -> bytes:
    """Each sample line, once for each byte of it, with that byte edited."""
    lines = []
    for sample in SAMPLES:
        data = sample.encode()
        for at in range(len(data)):
            lines.append(data[:at] + edit(data[at:at + 1]) + data[at + 1:])
    return b'\n'.join(lines)


def malformed_by_place() -> list[bytes]:
    return [edited_at_each_place(edit) for edit in (
        lambda byte: b'', lambda byte: byte + byte, lambda byte: b' ', lambda byte: b'0',
        lambda byte: byte.swapcase(), lambda byte: b'\0', lambda byte: b'\r',
        lambda byte: b'\n', lambda byte: bytes([byte[0] ^ 0x80]), lambda byte: b')' + byte)]


def sizes() -> list[bytes]:
    drops = b'(drop source 0)\n' * 4096  # 65,536 bytes
    return [b'', b'\n', b'\n\n', b'(report)', b'(report)\n', b'(report)\n\n', b'(report)\r\n',
            drops, drops[:-1], drops + b'\n', b'\n' * 65_536, b'\n' * 65_537,
            b'(' * 65_536, b'(' * 65_537, b'(report)\n' * 7_281 + b'(report', drops * 2,
            drops * 16 + b'(report)\n', full_input(0), full_input(0) + b'\n', full_input(1)]


def boundary_inputs() -> list[bytes]:
    return [
        listing(), listing()[:-1], listing().replace(b'\n', b'\r\n'), *sizes(),
        *(every_exponent(sign, side, meter) for sign in (0, 1) for side in ('project', 'baseline')
          for meter in ('+ 00000000 {}', '+ {} 4cbebc20', '10000 + 00000000 {}',
                        '7 + {} 4b59fb92')),
        registers_at_rest(), register_pairs(), limits(), *hand_worked(), ratios_at_the_limit(),
        products_that_wrap(), ratios_and_signs(),
        margins_and_weights(), means_by_captive(), largest_means(), generation_limits(),
        parts_of_milligrams(), mixed_kinds(), heat_around_fuel(), heat_and_steps(),
        heat_and_carbon(), sites_with_heat(), alone_at_zero(), comparisons(), plant_precedence(),
        source_precedence(), report_precedence(), largest_report(), largest_heat(), counts(),
        line_lengths(), *long_last_lines(), odd_bytes(), *malformed_by_place(),
        *(numbers_in_fields([value]) for value in WIDE), numbers_in_fields(ZEROS_BEFORE),
        *(counterexamples.text(make()) for make in counterexamples.CASES)]


# For a fuzzer


def words() -> set[str]:
    """Parts of forms, and numbers at and around limits."""
    lines = [*SAMPLES, *NUMBERED]
    numbers = [value for _, limit in FIELDS for value in around(limit)]
    return {*re.findall(r'\(?[a-z]+[0-9]*\)?', ' '.join(lines)), ') (', ' + ', ' - ',
            *map(str, numbers), *(f'{register:08x}' for register in SPECIAL_REGISTERS)}


def write_for_fuzzer(folder: Path):
    """inputs/ has an input a file, and the file words the form that AFL++ reads."""
    inputs = [listing(), joined(NUMBERED), report_precedence(), joined(SAMPLES), b'(report)',
              *hand_worked(),
              *(counterexamples.text(make()) for make in counterexamples.CASES),
              *(random_input(seed, 12) for seed in range(20))]
    (folder / 'inputs').mkdir()
    for number, data in enumerate(inputs):
        (folder / 'inputs' / str(number)).write_bytes(data)
    (folder / 'words').write_text(''.join(f'"{word}"\n' for word in sorted(words())))


# The self-check


def kinds_of(ledger: reference.Ledger, report: reference.Report) -> set[tuple]:
    """What each source of a report is, and which option it took."""
    return {(source.side, source.supply.name, source.loss.name, report.figures[number].option)
            for number, source in ledger.sources.items()}


# 3 sides by 3 losses by combined, griddefault and either with its two options;
# 3 sides by captive and captivedefault
SOURCE_KINDS = 42


def means_of(ledger: reference.Ledger, report: reference.Report) -> set[tuple]:
    """The sides of the sources that take a mean which is not whole: by combined, or by either
    where the captive factor is the mean rounded as the side, or as the other."""
    if ledger.grid is None or ledger.grid.combined_margin.denominator == 1:
        return set()
    met = set()
    for number, source in ledger.sources.items():
        up = reference.rounds_up(source.side)
        if source.supply.name == 'combined':
            met.add((source.side, 'combined'))
        elif source.supply.name == 'either' and report.figures[number].option == 'combined':
            captive = reference.captive_factor(ledger, source.supply.site, up)
            met |= {(source.side, way) for way, rounding in (('own', up), ('other', not up))
                    if captive == reference.combined_factor(ledger.grid, rounding)}
    return met


SOURCE_MEANS = 9  # 3 sides by combined and the two captive factors


def deciding_lines(ledger: reference.Ledger, report: reference.Report) -> set[tuple]:
    """Kind and direction of the fuel lines that a captive factor taken by a source shows:
    were the line rounded the other way, the factor would be another."""
    taken = {(source.supply.site, reference.rounds_up(source.side))
             for number, source in ledger.sources.items()
             if report.figures[number].option == 'captive'}
    return {(type(line), up) for site, up in taken for line in lines_deciding(ledger, site, up)}


def lines_deciding(ledger: reference.Ledger, site: int, up: bool) -> list[FuelLine]:
    factor = reference.captive_factor(ledger, site, up)

    def other_factor(plant: Plant, line: FuelLine) -> int:
        lines = sum(reference.fuel_milligrams(each, up) for each in plant.fuel_lines)
        other = (lines - reference.fuel_milligrams(line, up)
                 + reference.fuel_milligrams(line, not up))
        return factor_with(ledger, plant, reference.without_heat(plant, other, up), up)
    return [line for plant in reference.plants_at(ledger, site) for line in plant.fuel_lines
            if other_factor(plant, line) != factor]


def factor_with(ledger: reference.Ledger, plant: Plant, milligrams: int, up: bool) -> int:
    """The factor of a plant's site, had the plant so many milligrams."""
    others = sum(reference.plant_milligrams(other, up)
                 for other in reference.plants_at(ledger, plant.site) if other is not plant)
    return reference.factor_over(others + milligrams,
                                 reference.generation_at(ledger, plant.site), up)


DECIDING_LINES = 6  # 3 kinds by 2 directions

UNNAMED, OTHER_WAY = 'unnamed', 'named the other way'


def refused_aside(ledger: reference.Ledger) -> set[tuple]:
    """The refusals 9 and 10 of sites in a direction in which no source names them; a report
    shows none of these."""
    named = {(source.supply.site, reference.rounds_up(source.side))
             for source in ledger.sources.values()}
    found = set()
    for site, up in product(range(4), (True, False)):
        refusal = reference.site_refused(ledger, site, up)
        if refusal is not reference.OK and (site, up) not in named:
            found.add((refusal, OTHER_WAY if (site, not up) in named else UNNAMED))
    return found


REFUSED_ASIDE = {(9, UNNAMED), (10, UNNAMED), (10, OTHER_WAY)}


def by_ratio(holds):
    """Whether it holds of a meter with a ratio other than 1."""
    return lambda meters: any(m.ratio != 1 and holds(m) for m in meters)


def is_beyond(meter: Meter, value: int) -> bool:
    exact = reference.exact_watt_hours(meter.kind, value, meter.ratio)
    return exact is not None and exact > READING_LIMIT


def at_limit(kind: str):
    """With a reading of this kind of which the next one is beyond the limit."""
    return by_ratio(lambda m: m.kind == kind and any(
        not is_beyond(m, value) and is_beyond(m, value + 1) for value in (m.first, m.last)))


def next_beyond(kind: str):
    """With a reading of this kind of which the one before is not beyond the limit."""
    return by_ratio(lambda m: m.kind == kind and any(
        is_beyond(m, value) and not is_beyond(m, value - 1) for value in (m.first, m.last)))


def beside_refused(meters: list[Meter]) -> bool:
    """A ratio out of range, and another meter that would be refused 3."""
    fit = [m for m in meters if not reference.ratio_refused(m.ratio)]
    return len(fit) < len(meters) and any(
        reference.reading_refused(m.kind, value, m.ratio)
        for m in fit for value in (m.first, m.last))


def at_rest_on_a_fraction(meters: list[Meter]) -> bool:
    return len(meters) == 1 and meters[0].ratio > 1 and meters[0].first == meters[0].last and (
        meters[0].exact_first.denominator > 1)


# What source entries meet by the ratios of their meters: the answer, and what holds of them.
RATIO_CASES = {
    '2 to 9,999': (reference.OK, by_ratio(lambda m: m.ratio < RATIO_LIMIT)),
    '10,000': (reference.OK, by_ratio(lambda m: m.ratio == RATIO_LIMIT)),
    'beside none': (reference.OK, lambda meters: {1} < {m.ratio for m in meters}),
    '0': (2, by_ratio(lambda m: m.ratio == 0)),
    '10,001': (2, by_ratio(lambda m: m.ratio == RATIO_LIMIT + 1)),
    '65,535': (2, by_ratio(lambda m: m.ratio == 65_535)),
    'out of range beside 3': (2, beside_refused),
    'a count at the limit': (reference.OK, at_limit('whole')),
    'a register at the limit': (reference.OK, at_limit('single')),
    'a count beyond': (3, next_beyond('whole')),
    'a register beyond': (3, next_beyond('single')),
    'beyond 64 bits': (3, by_ratio(
        lambda m: m.kind == 'whole' and m.ratio * max(m.first, m.last) >= 2**64)),
    'running back': (4, by_ratio(lambda m: m.exact_last < m.exact_first)),
    'at rest on a fraction': (6, at_rest_on_a_fraction)}
# Of ratios that a text may hold and 16 bits do not.
WIDE_RATIO_CASES = {
    '65,536': (2, by_ratio(lambda m: m.ratio == 65_536)),
    'in range by 16 bits': (2, by_ratio(
        lambda m: m.ratio >= 2**16 and 1 <= m.ratio % 2**16 <= RATIO_LIMIT)),
    '18 digits': (2, by_ratio(lambda m: m.ratio == LARGEST))}
EVERY_RATIO_CASE = RATIO_CASES | WIDE_RATIO_CASES


def ratio_cases(meters: list[Meter], answer, cases: dict) -> set[str]:
    return {name for name, (due, holds) in cases.items() if answer == due and holds(meters)}


def meters_of(line: bytes) -> list[Meter]:
    """Those of a line that is a form."""
    return [reference.read_meter(*parts) for parts in reference.METER_PARTS.findall(line)]


def plant_of(line: bytes) -> Plant:
    """That of a line that is a form."""
    return reference.read_plant(reference.PLANT_FORM.fullmatch(line))


def fractions_by_ratio(ledger: reference.Ledger) -> set[tuple]:
    """Side and sign of the meters that by a ratio have a reading which is no whole Wh."""
    return {(source.side, m.sign) for source in ledger.sources.values() for m in source.meters
            if m.ratio > 1 and not m.exact_first.denominator == m.exact_last.denominator == 1}


FRACTIONS_BY_RATIO = 6  # 3 sides by 2 signs


def is_16(plant: Plant) -> bool:
    return reference.heat_refused(plant) == 16


# What plant entries meet by their heat: the answer, and what holds of the plant.
HEAT_CASES = {
    '1': (reference.OK, lambda p: p.heat == 1),
    'J - 1': (reference.OK, lambda p: p.heat == p.fuel_energy - 1 > 0),
    'J': (reference.OK, lambda p: p.heat == p.fuel_energy > 0),
    'J + 1': (17, lambda p: p.heat == p.fuel_energy + 1 > 1),
    'without fuel': (17, lambda p: p.fuel_energy == 0),
    'above 32 bits': (reference.OK, lambda p: p.heat >= 2**32),
    'within J by 32 bits': (17, lambda p: p.heat >= 2**32 and p.heat % 2**32 <= p.fuel_energy),
    'of 18 digits': (17, lambda p: p.heat == LARGEST),
    'beside carbon': (16, lambda p: p.heat <= p.fuel_energy),
    'beside carbon and above J': (16, lambda p: p.heat > p.fuel_energy),
    '0 beside carbon': (reference.OK, lambda p: not p.gives_heat and is_16(p._replace(heat=1))),
    '16 after 1': (1, is_16), '17 after 1': (1, lambda p: reference.heat_refused(p) == 17),
    '16 after 2': (2, is_16), '17 after 2': (2, lambda p: reference.heat_refused(p) == 17)}


def heat_cases(plant: Plant, answer) -> set[str]:
    return {name for name, (due, holds) in HEAT_CASES.items() if answer == due and holds(plant)}


def sources_by_heat(ledger: reference.Ledger, report: reference.Report) -> set[tuple]:
    """Side, supply and option of the sources that name a site with heat."""
    return {(source.side, source.supply.name, report.figures[number].option)
            for number, source in ledger.sources.items()
            if source.supply.name in reference.SITE_SUPPLIES
            and reference.site_heat(ledger, source.supply.site) is not None}


SOURCES_BY_HEAT = 9  # 3 sides by captive and either with its two options

# What a baseline's factor shows of a plant with heat: that it is taken off, each rounding on the
# way, and whether other plants, with heat or without, are at the site.
HEAT_STEPS = {'heat', 'lines', 'A', 'Z', 'beside heat', 'beside none'}


def without_step(plant: Plant, step: str) -> int:
    """A plant's milligrams of a baseline without its heat, or with one rounding up."""
    lines = sum(reference.fuel_milligrams(line, step == 'lines') for line in plant.fuel_lines)
    if step == 'heat':
        return lines
    A = reference.rounded(Fraction(lines * 1_000, plant.fuel_energy), step == 'A')
    return reference.rounded(Fraction((plant.fuel_energy - plant.heat) * A, 1_000), step == 'Z')


def heat_steps(ledger: reference.Ledger, report: reference.Report) -> set[str]:
    """Those that factors show which a baseline source takes."""
    found = set()
    for site in {source.supply.site for number, source in ledger.sources.items()
                 if source.side == 'baseline' and report.figures[number].option == 'captive'}:
        plants = reference.plants_at(ledger, site)
        factor = reference.captive_factor(ledger, site, up=False)
        for plant in (plant for plant in plants if plant.gives_heat):
            found |= {step for step in ('heat', 'lines', 'A', 'Z') if factor != factor_with(
                ledger, plant, without_step(plant, step), up=False)}
            found |= {'beside heat' if other.gives_heat else 'beside none'
                      for other in plants if other is not plant}
    return found


# The answers that lines with these parts should meet; a ratio written as 1 is one of them, and
# so is a heat written as 0.
OF_A_SOURCE = {b'ok', *(b'refused %d' % number for number in (1, 2, 3, 4, 5, 6, 14))}
ANSWERS_TO = {rb'margins': {b'ok', b'refused 2', b'refused 14', b'refused 15'},
              rb'\(mass': {b'ok', b'refused 1', b'refused 2', b'refused 14', b'refused 16'},
              rb'\(volume': {b'ok', b'refused 1', b'refused 2', b'refused 14', b'refused 16'},
              rb'\((whole|single) [0-9]+ [+-]': OF_A_SOURCE,
              rb'\((whole|single) 1 [+-]': OF_A_SOURCE,
              rb'\(heat 0\)': {b'ok', b'refused 1', b'refused 2', b'refused 14'},
              rb'\(heat [1-9]': {b'ok', *(b'refused %d' % number for number in (1, 2, 14, 16, 17))}}


class Met:
    """What the inputs meet on the reference."""

    def __init__(self):
        self.refusals = Counter()
        self.inputs = self.given = self.reports = self.mostly_malformed = 0
        self.sign_and_exponent = set()
        self.kinds = set()  # of the sources in reports given
        self.means = set()
        self.lines = set()  # that decide a captive factor
        self.aside = Counter()  # reports given beside such a refusal of a site
        self.ratios = Counter()  # source entries by what they meet
        self.fractions = set()  # readings by a ratio that are no whole Wh
        self.heats = Counter()  # plant entries by what they meet
        self.by_heat = Counter()  # sources that name a site with heat, in reports given
        self.baselines_by_heat = 0  # reports given with one of a baseline
        self.steps = Counter()  # what factors of a baseline show of heat
        self.answers_to = {part: set() for part in ANSWERS_TO}
        self.most_sources = 0

    def run(self, data: bytes) -> bytes:
        """The reference's output. Raises Broken where demand 3 fails."""
        output = reference.tally(data, on_report=self.report_given)
        answers = re.findall(rb'^(ok|refused [0-9]+|reduction)', output, re.MULTILINE)
        refusals = Counter(int(a.split()[1]) for a in answers if a.startswith(b'refused'))
        self.refusals += refusals
        self.inputs += 1
        self.reports += sum(refusals[n] for n in range(8, 14)) + answers.count(b'reduction')
        self.mostly_malformed += 3 * refusals[14] >= len(answers) > 0
        for line, answer in zip(reference.lines_of(data), answers):
            self.line_answered(line, answer)
        self.sign_and_exponent |= {
            int(register, 16) >> 23 for register in re.findall(rb'\b[0-9a-f]{8}\b', data)}
        return output

    def line_answered(self, line: bytes, answer: bytes):
        for part, answers in self.answers_to.items():
            if re.search(part, line):
                answers.add(answer)
        number = int(answer.split()[1]) if answer.startswith(b'refused') else reference.OK
        if line.startswith(b'(source ') and number != 14:
            self.ratios.update(ratio_cases(meters_of(line), number, EVERY_RATIO_CASE))
        if line.startswith(b'(plant ') and number != 14:
            self.heats.update(heat_cases(plant_of(line), number))

    def report_given(self, ledger: reference.Ledger, report: reference.Report):
        reference.check_demand_3(ledger, report)
        self.given += 1
        self.most_sources = max(self.most_sources, len(ledger.sources))
        self.kinds |= kinds_of(ledger, report)
        self.means |= means_of(ledger, report)
        self.lines |= deciding_lines(ledger, report)
        self.aside.update(refused_aside(ledger))
        self.fractions |= fractions_by_ratio(ledger)
        by_heat = sources_by_heat(ledger, report)
        self.by_heat.update(by_heat)
        self.baselines_by_heat += 'baseline' in {side for side, _, _ in by_heat}
        self.steps.update(heat_steps(ledger, report))

    def show(self, name: str):
        refusals = ', '.join(f'{n}: {self.refusals[n]}' for n in sorted(self.refusals))
        print(f'{name}: {self.inputs} inputs, {self.given} of {self.reports} reports given, '
              f'{self.mostly_malformed} inputs with a third or more malformed')
        print(f'  refusals {refusals}')
        print(f'  in reports given, {len(self.kinds)} kinds of sources, {len(self.means)} of '
              f'sources by a mean that is not whole, {len(self.lines)} kinds and directions of '
              f'fuel lines that decide a factor, and up to {self.most_sources} sources')
        aside = ', '.join(f'{number} {how}: {self.aside[number, how]}'
                          for number, how in sorted(REFUSED_ASIDE))
        print(f'  reports given with a site refused {aside}')
        cases = ', '.join(f'{name}: {self.ratios[name]}' for name in EVERY_RATIO_CASE)
        print(f'  source entries by ratios, {cases}')
        self.show_heat()

    def show_heat(self):
        cases = ', '.join(f'{name}: {self.heats[name]}' for name in HEAT_CASES)
        print(f'  plant entries by heat, {cases}')
        sources = ', '.join(f'{" ".join(kind)}: {self.by_heat[kind]}'
                            for kind in sorted(self.by_heat))
        steps = ', '.join(f'{step}: {self.steps[step]}' for step in sorted(HEAT_STEPS))
        print(f'  reports given with sources that name a site with heat, {sources}')
        print(f'  reports given whose factor of a baseline shows of heat, {steps}')


def missing(at_random: Met, by_hand: Met) -> list[str]:
    """What the inputs should have met and did not."""
    refusals = {*range(1, 13), *range(14, 18)}  # 13 cannot occur within the limits
    wanted = {
        'every refusal but 13, at random': set(at_random.refusals) == refusals,
        'every refusal but 13, by hand': set(by_hand.refusals) == refusals,
        'a third of the reports given': at_random.given * 3 >= at_random.reports > 0,
        'a third of the lines malformed in a tenth of the inputs':
            at_random.mostly_malformed * 10 >= at_random.inputs,
        'every kind of source reported': len(at_random.kinds) == SOURCE_KINDS,
        'every answer to margins, lines by carbon, ratios and heat, at random':
            at_random.answers_to == ANSWERS_TO,
        'every answer to margins, lines by carbon, ratios and heat, by hand':
            by_hand.answers_to == ANSWERS_TO,
        'every case of ratios, at random': set(at_random.ratios) == set(EVERY_RATIO_CASE),
        'every case of ratios, by hand': set(by_hand.ratios) == set(EVERY_RATIO_CASE),
        'readings by a ratio that are no whole Wh, at random':
            len(at_random.fractions) == FRACTIONS_BY_RATIO,
        'readings by a ratio that are no whole Wh, by hand':
            len(by_hand.fractions) == FRACTIONS_BY_RATIO,
        'every kind of source by a mean, at random': len(at_random.means) == SOURCE_MEANS,
        'every kind of source by a mean, by hand': len(by_hand.means) == SOURCE_MEANS,
        'every kind of fuel line decides a factor, at random':
            len(at_random.lines) == DECIDING_LINES,
        'every kind of fuel line decides a factor, by hand': len(by_hand.lines) == DECIDING_LINES,
        'sites refused 9 and 10 that no source names, each in a tenth of the reports given, at'
        ' random': all(at_random.aside[n, UNNAMED] * 10 >= at_random.given for n in (9, 10)),
        'sites refused 9 and 10 that no source names, or names the other way, by hand':
            set(by_hand.aside) == REFUSED_ASIDE,
        'every sign and exponent of a register': len(by_hand.sign_and_exponent) == 512}
    wanted |= wanted_of_heat(at_random, 'at random') | wanted_of_heat(by_hand, 'by hand')
    wanted['a baseline source that names a site with heat in a tenth of the reports given, at'
           ' random'] = at_random.baselines_by_heat * 10 >= at_random.given
    return [what for what, met in wanted.items() if not met]


def wanted_of_heat(met: Met, where: str) -> dict[str, bool]:
    return {
        f'every case of heat, {where}': set(met.heats) == set(HEAT_CASES),
        f'every kind of source that names a site with heat, {where}':
            len(met.by_heat) == SOURCES_BY_HEAT,
        f'every step of heat shown by a factor, {where}': set(met.steps) == HEAT_STEPS}


def self_check(seeds: int = 300) -> int:
    at_random, by_hand = Met(), Met()
    for seed in range(seeds):
        at_random.run(random_input(seed))
    for data in boundary_inputs():
        by_hand.run(data)
    at_random.show('at random')
    by_hand.show('by hand')
    wrong = missing(at_random, by_hand)
    if not random_input(1) == random_input(1) != random_input(2):
        wrong.append('inputs fixed by their seed')
    for what in wrong:
        print(f'FAILED {what}')
    return 1 if wrong else 0


if __name__ == '__main__':
    if sys.argv[1:] == ['--self-check']:
        sys.exit(self_check())
    elif len(sys.argv) == 2 and sys.argv[1].isdecimal():
        sys.stdout.buffer.write(random_input(int(sys.argv[1])))
    elif len(sys.argv) == 3 and sys.argv[1] == '--full' and sys.argv[2].isdecimal():
        sys.stdout.buffer.write(full_input(int(sys.argv[2])))
    elif len(sys.argv) == 3 and sys.argv[1] == '--fuzz':
        write_for_fuzzer(Path(sys.argv[2]))
    else:
        sys.exit(__doc__)
