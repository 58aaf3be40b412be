"""Document 01's listing, its bench table and hand-worked cases on the reference, with
those of margins, of fuel by carbon content, of sites, of ratios and of heat, which are document
02's.

Prints each failure and, last, `N passed, M failed`; fails if M is not 0.
"""

import math
import struct
import sys
from fractions import Fraction
from itertools import product

from tests.cases import fuels, heat, margins, ratios, sites
from tests.reference import reference
from tests.reference.reference import (
    EnergyLine, MassLine, Refused, VolumeLine, exact_fuel_milligrams, fuel_milligrams,
    reading_watt_hours, tally)

LISTING = '''\
(grid 812400 thermal)
(plant 0 1 7000 (fuel 1000 43000 74100))
(source 0 project (combined) (default20) (whole + 0 1000001))
(source 1 baseline (captive 1) (none) (whole + 0 500003))
(report)
'''

LISTING_OUTPUT = '''\
ok
ok
ok
ok
project 1 974882 1
leakage 0 0 0
baseline 0 227593 1
reduction -1
'''

EMPTY_REPORT = 'project 0 0 0/leakage 0 0 0/baseline 0 0 0/reduction 0'


class Checks:
    def __init__(self):
        self.passed = self.failed = 0

    def equal(self, name: str, actual, expected):
        if actual == expected:
            self.passed += 1
        else:
            self.failed += 1
            print(f'FAILED {name}\n  expected {expected!r}\n  actual   {actual!r}')

    def answers(self, name: str, lines: list[str], expected: str):
        """`expected` has a slash between the output's lines."""
        output = tally(''.join(line + '\n' for line in lines).encode())
        self.equal(name, output.decode().removesuffix('\n').replace('\n', '/'), expected)

    def demand_3(self, name: str, ledger, report, holds: bool):
        try:
            reference.check_demand_3(ledger, report)
            found = True
        except reference.Broken:
            found = False
        self.equal(f'demand 3 holds: {name}', found, holds)


def both_ways(register: int, ratio: int = 1) -> tuple:
    return tuple(reading_watt_hours('single', register, ratio, up) for up in (False, True))


def reports_of(text: str) -> list:
    """Each report given, with the ledger as the text leaves it."""
    given = []
    tally(text.encode(), on_report=lambda ledger, report: given.append((ledger, report)))
    return given


def bench_table(checks: Checks):
    checks.equal('(a)', both_ways(0x3F800000), (1000, 1000))
    checks.equal('(b)', both_ways(0x42F6E979), (123_456, 123_457))
    checks.equal('(c)', both_ways(0x00000001), (0, 1))
    checks.equal('(d)', both_ways(0x80000000), (0, 0))
    checks.equal('(e) at', both_ways(0x4CBEBC20), (10**11, 10**11))
    checks.equal('(e) above', both_ways(0x4CBEBC21), (Refused(3), Refused(3)))
    fuel = EnergyLine(1000, 43000, 74100)
    checks.equal('(f)', [fuel_milligrams(fuel, up) for up in (False, True)],
                 [3_186_300_000] * 2)
    ledger = reference.Ledger()
    ledger.enter_plant(0, reference.Plant(1, 7000, [fuel]))
    checks.equal('(g)', [reference.captive_factor(ledger, 1, up) for up in (True, False)],
                 [455_186, 455_185])
    with_losses = [given.figures[0].energy_with_losses
                   for side in ('project', 'baseline')
                   for _, given in reports_of(
                       '(grid 1 hydro)\n'
                       f'(source 0 {side} (combined) (loss 2000) (whole + 0 1000001))\n'
                       '(report)\n')]
    checks.equal('(h)', with_losses, [1_200_002, 1_200_001])
    source = '(source 0 project (captive 3) (none) (whole + 0 1))'
    checks.answers('(i) below', ['(plant 7 3 999)', source, '(report)'],
                   'ok/ok/refused 9 source 0')
    checks.answers('(i) at', ['(plant 7 3 1000)', source, '(report)'],
                   'ok/ok/project 0 0 1/leakage 0 0 0/baseline 0 0 0/reduction 0')


def registers(checks: Checks):
    """The decoding by fields against the machine's own, at every exponent."""
    wrong = []
    for high in range(512):
        for fraction in (0, 1, 0x2AAAAA, 0x7FFFFF):
            register = high << 23 | fraction
            value = struct.unpack('>f', register.to_bytes(4, 'big'))[0]
            expected = Fraction(value) if math.isfinite(value) else None
            if reference.register_value(register) != expected:
                wrong.append(f'{register:08x}')
    checks.equal('registers decoded wrongly', wrong, [])


def readings_by_ratio(checks: Checks):
    """Each register by a ratio, down, and up where the product is not whole: the bench table's,
    1 kWh and the next register, 125/128 Wh, and at the limit. Then counts."""
    rows = [
        (0x3F800000, 10_000, 10_000_000), (0x42F6E979, 1, 123_456, 123_457),
        (0x42F6E979, 780, 96_295_680, 96_295_681), (0x42F6E979, 781, 96_419_137, 96_419_138),
        (0x42F6E979, 10_000, 1_234_560_012, 1_234_560_013), (0x00000001, 10_000, 0, 1),
        (0x80000000, 10_000, 0), (0x3F800001, 10_000, 10_000_001, 10_000_002),
        (0x3A800000, 1, 0, 1), (0x3A800000, 64, 62, 63), (0x3A800000, 128, 125),
        (0x3A800000, 129, 125, 126), (0x3A800000, 9_984, 9_750), (0x461C4000, 10_000, 10**11),
        (0x462121DF, 9_697, 10**11 - 1, 10**11)]
    for register, ratio, down, *above in rows:
        checks.equal(f'{register:08x} by {ratio}', both_ways(register, ratio),
                     (down, *(above or [down])))
    for register, ratio in ((0x461C4001, 10_000), (0x4CBEBC20, 2), (0x7F7FFFFF, 1),
                            (0x80000001, 10_000), (0xFF7FFFFF, 1), (0x7F800000, 10_000),
                            (0xFF800000, 1), (0x7FC00000, 10_000)):
        checks.equal(f'{register:08x} by {ratio}', both_ways(register, ratio), 2 * (Refused(3),))
    for register, ratio in product((0x3F800000, 0x80000001, 0x7FC00000), (0, 10_001, 65_537)):
        checks.equal(f'{register:08x} by {ratio}', both_ways(register, ratio), 2 * (Refused(2),))
    for count, ratio, expected in (
            (25, 40, 1_000), (10**7, 10_000, 10**11), (10**7 + 1, 10_000, Refused(3)),
            (10**11, 1, 10**11), (10**11 + 1, 1, Refused(3)), (2**64 // 32, 32, Refused(3)),
            (2**64 - 1, 0, Refused(2)), (1, 10_001, Refused(2))):
        for up in (False, True):
            checks.equal(f'{count} Wh by {ratio}',
                         reading_watt_hours('whole', count, ratio, up), expected)


def source(number, side, supply, loss, *meters) -> str:
    return ' '.join([f'(source {number} {side} ({supply}) ({loss})', *meters]) + ')'


def grid_source(number, side, energy, supply='combined', loss='loss 0') -> str:
    return source(number, side, supply, loss, f'(whole + 0 {energy})')


def grid_and_plant_entries(checks: Checks):
    rows = [
        ('(grid 10000000 hydro)', 'ok'), ('(grid 10000001 hydro)', 'refused 2'),
        ('(plant 7 3 100000000 (fuel 100000000 150000 200000))', 'ok'),
        ('(plant 8 3 0)', 'refused 1'), ('(plant 7 4 0)', 'refused 1'),
        ('(plant 8 0 100000001)', 'refused 1'),
        ('(plant 0 0 100000001)', 'refused 2'),
        ('(plant 0 0 0 (fuel 100000001 1 0))', 'refused 2'),
        ('(plant 0 0 0 (fuel 0 0 0))', 'refused 2'),
        ('(plant 0 0 0 (fuel 0 150001 0))', 'refused 2'),
        ('(plant 0 0 0 (fuel 0 1 200001))', 'refused 2'),
        ('(plant 0 0 0' + 4 * ' (fuel 0 1 0)' + ')', 'ok'),
        ('(plant 0 0 0' + 5 * ' (fuel 0 1 0)' + ')', 'refused 2'),
    ]
    for line, expected in rows:
        checks.answers(line, [line], expected)


def source_entries(checks: Checks):
    one = '(whole + 0 1)'
    nan, above = '(single + 7fc00000 7fc00000)', '(whole + 0 100000000001)'
    rows = [
        (source(31, 'project', 'either 3', 'loss 5000', one), 'ok'),
        (source(32, 'project', 'combined', 'loss 5001', nan), 'refused 1'),
        (source(31, 'project', 'captive 4', 'none', one), 'refused 1'),
        (source(31, 'project', 'either 4', 'none'), 'refused 1'),
        ('(source 0 project (combined) (loss 0))', 'refused 2'),
        (source(0, 'project', 'combined', 'loss 0', *4 * [one]), 'ok'),
        (source(0, 'project', 'combined', 'loss 0', *5 * [nan]), 'refused 2'),
        (source(0, 'project', 'captive 0', 'loss 5001', nan), 'refused 2'),
        (source(0, 'project', 'combined', 'loss 0', '(whole + 1 0)', nan), 'refused 3'),
        (source(0, 'project', 'combined', 'loss 0', above), 'refused 3'),
        (source(0, 'project', 'combined', 'loss 0', '(single + 80000001 0)'), 'refused 14'),
        (source(0, 'project', 'combined', 'loss 0', '(single + 80000001 00000000)'), 'refused 3'),
        (source(0, 'project', 'combined', 'loss 0', '(single + 80000000 00000000)'), 'ok'),
        (source(0, 'project', 'combined', 'loss 0', '(single + 00000000 80000000)'), 'ok'),
        (source(0, 'project', 'combined', 'loss 0', '(single - 00000000 7f800000)'), 'refused 3'),
        (source(0, 'project', 'combined', 'none', '(single + 00000002 00000001)'), 'refused 4'),
        (source(0, 'project', 'combined', 'none', '(whole - 0 1)'), 'refused 5'),
        (source(0, 'project', 'griddefault', 'none', one), 'refused 5'),
        (source(0, 'project', 'either 0', 'none', one), 'refused 5'),
        (source(0, 'project', 'captive 0', 'loss 0', one), 'refused 5'),
        (source(0, 'project', 'captivedefault', 'default3', one), 'refused 5'),
        (source(0, 'project', 'captivedefault', 'none', '(whole - 0 1)'), 'refused 6'),
        (source(0, 'project', 'combined', 'loss 0', one, '(whole + 0 100000000000)'), 'refused 6'),
        (source(0, 'baseline', 'combined', 'loss 0', '(single + 00000001 00000001)'), 'refused 6'),
        (source(0, 'leakage', 'combined', 'loss 0', '(single + 00000001 00000001)'), 'ok'),
    ]
    for line, expected in rows:
        checks.answers(line, [line], expected)


def drops_and_replacement(checks: Checks):
    checks.answers('drop above its range',
                   ['(drop source 32)', '(drop plant 8)'], 'refused 1/refused 1')
    checks.answers('drop of nothing',
                   ['(drop source 31)', '(drop plant 7)'], 'refused 7/refused 7')
    checks.answers('plants and sources are numbered apart',
                   [grid_source(0, 'project', 1), '(drop plant 0)', '(drop source 0)',
                    '(drop source 0)', '(report)'],
                   'ok/refused 7/ok/refused 7/' + EMPTY_REPORT)
    checks.answers('an accepted entry replaces, a refused one does not',
                   ['(grid 1000000 hydro)', grid_source(0, 'project', 7),
                    grid_source(0, 'baseline', 9), grid_source(0, 'project', 8, loss='none'),
                    '(grid 10000001 hydro)', '(report)'],
                   'ok/ok/ok/refused 5/refused 2/'
                   'project 0 0 0/leakage 0 0 0/baseline 0 9 1/reduction 0')
    checks.answers('an accepted plant and grid replace',
                   [grid_source(0, 'project', 7, 'captive 0', 'none'), '(plant 0 0 1000)',
                    '(plant 0 1 1000)', '(report)', '(drop source 0)',
                    grid_source(0, 'project', 7), '(grid 1000000 hydro)',
                    '(grid 2000000 hydro)', '(report)'],
                   'ok/ok/ok/refused 9 source 0/ok/ok/ok/ok/'
                   'project 1 14 1/leakage 0 0 0/baseline 0 0 0/reduction -1')


def hand_worked(checks: Checks, of: str, lists: dict):
    """Each line's answer by itself, so that a failure names its line."""
    for name, pairs in lists.items():
        given = reference.answers('\n'.join(line for line, _ in pairs).encode())
        for at, ((line, expected), answer) in enumerate(zip(pairs, given, strict=True), 1):
            checks.equal(f'{of}, {name}, line {at}: {line}',
                         answer.decode().removesuffix('\n').replace('\n', '/'), expected)


def hand_worked_lists(checks: Checks):
    hand_worked(checks, 'margins', margins.LISTS)
    hand_worked(checks, 'fuels', fuels.LISTS)
    hand_worked(checks, 'sites', sites.LISTS)
    hand_worked(checks, 'ratios', ratios.LISTS)
    hand_worked(checks, 'heat', heat.LISTS)


def meters(checks: Checks):
    """E shows as grams: 1,000,000 mg/kWh without losses is 1 g a Wh."""
    def figures(*meters):
        lines = ['(grid 1000000 hydro)'] + [
            source(n, side, 'combined', 'loss 0', *meters)
            for n, side in enumerate(('project', 'leakage', 'baseline'))] + ['(report)']
        (_, given), = reports_of('\n'.join(lines))
        return [given.sides[side].grams for side in reference.SIDES]
    checks.equal('+ meter: project last up, first down',
                 figures('(single + 00000001 42f6e979)'), [123_457, 123_457, 123_455])
    checks.equal('- meter: project last down, first up',
                 figures('(whole + 0 1000000)', '(single - 00000001 42f6e979)'),
                 [876_545, 876_545, 876_543])


def grid_defaults(checks: Checks):
    """1,000 Wh at 1,300,000, 400,000 and 250,000 mg/kWh: 1,300, 400 and 250 g."""
    def rows(mark, *sources):
        return [f'(grid 0 {mark})', *sources, '(report)']
    project = grid_source(0, 'project', 1000, 'griddefault')
    baseline = grid_source(1, 'baseline', 1000, 'griddefault')
    checks.answers('project alone', rows('hydro', project),
                   'ok/ok/project 1 1300 1/leakage 0 0 0/baseline 0 0 0/reduction -1')
    checks.answers('baseline alone, thermal', rows('thermal', baseline),
                   'ok/ok/project 0 0 0/leakage 0 0 0/baseline 0 400 1/reduction 0')
    checks.answers('baseline alone, hydro', rows('hydro', baseline),
                   'ok/ok/project 0 0 0/leakage 0 0 0/baseline 0 250 1/reduction 0')
    for side, counts in (('leakage', 'project 0 0 0/leakage 0 0 1/baseline 0 0 0'),
                         ('baseline', 'project 0 0 0/leakage 0 0 0/baseline 0 0 1')):
        checks.answers(f'{side} alone, E 0',
                       rows('hydro', grid_source(0, side, 0, 'griddefault')),
                       f'ok/ok/{counts}/reduction 0')
    checks.answers('P = B', rows('hydro', project, baseline),
                   'ok/ok/ok/refused 11 source 0')
    checks.answers('P > B by a leakage source with combined',
                   rows('hydro', project, baseline, grid_source(2, 'leakage', 1)),
                   'ok/ok/ok/ok/project 1 1300 1/leakage 0 0 1/baseline 0 1300 1/reduction -1')
    checks.answers('P < B', rows('thermal', project, grid_source(1, 'baseline', 1001)),
                   'ok/ok/ok/project 1 400 1/leakage 0 0 0/baseline 0 0 1/reduction -1')
    checks.answers('either is not counted in P and B',
                   rows('hydro', '(plant 0 0 1000)', project,
                        grid_source(1, 'baseline', 9000, 'either 0')),
                   'ok/ok/ok/ok/project 1 1300 1/leakage 0 0 0/baseline 0 0 1/reduction -1')


def default_losses(checks: Checks):
    """1,000 Wh at 1,000,000 mg/kWh, with 20 or 3 per cent: 1,200 or 1,030 g."""
    def rows(*sources):
        return ['(grid 1000000 hydro)', *sources, '(report)']
    checks.answers('default20 to baseline, P\' = B\'',
                   rows(grid_source(0, 'project', 1000),
                        grid_source(1, 'baseline', 1000, loss='default20')),
                   'ok/ok/ok/refused 12 source 1')
    checks.answers('default20 to baseline, P\' > B\'',
                   rows(grid_source(0, 'project', 1001),
                        grid_source(1, 'baseline', 1000, loss='default20')),
                   'ok/ok/ok/project 1 1001 1/leakage 0 0 0/baseline 0 1200 1/reduction -1')
    checks.answers('default3 to baseline, P\' > B\'',
                   rows(grid_source(0, 'project', 1001),
                        grid_source(1, 'baseline', 1000, loss='default3')),
                   'ok/ok/ok/project 1 1001 1/leakage 0 0 0/baseline 0 1030 1/reduction -1')
    checks.answers('default3 to leakage, P\' = B\'',
                   rows(grid_source(0, 'leakage', 1000, loss='default3'),
                        grid_source(1, 'baseline', 1000, loss='default3')),
                   'ok/ok/ok/refused 12 source 0')
    checks.answers('default3 to leakage, P\' < B\' by a source with either',
                   ['(plant 0 2 1000)'] + rows(
                       grid_source(0, 'leakage', 1000, loss='default3'),
                       grid_source(1, 'baseline', 1001, 'either 2', 'default3')),
                   'ok/ok/ok/ok/project 0 0 0/leakage 1 1030 1/baseline 0 0 1/reduction -1')
    checks.answers('captive is not counted in P\' and B\'',
                   ['(plant 0 2 1000)'] + rows(
                       grid_source(0, 'leakage', 1000, loss='default3'),
                       grid_source(1, 'baseline', 1001, 'captive 2', 'none')),
                   'ok/ok/ok/ok/refused 12 source 0')


def captive_supplies(checks: Checks):
    """captivedefault, and the choice of either: 2 mg/kWh up, 1 down at site 0."""
    checks.answers('captivedefault needs no grid',
                   [grid_source(0, 'project', 1000, 'captivedefault', 'none'),
                    grid_source(1, 'baseline', 1000, 'captivedefault', 'none'), '(report)'],
                   'ok/ok/project 1 1300 1/leakage 0 0 0/baseline 0 400 1/reduction -1')

    def options(margin):
        lines = [f'(grid {margin} hydro)', '(plant 0 0 500 (fuel 1001 1000 1))',
                 '(plant 1 0 500)', '(plant 2 1 500 (fuel 9 9 9))',
                 grid_source(0, 'project', 1000, 'either 0'),
                 grid_source(1, 'baseline', 1000, 'either 0'), '(report)']
        (_, given), = reports_of('\n'.join(lines))
        return [(given.figures[n].option, given.figures[n].factor) for n in (0, 1)]
    checks.equal('either, 0', options(0), [('captive', 2), ('combined', 0)])
    checks.equal('either, 1', options(1), [('captive', 2), ('combined', 1)])
    checks.equal('either, 2', options(2), [('combined', 2), ('captive', 1)])
    checks.equal('either, 3', options(3), [('combined', 3), ('captive', 1)])


def fuel_lines(checks: Checks):
    """Each line with its milligrams down, and up where they are not whole."""
    rows = [
        (EnergyLine(1, 1, 1), 0, 1), (EnergyLine(1, 1, 999), 0, 1), (EnergyLine(1, 1, 1000), 1),
        (EnergyLine(0, 150_000, 200_000), 0), (EnergyLine(1, 150_000, 0), 0),
        (EnergyLine(10**8, 150_000, 200_000), 3 * 10**15),
        (MassLine(1, 1), 366, 367), (MassLine(1, 2), 733, 734), (MassLine(2, 1), 733, 734),
        (MassLine(1, 3), 1_100), (MassLine(3, 1), 1_100),
        (MassLine(1, 10_000), 3_666_666, 3_666_667), (MassLine(3, 10_000), 11_000_000),
        (MassLine(0, 10_000), 0), (MassLine(10**8, 0), 0),
        (MassLine(10**8, 10_000), 366_666_666_666_666, 366_666_666_666_667),
        (VolumeLine(1, 1, 1), 0, 1), (VolumeLine(1, 1, 3), 1, 2), (VolumeLine(1, 1, 11), 4, 5),
        (VolumeLine(1, 1, 19), 6, 7), (VolumeLine(1, 1, 30), 11), (VolumeLine(30, 1, 1), 11),
        (VolumeLine(1, 30, 1), 11), (VolumeLine(1, 1000, 10_000), 3_666_666, 3_666_667),
        (VolumeLine(3, 1000, 10_000), 11_000_000), (VolumeLine(0, 2_000, 10_000), 0),
        (VolumeLine(10**8, 0, 10_000), 0), (VolumeLine(10**8, 2_000, 0), 0),
        (VolumeLine(10**8, 2_000, 10_000), 733_333_333_333_333, 733_333_333_333_334)]
    for line, down, *above in rows:
        checks.equal(f'{line}', [fuel_milligrams(line, up) for up in (False, True)],
                     [down, *(above or [down])])


def carbon_formulas(checks: Checks):
    """The reference goes by grams of carbon and 44/12; document 02 states one product and
    one division."""
    figures = (0, 1, 2, 7, 1_999, 10_000)
    wrong = [(Q, W) for Q, W in product((*figures, 10**8), figures)
             if exact_fuel_milligrams(MassLine(Q, W)) != Fraction(Q * W * 1_100, 3)]
    checks.equal('by mass other than Q × W × 1,100 ÷ 3', wrong, [])
    wrong = [(Q, density, W) for Q, density, W in product((*figures, 10**8), (0, 1, 991), figures)
             if exact_fuel_milligrams(VolumeLine(Q, density, W))
             != Fraction(Q * density * W * 11, 30)]
    checks.equal('by volume other than Q × density × W × 11 ÷ 30', wrong, [])


def rounded_lines(checks: Checks):
    """Each line is rounded, and then the quotient: over 1,000 kWh, 999.002 mg have
    lines of 1,002 up and 998 down, and 1,000.002 mg lines of 1,003 and 999."""
    for quantity in (997_001, 998_001):
        ledger = reference.Ledger()
        lines = [EnergyLine(q, 1, 1) for q in (1, 1, quantity)]
        ledger.enter_plant(0, reference.Plant(0, 500, lines))
        ledger.enter_plant(1, reference.Plant(0, 500, [EnergyLine(1, 1, 1999)]))
        checks.equal(f'rounded lines with {quantity}',
                     [reference.captive_factor(ledger, 0, up) for up in (True, False)], [2, 0])


def largest_side(checks: Checks):
    """13 is beyond the limits of the entries: only a margin above its own shows it."""
    for margin, expected in ((10**10, 10**15), (10**10 + 1, Refused(13))):
        ledger = reference.Ledger()
        ledger.grid = reference.Grid(margin, 'hydro')
        ledger.sources[0] = reference.Source(
            'baseline', reference.Supply('combined'), reference.Loss('loss', 0),
            [reference.Meter('whole', '+', 0, 10**11)])
        answer = reference.report(ledger)
        grams = answer if isinstance(answer, Refused) else answer.sides['baseline'].grams
        checks.equal(f'13 with a margin of {margin}', grams, expected)
    checks.equal('13 has no source part', reference.answer_text(Refused(13)), 'refused 13\n')


def report_refusals(checks: Checks):
    either = grid_source(5, 'project', 1, 'either 0', 'default3')
    captive_up = grid_source(6, 'leakage', 1, 'captive 0', 'none')
    captive_down = grid_source(6, 'baseline', 1, 'captive 0', 'none')
    # 10,000,000,000 mg, and 0.001 mg more, over 1,000 kWh
    plant = '(plant 0 0 1000 (fuel 100000000 1000 100) (fuel 1 1 1))'
    checks.answers('8 before 9', [either, '(report)'], 'ok/refused 8 source 5')
    checks.answers('9 before 12', [either, '(grid 0 hydro)', '(report)'],
                   'ok/ok/refused 9 source 5')
    checks.answers('10 before 12', [either, '(grid 0 hydro)', plant, '(report)'],
                   'ok/ok/ok/refused 10 source 5')
    checks.answers('10 by the factor rounded up', [captive_up, plant, '(report)'],
                   'ok/ok/refused 10 source 6')
    checks.answers('not 10 by the factor rounded down', [captive_down, plant, '(report)'],
                   'ok/ok/project 0 0 0/leakage 0 0 0/baseline 0 10 1/reduction 0')
    checks.answers('by rising number, not by refusal',
                   [grid_source(7, 'project', 1), captive_up, '(report)'],
                   'ok/ok/refused 9 source 6')
    checks.answers('tonnes of the summed grams, not summed tonnes',
                   ['(grid 1000000 hydro)', grid_source(0, 'project', 500000),
                    grid_source(1, 'project', 500000), grid_source(2, 'leakage', 1),
                    grid_source(3, 'baseline', 999999), grid_source(4, 'baseline', 999999),
                    '(report)'],
                   'ok/ok/ok/ok/ok/ok/project 1 1000000 2/leakage 1 1 1/'
                   'baseline 1 1999998 2/reduction -1')


def text(checks: Checks):
    long_line = source(1, 'project', 'combined', 'loss 0', *15 * ['(whole + 0 1)'])
    at_limit = long_line.replace('source 1 ', 'source 1' + (256 - len(long_line)) * '0' + ' ')
    rows = [
        (b'', b''), (b'\n', b'refused 14\n'), (b'\n\n', b'refused 14\n' * 2),
        (b'(drop plant 0)', b'refused 7\n'), (b'(drop plant 0)\n', b'refused 7\n'),
        (b'(drop plant 0)\n\n', b'refused 7\nrefused 14\n'),
        (b'(drop plant 0)\r\n', b'refused 14\n'), (b' (drop plant 0)', b'refused 14\n'),
        (b'(drop plant 0) ', b'refused 14\n'), (b'(drop  plant 0)', b'refused 14\n'),
        (b'(drop plant 0 )', b'refused 14\n'), (b'(drop plant 00)', b'refused 14\n'),
        (b'(drop plant 07)', b'refused 14\n'), (b'(drop plant -0)', b'refused 14\n'),
        (b'(drop plant 999999999999999999)', b'refused 1\n'),
        (b'(drop plant 1000000000000000000)', b'refused 14\n'),
        (b'(drop plant 0)\x00', b'refused 14\n'), (b'(drop grid)', b'refused 14\n'),
        (b'(drop plant \xd9\xa1)', b'refused 14\n'), (b'(Drop plant 0)', b'refused 14\n'),
        (b'(plant 0 0 0 )', b'refused 14\n'), (b'(plant 0 0 0)', b'ok\n'),
        (b'(source 0 project (captive) (none) (whole + 0 1))', b'refused 14\n'),
        (b'(source 0 project (combined 1) (none) (whole + 0 1))', b'refused 14\n'),
        (b'(source 0 project (combined) (loss) (whole + 0 1))', b'refused 14\n'),
        (b'(source 0 project (combined) (loss 0) (whole * 0 1))', b'refused 14\n'),
        (b'(source 0 project (combined) (loss 0) (single + 3F800000 3f800000))', b'refused 14\n'),
        (b'(source 0 project (combined) (loss 0) (single + 3f80000 3f800000))', b'refused 14\n'),
        (b'(source 0 project (combined) (loss 0) (single + 3f800000 3f8000000))', b'refused 14\n'),
        (b'(source 0 project (combined) (loss 0) (whole + 0 00000001))', b'refused 14\n'),
        (b'(source 0 project (combined) (loss 0) (whole + 0 1)(whole + 0 1))', b'refused 14\n'),
        (at_limit.encode(), b'refused 1\n'),
        (at_limit.replace('+ 0', '+ 10', 1).encode(), b'refused 14\n'),
        (b'(drop plant 0)\n\n' * 4096, b'refused 7\nrefused 14\n' * 4096),
        (b'(drop plant 0)\n\n' * 4096 + b'(', b'refused 14\n'),
    ]
    for data, expected in rows:
        checks.equal(f'text {data[:70]!r}', tally(data), expected)
    checks.equal('lengths that the rows above rely on',
                 (len(at_limit), len(b'(drop plant 0)\n\n' * 4096)), (256, 65_536))


def lines_answered(checks: Checks):
    """Each line has its answer, whatever the size of the input."""
    ok, no_form, no_plant = b'ok\n', b'refused 14\n', b'refused 7\n'
    report = EMPTY_REPORT.replace('/', '\n').encode() + b'\n'
    empty_lines = b'\n' * 65_536
    rows = [
        ('an empty input', b'', []),
        ('the last line without its LF', b'(report)\n\n(drop plant 0)', [report, no_form, no_plant]),
        ('an input of 65,536 bytes', empty_lines, [no_form] * 65_536),
        ('an input of 65,537 bytes', empty_lines + b'(', [no_form] * 65_537),
        ('what stands after 65,536 bytes',
         b'(plant 0 0 0)\n' + empty_lines + b'(drop plant 0)\n(drop plant 0)\n',
         [ok, *[no_form] * 65_536, ok, no_plant]),
        ('a line of 100,000 bytes', b'(plant 0 0 0)\n' + b'(report)' * 12_500 + b'\n(report)\n',
         [ok, no_form, report]),
    ]
    for name, data, expected in rows:
        checks.equal(f'lines of {name}', reference.answers(data), expected)


def exact_values(checks: Checks):
    """The listing by pencil: e × 1.2 × 812,400 and e × 3,186,300,000 ÷ 7,000."""
    (ledger, given), = reports_of(LISTING)
    project = Fraction(1_000_001 * 12 * 812_400, 10 * 10**12)
    baseline = Fraction(500_003 * 3_186_300_000, 7_000 * 10**12)
    checks.equal('exact project', reference.exact_side(ledger, given, 'project'), project)
    checks.equal('exact leakage', reference.exact_side(ledger, given, 'leakage'), 0)
    checks.equal('exact baseline', reference.exact_side(ledger, given, 'baseline'), baseline)
    checks.equal('exact reduction', reference.exact_reduction(ledger, given),
                 baseline - project)
    checks.equal('gap', reference.gap(ledger, given, 0), 974_882 - project * 10**6)
    checks.equal('gap limit', reference.gap_limit(given.figures[0]),
                 1 + Fraction(13 * 812_402 * 10 + 11 * 1_200_002, 10**7))


def exact_options(checks: Checks):
    """either takes captive by its rounded 1 mg/kWh; exactly, 0.004 mg over 1,000 kWh."""
    (ledger, given), = reports_of('\n'.join([
        '(grid 0 hydro)', '(plant 0 0 1000 (fuel 1 1 1) (fuel 3 1 1))',
        source(0, 'project', 'either 0', 'loss 5000', '(single + 00000000 3f800000)',
               '(whole - 0 400)'),
        grid_source(1, 'leakage', 7, 'captivedefault', 'none'), '(report)']))
    project = Fraction(600 * 15, 10) * Fraction(4, 10**6) / 10**12
    leakage = Fraction(7 * 1_300_000, 10**12)
    checks.equal('exact either', reference.exact_side(ledger, given, 'project'), project)
    checks.equal('exact captivedefault', reference.exact_side(ledger, given, 'leakage'), leakage)
    checks.equal('exact reduction with leakage', reference.exact_reduction(ledger, given),
                 -project - leakage)


def exact_margins(checks: Checks):
    """1,000 kWh at 750,000.5 mg/kWh are 0.7500005 t, on either side; the record has
    750,001 and 750,000. Then 1,000,001 Wh with 20 per cent at 37.69 mg/kWh."""
    (ledger, given), = reports_of('\n'.join([
        '(grid margins 1000001 500000 50 50 thermal)', grid_source(0, 'project', 1_000_000),
        grid_source(1, 'baseline', 1_000_000), '(report)']))
    checks.equal('F of margins', [figure.factor for figure in given.figures.values()],
                 [750_001, 750_000])
    for side in ('project', 'baseline'):
        checks.equal(f'exact {side} of margins', reference.exact_side(ledger, given, side),
                     Fraction(7_500_005, 10_000_000))
    checks.equal('exact reduction of margins', reference.exact_reduction(ledger, given), 0)
    checks.demand_3('margins', ledger, given, True)
    (ledger, given), = reports_of('\n'.join([
        '(grid margins 100 7 33 67 hydro)',
        *(grid_source(n, side, 1_000_001, loss='loss 2000')
          for n, side in enumerate(reference.SIDES)), '(report)']))
    grams = Fraction('45.228045228')  # 1,200,001.2 × 37.69 ÷ 1,000,000
    for number, (side, shown) in enumerate(zip(reference.SIDES, (46, 46, 44))):
        checks.equal(f'{side} of margins with losses', given.sides[side].grams, shown)
        checks.equal(f'exact {side} of margins with losses',
                     reference.exact_side(ledger, given, side), grams / 10**6)
        checks.equal(f'gap of {side} with margins', reference.gap(ledger, given, number),
                     abs(shown - grams))
    checks.demand_3('margins with losses', ledger, given, True)


def exact_either_of_margins(checks: Checks):
    """A captive factor of exactly 7 mg/kWh beside a mean. By its own rounding a project
    takes 6.5 as 7 and a baseline 7.5 as 7, which is combined of two equal factors; by the
    other rounding each would take captive."""
    rows = (
        ('6 7 50 50', 'project', 'combined', 7, '6.5'),
        ('6 7 50 50', 'leakage', 'combined', 7, '6.5'),
        ('7 8 50 50', 'baseline', 'combined', 7, '7.5'),
        ('6 7 50 50', 'baseline', 'combined', 6, '6.5'),
        ('7 8 50 50', 'project', 'combined', 8, '7.5'),
        ('6 7 99 1', 'project', 'combined', 7, '6.01'),
        ('7 8 1 99', 'baseline', 'combined', 7, '7.99'),
        ('6 8 50 50', 'project', 'combined', 7, '7'),
        ('5 6 1 99', 'project', 'captive', 7, '7'),
        ('9 8 1 99', 'baseline', 'captive', 7, '7'))
    for entered, side, option, factor, exact in rows:
        (ledger, given), = reports_of('\n'.join([
            f'(grid margins {entered} hydro)', '(plant 0 0 1000 (fuel 7000 1 1000))',
            grid_source(0, side, 1_000_000, 'either 0'), '(report)']))
        name = f'either of margins {entered}, {side}'
        checks.equal(name, (given.figures[0].option, given.figures[0].factor), (option, factor))
        checks.equal(f'exact {name}', reference.exact_side(ledger, given, side),
                     Fraction(exact) / 10**6)  # 1,000 kWh: as many grams
        checks.demand_3(name, ledger, given, True)


def exact_fuels(checks: Checks):
    """0.001, 733.33 and 4.03 mg of three kinds over 1,000 kWh, for 1,000 kWh: as many mg of a
    side exactly, and of their sums 740 up and 737 down 1 and 0 mg/kWh."""
    (ledger, given), = reports_of('\n'.join([
        '(plant 0 0 1000 (fuel 1 1 1) (mass 1 2) (volume 1 1 11))',
        grid_source(0, 'project', 1_000_000, 'captive 0', 'none'),
        grid_source(1, 'baseline', 1_000_000, 'captive 0', 'none'), '(report)']))
    milligrams = Fraction(2_212_103, 3_000)  # (3 + 2,200,000 + 12,100) ÷ 3,000
    checks.equal('F of three kinds', [figure.factor for figure in given.figures.values()], [1, 0])
    for side in ('project', 'baseline'):
        checks.equal(f'exact {side} of three kinds', reference.exact_side(ledger, given, side),
                     milligrams / 10**9)
    checks.equal('gap of a project with three kinds', reference.gap(ledger, given, 0),
                 1 - milligrams / 1_000)
    checks.equal('gap of a baseline with three kinds', reference.gap(ledger, given, 1),
                 milligrams / 1_000)
    checks.demand_3('three kinds', ledger, given, True)


def exact_ratios(checks: Checks):
    """7 × 1,000.00011920929 Wh, which is 7,000 + 7 × 1,000 ÷ 2^23, less 3 × 5 Wh: E 6,986 of a
    project and 6,985 of a baseline, at 1 g a Wh. Then eight readings by 10,000, each nearly 1 Wh
    off: 330 steps of 2^-17 kWh are 25,177.002 Wh of a meter, and 25,179 rounded."""
    (ledger, given), = reports_of('\n'.join([
        '(grid 1000000 hydro)',
        *(source(n, side, 'combined', 'loss 0', '(single 7 + 00000000 3f800001)', '(whole 3 - 0 5)')
          for n, side in enumerate(reference.SIDES)), '(report)']))
    exact = 6_985 + Fraction(7_000, 2**23)
    for number, (side, shown) in enumerate(zip(reference.SIDES, (6_986, 6_986, 6_985))):
        checks.equal(f'E of {side} with ratios', given.figures[number].energy, shown)
        checks.equal(f'exact {side} with ratios', reference.exact_side(ledger, given, side),
                     exact / 10**6)
        checks.equal(f'gap of {side} with ratios', reference.gap(ledger, given, number),
                     abs(shown - exact))
    checks.demand_3('ratios', ledger, given, True)
    (ledger, given), = reports_of('\n'.join([
        '(grid 10000000 hydro)', source(0, 'project', 'combined', 'loss 5000',
                                        *4 * ['(single 10000 + 42f6ed5b 42f6eea5)']), '(report)']))
    checks.equal('E of four meters', given.figures[0].energy, 4 * 25_179)
    checks.equal('exact energy of four meters', reference.exact_energy(ledger.sources[0].meters),
                 4 * 330 * Fraction(10_000 * 1_000, 2**17))
    checks.demand_3('readings that are each nearly 1 Wh off', ledger, given, True)


def plants_with_heat(checks: Checks):
    """Milligrams down and up, and exactly. 7 kJ and 3.004 mg: 3 down, 428 mg a MJ, of which 6 kJ
    leave 2. Then what the limit of 32 bits would cut, all of J, and none."""
    lines = [EnergyLine(1, 3, 1_000), EnergyLine(1, 4, 1)]
    largest = 4 * [EnergyLine(10**8, 150_000, 200_000)]
    rows = [
        (lines, 0, 3, 4, '3.004', '3.004'), (lines, 1, 2, 4, Fraction(6 * 3_004, 7_000), '3.004'),
        (lines, 6, 0, 4, Fraction(3_004, 7_000), '3.004'), (lines, 7, 0, 4, 0, '3.004'),
        (largest, 1, 12 * 10**15 - 200, 12 * 10**15, 12 * 10**15 - 200, 12 * 10**15),
        (largest, 6 * 10**13, 0, 12 * 10**15, 0, 12 * 10**15),
        ([MassLine(1, 1), *lines], 0, 369, 371, *2 * [Fraction(1_109_012, 3_000)])]
    for fuel, kilojoules, down, up, exact_down, exact_up in rows:
        made = reference.Plant(0, 1_000, fuel, kilojoules)
        checks.equal(f'heat {kilojoules} of {fuel}',
                     [reference.plant_milligrams(made, way) for way in (False, True)], [down, up])
        checks.equal(f'exactly, heat {kilojoules} of {fuel}',
                     [reference.exact_plant_milligrams(made, way) for way in (False, True)],
                     [Fraction(exact_down), Fraction(exact_up)])


def heated_site() -> str:
    """Two plants with heat at site 0, of 10,000,000 and 5,000,000 kJ, and one without; over 500,
    300 and 200 kWh K is 15. At site 1 there is none. A baseline has 999,999,900 + 4,999,999 + 500
    mg, which are 1,005,000.399 mg/kWh."""
    lines = ['(grid 100 thermal)', '(plant 0 0 500 (heat 1) (fuel 1000 10000 100000))',
             '(plant 1 0 300 (heat 1) (fuel 5000000 1 1000))', '(plant 2 0 200 (fuel 500 1 1000))',
             '(plant 3 1 1000 (fuel 500 1 1000))']
    lines += [grid_source(n, side, 1_150_000, supply, 'loss 0' if 'either' in supply else 'none')
              for n, (side, supply) in enumerate((
                  ('baseline', 'captive 0'), ('baseline', 'either 0'), ('baseline', 'captive 1'),
                  ('baseline', 'captivedefault'), ('project', 'captive 0'),
                  ('leakage', 'captive 0')))]
    return '\n'.join([*lines, '(report)'])


def limits_with_heat(checks: Checks):
    """Whose limit has a K, and what each is. With K 15 the first source's is 1 + (13 × 1,005,017 +
    17 × 1,150,000) ÷ 1,000,000 g, and the second's, of 100 mg/kWh, 1 + (13 × 117 + 17 ×
    1,150,000) ÷ 1,000,000."""
    (ledger, given), = reports_of(heated_site())
    checks.equal('K of each site', [reference.site_heat(ledger, site) for site in range(3)],
                 [Fraction(15_000_000, 1_000 * 1_000), None, None])
    checks.equal('F of each source', [figure.factor for figure in given.figures.values()],
                 [1_005_000, 100, 0, 400_000, 1_005_001, 1_005_001])
    first, second = Fraction('33.615221'), Fraction('20.551521')
    limits = {i.what: i.limit for i in reference.demand_3(ledger, given)}
    checks.equal('limits with K', [limits.get(f'gap {n} by F, U and K, g') for n in range(6)],
                 [first, second, None, None, None, None])
    checks.equal('sources with a limit by weight',
                 [n for n in range(6) if f'gap {n} by weight, g' in limits], [2, 3, 4, 5])
    checks.equal('allowances with heat',
                 [limits[f'{name}, t'] for name in (*reference.SIDES, 'reduction')],
                 [Fraction('1.2'), Fraction('1.2'), Fraction('1.4') + (first + second) / 10**6,
                  Fraction('3.8') + (first + second) / 10**6])
    exact = Fraction('1.15') * Fraction('1005000.399')
    checks.equal('exact figure with heat', reference.exact_figure(
        ledger, ledger.sources[0], given.figures[0]), exact)
    checks.equal('its gap', reference.gap(ledger, given, 0), exact - 1_155_750)
    checks.demand_3('a site with heat', ledger, given, True)


def heat_can_fail(checks: Checks):
    """A baseline of 1.15 t: with 200 kilograms 0 t would be within its allowance, and a figure
    28 g too low within its limit."""
    (ledger, given), = reports_of('\n'.join([
        '(plant 0 0 1000 (heat 1) (fuel 1000 10000 100000))',
        grid_source(0, 'baseline', 1_150_000, 'captive 0', 'none'), '(report)']))
    checks.equal('a baseline of 1.15 t', given.sides['baseline'], (1, 1_149_998, 1))
    checks.equal('its limit', reference.gap_limit(given.figures[0], Fraction(10)),
                 Fraction('27.800143'))
    for name, grams, tonnes, holds in (
            ('as reported', 1_149_998, 1, True), ('26 g lower', 1_149_973, 1, True),
            ('28 g lower', 1_149_972, 1, False), ('on the unsafe side', 1_150_000, 1, False),
            ('a tonne lower', 1_149_998, 0, False)):
        side = given.sides['baseline']._replace(tonnes=tonnes)
        altered = given._replace(sides={**given.sides, 'baseline': side},
                                 figures={0: given.figures[0]._replace(grams=grams)})
        checks.demand_3(f'a baseline with heat, {name}', ledger, altered, holds)


def exact_energy_below_zero(checks: Checks):
    """A + meter at rest and a - meter that moved by less than a watt-hour."""
    (ledger, given), = reports_of('\n'.join([
        '(grid 1000000 hydro)', '(source 0 project (combined) (loss 0)'
        ' (whole + 5 5) (single - 00000000 00000001))', '(report)']))
    checks.equal('exact energy below zero', reference.exact_side(ledger, given, 'project'),
                 Fraction(-1000, 2**149 * 10**6))
    checks.equal('its E', given.figures[0].energy, 0)
    checks.demand_3('exact energy below zero', ledger, given, True)


def demand_3_can_fail(checks: Checks):
    """Each inequality refuses a report that was altered against it alone."""
    checks.equal('holds from 0 to below the limit',
                 [reference.Inequality('', off, 2).holds for off in (-1, 0, 1, 2)],
                 [False, True, True, False])
    (ledger, given), = reports_of(LISTING)
    checks.demand_3('listing', ledger, given, True)

    def figure(number, grams):
        return given._replace(figures={
            **given.figures, number: given.figures[number]._replace(grams=grams)})

    def side(name, **parts):
        return given._replace(sides={**given.sides, name: given.sides[name]._replace(**parts)})
    altered = {
        'project gap unsafe': figure(0, 974_880), 'project gap too wide': figure(0, 974_900),
        'baseline gap unsafe': figure(1, 227_595), 'baseline gap too wide': figure(1, 227_560),
        'project unsafe': side('project', tonnes=0), 'project too high': side('project', tonnes=3),
        'baseline unsafe': side('baseline', tonnes=1),
        'baseline too low': side('baseline', tonnes=-1),
        'leakage too high': side('leakage', tonnes=1),
        'count inflated': side('leakage', sources=1),
        'reduction unsafe': given._replace(reduction=0),
        'reduction too low': given._replace(reduction=-5)}
    for name, report in altered.items():
        checks.demand_3(name, ledger, report, False)


def main() -> int:
    checks = Checks()
    checks.equal('listing', tally(LISTING.encode()).decode(), LISTING_OUTPUT)
    for part in (bench_table, registers, readings_by_ratio, grid_and_plant_entries, source_entries,
                 drops_and_replacement, hand_worked_lists, meters, grid_defaults, default_losses,
                 captive_supplies, fuel_lines, carbon_formulas, rounded_lines, report_refusals,
                 largest_side, text, lines_answered, exact_values, exact_options, exact_margins,
                 exact_either_of_margins, exact_fuels, exact_ratios, plants_with_heat,
                 limits_with_heat, heat_can_fail, exact_energy_below_zero, demand_3_can_fail):
        part(checks)
    print(f'{checks.passed} passed, {checks.failed} failed')
    return 1 if checks.failed else 0


if __name__ == '__main__':
    sys.exit(main())
