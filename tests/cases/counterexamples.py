"""Lists of calls that break demand 3 once one of its constants is made smaller.

For each case the true inequalities hold and the edited one fails, by exact
fractions. Prints one line a case: how far off, the true and the edited limit.
"""

import bisect
import sys
from typing import NamedTuple

from tests.reference import reference
from tests.reference.reference import DEMAND_3, Broken


class Case(NamedTuple):
    name: str
    lines: list[str]
    edited: reference.Constants  # one of them made smaller
    breaks: tuple  # the inequalities, by `what`, that then fail


def register_above(watt_hours: int) -> int:
    """The least register above so many watt-hours: order is that of the bits."""
    return bisect.bisect_right(range(0x7F800000), watt_hours,
                               key=lambda r: reference.exact_watt_hours('single', r, 1))


def gap_by_factor() -> Case:
    """Eight readings, each nearly 1 Wh off: E 9 for an e of about 1, U 14 for 1.5."""
    above_1, above_2 = register_above(1), register_above(2)
    meters = [f'(single + {above_1 - 1:08x} {last:08x})'
              for last in (above_1, above_1, above_1, above_2)]
    return Case('gap, 13 -> 12',
                ['(grid 10000000 thermal)',
                 f'(source 0 project (combined) (loss 5000) {" ".join(meters)})'],
                DEMAND_3._replace(factor_multiple=12), ('gap 0 by F and U, g',))


def gap_by_ratio() -> Case:
    """Eight readings, by 10,000 a thousandth of a Wh below and above whole ones: E 178,841 for
    an e of nearly 8 Wh less, and U half a Wh more."""
    meters = [f'(single 10000 + 42f6ed5b {last})'
              for last in ('42f6eea5', '42f6eea5', '42f6eea5', '42f6f2a5')]
    return Case('gap by ratios, 13 -> 12',
                ['(grid 10000000 thermal)',
                 f'(source 0 project (combined) (loss 5000) {" ".join(meters)})'],
                DEMAND_3._replace(factor_multiple=12), ('gap 0 by F and U, g',))


def plants_with_32_lines(short: str, last: str) -> list[str]:
    """1,000 kWh at site 0, of 31 lines and a last one."""
    return ([f'(plant {n} 0 125 {" ".join(4 * [short])})' for n in range(7)]
            + [f'(plant 7 0 125 {" ".join(3 * [short] + [last])})'])


def lines_of_energy(whole: int) -> list[str]:
    """1,000 × whole + 969.032 mg of 32 lines. Each line loses nearly 1 mg and the
    quotient nearly 1 mg/kWh: whole + 2 up, whole down."""
    return plants_with_32_lines('(fuel 1 1 1)', f'(fuel {1000 * (1000 * whole + 969) + 1} 1 1)')


def either(number: int, side: str, energy: int) -> str:
    return f'(source {number} {side} (either 0) (loss 5000) (whole + 0 {energy}))'


def one_source_on_32_lines() -> list[str]:
    """At the limit of E, F is 2 for an exact 0.969032."""
    return ['(grid 0 thermal)', *lines_of_energy(0), either(0, 'project', 10**11)]


def gap_by_energy() -> Case:
    return Case('gap, 11 -> 10', one_source_on_32_lines(),
                DEMAND_3._replace(energy_multiple=10), ('gap 0 by F and U, g',))


def gap_by_carbon() -> Case:
    """Lines by volume, each 1/30 mg above whole milligrams: 976.07 mg of 32 lines, 1,007
    where each is rounded up. At the limit of E, F is 2 for an exact 0.97607."""
    return Case('gap by carbon, 11 -> 10',
                ['(grid 0 thermal)', *plants_with_32_lines('(volume 1 1 11)', '(volume 1 1 2321)'),
                 either(0, 'project', 10**11)],
                DEMAND_3._replace(energy_multiple=10), ('gap 0 by F and U, g',))


def gap_by_mean() -> Case:
    """At the limit of E, F is 1 for a mean of 0.01. No mean is further off than by 0.99, so
    that 10 tenths would cover this rounding, and 9 do not."""
    return Case('gap by a mean, 11 -> 9',
                ['(grid margins 1 0 1 99 thermal)',
                 f'(source 0 project (combined) (loss 5000) (whole + 0 {10**11}))'],
                DEMAND_3._replace(energy_multiple=9), ('gap 0 by F and U, g',))


def gap_by_weight() -> Case:
    return Case('gap, 200 -> 150 kg', one_source_on_32_lines(),
                DEMAND_3._replace(gap_kilograms=150), ('gap 0 by weight, g',))


def energy_for(grams: int, factor: int, slack: int) -> int:
    """E of a source of so many grams with T 5,000, kept off the next gram by `slack` Wh."""
    return grams * 10**6 * 2 // (factor * 3) + slack


def allowances() -> Case:
    """Captive factors 101 up and 99 down round the grid's 100, so that either takes
    them on both sides; grams just above, and just below, a whole tonne."""
    full = 10**11 * 3 // 2 * 101 // 10**6
    last_of_project = full - 30 * full % 10**6 + 1
    leakage = full - full % 10**6 + 1
    baseline = 14 * 10**6 - 1
    sources = [either(n, 'project', 10**11) for n in range(29)] + [
        either(29, 'project', energy_for(last_of_project, 101, -2)),
        either(30, 'leakage', energy_for(leakage, 101, -2)),
        either(31, 'baseline', energy_for(baseline, 99, 2))]
    return Case('allowance a source, 200 -> 150 kg',
                ['(grid 100 thermal)', *lines_of_energy(99), *sources],
                DEMAND_3._replace(allowance_kilograms=150),
                ('project, t', 'leakage, t', 'reduction, t'))


def three_sides() -> list[str]:
    """1 g, 1 g and 999,999 g: each tonne is nearly 1 off."""
    return ['(grid 1000000 thermal)'] + [
        f'(source {n} {side} (combined) (loss 0) (whole + 0 {grams}))'
        for n, (side, grams) in enumerate(
            (('project', 1), ('leakage', 1), ('baseline', 999_999)))]


def reduction_by_tonnes() -> Case:
    return Case('reduction, 3 -> 2 t', three_sides(), DEMAND_3._replace(reduction_tonnes=2),
                ('reduction, t',))


def side_by_tonnes() -> Case:
    return Case('side, 1 -> 0 t', three_sides(), DEMAND_3._replace(side_tonnes=0),
                ('project, t', 'leakage, t', 'baseline, t'))


# A site with heat, whose baseline sources have a limit with K

HEATED_GAP = 'gap 0 by F, U and K, g'


def half_left(*meters: str) -> list[str]:
    """A is 1.5 cut to 1, so that F is 999,999 for an exact 1,500,000 mg/kWh; K is 1,000,000."""
    return ['(grid 10000000 thermal)',
            '(plant 0 0 1000 (heat 1) (fuel 100000000 5000 1) (fuel 100000000 5000 2))',
            f'(source 0 baseline (either 0) (loss 5000) {" ".join(meters)})']


def heat_by_energy() -> Case:
    """750 t off, and so are the side and the reduction."""
    return Case('gap by heat, (2 + K) x U -> 2 x U', half_left('(whole + 0 1000000000)'),
                DEMAND_3._replace(heat_by_energy=0), (HEATED_GAP, 'baseline, t', 'reduction, t'))


def heat_by_factor() -> Case:
    """Eight readings, each nearly 1 Wh off: E 0 for an e of nearly 8, which is 12 with losses."""
    return Case('gap by heat, 13 x (F + 2 + K) -> 13 x (F + 2)',
                half_left(*4 * ['(single + 3a83126f 3b449ba5)']),
                DEMAND_3._replace(heat_by_factor=0), (HEATED_GAP,))


def many_plants_with_heat() -> Case:
    """At the limit of E, 32 lines and 8 plants that each lose nearly 1 mg of a line, nearly 1 mg
    of the plant and nearly 1 mg a MJ of its A, and the quotient nearly 1 mg/kWh."""
    lines = ('(fuel 35 18 1373)', '(fuel 172 18 1802)', '(fuel 99 18 1445)', '(fuel 52 18 1797)')
    plants = [f'(plant {n} 0 125 (heat 1) {" ".join(lines)})' for n in range(7)]
    plants.append(f'(plant 7 0 125 (heat 1) {" ".join(lines[:3])} (fuel 64675 286 1637))')
    return Case('gap by heat, (2 + K) x U -> (1 + K) x U',
                ['(grid 10000000 thermal)', *plants, either(0, 'baseline', 10**11)],
                DEMAND_3._replace(heated_energy_multiple=1), (HEATED_GAP,))


def heated_allowance() -> Case:
    return Case('allowance by heat, the limit -> 200 kg', half_left('(whole + 0 1000000000)'),
                DEMAND_3._replace(heated_kilograms=200), ('baseline, t', 'reduction, t'))


CASES = (gap_by_factor, gap_by_ratio, gap_by_energy, gap_by_carbon, gap_by_mean, gap_by_weight,
         allowances, reduction_by_tonnes, side_by_tonnes, heat_by_energy, heat_by_factor,
         many_plants_with_heat, heated_allowance)


def text(case: Case) -> bytes:
    return ''.join(f'{line}\n' for line in [*case.lines, '(report)']).encode()


def check(case: Case):
    given = []
    reference.tally(text(case), on_report=lambda *both: given.append(both))
    if len(given) != 1:
        raise Broken(f'{case.name}: report refused')
    ledger, report = given[0]
    reference.check_demand_3(ledger, report)
    true = {i.what: i for i in reference.demand_3(ledger, report)}
    edited = reference.demand_3(ledger, report, case.edited)
    broken = [i for i in edited if not i.holds]
    if tuple(i.what for i in broken) != case.breaks:
        raise Broken(f'{case.name}: breaks {broken}')
    print(f'{case.name}: ' + '; '.join(
        f'{what} off by {float(off):.6f}, limit {float(true[what].limit):.6f}, '
        f'edited {float(limit):.6f}' for what, off, limit in broken))


def main() -> int:
    failed = 0
    for make in CASES:
        try:
            check(make())
        except Broken as error:
            failed += 1
            print(error)
    print(f'{len(CASES) - failed} passed, {failed} failed')
    return 1 if failed else 0


if __name__ == '__main__':
    sys.exit(main())
