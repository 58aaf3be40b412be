"""Lists of lines on plants that state heat, each line with its answer, worked out by hand: for a
baseline a plant's milligrams are (J - H) × A ÷ 1,000, with J its lines' summed Q × V in kJ and A
their rounded milligrams × 1,000 ÷ J, each rounded down, and for the other sides as without heat.

Of a plant with lines of C 1,000 a kJ is 1 mg, so that J - H mg are left. test_reference.py
compares the answers with the reference's; generate.py has the lines among its inputs made by
hand. A slash stands between the lines of a report.
"""


def plant(after_generation: str, number: int = 0, site: int = 0, generation: int = 1000) -> str:
    return f'(plant {number} {site} {generation} {after_generation})'


def entered(answer: str, *rows: str) -> tuple:
    """A plant for each of these rows of a heat and fuel lines, and the answer of all."""
    return tuple((plant(row), answer) for row in rows)


def source(number: int, side: str, supply: str, energy: int = 10**9) -> tuple[str, str]:
    """Without losses. Of 1 GWh a report shows 1,000 g for each mg/kWh."""
    loss = 'loss 0' if supply.startswith('either') else 'none'
    return f'(source {number} {side} ({supply}) ({loss}) (whole + 0 {energy}))', 'ok'


BASELINE = source(0, 'baseline', 'captive 0')


def left(factor: int) -> tuple[str, str]:
    """The report on a baseline of 1 GWh at this factor."""
    tonnes = factor // 1_000
    return '(report)', (f'project 0 0 0/leakage 0 0 0/baseline {tonnes} {factor * 1_000} 1/'
                        f'reduction {tonnes}')


def lefts(*rows: tuple[int, str]) -> tuple:
    """Each a factor and the plant that leaves it, over 1,000 kWh."""
    return tuple(pair for factor, row in rows for pair in (*entered('ok', row), left(factor)))


# 43,000,000 kJ and 3,186,300,000 mg. Half of them are left, all, and none.
BASELINE_LESS = (
    ('(plant 0 0 1000 (heat 21500000) (fuel 1000 43000 74100))', 'ok'),
    ('(source 0 project (captive 0) (none) (whole + 0 1000000))', 'ok'),
    ('(source 1 baseline (captive 0) (none) (whole + 0 1000000))', 'ok'),
    ('(report)', 'project 4 3186300 1/leakage 0 0 0/baseline 1 1593150 1/reduction -3'),
    ('(plant 0 0 1000 (heat 0) (fuel 1000 43000 74100))', 'ok'),
    ('(report)', 'project 4 3186300 1/leakage 0 0 0/baseline 3 3186300 1/reduction -1'),
    ('(plant 0 0 1000 (heat 43000000) (fuel 1000 43000 74100))', 'ok'),
    ('(report)', 'project 4 3186300 1/leakage 0 0 0/baseline 0 0 1/reduction -4'),
    ('(plant 0 0 1000 (fuel 1000 43000 74100))', 'ok'),
    ('(report)', 'project 4 3186300 1/leakage 0 0 0/baseline 3 3186300 1/reduction -1'),
)

IN_ORDER = (
    ('(plant 0 0 1000 (heat 1) (mass 1 1))', 'refused 16'),
    ('(plant 0 0 1000 (heat 0) (mass 1 1))', 'ok'),
    ('(plant 0 0 1000 (heat 43000001) (fuel 1000 43000 74100))', 'refused 17'),
    ('(plant 0 0 1000 (heat 43000000) (fuel 1000 43000 74100))', 'ok'),
    ('(plant 0 0 1000 (heat 1))', 'refused 17'),
    ('(plant 0 0 1000 (heat 0))', 'ok'),
    ('(plant 0 0 1000 (heat 1) (fuel 0 43000 74100))', 'refused 17'),
    ('(plant 0 0 1000 (heat 999999999999999999) (fuel 1 1 1) (volume 1 1 1))', 'refused 16'),
    ('(plant 0 0 1000 (heat 999999999999999999) (fuel 1 1 1) (volume 1 2001 1))', 'refused 2'),
    ('(plant 8 0 1000 (heat 1) (mass 1 1))', 'refused 1'),
    ('(plant 0 0 1000 (heat 5) (fuel 1 1 1) (fuel 1 1 1) (fuel 1 1 1) (fuel 1 1 1) (fuel 1 1 1))',
     'refused 2'),
    ('(plant 0 0 1000 (fuel 1 1 1) (heat 0))', 'refused 14'),
    ('(plant 0 0 (heat 0) 1000 (fuel 1 1 1))', 'refused 14'),
    ('(plant 0 0 1000 (heat 0) (heat 0) (fuel 1 1 1))', 'refused 14'),
    ('(plant 0 0 1000 (heat 01) (fuel 1 1 1))', 'refused 14'),
)

# 6 × 10^13 kJ and 1.2 × 10^16 mg, × 1,000 nearly two thirds of 2^64; 10^12 × 200,000 ÷ 1,000 mg
# are left after that, over 10^8 kWh. Then nearly all of a plant and 6.5 × 10^15 mg of another one,
# which would be few if the first product were taken for one below 0.
NO_PRODUCT_WRAPS = (
    ('(plant 0 0 100000000 (heat 1)' + 4 * ' (fuel 100000000 150000 200000)' + ')', 'ok'),
    ('(source 0 baseline (captive 0) (none) (whole + 0 1000000))', 'ok'),
    ('(report)', 'refused 10 source 0'),
    ('(plant 0 0 100000000 (heat 59000000000000)' + 4 * ' (fuel 100000000 150000 200000)' + ')',
     'ok'),
    ('(report)', 'project 0 0 0/leakage 0 0 0/baseline 2 2000000 1/reduction 2'),
    ('(plant 0 0 100000000 (heat 1)' + 4 * ' (fuel 100000000 150000 200000)' + ')', 'ok'),
    ('(plant 1 0 100000000 (heat 27500000000000)' + 4 * ' (fuel 100000000 150000 200000)' + ')',
     'ok'),
    ('(report)', 'refused 10 source 0'),
)

# A is 1.5 cut to 1: 999,999,999 of 1,500,000,000 mg. At first 1,500 MWh with losses.
FAR_OFF = (
    ('(grid 10000000 thermal)', 'ok'),
    ('(plant 0 0 1000 (heat 1) (fuel 100000000 5000 1) (fuel 100000000 5000 2))', 'ok'),
    ('(source 0 baseline (either 0) (loss 5000) (whole + 0 1000000000))', 'ok'),
    ('(report)', 'project 0 0 0/leakage 0 0 0/baseline 1499 1499998500 1/reduction 1499'),
    ('(source 0 baseline (either 0) (loss 5000)' + 4 * ' (single + 3a83126f 3b449ba5)' + ')', 'ok'),
    ('(report)', 'project 0 0 0/leakage 0 0 0/baseline 0 0 1/reduction 0'),
)

TEN_FOR_PROJECT_ALONE = (
    ('(plant 0 0 1000 (heat 150000000000000) (fuel 1 1 1))', 'refused 17'),
    ('(plant 0 0 1000 (heat 14999000000000) (fuel 100000000 150000 1000))', 'ok'),
    ('(source 0 baseline (captive 0) (none) (whole + 0 1000000))', 'ok'),
    ('(report)', 'project 0 0 0/leakage 0 0 0/baseline 1 1000000 1/reduction 1'),
    ('(source 1 project (captive 0) (none) (whole + 0 1000000))', 'ok'),
    ('(report)', 'refused 10 source 1'),
)

# 43,000 kJ of 74.1 mg: 74.1 mg less for each kJ, and the quotient over 1,000 kWh. Then 10,000 kJ
# of 200 mg: of 5 kJ 1,000 mg are left, and 800 of 4.
AROUND_J = (
    BASELINE,
    *lefts((3_186, '(fuel 1 43000 74100)'), (3_186, '(heat 0) (fuel 1 43000 74100)'),
           (3_186, '(heat 1) (fuel 1 43000 74100)'), (3_186, '(heat 4) (fuel 1 43000 74100)'),
           (3_185, '(heat 5) (fuel 1 43000 74100)'), (0, '(heat 42999) (fuel 1 43000 74100)'),
           (0, '(heat 43000) (fuel 1 43000 74100)')),
    *entered('refused 17', '(heat 43001) (fuel 1 43000 74100)', '(heat 86000) (fuel 1 43000 74100)',
             '(heat 74100) (fuel 1 43000 74100)'),
    left(0),
    *lefts((2_000, '(fuel 100 100 200000)'), (1_999, '(heat 1) (fuel 100 100 200000)'),
           (1_999, '(heat 5) (fuel 100 100 200000)'), (1_998, '(heat 6) (fuel 100 100 200000)'),
           (1, '(heat 9995) (fuel 100 100 200000)'), (0, '(heat 9996) (fuel 100 100 200000)'),
           (0, '(heat 9999) (fuel 100 100 200000)'), (0, '(heat 10000) (fuel 100 100 200000)')),
    *entered('refused 17', '(heat 10001) (fuel 100 100 200000)'),
)

# J of several lines, of lines with nothing burnt or without CO2, and the largest there is.
SUMMED_J = (
    *entered('ok', '(heat 1) (fuel 1 1 0)', '(heat 3) (fuel 1 1 1) (fuel 1 2 1)',
             '(heat 4) (fuel 2 1 0) (fuel 0 9 9) (fuel 1 2 200000)',
             '(heat 10) (fuel 1 1 1) (fuel 1 2 1) (fuel 3 1 1) (fuel 2 2 1)',
             '(heat 10) (fuel 1 10 1) (fuel 0 10 1)', '(heat 10) (fuel 0 10 1) (fuel 10 1 1)',
             '(heat 15000000000000) (fuel 100000000 150000 1)',
             '(heat 60000000000000)' + 4 * ' (fuel 100000000 150000 200000)'),
    *entered('refused 17', '(heat 2) (fuel 1 1 200000)', '(heat 4) (fuel 1 1 1) (fuel 1 2 1)',
             '(heat 5) (fuel 2 1 0) (fuel 0 9 9) (fuel 1 2 200000)',
             '(heat 11) (fuel 1 1 1) (fuel 1 2 1) (fuel 3 1 1) (fuel 2 2 1)',
             '(heat 1) (fuel 0 1 1)', '(heat 1) (fuel 0 150000 200000) (fuel 0 1 0)',
             '(heat 15000000000001) (fuel 100000000 150000 1)',
             '(heat 60000000000001)' + 4 * ' (fuel 100000000 150000 200000)'),
)

# Beside one carbon line or several, at each place, whatever they hold and whatever the heat is.
BESIDE_CARBON = (
    *entered('refused 16', '(heat 1) (volume 1 1 1)', '(heat 1) (mass 0 0)',
             '(heat 1) (volume 0 0 0)', '(heat 1) (mass 100000000 10000)',
             '(heat 1) (mass 1 1) (fuel 1 1 1)', '(heat 1) (fuel 1 1 1) (mass 1 1)',
             '(heat 1) (fuel 1 1 1) (fuel 1 1 1) (fuel 1 1 1) (volume 1 1 1)',
             '(heat 1) (volume 1 1 1) (fuel 1 1 1) (fuel 1 1 1) (fuel 1 1 1)',
             '(heat 2) (fuel 1 2 1) (mass 1 1)', '(heat 3) (fuel 1 2 1) (mass 1 1)',
             '(heat 1) (mass 1 1) (volume 1 1 1) (mass 0 0) (volume 0 0 0)',
             '(heat 999999999999999999) (mass 1 1)', '(heat 4294967296) (fuel 1 1 1) (mass 1 1)'),
    *entered('ok', '(heat 0) (volume 1 1 1)', '(heat 0) (fuel 1 1 1) (mass 1 1)',
             '(heat 0) (mass 1 1) (volume 1 1 1) (mass 0 0) (volume 0 0 0)', '(mass 1 1)',
             '(heat 0) (fuel 0 1 1) (volume 1 1 1)'),
)

# Each plant breaks the rule that is answered and one or both of those after it.
BEFORE_THEM = (
    ('(plant 8 0 1000 (heat 2) (fuel 1 1 1))', 'refused 1'),
    ('(plant 0 4 1000 (heat 1) (mass 1 1))', 'refused 1'),
    ('(plant 0 4 1000 (heat 2) (fuel 1 1 1))', 'refused 1'),
    ('(plant 8 4 100000001 (heat 999999999999999999) (mass 1 10001))', 'refused 1'),
    ('(plant 8 0 1000 (heat 0))', 'refused 1'),
    ('(plant 0 4 1000 (heat 0) (mass 1 1))', 'refused 1'),
    ('(plant 0 0 100000001 (heat 1) (mass 1 1))', 'refused 2'),
    ('(plant 0 0 100000001 (heat 2) (fuel 1 1 1))', 'refused 2'),
    *entered('refused 2', '(heat 1) (mass 1 10001)', '(heat 1) (mass 1 1) (fuel 1 1 200001)',
             '(heat 1) (fuel 100000001 1 1) (mass 1 1)', '(heat 1) (fuel 1 0 1)',
             '(heat 1) (fuel 1 150001 1)', '(heat 9) (fuel 1 1 1) (fuel 1 1 200001)',
             '(heat 1)' + 5 * ' (mass 1 1)', '(heat 1)' + 5 * ' (fuel 0 1 1)',
             '(heat 1)' + 4 * ' (fuel 1 1 1)' + ' (mass 1 1)',
             '(heat 1) (volume 1 1 1)' + 4 * ' (fuel 1 1 1)',
             '(heat 0) (mass 1 10001)', '(heat 0) (fuel 1 0 1)'),
    *entered('refused 16', '(heat 2) (fuel 1 1 1) (mass 1 1)', '(heat 1) (mass 1 10000)',
             '(heat 999999999999999999) (volume 100000000 2000 10000)'),
    *entered('refused 17', '(heat 2) (fuel 1 1 200000)', '(heat 1)'),
    ('(plant 7 3 100000000 (heat 1))', 'refused 17'),
    ('(plant 7 3 0 (heat 1) (mass 1 1))', 'refused 16'),
    ('(plant 7 3 100000000 (heat 1) (fuel 1 1 1))', 'ok'),
    ('(plant 7 3 0 (heat 1) (fuel 1 1 1))', 'ok'),
)

# 5 kJ, and heats that would be within them in 8, 16 or 32 bits, or as a number with a sign. Then
# 5,000,000,000 kJ of 1 mg, which 2^32 and more are taken off.
OF_MANY_DIGITS = (
    *entered('refused 17', *(f'(heat {heat}) (fuel 5 1 1)' for heat in (
        6, 255, 256, 257, 261, 65_535, 65_536, 65_541, 2**31 - 1, 2**31, 2**32 - 1, 2**32,
        2**32 + 1, 2**32 + 5, 2**33 + 3, 2**40, 2**48 + 1, 2**56, 10**17, 10**18 - 2,
        10**18 - 1))),
    *entered('refused 14', *(f'(heat {heat}) (fuel 5 1 1)' for heat in (
        10**18, 2**60, 2**63 - 1, 2**63, 2**63 + 1, 2**64 - 1, 2**64, 2**64 + 5, 10**19))),
    BASELINE,
    *lefts((5_000_000, '(fuel 50000 100000 1000)'),
           (705_032, '(heat 4294967295) (fuel 50000 100000 1000)'),
           (705_032, '(heat 4294967296) (fuel 50000 100000 1000)'),
           (705_031, '(heat 4294968001) (fuel 50000 100000 1000)'),
           (5_032, '(heat 4994967296) (fuel 50000 100000 1000)'),
           (0, '(heat 4999999001) (fuel 50000 100000 1000)'),
           (1, '(heat 4999999000) (fuel 50000 100000 1000)'),
           (0, '(heat 5000000000) (fuel 50000 100000 1000)')),
    *entered('refused 17', '(heat 5000000001) (fuel 50000 100000 1000)',
             '(heat 9294967296) (fuel 50000 100000 1000)'),
    left(0),
)

# A heat of 0 is none, and takes nothing off: the lines are not brought to A and back, which 1 kJ
# of heat does to the same fuel.
OF_ZERO = (
    BASELINE,
    *lefts((1_500_000, '(fuel 100000000 5000 1) (fuel 100000000 5000 2)'),
           (1_500_000, '(heat 0) (fuel 100000000 5000 1) (fuel 100000000 5000 2)'),
           (999_999, '(heat 1) (fuel 100000000 5000 1) (fuel 100000000 5000 2)'),
           (3_666, '(heat 0) (mass 1 10000)'), (3_666, '(mass 1 10000)'),
           (3_676, '(heat 0) (mass 1 10000) (fuel 10000 1 1000)'), (0, '(heat 0)')),
)

# Down at each step. Z: of 999 kJ at 1.001 mg 999 mg, of 1,000 kJ 1,001. Lines: 100,098.999 mg of
# 99,999 kJ are 1,000 mg a MJ, and 1,001 were they 100,099, which two lines in one also are. A: of
# 1,999.9 mg a MJ 1,999, which leaves 2,000,997 mg; of 0.999999999 mg a MJ nothing. And 1,000 times
# before the quotient: 0.5 mg a kJ.
EACH_STEP_DOWN = (
    BASELINE,
    *lefts((1, '(heat 999000) (fuel 1000 1000 1001)'), (0, '(heat 999001) (fuel 1000 1000 1001)'),
           (99, '(heat 1) (fuel 99999 1 1001)'),
           (99, '(heat 1) (fuel 99998 1 1001) (fuel 1 1 1003)'),
           (99, '(heat 1) (fuel 1 1 1003) (fuel 99998 1 1001)'),
           (100, '(fuel 99999 1 1001)'),
           (2_000, '(heat 1) (fuel 900000 1 2000) (fuel 100000 1 1999) (fuel 1000 1 1999)'),
           (499, '(heat 1) (fuel 1000 1000 500)'), (250, '(heat 500000) (fuel 1000 1000 500)'),
           (0, '(heat 1) (fuel 1000000 1000 1) (fuel 1 1 0)'),
           (1_000, '(fuel 1000000 1000 1) (fuel 1 1 0)')),
)

# 499,999,999 and 999,999,999 mg of plants with heat, which have 1 and 2 mg a MJ, and 4 mg of one
# without, over 1,000 kWh of all three. With one A for the site it would be 1,000,000 mg/kWh.
PLANT_BY_PLANT = (
    BASELINE,
    (plant('(heat 1) (fuel 100000000 5000 1)', 2, generation=500), 'ok'),
    ('(report)', 'refused 9 source 0'),
    (plant('(heat 1) (fuel 100000000 5000 2)', 5, generation=300), 'ok'),
    (plant('(fuel 4 1 1000)', 7, generation=200), 'ok'),
    left(1_500_000),
    (plant('(heat 500000000) (fuel 100000000 5000 2)', 5, generation=300), 'ok'),
    left(1_499_000),
    (plant('(heat 500000000) (fuel 100000000 5000 1)', 2, generation=500), 'ok'),
    left(1_498_500),
    (plant('(fuel 100000000 5000 1)', 2, generation=500), 'ok'),
    left(1_499_000),
    (plant('(fuel 1000000 1 1000)', 7, generation=200), 'ok'),
    left(1_500_000),
    (plant('(mass 3 10000)', 7, generation=200), 'ok'),
    left(1_510_000),
    (plant('(heat 1) (fuel 4 1 1000)', 6, site=1), 'ok'),
    left(1_510_000),
    (plant('(heat 500000000000) (fuel 100000000 5000 2)', 5, generation=300), 'ok'),
    left(511_000),
)


def with_heat(*reports: str) -> tuple:
    return tuple(('(report)', report) for report in reports)


# 3,186,300 mg/kWh of a site, and 1,593,150 for a baseline; of 1 MWh as many g. A project takes
# the greater of that and the grid's, a baseline the smaller, and captivedefault neither.
ON_EACH_SIDE = (
    (plant('(heat 21500000) (fuel 1000 43000 74100)', 3, site=2), 'ok'),
    *(source(n, side, 'captive 2', 10**6) for n, side in enumerate(
        ('baseline', 'project', 'leakage', 'baseline'))),
    *with_heat('project 4 3186300 1/leakage 4 3186300 1/baseline 3 3186300 2/reduction -5'),
    source(9, 'baseline', 'captivedefault', 10**6),
    *with_heat('project 4 3186300 1/leakage 4 3186300 1/baseline 3 3586300 3/reduction -5'),
    *(source(n, side, 'either 2', 10**6) for n, side in enumerate(
        ('baseline', 'project', 'leakage', 'baseline'))),
    ('(grid 1593149 thermal)', 'ok'),
    *with_heat('project 4 3186300 1/leakage 4 3186300 1/baseline 3 3586298 3/reduction -5'),
    ('(grid 1593150 thermal)', 'ok'),
    *with_heat('project 4 3186300 1/leakage 4 3186300 1/baseline 3 3586300 3/reduction -5'),
    ('(grid 1593151 thermal)', 'ok'),
    *with_heat('project 4 3186300 1/leakage 4 3186300 1/baseline 3 3586300 3/reduction -5'),
    ('(grid 3186301 thermal)', 'ok'),
    *with_heat('project 4 3186301 1/leakage 4 3186301 1/baseline 3 3586300 3/reduction -5'),
    ('(grid 3186301 thermal)', 'ok'),
    (plant('(fuel 1000 43000 74100)', 3, site=2), 'ok'),
    *with_heat('project 4 3186301 1/leakage 4 3186301 1/baseline 6 6772600 3/reduction -2'),
)

# A grid of 100 mg/kWh is below what a baseline has of the site: either takes it.
EITHER_TAKES_COMBINED = (
    ('(grid 100 hydro)', 'ok'),
    *entered('ok', '(heat 1) (fuel 100000000 5000 1) (fuel 100000000 5000 2)'),
    source(0, 'baseline', 'either 0'), left(100),
    source(0, 'baseline', 'captive 0'), left(999_999),
    source(0, 'baseline', 'either 0'),
    ('(grid 999999 hydro)', 'ok'), left(999_999),
    ('(grid 1000000 hydro)', 'ok'), left(999_999),
    *entered('ok', '(heat 1000000000000) (fuel 100000000 5000 1) (fuel 100000000 5000 2)'), left(0),
)

# 10,000,000 mg/kWh are left of 10^10 mg and up to 999 more, over 1,000 kWh; over 1 kWh less it is
# refused 9. Up, where a report asks for that, the site is refused 10.
TEN_GRAMS = ('(report)', 'project 0 0 0/leakage 0 0 0/baseline 0 10 1/reduction 0')
TEN_GRAMS_OF_TWO = ('(report)', 'project 0 0 0/leakage 0 0 0/baseline 0 10 2/reduction 0')
NO_GRAMS = ('(report)', 'project 0 0 0/leakage 0 0 0/baseline 0 0 1/reduction 0')
LIMITS_OF_THE_FACTOR = (
    source(4, 'baseline', 'captive 0', 1),
    *entered('ok', '(heat 14990000000000) (fuel 100000000 150000 1000)'), TEN_GRAMS,
    *entered('ok', '(heat 14989999999001) (fuel 100000000 150000 1000)'), TEN_GRAMS,
    *entered('ok', '(heat 14989999999000) (fuel 100000000 150000 1000)'),
    ('(report)', 'refused 10 source 4'),
    *entered('ok', '(heat 1) (fuel 100000000 150000 1000)'), ('(report)', 'refused 10 source 4'),
    *entered('ok', '(heat 14999999999999) (fuel 100000000 150000 1000)'), NO_GRAMS,
    (plant('(heat 1) (fuel 5 1 1000)', generation=999), 'ok'), ('(report)', 'refused 9 source 4'),
    ('(plant 1 0 1)', 'ok'), NO_GRAMS,
    (plant('(heat 14990000000000) (fuel 100000000 150000 1000)', 2, site=1), 'ok'),
    source(5, 'baseline', 'captive 1', 1), TEN_GRAMS_OF_TWO,
    source(3, 'leakage', 'captive 1', 1), ('(report)', 'refused 10 source 3'),
    ('(drop source 3)', 'ok'), TEN_GRAMS_OF_TWO,
)

# A plant with heat need not generate where another one does.
OF_NO_GENERATION = (
    BASELINE,
    (plant('(heat 4000) (fuel 9000 1 1000)', 0, generation=0), 'ok'),
    ('(report)', 'refused 9 source 0'),
    ('(plant 1 0 1000)', 'ok'), left(5),
    (plant('(fuel 2000 1 1000)', 1), 'ok'), left(7),
    (plant('(heat 2000) (fuel 2000 1 1000)', 1), 'ok'), left(5),
    (plant('(heat 9000) (fuel 9000 1 1000)', 0, generation=0), 'ok'), left(0),
)

# 9,000 mg less 4,000: what a refused entry leaves, and what others make of it.
REPLACED = (
    BASELINE,
    *entered('refused 16', '(heat 1) (mass 3 10000)'), ('(report)', 'refused 9 source 0'),
    *entered('refused 17', '(heat 9001) (fuel 9000 1 1000)'), ('(report)', 'refused 9 source 0'),
    *lefts((5, '(heat 4000) (fuel 9000 1 1000)')),
    *entered('refused 16', '(heat 1000) (fuel 9000 1 1000) (mass 0 0)'), left(5),
    *entered('refused 17', '(heat 9001) (fuel 9000 1 1000)', '(heat 1)', '(heat 1) (fuel 0 1 1)'),
    left(5),
    *entered('refused 2', '(heat 1000) (fuel 9000 1 200001)', '(heat 1000) (fuel 9000 0 1000)'),
    left(5),
    *entered('refused 14', '(heat 01000) (fuel 9000 1 1000)', '(fuel 9000 1 1000) (heat 1000)'),
    left(5),
    ('(plant 0 4 1000 (heat 1000) (fuel 9000 1 1000))', 'refused 1'), left(5),
    *lefts((8, '(heat 1000) (fuel 9000 1 1000)'), (9, '(fuel 9000 1 1000)'),
           (5, '(heat 4000) (fuel 9000 1 1000)'), (9, '(heat 0) (fuel 9000 1 1000)'),
           (5, '(heat 4000) (fuel 9000 1 1000)'), (3_666, '(mass 1 10000)'),
           (5, '(heat 4000) (fuel 9000 1 1000)'), (0, '(heat 4000) (fuel 4000 1 1000)')),
    ('(plant 0 0 1000)', 'ok'), left(0),
    *lefts((5, '(heat 4000) (fuel 9000 1 1000)')),
    (plant('(heat 4000) (fuel 9000 1 1000)', 1), 'ok'), left(5),
    (plant('(fuel 9000 1 1000)', 1), 'ok'), left(7),
    ('(drop plant 0)', 'ok'), left(9),
    ('(drop plant 1)', 'ok'), ('(report)', 'refused 9 source 0'),
    *lefts((9, '(fuel 9000 1 1000)')),
)

# After G, once, one decimal, before the fuel lines; also where 1, 2, 16 or 17 would be answered,
# which no form is.
NO_FORMS = entered(
    'refused 14',
    '(heat)', '(heat )', '(heat 1 1) (fuel 1 1 1)', '(heat 0 0)', '(heat 1 )', '(heat  1)',
    '( heat 1)', '(heat\t1)', '(heat1)', '(heat 01)', '(heat 00)', '(heat 000000000000000001)',
    '(heat -1)', '(heat +1)', '(heat -0)', '(heat 1.0)', '(heat 1,000)', '(heat a)', '(heat 0x1)',
    '(heat 3f800000)', '(heat 1a) (fuel 1 1 1)', '(heat (1))', '((heat 1))', 'heat 1', '(heat 1',
    'heat 1)', '(Heat 0)', '(HEAT 0)', '(heats 0)', '(hea 0)', '(steam 0)', '(heat H)',
    '(heat 0) (heat 0)', '(heat 0) (heat 1)', '(heat 1) (heat 0) (fuel 1 1 1)',
    '(heat 1) (heat 1) (fuel 1 1 1)', '(fuel 1 1 1) (heat 1)', '(fuel 1 1 1) (heat 0)',
    '(heat 1) (fuel 1 1 1) (heat 1)', '(fuel 1 1 1) (heat 1) (fuel 1 1 1)', '(mass 1 1) (heat 0)',
    '(volume 1 1 1) (heat 0)', '(heat 0)(fuel 1 1 1)', '(heat 0)  (fuel 1 1 1)', '(heat 0) ',
    '(heat 0), (fuel 1 1 1)', '(heat 0 fuel 1 1 1)', '(heat 0 (fuel 1 1 1))', '(fuel 1 1 1 heat 0)',
    '(fuel (heat 0) 1 1 1)', '(heat 1) (fuel 1 1)', '(heat 1) (mass 1 1 1)', '(heat 1) (mass 01 1)',
    '(heat 2) (fuel 1 0 1) (fuel 1 1)', '(heat 1000000000000000000)',
    '(heat 1000000000000000000) (fuel 1 1 1)', '(heat 18446744073709551616) (mass 1 1)',
    '(heat 18446744073709551617) (fuel 1 1 1)') + (
    ('(heat 0)', 'refused 14'),
    ('(plant 0 0 (heat 0))', 'refused 14'),
    ('(plant 0 0 (heat 0) 1000)', 'refused 14'),
    ('(plant 0 (heat 0) 0 1000)', 'refused 14'),
    ('(plant (heat 0) 0 0 1000)', 'refused 14'),
    ('(plant 0 0 1000(heat 0))', 'refused 14'),
    ('(plant 0 0 1000  (heat 0))', 'refused 14'),
    ('(plant 0 0 1000 (heat 0) )', 'refused 14'),
    ('(plant 0 0 1000 0 (fuel 1 1 1))', 'refused 14'),
    ('(plant 0 0 1000 heat 0 (fuel 1 1 1))', 'refused 14'),
    ('(plant 9 9 1000 (heat 01))', 'refused 14'),
    ('(plant 0 0 100000001 (heat 1) (heat 1))', 'refused 14'),
    ('(heat 0 (plant 0 0 1000))', 'refused 14'),
    ('(grid 1000 (heat 0) thermal)', 'refused 14'),
    ('(drop plant 0 (heat 0))', 'refused 14'),
    ('(report (heat 0))', 'refused 14'),
    ('(source 0 baseline (captive 0) (heat 0) (none) (whole + 0 1))', 'refused 14'),
    ('(source 0 baseline (captive 0) (none) (heat 0) (whole + 0 1))', 'refused 14'),
    ('(source 0 baseline (captive 0) (none) (whole + 0 1) (heat 0))', 'refused 14'),
    ('(source 0 baseline (heat 0) (none) (whole + 0 1))', 'refused 14'),
    ('(source 0 baseline (captive 0) (heat 0) (whole + 0 1))', 'refused 14'),
)

LISTS = {'baseline less': BASELINE_LESS, 'in order': IN_ORDER, 'no product wraps': NO_PRODUCT_WRAPS,
         'far off': FAR_OFF, 'ten for project alone': TEN_FOR_PROJECT_ALONE, 'around J': AROUND_J,
         'summed J': SUMMED_J, 'beside carbon': BESIDE_CARBON, 'before them': BEFORE_THEM,
         'of many digits': OF_MANY_DIGITS, 'of zero': OF_ZERO, 'each step down': EACH_STEP_DOWN,
         'plant by plant': PLANT_BY_PLANT, 'on each side': ON_EACH_SIDE,
         'either takes combined': EITHER_TAKES_COMBINED,
         'limits of the factor': LIMITS_OF_THE_FACTOR, 'of no generation': OF_NO_GENERATION,
         'replaced': REPLACED, 'no forms': NO_FORMS}
