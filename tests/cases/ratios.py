"""Lists of lines on meters with a transformer ratio, each line with its answer, worked out by
hand: a reading is its ratio times its Wh, rounded once, and the product is what has a limit.

test_reference.py compares the answers with the reference's; generate.py has the lines among
its inputs made by hand. A slash stands between the lines of a report.
"""

SIDES = ('project', 'leakage', 'baseline')


def source(side: str, *meters: str) -> str:
    """With the grid below a report shows its E, as grams."""
    return ' '.join([f'(source 0 {side} (combined) (loss 0)', *meters]) + ')'


def entered(answer: str, *rows: str, side: str = 'project') -> tuple:
    """A source for each of these meters, or rows of them, and the answer of all."""
    return tuple((source(side, row), answer) for row in rows)


def of_each_kind(answer: str, *ratios: str) -> tuple:
    """The same of whole and of single meters that moved by 1 Wh and 1 kWh."""
    return entered(answer, *(meter for ratio in ratios for meter in (
        f'(whole {ratio} + 0 1)', f'(single {ratio} + 00000000 3f800000)')))


GRAM_A_WATT_HOUR = ('(grid 1000000 thermal)', 'ok')


def energy(side: str, watt_hours: int) -> str:
    """The report on one source, of fewer than 1,000,000 Wh."""
    up = side != 'baseline'
    tonnes = 1 if up and watt_hours else 0
    sides = [f'{name} {tonnes} {watt_hours} 1' if name == side else f'{name} 0 0 0'
             for name in SIDES]
    return '/'.join([*sides, f'reduction {-tonnes}'])


def energies(*meters: str, **watt_hours: int) -> tuple:
    """E of the same meters on each side that is given."""
    return tuple(pair for side, found in watt_hours.items() for pair in (
        (source(side, *meters), 'ok'), ('(report)', energy(side, found))))


# 1,000 Wh are 1,300 g. 42f6e979 is 123,456.0013 Wh: 123,456,001 of 1,000 times that are
# 49,382,400.4 g of a baseline, and 123,456 Wh without a ratio 49,382.4. 7 times 1,000.0001 Wh
# up, of which nothing is taken, are 7,001 Wh and 9,101.3 g.
BEFORE_THE_SIGN = (
    ('(source 0 project (captivedefault) (none) (whole 40 + 0 25))', 'ok'),
    ('(source 1 baseline (captivedefault) (none) (single 1000 + 00000000 42f6e979))', 'ok'),
    ('(source 2 baseline (captivedefault) (none) (single + 00000000 42f6e979))', 'ok'),
    ('(source 3 project (captivedefault) (none) (single 10000 - 3f800000 3f800000)'
     ' (single 7 + 00000001 3f800001))', 'ok'),
    ('(report)', 'project 1 10402 2/leakage 0 0 0/baseline 49 49431782 2/reduction 48'),
)

WITHIN_RANGE = of_each_kind('ok', '1', '2', '9', '10', '255', '256', '257', '4096', '9999', '10000')

# One beside the range, what would be within it in 8, 16 or 32 bits, and 18 digits.
OUT_OF_RANGE = of_each_kind(
    'refused 2', '0', '10001', '10002', '10240', '32768', '65535', '65536', '65537', '65576',
    '75536', '75537', '131072', '131073', '12345678', '4294967295', '4294967296', '4294967297',
    '4294977296', '281474976710657', '999999999999999999')

# The number and the site first; then 2 over all meters; then 3, 4, 5 and 6.
IN_ORDER = (
    ('(source 32 project (combined) (loss 0) (whole 0 + 0 1))', 'refused 1'),
    ('(source 0 project (captive 4) (none) (whole 10001 + 0 1))', 'refused 1'),
    ('(source 0 project (combined) (loss 5001) (whole 40 + 0 1))', 'refused 2'),
    ('(source 0 project (combined) (none) (whole 0 + 0 1))', 'refused 2'),
    ('(source 0 project (captive 0) (loss 0) (whole 10001 + 0 1))', 'refused 2'),
    *entered(
        'refused 2',
        '(single 0 + 7fc00000 7fc00000)', '(single 10001 + 80000001 00000000)',
        '(whole 0 + 0 100000000001)', '(whole 10001 + 0 999999999999999999)',
        '(single + 7fc00000 7fc00000) (whole 0 + 0 1)',
        '(whole 0 + 0 1) (single + 7fc00000 7fc00000)',
        '(single 40 + ff800000 7f800000) (single 10001 - 00000000 3f800000)',
        '(whole 3 + 0 33333333334) (whole 10001 + 0 1)',
        '(whole + 0 1) (whole 40 + 0 1) (single 40 - bf800000 3f800000) (whole 65537 + 0 1)',
        '(whole 10001 + 0 1) (whole + 0 1) (whole + 0 1) (whole + 0 1)',
        '(whole + 0 1) (whole 10001 + 0 1) (whole + 0 1) (whole + 0 1)',
        '(whole + 0 1) (whole + 0 1) (whole 0 + 0 1) (whole + 0 1)',
        '(whole + 0 1) (whole + 0 1) (whole + 0 1) (whole 0 + 0 1)',
        '(whole 0 + 5 4)', '(whole + 5 4) (whole 10001 + 0 1)', '(whole 0 - 0 1)',
        '(whole 10000 + 0 10000000) (whole 10001 + 0 10000000)',
        '(whole 2 + 0 1) (whole 2 + 0 1) (whole 2 + 0 1) (whole 2 + 0 1) (whole 2 + 0 1)'),
    *entered(
        'refused 3', '(single 10000 + 7fc00000 7fc00000)', '(single 40 + 00000000 7f800000)',
        '(single 40 - ff800000 00000000)', '(single 10000 + 80000001 00000000)',
        '(whole 40 + 2 1) (single 40 + 00000000 7fc00000)',
        '(single 40 + 00000002 00000001) (whole 10000 + 0 10000001)',
        '(whole 10000 + 0 10000000) (whole 10000 - 10000001 10000001)'),
    ('(source 0 project (combined) (none) (whole 40 + 0 2500000001))', 'refused 3'),
    ('(source 0 project (combined) (none) (whole 40 + 2 1))', 'refused 4'),
    ('(source 0 project (combined) (none) (whole 40 - 0 1))', 'refused 5'),
    ('(source 0 project (captivedefault) (default20) (whole 40 + 0 1))', 'refused 5'),
    *entered('refused 6', '(whole 40 - 0 1)'),
)

# The last count within 100,000,000,000 Wh by each ratio, and the next one.
WHOLE_LIMITS = (
    *entered('ok', '(whole 1 + 0 100000000000)', '(whole 2 + 0 50000000000)',
             '(whole 3 + 0 33333333333)', '(whole 7 + 0 14285714285)', '(whole 40 + 0 2500000000)',
             '(whole 9999 + 0 10001000)', '(whole 10000 + 0 10000000)',
             '(whole 10000 + 10000000 10000000)'),
    *entered('refused 3', '(whole 1 + 0 100000000001)', '(whole 2 + 0 50000000001)',
             '(whole 2 + 0 100000000000)', '(whole 3 + 0 33333333334)',
             '(whole 7 + 0 14285714286)', '(whole 40 + 0 2500000001)', '(whole 9999 + 0 10001001)',
             '(whole 10000 + 0 10000001)', '(whole 10000 - 10000001 10000001)',
             '(whole 10000 + 10000001 1)', '(whole 10000 + 0 100000000000)'),
)

# Beyond 64 bits, where 19 × 970,881,267,037,344,822 are 2, 32 × 2^59 nothing and
# 10,000 × 1,844,674,407,370,956 are 8,384 more than 2^64.
BEYOND_64_BITS = entered(
    'refused 3', '(whole 19 + 0 970881267037344822)', '(whole 32 + 0 576460752303423488)',
    '(whole 4096 + 0 4503599627370496)', '(whole 10000 + 0 1844674407370956)',
    '(whole 10000 + 0 922337203685477581)', '(whole 10000 + 0 999999999999999999)',
    '(whole 9999 + 999999999999999999 999999999999999999)',
    '(whole 10000 - 1844674407370956 1844674407370957)')

# 100,000,000, 50,000,000, 33,333,332, 2,500,000 and 10,000 kWh, and the next registers. By
# 9,697 the register 462121df is not 1 Wh below the limit, and by 8,923 462f1bf9 3 Wh above.
SINGLE_LIMITS = (
    *entered('ok', '(single 1 + 00000000 4cbebc20)', '(single 2 + 00000000 4c3ebc20)',
             '(single 3 + 00000000 4bfe502a)', '(single 40 + 00000000 4a189680)',
             '(single 10000 + 00000000 461c4000)', '(single 10000 + 461c4000 461c4000)',
             '(single 9697 + 00000000 462121df)', '(single 8923 + 00000000 462f1bf8)'),
    *entered('refused 3', '(single 1 + 00000000 4cbebc21)', '(single 2 + 00000000 4c3ebc21)',
             '(single 2 + 00000000 4cbebc20)', '(single 3 + 00000000 4bfe502b)',
             '(single 40 + 00000000 4a189681)', '(single 10000 + 00000000 461c4001)',
             '(single 10000 - 461c4001 461c4001)', '(single 10000 + 461c4001 00000000)',
             '(single 9697 + 00000000 462121e0)', '(single 8923 + 00000000 462f1bf9)',
             '(single 10000 + 00000000 4cbebc20)', '(single 10000 + 00000000 7f7fffff)'),
)

# By exact value: neighbouring registers run back by less than 1 Wh, and by 76.3 by 10,000.
RUNNING_BACK = (
    *entered('refused 4', '(whole 40 + 2 1)', '(whole 10000 + 2 1)', '(whole 10000 - 10000000 0)',
             '(single 10000 + 00000002 00000001)', '(single 40 - 42f6e97a 42f6e979)',
             '(single 10000 + 42f6e97a 42f6e979)', '(single 10000 + 00000001 80000000)',
             '(whole 40 + 0 1) (whole 9 + 9 8)', '(whole 40 + 9 8) (whole 9 + 0 1)'),
    *entered('ok', '(whole 10000 + 1 1)', '(single 10000 + 80000000 00000000)',
             '(single 10000 + 00000000 80000000)', '(whole 10000 + 9 10) (whole 9 + 8 8)'),
)

# Both readings by the ratio of their meter, and by no other meter's.
EACH_METER = (
    GRAM_A_WATT_HOUR,
    *energies('(whole 40 + 0 25)', project=1000, leakage=1000, baseline=1000),
    *energies('(whole 40 + 5 25)', project=800, leakage=800, baseline=800),
    *energies('(whole 10 + 0 1)', '(whole + 0 1)', project=11, baseline=11),
    *energies('(whole + 0 1)', '(whole 10 + 0 1)', project=11, baseline=11),
    *energies('(whole 10 + 0 3)', '(whole 100 + 0 5)', '(whole + 0 7)', '(whole 1000 + 0 9)',
              project=9537, baseline=9537),
    *energies('(whole + 0 7)', '(whole 1000 + 0 9)', '(whole 10 + 0 3)', '(whole 100 + 0 5)',
              project=9537, baseline=9537),
    *energies('(whole 1000 + 3 8)', '(whole 7 - 1 4)', project=4979, baseline=4979),
    *energies('(whole 7 - 1 4)', '(whole + 0 21)', leakage=0, baseline=0),
    *energies('(whole 3 + 0 7)', '(single 5 + 00000000 3f800000)', '(single 2 - 3f800000 40000000)',
              project=3021, baseline=3021),
    *energies('(single 9 - 00000000 3f800000)', '(whole 10000 + 1 2)', project=1000,
              baseline=1000),
)

# 123,456.0013 and 123,456.0089 Wh are 1,234,560,012.8 and 1,234,560,089.1 by 10,000: 90 less 12
# of a project, and 89 less 13 of a baseline. By 780 the first is 96,295,680.9998, and by 781
# 96,419,137.001, of which 96,295,680 and 96,419,136 are taken as counts.
ROUNDED_ONCE = (
    GRAM_A_WATT_HOUR,
    *energies('(single 10000 + 42f6e979 42f6e97a)', project=78, leakage=78, baseline=76),
    *energies('(single + 42f6e979 42f6e97a)', '(whole + 0 1)', project=2, leakage=2, baseline=0),
    *energies('(whole + 0 1000)', '(single 10000 - 42f6e979 42f6e97a)', project=924,
              leakage=924, baseline=922),
    *energies('(single 780 + 00000000 42f6e979)', '(whole 780 - 0 123456)', project=1,
              leakage=1, baseline=0),
    *energies('(single 781 + 00000000 42f6e979)', '(whole 781 - 0 123456)', project=2,
              leakage=2, baseline=1),
    *energies('(single 10000 + 00000000 42f6e979)', '(whole 10000 - 0 123456)', project=13,
              leakage=13, baseline=12),
    *energies('(single 10000 + 00000000 00000001)', project=1, leakage=1, baseline=0),
    *energies('(single 10000 + 00000000 00000001)', '(single 9999 + 00000000 00000001)',
              '(single 2 + 00000000 00000001)', '(single + 00000000 00000001)', project=4,
              leakage=4, baseline=0),
)

# 2^-10 kWh are 125/128 Wh, which 128, 256 and 9,984 make whole.
AT_REST = (
    GRAM_A_WATT_HOUR,
    *entered('refused 6', '(single 10000 + 42f6e979 42f6e979)', '(single 1 + 42f6e979 42f6e979)',
             '(single 10000 + 00000001 00000001)', '(single 127 + 3a800000 3a800000)',
             '(single 64 + 3a800000 3a800000)', '(single 10000 + 3a800000 3a800000)',
             '(single 10000 - 42f6e979 42f6e979)',
             '(single 10000 + 42f6e979 42f6e979) (single 40 + 42f6e979 42f6e979) (whole + 0 1)',
             side='baseline'),
    *energies('(single 128 + 3a800000 3a800000)', project=0, leakage=0, baseline=0),
    *energies('(single 256 + 3a800000 3a800000)', project=0, leakage=0, baseline=0),
    *energies('(single 9984 - 3a800000 3a800000)', project=0, leakage=0, baseline=0),
    *energies('(single 10000 + 3f800000 3f800000)', project=0, leakage=0, baseline=0),
    *energies('(single 10000 + 42f6e979 42f6e979)', project=1, leakage=1),
    *energies('(single 10000 - 42f6e979 42f6e979)', project=1, leakage=1),
    *energies('(single 10000 + 42f6e979 42f6e979)', '(whole + 0 1)', project=2, baseline=0),
    *energies('(single 10000 + 42f6e979 42f6e979)', '(single 40 - 42f6e979 42f6e979)',
              '(whole 3 + 5 6)', project=5, leakage=5, baseline=1),
)

# E at its limit, at 0 and one beyond, by products.
LIMITS_OF_ENERGY = (
    *entered('ok', '(whole 10000 + 0 10000000)',
             '(whole 10000 + 0 5000000) (whole 2 + 0 25000000000)',
             '(whole 10000 + 0 10000000) (whole + 0 1) (whole 1 - 0 1)',
             '(whole 10000 + 0 10000000) (whole 3 + 0 7) (whole 7 - 0 3)',
             '(whole 10000 - 0 1) (whole + 0 10000)', '(whole 9 - 0 10) (whole 10 + 0 9)',
             '(whole 10000 + 0 10000000) (whole 10000 - 0 10000000)',
             '(single 10000 + 00000000 461c4000)', '(single 9697 + 00000000 462121df)'),
    *entered('refused 6', '(whole 10000 + 0 10000000) (whole + 0 1)',
             '(whole 10000 + 0 5000000) (whole 2 + 0 25000000000) (whole + 0 1)',
             '(whole 10000 + 0 10000000) (whole 3 + 0 7) (whole 2 - 0 10)',
             '(whole 10000 - 0 1) (whole + 0 9999)', '(whole 9 - 0 11) (whole 7 + 0 14)',
             '(whole 10000 - 0 10000000)',
             '(single 10000 + 00000000 461c4000) (single 10000 + 00000001 00000001)',
             '(single 9697 + 00000000 462121df) (single + 00000001 00000001)',
             '(whole 10000 + 0 10000000) (whole 10000 + 0 10000000)'
             ' (whole 10000 + 0 10000000) (whole 10000 + 0 10000000)'),
    *entered('ok', '(single 10000 + 00000000 461c4000) (single 10000 + 00000001 00000001)',
             '(single 9697 + 00000000 462121df) (whole + 0 1)', side='baseline'),
    *entered('refused 6', '(single 9697 + 00000000 462121df) (whole + 0 2)', side='baseline'),
)


def either_way(answer: str, *lines: str) -> tuple:
    """Each line with the ratio written as 1 in place of the star, and left out."""
    return tuple((line.replace(' *', ratio), answer) for line in lines for ratio in (' 1', ''))


# A ratio of 1 and none are one call, whatever its answer.
WRITTEN_AS_1 = (
    GRAM_A_WATT_HOUR,
    *energies('(single 1 + 00000000 42f6e979)', '(whole 1 - 2 7)', project=123452, baseline=123451),
    *energies('(single + 00000000 42f6e979)', '(whole - 2 7)', project=123452, baseline=123451),
    *energies('(single + 00000000 42f6e979)', '(whole 1 - 2 7)', project=123452, baseline=123451),
    *either_way('refused 1', '(source 32 project (combined) (loss 0) (whole * + 0 1))',
                '(source 0 project (either 4) (loss 0) (single * + 3f800000 3f800000))'),
    *either_way('refused 2', source('project', *5 * ['(whole * + 0 1)']),
                source('project', '(whole * + 0 1)', '(whole 0 + 0 1)')),
    *either_way('refused 3', source('project', '(whole * + 0 100000000001)'),
                source('project', '(single * + 00000000 4cbebc21)'),
                source('project', '(single * - 7fc00000 3f800000)')),
    *either_way('refused 4', source('project', '(whole * + 1 0)'),
                source('project', '(single * - 42f6e97a 42f6e979)')),
    *either_way('refused 5', '(source 0 project (combined) (none) (whole * + 0 1))'),
    *either_way('refused 6', source('project', '(whole * - 0 1)'),
                source('baseline', '(single * + 42f6e979 42f6e979)')),
    *either_way('ok', source('project', '(whole * + 0 100000000000)'),
                source('leakage', '(single * + 00000000 4cbebc20)')),
)

# After the sign, signed, with a zero before other digits, of too many digits, or not one decimal
# between one space and another; also beside a ratio that would be refused 2, which no form is.
NO_FORMS = entered(
    'refused 14',
    '(whole + 40 0 1)', '(whole - 40 0 1)', '(single + 40 3f800000 40000000)', '(whole + 0 1 40)',
    '(whole + 0 40 1)', '(40 whole + 0 1)', '(whole 40 0 1)', '(whole 40 0 1 +)',
    '(whole -1 + 0 1)', '(whole +1 + 0 1)', '(whole +40 0 1)', '(whole -40 - 0 1)',
    '(whole - 40 + 0 1)', '(whole + + 0 1)', '(whole 40 + + 0 1)', '(whole 40 +- 0 1)',
    '(whole 40 * 0 1)', '(whole 40 0 + 1)', '(whole 01 + 0 1)', '(whole 00 + 0 1)',
    '(whole 040 + 0 1)', '(single 00000040 + 3f800000 40000000)',
    '(single 3f800000 + 3f800000 40000000)', '(single 40 + 40 3f800000)',
    '(single 40 + 3f800000 40)', '(single 40 + 40 40)', '(whole 3f800000 + 0 1)',
    '(whole 1000000000000000000 + 0 1)', '(whole 9223372036854775809 + 0 1)',
    '(whole 18446744073709551617 + 0 1)', '(single 1000000000000000000 + 3f800000 40000000)',
    '(whole 2 + 9223372036854775808 9223372036854775809)', '(whole 40 40 + 0 1)',
    '(whole 40 + 40 0 1)', '(single 1 1 + 3f800000 40000000)', '(whole 40)', '(whole 40 )',
    '(whole 40 +)', '(whole 40 + )', '(whole 40 + 0)', '(whole 40 + 0 )', '(single 40 +)',
    '(single 40 + 3f800000)', '(whole 1 + 0 1 1)', '(whole  40 + 0 1)', '(whole 40  + 0 1)',
    '(whole 40 +  0 1)', '(whole 40+ 0 1)', '(whole 40 +0 1)', '(whole40 + 0 1)', '(whole 40+0 1)',
    '( whole 40 + 0 1)', '(whole 40 + 0 1 )', '(whole\t40 + 0 1)', '(whole 40\t+ 0 1)',
    '(whole 4a + 0 1)', '(whole a + 0 1)', '(whole 0x28 + 0 1)', '(whole 1.5 + 0 1)',
    '(whole 10,000 + 0 1)', '(whole 40/1 + 0 1)', '(whole (40) + 0 1)', '(whole (40 +) 0 1)',
    '(whole ratio 40 + 0 1)', '(Whole 40 + 0 1)', '(Single 40 + 3f800000 40000000)',
    '(ratio 40) (whole + 0 1)', '(whole 40 + 0 1)(whole 40 + 0 1)',
    '(whole 40 + 0 1)  (whole 40 + 0 1)', '(whole 40 + 0 1', 'whole 40 + 0 1)',
    '(whole 0 + 0 1) (whole 01 + 0 1)', '(whole 10001 + 0 1) (whole + 40 0 1)') + (
    ('(whole 40 + 0 1)', 'refused 14'),
    ('(source 0 project (combined) (loss 0) 40 (whole + 0 1))', 'refused 14'),
    ('(source 0 project (combined) (loss 0) (whole 40 + 0 1) )', 'refused 14'),
    ('(source 0 project (whole 40 + 0 1) (combined) (loss 0))', 'refused 14'),
    ('(plant 0 0 1000 (fuel 40 + 1 1 1))', 'refused 14'),
    ('(plant 0 0 1000 (whole 40 + 0 1))', 'refused 14'),
)

# A refused entry leaves the source that stands, whose meters have their own ratio.
AT_1000 = ('(report)', energy('project', 1000))
REPLACED = (
    GRAM_A_WATT_HOUR,
    *entered('refused 2', '(whole 10001 + 0 25)'),
    ('(report)', 'project 0 0 0/leakage 0 0 0/baseline 0 0 0/reduction 0'),
    *entered('ok', '(whole 40 + 0 25)'), AT_1000,
    *entered('refused 2', '(whole 0 + 0 30)'), AT_1000,
    *entered('refused 2', '(whole 65576 + 0 30)', side='baseline'), AT_1000,
    *entered('refused 2', '(whole 40 + 0 30) (whole 10001 + 0 1)'), AT_1000,
    *entered('refused 3', '(whole 40 + 0 2500000001)'), AT_1000,
    *entered('refused 4', '(whole 40 + 30 29)'), AT_1000,
    *entered('refused 6', '(whole 40 - 0 30)'), AT_1000,
    *entered('refused 14', '(whole + 40 0 30)'), AT_1000,
    *energies('(whole 30 + 0 25)', project=750),
    *energies('(whole + 0 25)', project=25),
    *energies('(whole 9 + 0 25)', baseline=225),
)

# P and B, and P' and B', are sums of E: 40 × 25 against 1,000, 7 × 143 and 9 × 111 Wh, at
# 400,000 and 1,300,000 mg/kWh, with losses of 20 and 3 per cent.
COMPARED = (
    ('(grid 1 thermal)', 'ok'),
    ('(source 0 project (griddefault) (loss 0) (whole 40 + 0 25))', 'ok'),
    ('(source 1 baseline (griddefault) (loss 0) (whole + 0 1000))', 'ok'),
    ('(report)', 'refused 11 source 0'),
    ('(source 1 baseline (griddefault) (loss 0) (whole 7 + 0 143))', 'ok'),
    ('(report)', 'project 1 400 1/leakage 0 0 0/baseline 0 400 1/reduction -1'),
    ('(source 1 baseline (griddefault) (loss 0) (whole 9 + 0 111))', 'ok'),
    ('(report)', 'project 1 1300 1/leakage 0 0 0/baseline 0 1298 1/reduction -1'),
    ('(source 1 baseline (griddefault) (default20) (whole 9 + 0 111))', 'ok'),
    ('(report)', 'project 1 1300 1/leakage 0 0 0/baseline 0 1557 1/reduction -1'),
    ('(source 1 baseline (griddefault) (default20) (whole 1000 + 3 4))', 'ok'),
    ('(report)', 'refused 11 source 0'),
    ('(source 0 project (combined) (default3) (whole 40 + 0 25))', 'ok'),
    ('(report)', 'refused 12 source 0'),
)

LISTS = {'before the sign': BEFORE_THE_SIGN, 'within range': WITHIN_RANGE,
         'out of range': OUT_OF_RANGE, 'in order': IN_ORDER, 'whole limits': WHOLE_LIMITS,
         'beyond 64 bits': BEYOND_64_BITS, 'single limits': SINGLE_LIMITS,
         'running back': RUNNING_BACK, 'each meter': EACH_METER, 'rounded once': ROUNDED_ONCE,
         'at rest': AT_REST, 'limits of energy': LIMITS_OF_ENERGY, 'written as 1': WRITTEN_AS_1,
         'no forms': NO_FORMS, 'replaced': REPLACED, 'compared': COMPARED}
