"""Lists of lines with fuel lines of all three kinds, each line with its answer, worked out
by hand: by mass Q × W × 1,100 ÷ 3 mg, by volume Q × density × W × 11 ÷ 30 mg.

test_reference.py compares the answers with the reference's; generate.py has the lines
among its inputs made by hand. A slash stands between the lines of a report.
"""


def entered(answer: str, *lines: str) -> tuple:
    """A plant for each of these fuel lines, or rows of them, and the answer of all."""
    return tuple((f'(plant 0 0 1000 {line})', answer) for line in lines)


# Of 1 GWh on each side a report shows 1,000 g for each mg/kWh.
BOTH_SIDES = (
    ('(source 0 project (captive 0) (none) (whole + 0 1000000000))', 'ok'),
    ('(source 1 baseline (captive 0) (none) (whole + 0 1000000000))', 'ok'),
)


def reported(answer: str, *plants: str) -> tuple:
    """After each of these rows of fuel lines, burnt for 1,000 kWh, the same report."""
    return tuple(pair for plant in plants
                 for pair in (*entered('ok', plant), ('(report)', answer)))


# 3,186,300,000 and 366.67 and 0.37 mg: 3,186,300,368 up and 3,186,300,366 down.
ALL_KINDS = (
    ('(plant 0 0 1000 (fuel 1000 43000 74100) (mass 1 1) (volume 1 1 1))', 'ok'),
    ('(source 0 project (captive 0) (none) (whole + 0 1000000))', 'ok'),
    ('(source 1 baseline (captive 0) (none) (whole + 0 1000000))', 'ok'),
    ('(report)', 'project 4 3186301 1/leakage 0 0 0/baseline 3 3186300 1/reduction -1'),
    ('(source 0 leakage (captive 0) (none) (whole + 0 1000000))', 'ok'),
    ('(report)', 'project 0 0 0/leakage 4 3186301 1/baseline 3 3186300 1/reduction -1'),
)

# At most 100,000,000 of every kind, W at most 10,000, a density at most 2,000, and 0 of
# each; no limit of one figure is another's.
WITHIN_LIMITS = entered(
    'ok',
    '(mass 100000000 10000)', '(mass 99999999 9999)', '(mass 0 0)', '(mass 0 10000)',
    '(mass 100000000 0)', '(mass 0 0) (volume 0 0 0)', '(mass 1 2001)', '(mass 10001 1)',
    '(mass 150001 1)', '(mass 200001 1)', '(mass 65536 1)',
    '(volume 100000000 2000 10000)', '(volume 99999999 1999 9999)', '(volume 0 0 0)',
    '(volume 0 2000 10000)', '(volume 100000000 0 10000)', '(volume 100000000 2000 0)',
    '(volume 1 1 2001)', '(volume 2001 1 1)', '(volume 10001 1 1)', '(volume 200001 1 1)',
    '(volume 65536 1 1)', '(fuel 1 2001 10001)', '(fuel 1 65536 65536)', '(fuel 0 1 0)',
    '(fuel 100000000 150000 200000)')

# One above, what would be small or at a limit in 16 or 32 bits, and 18 digits.
BEYOND_LIMITS = entered(
    'refused 2',
    '(mass 100000001 10000)', '(mass 100000001 0)', '(mass 100065536 1)', '(mass 4294967295 1)',
    '(mass 4294967296 1)', '(mass 4394967296 1)', '(mass 999999999999999999 0)',
    '(mass 100000000 10001)', '(mass 0 10001)', '(mass 1 65535)', '(mass 1 65536)',
    '(mass 1 65537)', '(mass 1 75536)', '(mass 0 75537)', '(mass 1 131072)',
    '(mass 1 4294967296)', '(mass 1 4294977296)', '(mass 0 999999999999999999)',
    '(volume 100000001 2000 10000)', '(volume 100000001 0 0)', '(volume 100065536 1 1)',
    '(volume 4294967295 1 1)', '(volume 4294967296 1 1)', '(volume 4394967296 1 1)',
    '(volume 999999999999999999 0 0)', '(volume 100000000 2001 10000)', '(volume 0 2001 0)',
    '(volume 1 10000 2000)',
    '(volume 1 65535 1)', '(volume 1 65536 1)', '(volume 1 67536 1)', '(volume 1 67537 1)',
    '(volume 1 4294967296 1)', '(volume 1 4294969296 1)', '(volume 1 999999999999999999 0)',
    '(volume 100000000 2000 10001)', '(volume 0 0 10001)', '(volume 1 1 65535)',
    '(volume 1 1 65536)', '(volume 1 1 75536)', '(volume 1 1 75537)',
    '(volume 1 1 4294967296)', '(volume 1 1 4294977296)', '(volume 0 1 999999999999999999)',
    '(fuel 1 0 1)', '(fuel 0 0 0)', '(fuel 1 150001 1)', '(fuel 1 1 200001)',
    '(fuel 100000001 1 1)', '(fuel 100065536 1 1)', '(fuel 4294967296 1 1)',
    '(fuel 1 65536 265536)', '(fuel 1 215536 1)', '(fuel 1 4294967297 1)',
    '(fuel 1 1 4294967296)', '(fuel 1 1 999999999999999999)')

# Another count of figures, another word, another way to write them; also beside a line that
# would be refused 2, which no form is.
NO_FORMS = entered(
    'refused 14',
    '(mass)', '(mass )', '(mass 1)', '(mass 1 )', '(mass 1 1 1)', '(mass 1 1 1 1)', '(volume)',
    '(volume 1)', '(volume 1 1)', '(volume 1 1 )', '(volume 1 1 1 1)', '(fuel 1 1)',
    '(fuel 1 1 1 1)', '(Mass 1 1)', '(MASS 1 1)', '(masses 1 1)', '(mas 1 1)', '(mass1 1)',
    '(mass1 1 1)', '(Volume 1 1 1)', '(volumes 1 1 1)', '(volum 1 1 1)', '(carbon 1 1)',
    '(energy 1 1 1)', '(mass  1 1)', '(mass 1  1)', '( mass 1 1)', '(mass 1 1 )',
    '(volume 1 1  1)', '(mass\t1 1)', '(mass -1 1)', '(mass +1 1)', '(mass 1.5 1)',
    '(mass 1,000 1)', '(mass 01 1)', '(mass 1 01)', '(mass 00 0)', '(volume 01 1 1)',
    '(volume 1 01 1)', '(volume 1 1 01)', '(mass 1 a)', '(mass 1 3f800000)', 'mass 1 1',
    '(mass 1 1', 'mass 1 1)', '((mass 1 1))', '(mass (1 1))', '(mass 1 1)(mass 1 1)',
    '(mass 1 1)  (mass 1 1)', '(mass 1 1), (mass 1 1)', '(mass 1 1 volume 1 1 1)',
    '(mass 1 10001) (volume 1 1)', '(volume 1 2001 1) (mass 1)',
    '(mass 1000000000000000000 1)', '(mass 1 1000000000000000000)',
    '(mass 1 18446744073709551616)', '(volume 1 1000000000000000000 1)',
    '(volume 1 1 18446744073709551617)') + (
    ('(mass 1 1)', 'refused 14'),
    ('(volume 1 1 1)', 'refused 14'),
    ('(plant 0 0 (mass 1 1))', 'refused 14'),
    ('(plant 0 0 (mass 1 1) 1000)', 'refused 14'),
    ('(plant 0 (volume 1 1 1) 0 1000)', 'refused 14'),
    ('(source 0 project (mass 1 1) (none) (whole + 0 1))', 'refused 14'),
    ('(source 0 project (captive 0) (none) (mass 1 1))', 'refused 14'),
)

# Up to four lines of any kinds in any order; a line that does not fit at any place; 1 first.
PLACES = entered(
    'ok', '(mass 1 1) (fuel 1 1 1) (volume 1 1 1)', '(volume 1 1 1) (mass 1 1) (fuel 1 1 1)',
    '(mass 1 1) (mass 1 1) (mass 1 1) (mass 1 1)', '(volume 1 1 1) (volume 1 1 1) (volume 1 1 1)'
    ' (volume 1 1 1)', '(fuel 1 1 1) (mass 1 1) (volume 1 1 1) (fuel 1 1 1)') + entered(
    'refused 2',
    '(mass 1 1) (mass 1 1) (mass 1 1) (mass 1 1) (mass 1 1)',
    '(volume 1 1 1) (volume 1 1 1) (volume 1 1 1) (volume 1 1 1) (volume 1 1 1)',
    '(fuel 1 1 1) (mass 1 1) (volume 1 1 1) (fuel 1 1 1) (mass 1 1)',
    '(fuel 1 1 1) (fuel 1 1 1) (mass 1 1) (mass 1 1) (volume 0 0 0)',
    '(mass 0 0) (mass 0 0) (mass 0 0) (mass 0 0) (mass 0 0) (mass 0 0) (mass 0 0) (mass 0 0)',
    '(mass 1 10001) (fuel 1 1 1) (volume 1 1 1) (mass 1 1)',
    '(fuel 1 1 1) (volume 1 2001 1) (mass 1 1) (mass 1 1)',
    '(mass 1 1) (volume 1 1 1) (fuel 1 0 1) (mass 1 1)',
    '(mass 1 1) (volume 1 1 1) (fuel 1 1 1) (volume 1 1 10001)') + (
    ('(plant 8 0 1000 (mass 1 10001))', 'refused 1'),
    ('(plant 0 4 1000 (volume 1 2001 1))', 'refused 1'),
    ('(plant 0 0 100000001 (mass 1 1))', 'refused 2'),
    ('(plant 7 3 0 (mass 1 1) (volume 1 1 1))', 'ok'),
)

# 1,100 mg over 1,000 kWh, which every refused entry leaves; then 11,000, 5,000 and 0 mg.
AT_1_1 = ('(report)', 'project 1 2000 1/leakage 0 0 0/baseline 0 1000 1/reduction -1')
AT_11 = ('(report)', 'project 1 11000 1/leakage 0 0 0/baseline 0 11000 1/reduction -1')
AT_5 = ('(report)', 'project 1 5000 1/leakage 0 0 0/baseline 0 5000 1/reduction -1')
AT_0 = ('(report)', 'project 0 0 1/leakage 0 0 0/baseline 0 0 1/reduction 0')
REPLACED = (
    *BOTH_SIDES,
    ('(plant 0 0 1000 (mass 3 10001))', 'refused 2'),
    ('(report)', 'refused 9 source 0'),
    ('(plant 0 0 1000 (mass 3 1))', 'ok'), AT_1_1,
    ('(plant 0 0 1000 (mass 30 10001))', 'refused 2'), AT_1_1,
    ('(plant 0 0 1000 (volume 30 2001 1))', 'refused 2'), AT_1_1,
    ('(plant 0 0 1000 (mass 30 1) (volume 1 1))', 'refused 14'), AT_1_1,
    ('(plant 0 1 1000 (volume 30 1 10001))', 'refused 2'), AT_1_1,
    ('(plant 0 0 1000 (mass 30 1) (mass 1 1) (mass 1 1) (mass 1 1) (mass 1 1))', 'refused 2'),
    AT_1_1,
    ('(plant 0 0 1000 (volume 30 100 10))', 'ok'), AT_11,
    ('(plant 0 0 1000 (volume 30 100 10001))', 'refused 2'), AT_11,
    ('(plant 0 0 1000 (fuel 5000 1 1000))', 'ok'), AT_5,
    ('(plant 0 0 1000 (mass 5000 0))', 'ok'), AT_0,
    ('(plant 1 0 0 (mass 6 5))', 'ok'), AT_11,
    ('(drop plant 1)', 'ok'), AT_0,
)

# Nothing burnt, nothing in it, or no weight.
ZEROS = BOTH_SIDES + reported(
    'project 0 0 1/leakage 0 0 0/baseline 0 0 1/reduction 0',
    '(mass 0 0) (volume 0 0 0)', '(mass 0 10000) (mass 100000000 0)', '(volume 0 2000 10000)',
    '(volume 100000000 0 10000) (volume 100000000 2000 0)')

# A kg of carbon, however it is stated, is 44/12 kg of CO2: 3,666,666.67 mg.
ONE_KILOGRAM = BOTH_SIDES + reported(
    'project 4 3667000 1/leakage 0 0 0/baseline 3 3666000 1/reduction -1',
    '(mass 1 10000)', '(mass 10000 1)', '(mass 2 5000)', '(volume 1 1000 10000)',
    '(volume 2 500 10000)', '(volume 10 200 5000)', '(volume 10000000 1 1)')

# 1,000,000 mg is 1,000 mg/kWh and 1 t on both sides; one mg more is 2 t of a project, one mg
# less is 0 t of a baseline. First lines a part of a milligram above 1,000,000, then as much
# below: by mass 366.67 and 733.33, by volume 0.37, 4.03 and 6.97 mg.
PARTS_ABOVE = BOTH_SIDES + reported(
    'project 2 1001000 1/leakage 0 0 0/baseline 1 1000000 1/reduction -1',
    '(fuel 999634 1 1000) (mass 1 1)', '(fuel 999267 1 1000) (mass 1 2)',
    '(fuel 1000000 1 1000) (volume 1 1 1)', '(fuel 999996 1 1000) (volume 1 1 11)',
    '(fuel 999994 1 1000) (volume 1 1 19)', '(mass 2 1) (fuel 999267 1 1000)',
    '(volume 11 1 1) (fuel 999996 1 1000)', '(volume 1 19 1) (fuel 999994 1 1000)')
PARTS_BELOW = BOTH_SIDES + reported(
    'project 1 1000000 1/leakage 0 0 0/baseline 0 999000 1/reduction -1',
    '(fuel 999633 1 1000) (mass 1 1)', '(fuel 999266 1 1000) (mass 1 2)',
    '(fuel 999999 1 1000) (volume 1 1 1)', '(fuel 999995 1 1000) (volume 1 1 11)',
    '(fuel 999993 1 1000) (volume 1 1 19)')

# Exactly 1,000,000 mg: 2,727 × 1,100 ÷ 3 is 999,900, and 2,727,270 × 11 ÷ 30 is 999,999. A kg,
# a gram of carbon or 44/12 that is rounded on the way shows on one of the sides.
ONE_TONNE = BOTH_SIDES + reported(
    'project 1 1000000 1/leakage 0 0 0/baseline 1 1000000 1/reduction 0',
    '(fuel 100 1 1000) (mass 1 2727)', '(fuel 100 1 1000) (mass 2727 1)',
    '(fuel 100 1 1000) (mass 27 101)', '(fuel 100 1 1000) (mass 101 27)',
    '(fuel 100 1 1000) (mass 3 909)', '(fuel 1 1 1000) (volume 1 910 2997)',
    '(fuel 1 1 1000) (volume 37 910 81)', '(fuel 1 1 1000) (volume 81 37 910)',
    '(fuel 1 1 1000) (volume 2997 910 1)', '(fuel 1 1 1000) (volume 10 91 2997)')

# The same sum, or nearly, of lines that have each to be rounded: 3 × 733.33, 3 × 3.67 and
# 366.67 + 1,466.67 + 3.67 mg are whole, and 0.001 + 733.33 + 4.03 mg little more than 737.
EACH_LINE = BOTH_SIDES + reported(
    'project 2 1001000 1/leakage 0 0 0/baseline 0 999000 1/reduction -2',
    '(fuel 997800 1 1000) (mass 1 2) (mass 1 2) (mass 1 2)',
    '(fuel 999989 1 1000) (volume 1 1 10) (volume 1 1 10) (volume 1 1 10)',
    '(fuel 998163 1 1000) (mass 1 1) (mass 1 4) (volume 1 1 10)',
    '(volume 1 1 10) (mass 1 4) (mass 1 1) (fuel 998163 1 1000)',
    '(fuel 999261 1 1000) (fuel 1 1 1) (mass 1 2) (volume 1 1 11)') + reported(
    'project 2 1001000 1/leakage 0 0 0/baseline 1 1000000 1/reduction -1',
    '(fuel 999263 1 1000) (fuel 1 1 1) (mass 1 2) (volume 1 1 11)') + (
    ('(plant 0 0 500 (fuel 998163 1 1000) (mass 1 1))', 'ok'),
    ('(plant 1 0 500 (volume 1 1 10) (mass 1 4))', 'ok'),
    ('(report)', 'project 2 1001000 1/leakage 0 0 0/baseline 0 999000 1/reduction -2'),
)

# 366,666,666,666,666.67 and 733,333,333,333,333.33 mg, each over the kWh that bring the factor
# to 9,999,999.91, and over one kWh less: 10,000,000 down, and 10,000,001 up, which is refused.
LARGEST = (
    ('(plant 0 0 36666667 (mass 100000000 10000))', 'ok'),
    ('(plant 1 1 36666666 (mass 100000000 10000))', 'ok'),
    ('(source 0 baseline (captive 0) (none) (whole + 0 100000000000))', 'ok'),
    ('(report)', 'project 0 0 0/leakage 0 0 0/baseline 999999 999999900000 1/reduction 999999'),
    ('(source 1 baseline (captive 1) (none) (whole + 0 100000000000))', 'ok'),
    ('(source 2 project (captive 1) (none) (whole + 0 1))', 'ok'),
    ('(report)', 'refused 10 source 2'),
    ('(drop source 2)', 'ok'),
    ('(report)', 'project 0 0 0/leakage 0 0 0/baseline 1999999 1999999900000 2/reduction 1999999'),
    ('(source 2 project (captive 0) (none) (whole + 0 1))', 'ok'),
    ('(report)', 'project 1 10 1/leakage 0 0 0/baseline 1999999 1999999900000 2/reduction 1999998'),
    ('(plant 2 2 73333334 (volume 100000000 2000 10000))', 'ok'),
    ('(plant 3 3 73333333 (volume 100000000 2000 10000))', 'ok'),
    ('(source 3 leakage (captive 2) (none) (whole + 0 1))', 'ok'),
    ('(source 4 baseline (captive 3) (none) (whole + 0 1))', 'ok'),
    ('(report)',
     'project 1 10 1/leakage 1 10 1/baseline 1999999 1999999900010 3/reduction 1999997'),
    ('(source 5 leakage (captive 3) (none) (whole + 0 1))', 'ok'),
    ('(report)', 'refused 10 source 5'),
)

# 3,666.67 mg/kWh of a kg of carbon: 3,667 up and 3,666 down, beside the grid's factor.
EITHER = (
    ('(plant 0 0 1000 (mass 1 10000))', 'ok'),
    ('(source 0 project (either 0) (loss 0) (whole + 0 1000000000))', 'ok'),
    ('(source 1 baseline (either 0) (loss 0) (whole + 0 1000000000))', 'ok'),
    ('(grid 3665 thermal)', 'ok'),
    ('(report)', 'project 4 3667000 1/leakage 0 0 0/baseline 3 3665000 1/reduction -1'),
    ('(grid 3666 thermal)', 'ok'),
    ('(report)', 'project 4 3667000 1/leakage 0 0 0/baseline 3 3666000 1/reduction -1'),
    ('(grid 3667 thermal)', 'ok'),
    ('(report)', 'project 4 3667000 1/leakage 0 0 0/baseline 3 3666000 1/reduction -1'),
    ('(grid 3668 thermal)', 'ok'),
    ('(report)', 'project 4 3668000 1/leakage 0 0 0/baseline 3 3666000 1/reduction -1'),
)

LISTS = {'all kinds': ALL_KINDS, 'within limits': WITHIN_LIMITS, 'beyond limits': BEYOND_LIMITS,
         'no forms': NO_FORMS, 'places': PLACES, 'replaced': REPLACED, 'zeros': ZEROS,
         'one kilogram': ONE_KILOGRAM, 'parts above': PARTS_ABOVE, 'parts below': PARTS_BELOW,
         'one tonne': ONE_TONNE, 'each line': EACH_LINE, 'largest': LARGEST, 'either': EITHER}
