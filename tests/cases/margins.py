"""Lists of lines with margins, each line with its answer, worked out by hand.

test_reference.py compares the answers with the reference's; generate.py has the lines
among its inputs made by hand. A slash stands between the lines of a report.
"""

# 750,000.5 mg/kWh: project and leakage up, baseline down.
BOTH_WAYS = (
    ('(grid margins 1000001 500000 50 50 thermal)', 'ok'),
    ('(source 0 project (combined) (loss 0) (whole + 0 1000000))', 'ok'),
    ('(source 1 baseline (combined) (loss 0) (whole + 0 1000000))', 'ok'),
    ('(report)', 'project 1 750001 1/leakage 0 0 0/baseline 0 750000 1/reduction -1'),
    ('(source 0 leakage (combined) (loss 0) (whole + 0 1000000))', 'ok'),
    ('(report)', 'project 0 0 0/leakage 1 750001 1/baseline 0 750000 1/reduction -1'),
)

# 2 of either margin, whatever its weight, and then 15; what is no form is 14.
REFUSALS = (
    ('(grid margins 10000001 0 60 60 thermal)', 'refused 2'),
    ('(grid margins 0 10000001 0 0 hydro)', 'refused 2'),
    ('(grid margins 10000001 10000001 99 2 hydro)', 'refused 2'),
    ('(grid margins 10000001 5 0 100 thermal)', 'refused 2'),
    ('(grid margins 5 10000001 100 0 thermal)', 'refused 2'),
    ('(grid margins 4294967296 4294967301 50 50 hydro)', 'refused 2'),
    ('(grid margins 999999999999999999 0 356 0 hydro)', 'refused 2'),
    ('(grid margins 10000000 10000000 60 60 thermal)', 'refused 15'),
    ('(grid margins 10000000 10000000 0 100 thermal)', 'ok'),
    ('(grid margins 10000000 0 100 0 hydro)', 'ok'),
    ('(grid margins 10000000 10000000 1 99 hydro)', 'ok'),
    ('(grid margins 0 0 0 100 hydro)', 'ok'),
    ('(grid margins 5 7 50 49 thermal)', 'refused 15'),
    ('(grid margins 5 7 49 50 thermal)', 'refused 15'),
    ('(grid margins 5 7 50 51 thermal)', 'refused 15'),
    ('(grid margins 5 7 101 0 thermal)', 'refused 15'),
    ('(grid margins 5 7 100 1 thermal)', 'refused 15'),
    ('(grid margins 5 7 100 100 thermal)', 'refused 15'),
    ('(grid margins 5 7 0 0 thermal)', 'refused 15'),
    ('(grid margins 5 7 256 100 thermal)', 'refused 15'),
    ('(grid margins 5 7 255 101 thermal)', 'refused 15'),
    ('(grid margins 5 7 356 0 thermal)', 'refused 15'),
    ('(grid margins 5 7 0 356 thermal)', 'refused 15'),
    ('(grid margins 5 7 65636 0 thermal)', 'refused 15'),
    ('(grid margins 5 7 65586 50 thermal)', 'refused 15'),
    ('(grid margins 5 7 50 4294967346 thermal)', 'refused 15'),
    ('(grid margins 5 7 999999999999999900 200 thermal)', 'refused 15'),
    ('(grid margins 5 7 999999999999999999 999999999999999999 thermal)', 'refused 15'),
    ('(grid margins 5 7 050 50 thermal)', 'refused 14'),
    ('(grid margins 5 07 50 50 thermal)', 'refused 14'),
    ('(grid margins 10000001 7 50 050 thermal)', 'refused 14'),
    ('(grid margins 5 7 50 50)', 'refused 14'),
    ('(grid margins 5 7 50 50 Thermal)', 'refused 14'),
    ('(grid Margins 5 7 50 50 thermal)', 'refused 14'),
    ('(grid margins 5 7 50 thermal)', 'refused 14'),
    ('(grid margins 5 thermal)', 'refused 14'),
    ('(grid margins 5 7 50 50 0 thermal)', 'refused 14'),
    ('(grid margins thermal)', 'refused 14'),
    ('(grid 5 7 50 50 thermal)', 'refused 14'),
    ('(grid  margins 5 7 50 50 thermal)', 'refused 14'),
    ('(grid margins  5 7 50 50 thermal)', 'refused 14'),
    ('(grid margins 5 7 50  50 thermal)', 'refused 14'),
    ('(grid margins 5 7 50 50  thermal)', 'refused 14'),
    ('(grid margins 5 7 50 50 thermal )', 'refused 14'),
    ('(grid margins 5 7 50 50 thermal) ', 'refused 14'),
    ('(grid margins 5 7 50 50 thermal', 'refused 14'),
    ('(grid margins 5 7 +50 50 thermal)', 'refused 14'),
    ('(grid margins 5 -7 50 50 thermal)', 'refused 14'),
    ('(grid margins (5 7) (50 50) thermal)', 'refused 14'),
    ('(grid margins 1000000000000000000 7 50 50 thermal)', 'refused 14'),
    ('(grid margins 5 7 1000000000000000000 50 thermal)', 'refused 14'),
)

# A refused entry leaves the grid that stands, and either form takes the other's place.
REPLACED = (
    ('(source 0 project (combined) (loss 0) (whole + 0 1000000000))', 'ok'),
    ('(source 1 baseline (combined) (loss 0) (whole + 0 1000000000))', 'ok'),
    ('(grid margins 9 9 50 51 hydro)', 'refused 15'),
    ('(report)', 'refused 8 source 0'),
    ('(grid margins 3 4 50 50 thermal)', 'ok'),
    ('(report)', 'project 1 4000 1/leakage 0 0 0/baseline 0 3000 1/reduction -1'),
    ('(grid margins 9 9 50 51 hydro)', 'refused 15'),
    ('(report)', 'project 1 4000 1/leakage 0 0 0/baseline 0 3000 1/reduction -1'),
    ('(grid margins 10000001 9 50 50 hydro)', 'refused 2'),
    ('(report)', 'project 1 4000 1/leakage 0 0 0/baseline 0 3000 1/reduction -1'),
    ('(grid 7 thermal)', 'ok'),
    ('(report)', 'project 1 7000 1/leakage 0 0 0/baseline 0 7000 1/reduction -1'),
    ('(grid margins 6 8 50 49 hydro)', 'refused 15'),
    ('(report)', 'project 1 7000 1/leakage 0 0 0/baseline 0 7000 1/reduction -1'),
    ('(grid margins 6 1 99 1 hydro)', 'ok'),
    ('(report)', 'project 1 6000 1/leakage 0 0 0/baseline 0 5000 1/reduction -1'),
)

# 10,000,000 × 1 + 0 × 99 over 100 is 100,000, and its weights the other way 9,900,000.
WEIGHTS_IN_ORDER = (
    ('(source 0 leakage (combined) (loss 0) (whole + 0 1000))', 'ok'),
    ('(grid margins 10000000 0 1 99 hydro)', 'ok'),
    ('(report)', 'project 0 0 0/leakage 1 100 1/baseline 0 0 0/reduction -1'),
    ('(grid margins 10000000 0 99 1 hydro)', 'ok'),
    ('(report)', 'project 0 0 0/leakage 1 9900 1/baseline 0 0 0/reduction -1'),
    ('(grid margins 10000000 3 0 100 hydro)', 'ok'),
    ('(report)', 'project 0 0 0/leakage 1 1 1/baseline 0 0 0/reduction -1'),
    ('(grid margins 10000000 10000000 37 63 hydro)', 'ok'),
    ('(report)', 'project 0 0 0/leakage 1 10000 1/baseline 0 0 0/reduction -1'),
)

# griddefault goes by the mark and the sums of E, whatever the margins.
DEFAULTS = (
    ('(source 1 baseline (griddefault) (loss 0) (whole + 0 1000))', 'ok'),
    ('(grid margins 5 7 50 49 hydro)', 'refused 15'),
    ('(report)', 'refused 8 source 1'),
    ('(grid margins 5 7 50 50 hydro)', 'ok'),
    ('(report)', 'project 0 0 0/leakage 0 0 0/baseline 0 250 1/reduction 0'),
    ('(grid margins 5 7 50 51 thermal)', 'refused 15'),
    ('(report)', 'project 0 0 0/leakage 0 0 0/baseline 0 250 1/reduction 0'),
    ('(grid margins 5 7 50 50 thermal)', 'ok'),
    ('(report)', 'project 0 0 0/leakage 0 0 0/baseline 0 400 1/reduction 0'),
    ('(source 0 project (griddefault) (loss 0) (whole + 0 1001))', 'ok'),
    ('(report)', 'project 1 1302 1/leakage 0 0 0/baseline 0 1300 1/reduction -1'),
)

# 600,000.5 mg/kWh; the captive factor is 600,001 up and 600,000 down.
EITHER_AT_THE_MEAN = (
    ('(grid margins 600000 600001 50 50 thermal)', 'ok'),
    ('(plant 0 0 1000 (fuel 1000 60000 10000) (fuel 1 1 1))', 'ok'),
    ('(source 0 project (either 0) (loss 0) (whole + 0 1000000))', 'ok'),
    ('(source 1 baseline (either 0) (loss 0) (whole + 0 1000000))', 'ok'),
    ('(report)', 'project 1 600001 1/leakage 0 0 0/baseline 0 600000 1/reduction -1'),
)

# Round a captive factor of 7 mg/kWh, by means of 5.99, 6.01, 6.5, 7.5, 7.99 and 8.01.
EITHER_ROUND_THE_MEAN = (
    ('(plant 0 0 1000 (fuel 7000 1 1000))', 'ok'),
    ('(source 0 project (either 0) (loss 0) (whole + 0 1000000000))', 'ok'),
    ('(source 1 baseline (either 0) (loss 0) (whole + 0 1000000000))', 'ok'),
    ('(grid margins 6 5 99 1 thermal)', 'ok'),
    ('(report)', 'project 1 7000 1/leakage 0 0 0/baseline 0 5000 1/reduction -1'),
    ('(grid margins 6 7 99 1 thermal)', 'ok'),
    ('(report)', 'project 1 7000 1/leakage 0 0 0/baseline 0 6000 1/reduction -1'),
    ('(grid margins 6 7 50 50 thermal)', 'ok'),
    ('(report)', 'project 1 7000 1/leakage 0 0 0/baseline 0 6000 1/reduction -1'),
    ('(grid margins 7 8 50 50 thermal)', 'ok'),
    ('(report)', 'project 1 8000 1/leakage 0 0 0/baseline 0 7000 1/reduction -1'),
    ('(grid margins 7 8 1 99 thermal)', 'ok'),
    ('(report)', 'project 1 8000 1/leakage 0 0 0/baseline 0 7000 1/reduction -1'),
    ('(grid margins 9 8 1 99 thermal)', 'ok'),
    ('(report)', 'project 1 9000 1/leakage 0 0 0/baseline 0 7000 1/reduction -1'),
)

LISTS = {'mean both ways': BOTH_WAYS, 'refusals': REFUSALS, 'replaced': REPLACED,
         'weights in order': WEIGHTS_IN_ORDER, 'defaults': DEFAULTS,
         'either at the mean': EITHER_AT_THE_MEAN,
         'either round the mean': EITHER_ROUND_THE_MEAN}
