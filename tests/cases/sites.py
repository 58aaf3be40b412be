"""Lists of lines on the sites that sources name, each line with its answer, worked out by hand:
a site has a factor in a direction, or is refused 9 or 10 there, whoever names it.

test_reference.py compares the answers with the reference's; generate.py has the lines among
its inputs made by hand. A slash stands between the lines of a report.
"""

from itertools import product

SIDES = ('project', 'leakage', 'baseline')
EMPTY = 'project 0 0 0/leakage 0 0 0/baseline 0 0 0/reduction 0'


def plant(number: int, site: int, generation: int, *lines: str) -> tuple[str, str]:
    return ' '.join([f'(plant {number} {site} {generation}', *lines]) + ')', 'ok'


def source(number: int, side: str, supply: str, energy: int = 10**9) -> tuple[str, str]:
    """Without losses. Of 1 GWh a report shows 1,000 g for each mg/kWh."""
    loss = 'none' if supply.startswith('captive') else 'loss 0'
    return f'(source {number} {side} ({supply}) ({loss}) (whole + 0 {energy}))', 'ok'


def dropped(what: str, answer: str) -> tuple:
    """A drop that is accepted, and the report after it."""
    return (f'(drop {what})', 'ok'), ('(report)', answer)


# 3,186,300 mg/kWh at site 0. Site 1 is refused 9, site 2 refused 10, and site 3 has no plant.
NAMED_ONE_BY_ONE = (
    ('(plant 0 0 1000 (fuel 1000 43000 74100))', 'ok'),
    ('(plant 1 1 999 (fuel 1000 43000 74100))', 'ok'),
    ('(plant 2 2 1000 (fuel 100000000 150000 200000))', 'ok'),
    ('(source 5 project (captive 0) (none) (whole + 0 1000000))', 'ok'),
    ('(report)', 'project 4 3186300 1/leakage 0 0 0/baseline 0 0 0/reduction -4'),
    ('(source 4 baseline (captive 1) (none) (whole + 0 1))', 'ok'),
    ('(report)', 'refused 9 source 4'),
    ('(source 3 leakage (captive 2) (none) (whole + 0 1))', 'ok'),
    ('(report)', 'refused 10 source 3'),
    ('(source 2 leakage (either 3) (loss 0) (whole + 0 1))', 'ok'),
    ('(report)', 'refused 8 source 2'),
    ('(grid 5 hydro)', 'ok'),
    ('(report)', 'refused 9 source 2'),
)

# 10,000,000,000.001 mg over 1,000 kWh: 10,000,001 mg/kWh up, which is refused, and 10,000,000
# down. A baseline with either may take the grid's 7; a project is refused beside it too.
ONE_DIRECTION = (
    ('(plant 0 3 1000 (fuel 100000000 100000 1) (fuel 1 1 1))', 'ok'),
    ('(source 0 baseline (captive 3) (none) (whole + 0 1000000))', 'ok'),
    ('(report)', 'project 0 0 0/leakage 0 0 0/baseline 10 10000000 1/reduction 10'),
    ('(source 1 project (captive 3) (none) (whole + 0 1000000))', 'ok'),
    ('(report)', 'refused 10 source 1'),
    ('(source 1 leakage (captive 3) (none) (whole + 0 1000000))', 'ok'),
    ('(report)', 'refused 10 source 1'),
    ('(source 1 leakage (either 3) (loss 0) (whole + 0 1000000))', 'ok'),
    ('(report)', 'refused 8 source 1'),
    ('(grid 7 thermal)', 'ok'),
    ('(report)', 'refused 10 source 1'),
    ('(source 1 project (either 3) (loss 0) (whole + 0 1000000))', 'ok'),
    ('(report)', 'refused 10 source 1'),
    ('(source 1 baseline (either 3) (loss 0) (whole + 0 1000000))', 'ok'),
    ('(report)', 'project 0 0 0/leakage 0 0 0/baseline 10 10000007 2/reduction 10'),
    ('(grid 10000000 thermal)', 'ok'),
    ('(report)', 'project 0 0 0/leakage 0 0 0/baseline 20 20000000 2/reduction 20'),
    ('(source 2 project (either 3) (loss 0) (whole + 0 1))', 'ok'),
    ('(report)', 'refused 10 source 2'),
    ('(plant 0 3 1000 (fuel 100000000 100000 1))', 'ok'),
    ('(report)', 'project 1 10 1/leakage 0 0 0/baseline 20 20000000 2/reduction 19'),
)

# Site 0 has no plant and site 1 too little generation: 9. Site 2 is refused 10 in both
# directions, and site 3 up alone, as above.
REFUSED_SITES = (
    plant(1, 1, 999, '(fuel 7000 1 1000)'),
    plant(2, 2, 1000, '(fuel 100000000 150000 200000)'),
    plant(3, 3, 1000, '(fuel 100000000 100000 1)', '(fuel 1 1 1)'),
)

# Sources that name no site, and then a site of their own, whatever the others are. 1,000 Wh at
# 1,300,000 mg/kWh are 1,300 g; P is 1,000 and B 500 Wh.
BESIDE_REFUSED_SITES = (
    *REFUSED_SITES,
    ('(report)', EMPTY),
    source(0, 'project', 'captivedefault', 1000),
    ('(report)', 'project 1 1300 1/leakage 0 0 0/baseline 0 0 0/reduction -1'),
    ('(grid 1000000 thermal)', 'ok'),
    source(1, 'baseline', 'combined', 500),
    source(2, 'leakage', 'griddefault', 1000),
    ('(report)', 'project 1 1300 1/leakage 1 1300 1/baseline 0 500 1/reduction -2'),
    source(3, 'baseline', 'captive 3', 1000),  # at 10,000,000 mg/kWh
    ('(report)', 'project 1 1300 1/leakage 1 1300 1/baseline 0 10500 2/reduction -2'),
    plant(0, 0, 1000),  # at 0 mg/kWh
    source(4, 'project', 'captive 0', 1000),
    ('(report)', 'project 1 1300 2/leakage 1 1300 1/baseline 0 10500 2/reduction -2'),
    *dropped('plant 0', 'refused 9 source 4'),
    *dropped('source 4', 'project 1 1300 1/leakage 1 1300 1/baseline 0 10500 2/reduction -2'),
)

# The first source by number that names a refused site, in a direction in which it is refused.
FIRST_BY_NUMBER = (
    *REFUSED_SITES,
    source(31, 'project', 'captive 1', 1),
    ('(report)', 'refused 9 source 31'),
    source(3, 'baseline', 'captive 1', 1),
    ('(report)', 'refused 9 source 3'),
    source(17, 'leakage', 'captive 1', 1),
    source(16, 'baseline', 'captive 3', 1),
    ('(report)', 'refused 9 source 3'),
    source(2, 'leakage', 'captive 2', 1),
    ('(report)', 'refused 10 source 2'),
    source(1, 'project', 'captive 3', 1),
    ('(report)', 'refused 10 source 1'),
    source(0, 'baseline', 'captive 2', 1),
    ('(report)', 'refused 10 source 0'),
    *dropped('source 0', 'refused 10 source 1'),
    *dropped('source 1', 'refused 10 source 2'),
    *dropped('source 2', 'refused 9 source 3'),
    *dropped('source 3', 'refused 9 source 17'),
    *dropped('source 17', 'refused 9 source 31'),
    *dropped('source 31', 'project 0 0 0/leakage 0 0 0/baseline 0 10 1/reduction 0'),
)


def each_either(answers: dict) -> tuple:
    """One source after the other, over all sides and sites, each with its report."""
    return tuple(pair for (side, site), answer in answers.items()
                 for pair in (source(5, side, f'either {site}', 10**6), ('(report)', answer)))


# Without a grid 8, whatever the site is, save for a captive source with a lower number. The
# grid's 0 mg/kWh is the smaller of two for a baseline.
EITHER_BEFORE_THE_GRID = (
    *REFUSED_SITES,
    *each_either(dict.fromkeys(product(SIDES, range(4)), 'refused 8 source 5')),
    source(4, 'leakage', 'captive 1', 1),
    ('(report)', 'refused 9 source 4'),
    source(4, 'leakage', 'captive 3', 1),
    ('(report)', 'refused 10 source 4'),
    *dropped('source 4', 'refused 8 source 5'),
    plant(0, 0, 1000, '(fuel 7000 1 1000)'),  # at 7 mg/kWh
    *each_either(dict.fromkeys(product(SIDES, range(4)), 'refused 8 source 5')),
    ('(grid 0 hydro)', 'ok'),
    *each_either({
        ('project', 0): 'project 1 7 1/leakage 0 0 0/baseline 0 0 0/reduction -1',
        ('project', 1): 'refused 9 source 5', ('project', 2): 'refused 10 source 5',
        ('project', 3): 'refused 10 source 5',
        ('leakage', 0): 'project 0 0 0/leakage 1 7 1/baseline 0 0 0/reduction -1',
        ('leakage', 1): 'refused 9 source 5', ('leakage', 2): 'refused 10 source 5',
        ('leakage', 3): 'refused 10 source 5',
        ('baseline', 0): 'project 0 0 0/leakage 0 0 0/baseline 0 0 1/reduction 0',
        ('baseline', 1): 'refused 9 source 5', ('baseline', 2): 'refused 10 source 5',
        ('baseline', 3): 'project 0 0 0/leakage 0 0 0/baseline 0 0 1/reduction 0'}),
)

# 9 and 10 of a source before its 12, and after 11 and 12 of a source with a lower number.
AMONG_OTHER_REFUSALS = (
    *REFUSED_SITES,
    ('(grid 5 hydro)', 'ok'),
    ('(source 3 leakage (either 1) (default3) (whole + 0 1000))', 'ok'),
    ('(report)', 'refused 9 source 3'),
    ('(source 3 leakage (either 2) (default3) (whole + 0 1000))', 'ok'),
    ('(report)', 'refused 10 source 3'),
    ('(source 1 project (combined) (default3) (whole + 0 1000))', 'ok'),
    ('(report)', 'refused 12 source 1'),
    ('(source 0 baseline (griddefault) (loss 0) (whole + 0 1000))', 'ok'),
    ('(report)', 'refused 11 source 0'),
    *dropped('source 0', 'refused 12 source 1'),
    *dropped('source 1', 'refused 10 source 3'),
    plant(2, 2, 1000, '(fuel 7000 1 1000)'),
    ('(report)', 'refused 12 source 3'),
)

# 7,001 mg up, which is 8 mg/kWh, and 6,999 mg down, which is 6: lines rounded one way and
# their quotient the other would be 7. The grid's 7 lies between.
EIGHT_AND_SIX = 'project 1 8000 1/leakage 1 8000 1/baseline 0 12000 2/reduction -2'
OWN_ROUNDING = (
    *(source(n, side, 'captive 2') for n, side in enumerate(('baseline', *SIDES))),
    plant(0, 2, 1000, '(fuel 6999 1 1000)', '(fuel 1 1 1)', '(fuel 1 1 1)'),
    ('(report)', EIGHT_AND_SIX),
    plant(0, 2, 1000, '(fuel 6633 1 1000)', '(mass 1 1)', '(fuel 1 1 1)'),
    ('(report)', EIGHT_AND_SIX),
    plant(0, 2, 1000, '(volume 1 1 11)', '(volume 1 1 19)', '(fuel 6989 1 1000)'),
    ('(report)', EIGHT_AND_SIX),
    plant(7, 2, 500, '(volume 1 1 11)'),
    plant(0, 2, 500, '(volume 1 1 19)', '(fuel 6989 1 1000)'),
    ('(report)', EIGHT_AND_SIX),
    ('(grid 7 thermal)', 'ok'),
    *(source(n, side, 'either 2') for n, side in enumerate(('baseline', *SIDES))),
    ('(report)', EIGHT_AND_SIX),
)


def four_factors(*tens: int) -> tuple:
    """At each site so many times ten mg/kWh down, and 2 more up, of plants numbered the other
    way: 10,999.002 mg over 1,000 kWh are 10 and 12 mg/kWh."""
    return tuple(plant(3 - site, site, 1000, f'(fuel {ten}0999 1 1000)', '(fuel 1 1 1)',
                       '(fuel 1 1 1)') for site, ten in enumerate(tens))


def four_named(side: str, supply: str, first: int) -> tuple:
    """The four sites by sources of 1, 100, 10,000 and 100,000 MWh, that is as many g a mg/kWh."""
    return tuple(source(first - site, side, f'{supply} {site}', 10**6 * times)
                 for site, times in enumerate((1, 100, 10_000, 100_000)))


# 12 + 2,200 + 320,000 + 4,200,000 g, and 10 + 2,000 + 300,000 + 4,000,000; then each factor at
# the next site. Beside a grid of 26 mg/kWh a project takes 26, 26, 32 and 42, and a baseline
# 10, 20, 26 and 26.
FOUR_SITES = (
    *four_factors(1, 2, 3, 4),
    *four_named('project', 'captive', 31), *four_named('baseline', 'captive', 3),
    ('(report)', 'project 5 4522212 4/leakage 0 0 0/baseline 4 4302010 4/reduction -1'),
    *four_named('leakage', 'captive', 31),
    ('(report)', 'project 0 0 0/leakage 5 4522212 4/baseline 4 4302010 4/reduction -1'),
    *four_factors(4, 1, 2, 3),
    ('(report)', 'project 0 0 0/leakage 4 3421242 4/baseline 3 3201040 4/reduction -1'),
    *four_factors(1, 2, 3, 4),
    ('(grid 26 thermal)', 'ok'),
    *four_named('project', 'either', 31), *four_named('baseline', 'either', 3),
    ('(report)', 'project 5 4522626 4/leakage 0 0 0/baseline 2 2862010 4/reduction -3'),
)


def at(factor: int) -> tuple[str, str]:
    """A report of 1 GWh on two sides at a factor that needs no rounding."""
    return '(report)', (f'project 1 {factor}000 1/leakage 0 0 0/baseline 0 {factor}000 1/'
                        'reduction -1')


BOTH_SIDES = (source(0, 'project', 'captive 1'), source(1, 'baseline', 'captive 1'))

# 7,000 mg over 1,000 kWh, and what plants entered, moved, refused and dropped make of it.
CHANGED_PLANTS = (
    *BOTH_SIDES,
    ('(report)', 'refused 9 source 0'),
    plant(0, 1, 1000, '(fuel 7000 1 1000)'), at(7),
    plant(1, 1, 1000, '(fuel 3000 1 1000)'), at(5),
    ('(drop plant 1)', 'ok'), at(7),
    plant(1, 1, 1000, '(fuel 9000 1 1000)'), at(8),
    plant(1, 0, 1000, '(fuel 9000 1 1000)'), at(7),
    ('(plant 0 1 1000 (mass 1 10001))', 'refused 2'), at(7),
    plant(0, 1, 999, '(fuel 7000 1 1000)'),
    ('(report)', 'refused 9 source 0'),
    plant(0, 1, 1000, '(mass 100000000 10000)'),
    ('(report)', 'refused 10 source 0'),
    *dropped('plant 0', 'refused 9 source 0'),
    plant(7, 1, 1000, '(fuel 7000 1 1000)'), at(7),
    source(1, 'baseline', 'captive 0'),
    ('(report)', 'project 1 7000 1/leakage 0 0 0/baseline 0 9000 1/reduction -1'),
    *dropped('plant 1', 'refused 9 source 1'),
    source(1, 'baseline', 'captive 1'), at(7),
)

# Lines without generation add their milligrams, and generation without lines its kWh: 12,001 mg
# up over 1,000 and 2,000 kWh, and 5,001 over 1,000.
NO_GENERATION = (
    *BOTH_SIDES,
    plant(0, 1, 1000, '(fuel 7000 1 1000)'), at(7),
    plant(1, 1, 0, '(fuel 5000 1 1000)'), at(12),
    plant(2, 1, 0, '(fuel 1 1 1)'),
    ('(report)', 'project 1 13000 1/leakage 0 0 0/baseline 0 12000 1/reduction -1'),
    plant(3, 1, 1000),
    ('(report)', 'project 1 7000 1/leakage 0 0 0/baseline 0 6000 1/reduction -1'),
    *dropped('plant 3',
             'project 1 13000 1/leakage 0 0 0/baseline 0 12000 1/reduction -1'),
    *dropped('plant 0', 'refused 9 source 0'),
    plant(0, 1, 999),
    ('(report)', 'refused 9 source 0'),
    plant(4, 1, 1),
    ('(report)', 'project 1 6000 1/leakage 0 0 0/baseline 0 5000 1/reduction -1'),
)

# 11 sources of a project, 11 of leakage and 10 of a baseline, at 8 mg/kWh up and 6 down.
ALL_ON_ONE_SITE = (
    plant(5, 2, 1000, '(fuel 6999 1 1000)', '(fuel 1 1 1)', '(fuel 1 1 1)'),
    *(source(n, SIDES[n % 3], 'captive 2') for n in range(32)),
    ('(report)', 'project 1 88000 11/leakage 1 88000 11/baseline 0 60000 10/reduction -2'),
    ('(grid 7 thermal)', 'ok'),
    *(source(n, SIDES[n % 3], 'either 2') for n in range(32)),
    ('(report)', 'project 1 88000 11/leakage 1 88000 11/baseline 0 60000 10/reduction -2'),
    *dropped('plant 5', 'refused 9 source 0'),
)

LISTS = {'named one by one': NAMED_ONE_BY_ONE, 'one direction': ONE_DIRECTION,
         'beside refused sites': BESIDE_REFUSED_SITES, 'first by number': FIRST_BY_NUMBER,
         'either before the grid': EITHER_BEFORE_THE_GRID,
         'among other refusals': AMONG_OTHER_REFUSALS, 'own rounding': OWN_ROUNDING,
         'four sites': FOUR_SITES, 'changed plants': CHANGED_PLANTS,
         'no generation': NO_GENERATION, 'all on one site': ALL_ON_ONE_SITE}
