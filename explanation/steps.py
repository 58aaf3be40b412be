"""The steps from meter to tonnes: how far each may lean to the safe side, and by which law.

The limits of grams, tonnes and the reduction are demand 3's; rows.py compares them with those of
the reference at every report. `python3 -m tests.documents.answer --check` looks up the laws.
"""

from fractions import Fraction
from typing import NamedTuple

from explanation.decimals import MILLION, shown
from tests.reference import reference
from tests.reference.reference import DEMAND_3

# 1. The limits, each stated here alone

LEAST_LEAN = Fraction(0)
LOSS_UNITS = 10_000  # T counts parts of this
THOUSAND = 1_000  # kJ in a MJ, kg in a tonne

READING_WH = Fraction(1)
ENERGY_WH = 2 * reference.METER_LIMIT * READING_WH  # a meter has two readings
# The limit of E with the largest loss, and one more rounding.
LOSSES_WH = ENERGY_WH * Fraction(LOSS_UNITS + reference.MEASURED_LOSS_LIMIT, LOSS_UNITS) + 1
LINE_MG = Fraction(1)
# Of a plant's lines, and of what counts of them for electricity.
PLANT_MG = reference.FUEL_LINE_LIMIT * LINE_MG + 1
FACTOR_MG_PER_KWH = Fraction(11, 10)
FACTOR_SLACK = 2  # covers that U and F lean at once: at least FACTOR_MG_PER_KWH
GRAM = Fraction(1)
SOURCE_KG = Fraction(DEMAND_3.gap_kilograms)
SIDE_T = Fraction(DEMAND_3.side_tonnes)
REDUCTION_T = Fraction(DEMAND_3.reduction_tonnes)


def plant_limit(fuel_energy: int) -> Fraction:
    """In mg, of a plant with heat, for a baseline."""
    return PLANT_MG + Fraction(fuel_energy, THOUSAND)


def factor_limit(K: Fraction | None) -> Fraction:
    """In mg/kWh; K as in the reference, None without heat."""
    return FACTOR_MG_PER_KWH if K is None else FACTOR_SLACK + K


def grams_limit(F: int, U: int, K: Fraction | None) -> Fraction:
    return GRAM + (LOSSES_WH * (F + FACTOR_SLACK + (K or 0)) + factor_limit(K) * U) / MILLION


def weight_limit() -> Fraction:
    """In grams, of a source without K."""
    return THOUSAND * SOURCE_KG


def allowance(grams: Fraction, K: Fraction | None) -> Fraction:
    """The tonnes that a source with this limit of its grams adds to those of its side."""
    return SOURCE_KG / THOUSAND if K is None else grams / MILLION


# 2. The steps in words


class Step(NamedTuple):
    name: str
    rounding: str
    limit: str
    laws: tuple[str, ...]


AS_SIDE = 'project and leakage up, baseline down'
A_SOURCE = f'{shown(SOURCE_KG)} kg for each'

STEPS = {
    'reading': Step("a reading, register or count, times its meter's ratio, to Wh",
                    'what adds to a project or leakage source up, what is taken from it down; '
                    'for a baseline source the other way', f'{shown(READING_WH)} Wh',
                    ('reading-conservative',)),
    'energy': Step(f'E: the readings of up to {reference.METER_LIMIT} meters',
                   'not: a sum of whole numbers', f'{shown(ENERGY_WH)} Wh',
                   ('energy-conservative',)),
    'losses': Step(f'U = E × ({LOSS_UNITS:,} + T) ÷ {LOSS_UNITS:,}', AS_SIDE,
                   f'{shown(LOSSES_WH)} Wh', ('losses-conservative',)),
    'line': Step('a fuel line of a captive plant, by its energy or its carbon, to mg', AS_SIDE,
                 f'{shown(LINE_MG)} mg', ('line-conservative',)),
    'factor': Step("F: entered, or the weighted mean of two margins, or a default, or the site's "
                   'fuel lines in mg ÷ its generation in kWh', AS_SIDE,
                   f'{shown(FACTOR_MG_PER_KWH)} mg/kWh', ('chosen-sound',)),
    'grams': Step(f'grams of a source = U × F ÷ {MILLION:,}', AS_SIDE,
                  f'{shown(GRAM)} + ({shown(LOSSES_WH)} × (F + {FACTOR_SLACK}) + '
                  f'{shown(FACTOR_MG_PER_KWH)} × U) ÷ {MILLION:,} g', ('figure-conservative',)),
    'weight': Step('the same grams', 'as above', f'{shown(SOURCE_KG)} kg',
                   ('figure-within-allowance',)),
    'tonnes': Step(f"tonnes of a side = the sum of its sources' grams ÷ {MILLION:,}",
                   f'the sum, once: {AS_SIDE}', f'{shown(SIDE_T)} t, and {A_SOURCE} of its sources',
                   ('side-safe',)),
    'reduction': Step('reduction = baseline less project less leakage tonnes',
                      'not: a difference of whole numbers',
                      f'{shown(REDUCTION_T)} t, and {A_SOURCE} source',
                      ('reduction-safe', 'reduction-near')),
}
# The same at a site where a plant also makes heat, for a baseline source that names the site.
STEPS_WITH_HEAT = {
    'plant': Step(f'a plant with heat: its fuel lines in mg × {THOUSAND:,} ÷ J, times J − H, '
                  f'÷ {THOUSAND:,}', 'down, each of the two',
                  f'{shown(PLANT_MG)} mg, and J ÷ {THOUSAND:,} mg', ('electricity-within',)),
    'factor': Step("F: the site's plants in mg ÷ its generation in kWh", 'down',
                   f'{FACTOR_SLACK} + K mg/kWh', ('chosen-sound',)),
    'grams': Step(f'grams of a source = U × F ÷ {MILLION:,}', 'down',
                  f'{shown(GRAM)} + ({shown(LOSSES_WH)} × (F + {FACTOR_SLACK} + K) + '
                  f'({FACTOR_SLACK} + K) × U) ÷ {MILLION:,} g', ('figure-conservative',)),
    'weight': Step('the same grams', 'as above', 'the same', ('figure-within-allowance',)),
}
ALL_REPORTS = 'demand-3'  # states the limits of the last four for every list of calls
AT_THE_BOX = 'lines-demand-3'  # the same for every list of lines


def laws_named() -> list[str]:
    steps = [*STEPS.values(), *STEPS_WITH_HEAT.values()]
    laws = [ALL_REPORTS, AT_THE_BOX, *(law for step in steps for law in step.laws)]
    return list(dict.fromkeys(laws))
