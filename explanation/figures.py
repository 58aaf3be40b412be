"""The words and figures of the forms: what each is called, in which unit, and an example of it.

A new form adds its words here; forms.py finds by them what is wrong with a line.
"""

from typing import NamedTuple

from explanation.decimals import example


class Named(NamedTuple):
    name: str
    unit: str = ''
    hint: str = ''  # what a figure in another unit is written as


MARGIN = example('0.8124', 't/MWh', 1_000_000)
READING = example('4821190.53', 'kWh', 1_000)

FIGURES = {
    'N': Named('the number'),
    'S': Named('the site S'),
    'F': Named('the combined margin F', 'mg/kWh', MARGIN),
    'O': Named('the operating margin O', 'mg/kWh', MARGIN),
    'B': Named('the build margin B', 'mg/kWh', MARGIN),
    'X': Named('the first weight X', 'percent'),
    'Y': Named('the second weight Y', 'percent'),
    'G': Named('the generation G', 'kWh', example('268.9', 'MWh', 1_000)),
    'H': Named('the heat H', 'kJ', example('21.5', 'GJ', 1_000_000)),
    'Q': Named('the quantity Q', 'kg, litres or cubic metres'),
    'V': Named('the calorific value V', 'kJ a unit of Q', example('42.7', 'MJ/kg', 1_000)),
    'C': Named('the emission factor C', 'mg/MJ', example('74.1', 't/TJ', 1_000)),
    'W': Named('the carbon fraction W', 'ten-thousandths', example('86.5', 'percent', 100)),
    'density': Named('the density', 'g a litre', example('0.96', 'kg a litre', 1_000)),
    'T': Named('the loss T', 'ten-thousandths', example('4.55', 'percent', 100)),
    'ratio': Named('the ratio', '', f'{200} to {5} amperes is {200 // 5}'),
    'first': Named('the first reading', 'Wh', READING),
    'last': Named('the last reading', 'Wh', READING),
}

# The parts in brackets: each word with the figures that follow it.
SUPPLIES = {'combined': (), 'griddefault': (), 'captive': ('S',), 'captivedefault': (),
            'either': ('S',)}
LOSSES = {'loss': ('T',), 'default20': (), 'default3': (), 'none': ()}
METERS = {'whole': ('first', 'last'), 'single': ('first', 'last')}  # after a ratio and a sign
FUELS = {'fuel': ('Q', 'V', 'C'), 'mass': ('Q', 'W'), 'volume': ('Q', 'density', 'W')}
HEAT = {'heat': ('H',)}
MARKS = ('thermal', 'hydro')
SIGNS = ('+', '-')

# The parts that a form of this first word may have, by kind, in their order.
PARTS = {'grid': {}, 'plant': {'heat': HEAT, 'fuel': FUELS},
         'source': {'supply': SUPPLIES, 'loss': LOSSES, 'meter': METERS}, 'drop': {}, 'report': {}}
TEMPLATES = {
    'grid': '(grid F thermal), (grid F hydro) or (grid margins O B X Y thermal)',
    'plant': '(plant N S G (fuel Q V C)) or (plant N S G (heat H) (fuel Q V C))',
    'source': '(source N side (supply) (loss) (whole + first last))',
    'drop': '(drop source N) or (drop plant N)',
    'report': '(report)',
}


def template(word: str, figures: tuple[str, ...]) -> str:
    """As (fuel Q V C)."""
    return f'({" ".join((word, *figures))})'
