"""A side and the reduction as pictures: exact value, her sum and the printed tonnes on a line.

The line above is in tonnes. There the exact value and the sum fall together; so below it is the
same in grams, enlarged. Shapes and hatching tell what colours tell, so that it can be printed in
black.
"""

import math
from fractions import Fraction
from xml.etree.ElementTree import Element

from explanation.decimals import MILLION, shown
from explanation.elements import element
from explanation.rows import Followed, SidePart
from explanation.sentences import grams, relation, tonnes

WIDTH, LEFT, RIGHT = 1080, 14, 1066
UPPER, LOWER = 108, 284  # where the two lines are
BAND = 34  # the height of the zones over a line, and of a mark's stem
SIGN, SMALL_SIGN = 10.2, 8.0  # the width of a sign of a label
ROW = 28  # the height of a row of labels
LEAST_GRAMS = Fraction(1, MILLION)  # leans below it are not enlarged
TICKS = 8  # names on a line, about


# 1. A line


class Axis:
    """From the unsafe stretch over the exact value to the proved limit, and a little beyond."""

    def __init__(self, exact: Fraction, reach: Fraction, up: bool, y: int,
                 unsafe: Fraction, beyond: Fraction):
        self.exact, self.up, self.y = exact, up, y
        self.reach = reach
        self.low = exact - unsafe if up else exact - reach - beyond
        self.high = exact + reach + beyond if up else exact + unsafe

    def at(self, value: Fraction | int) -> float:
        return float(LEFT + (RIGHT - LEFT) * (value - self.low) / (self.high - self.low))

    @property
    def unsafe_end(self) -> float:
        return float(LEFT if self.up else RIGHT)

    @property
    def span(self) -> Fraction:
        return self.high - self.low


def in_tonnes(exact: Fraction, reach: Fraction, up: bool) -> Axis:
    """With both whole tonnes around the exact value."""
    to_whole = exact - math.floor(exact) if up else math.ceil(exact) - exact
    unsafe = max(reach * Fraction(22, 100), to_whole + reach / 25)
    return Axis(exact, reach, up, UPPER, unsafe, reach * Fraction(6, 100))


def round_step(span: Fraction, parts: int) -> Fraction:
    """1, 2 or 5 times a power of ten that divides a span into at most so many."""
    power = Fraction(10) ** math.floor(math.log10(span / parts))
    return next(power * k for k in (1, 2, 5, 10, 20) if power * k >= span / parts)


def multiples(step: Fraction, low: Fraction, high: Fraction) -> list[Fraction]:
    return [step * k for k in range(math.ceil(low / step), math.floor(high / step) + 1)]


def tonne_ticks(axis: Axis) -> dict[Fraction, str]:
    """Whole tonnes, or so many, named; tenths between them where there are few."""
    step = max(Fraction(1), round_step(axis.span, TICKS))
    ticks = dict.fromkeys(multiples(Fraction(1, 10), axis.low, axis.high), '') \
        if axis.span <= 4 else {}
    return ticks | {value: tonnes(value) for value in multiples(step, axis.low, axis.high)}


def gram_ticks(axis: Axis) -> dict[Fraction, str]:
    """By grams from the exact value."""
    step = round_step(axis.span, TICKS)
    ticks = {}
    for off in multiples(step, axis.low - axis.exact, axis.high - axis.exact):
        sign = '+' if off > 0 else '−' if off < 0 else ''
        ticks[axis.exact + off] = f'{sign}{shown(abs(off) * MILLION)} g'
    return ticks


# 2. Its parts


def rect(a: float, b: float, y: float, height: float, fill: str) -> Element:
    return element('rect', x=min(a, b), y=y, width=abs(b - a), height=height, fill=fill)


def stroke(x1: float, y1: float, x2: float, y2: float, **more) -> Element:
    return element('line', x1=x1, y1=y1, x2=x2, y2=y2, **{'stroke': '#111', **more})


def label(x: float, y: float, text: str, style: str, anchor: str = 'middle') -> Element:
    return element('text', text, x=x, y=y, class_=style, text_anchor=anchor)


def inside(x: float, text: str) -> float:
    """Where a label over x is centred, so that it stays in the picture."""
    half = SIGN / 2 * len(text)
    return min(max(x, LEFT + half), RIGHT - half)


def overlap(x: float, text: str, other_x: float, other: str) -> bool:
    return abs(inside(x, text) - inside(other_x, other)) < SIGN / 2 * (len(text) + len(other) + 2)


def mark(kind: str, x: float, y: int) -> list[Element]:
    """A circle, a triangle or a square on a stem."""
    top = y - BAND
    shape = {
        'exact': lambda **more: element('circle', cx=x, cy=top, r=6.5, **more),
        'sum': lambda **more: element(
            'path', d=f'M{x - 11:.1f} {top + 9} L{x + 11:.1f} {top + 9} L{x:.1f} {top - 13} Z',
            **more),
        'printed': lambda **more: element('rect', x=x - 9, y=top - 9, width=18, height=18, **more),
    }[kind]
    return [stroke(x, top, x, y, stroke_width=2),
            shape(class_=kind, stroke='#fff', stroke_width=1.5)]


def line(axis: Axis, ticks: dict[Fraction, str]) -> list[Element]:
    parts = [stroke(LEFT, axis.y, RIGHT, axis.y, stroke_width=2)]
    for value, name in ticks.items():
        x = axis.at(value)
        parts.append(stroke(x, axis.y, x, axis.y + (10 if name else 5)))
        if name:
            parts.append(label(min(max(x, LEFT + 18), RIGHT - 18), axis.y + 27, name, 's'))
    return parts


def zones(axis: Axis, printed: Fraction | int, unsafe: str) -> list[Element]:
    """The unsafe side hatched, the safe side tinted up to its limit; words where no mark is."""
    top, x = axis.y - BAND, axis.at(axis.exact)
    far = axis.at(axis.exact + axis.reach if axis.up else axis.exact - axis.reach)
    safe = f'safe; proved: less than {shown(axis.reach, 3)} t off'
    toward = 1 if axis.up else -1
    start, end = ('start', 'end') if axis.up else ('end', 'start')
    near_limit = abs(axis.at(printed) - far) < SMALL_SIGN * len(safe) + 20
    words = (label(x + 16 * toward, axis.y - 9, safe, 's', start) if near_limit
             else label(far - 10 * toward, axis.y - 9, safe, 's', end))
    return [rect(axis.unsafe_end, x, top, BAND, 'url(#unsafe)'),
            rect(x, far, top, BAND, '#e2f0e2'),
            label((x + axis.unsafe_end) / 2, top + BAND / 2 + 6, unsafe, 's'), words]


def figure(bottom: int, parts: list[Element], title: str) -> Element:
    """Without the highest row where no label is there."""
    top = min(float(part.get('y')) for part in parts if part.tag == 'text') - ROW + 4
    return element('svg', *parts, viewBox=f'0 {top:.0f} {WIDTH} {bottom - top:.0f}', role='img',
                   aria_label=title)


def hatching() -> Element:
    """What fills an unsafe stretch, defined once for all pictures of a page."""
    pattern = element('pattern', element('rect', width=9, height=9, fill='#fbeaea'),
                      stroke(0, 0, 0, 9, stroke='#d99', stroke_width=3), id='unsafe', width=9,
                      height=9, patternUnits='userSpaceOnUse', patternTransform='rotate(45)')
    return element('svg', element('defs', pattern), width=0, height=0, aria_hidden='true',
                   class_='defs')


# 3. The pictures


def upper_line(axis: Axis, summed: Fraction, printed: Fraction | int, unsafe: str,
               exact_label: str) -> list[Element]:
    x_exact, x_printed = axis.at(axis.exact), axis.at(printed)
    printed_label = f'printed {tonnes(printed)}'
    close = overlap(x_exact, exact_label, x_printed, printed_label)
    y = axis.y - 54
    return [*zones(axis, printed, unsafe), *line(axis, tonne_ticks(axis)),
            *mark('sum', axis.at(summed), axis.y), *mark('printed', x_printed, axis.y),
            *mark('exact', x_exact, axis.y),
            label(inside(x_exact, exact_label), y, exact_label, 'b'),
            label(inside(x_printed, printed_label), y - ROW if close else y, printed_label,
                  'b printed')]


def magnifier(x: float) -> Element:
    """Opens from a point of the line above."""
    return element('path', d=f'M{x - 3:.1f} {UPPER + 30} L{LEFT} {LOWER - 84} L{LEFT} {LOWER} '
                   f'L{RIGHT} {LOWER} L{RIGHT} {LOWER - 84} L{x + 3:.1f} {UPPER + 30} Z',
                   fill='#f3f6fa', stroke='#9ab', stroke_dasharray='5 4')


def lower_line(part: SidePart, upper: Axis) -> list[Element]:
    """The exact value and the sum in grams; the lean takes about half of the width."""
    exact, summed, lean = part.printed.exact, part.summed.value, part.summed.lean
    axis = Axis(exact, lean, part.up, LOWER, lean * Fraction(40, 100), lean * Fraction(70, 100))
    x_exact, x_sum, y = axis.at(exact), axis.at(summed), LOWER - 16
    exact_label, sum_label = f'exact {grams(exact)}', f'your sum {grams(summed)}'
    times = int(float(f'{float(upper.span / axis.span):.2g}'))
    side, anchor = (RIGHT - 8, 'end') if part.up else (LEFT + 8, 'start')
    return [magnifier(upper.at(exact)),
            rect(axis.unsafe_end, x_exact, LOWER - BAND, BAND, 'url(#unsafe)'),
            *line(axis, gram_ticks(axis)), *mark('exact', x_exact, LOWER),
            *mark('sum', x_sum, LOWER),
            label(inside(x_exact, exact_label), LOWER - 50, exact_label, 'b'),
            label(inside(x_sum, sum_label), LOWER - 50, sum_label, 'b sum'),
            stroke(x_exact, y, x_sum, y, stroke='#0b5cad', stroke_width=2,
                   stroke_dasharray='2 3'),
            label((x_exact + x_sum) / 2, y - 6, f'leans {grams(lean)}', 's'),
            label(side, LOWER - 120, f'enlarged {shown(times)} times', 's', anchor)]


def side_picture(part: SidePart) -> Element:
    exact, summed, printed = part.printed.exact, part.summed.value, part.printed.value
    axis = in_tonnes(exact, part.printed.limit, part.up)
    beside = ' = your sum' if summed == exact else ', your sum beside it'
    parts = upper_line(axis, summed, printed, 'too low: never' if part.up else 'too high: never',
                       f'exact {tonnes(exact)}{beside}')
    if part.summed.lean * MILLION < LEAST_GRAMS:
        return figure(UPPER + 34, parts, relation(part))
    return figure(LOWER + 34, [*parts, *lower_line(part, axis)], relation(part))


def reduction_picture(followed: Followed) -> Element:
    row = followed.reduction
    axis = in_tonnes(row.exact, row.limit, False)
    parts = upper_line(axis, followed.summed_reduction, row.value, 'too much: never',
                       f'exact {tonnes(row.exact)}, your sums beside it')
    return figure(UPPER + 34, parts, 'printed ≤ your sums ≤ exact')
