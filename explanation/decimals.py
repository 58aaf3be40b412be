"""Numbers and counts as a reader sees them."""

import re
from collections.abc import Iterable
from fractions import Fraction

DECIMALS = 9  # of a number, at most
MILLION = 1_000_000  # grams in a tonne


def shown(value: Fraction | int, decimals: int = DECIMALS) -> str:
    """All decimals, or the first of them and '..' where more follow."""
    scaled = abs(value) * 10 ** decimals
    whole, part = divmod(int(scaled), 10 ** decimals)
    text = f'{whole:,}.{part:0{decimals}d}'
    text = text.rstrip('0').rstrip('.') if scaled == int(scaled) else text + '..'
    return f'-{text}' if value < 0 else text


UNIT = re.compile(r'(?<=[0-9.]) (?=(?:t|g|mg|Wh|kWh|kJ|mg/kWh|percent)\b)')
KEPT_SPACE = '\u00a0'  # at which no line is broken


def with_units(words: str) -> str:
    """The words with no break between a number and its unit."""
    return UNIT.sub(KEPT_SPACE, words)


def example(figure: str, unit: str, parts: int) -> str:
    """What a figure with a point is written as, in a unit that has so many parts."""
    return f'{figure} {unit} is {Fraction(figure) * parts}'


def counted(count: int, word: str) -> str:
    """As 1 line, 2 lines."""
    return f'{shown(count)} {word}{"" if count == 1 else "s"}'


def listed(words: Iterable[str]) -> str:
    """As a, b and c."""
    *most, last = words
    return f'{", ".join(most)} and {last}' if most else last


def ranges(numbers: Iterable[int]) -> str:
    """Rising numbers, as 1 to 14 and 17."""
    runs: list[list[int]] = []
    for number in numbers:
        if runs and runs[-1][1] == number - 1:
            runs[-1][1] = number
        else:
            runs.append([number, number])
    return listed(words for a, b in runs for words in (
        [f'{a} to {b}'] if b > a + 1 else dict.fromkeys((str(a), str(b)))))


def lines_named(numbers: list[int]) -> str:
    """As line 3, or lines 1 to 14 and 17."""
    return f'line{"s" * (len(numbers) > 1)} {ranges(numbers)}'
