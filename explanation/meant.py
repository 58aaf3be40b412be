"""A line that is no form, as it was perhaps meant.

Signs, spaces, case, brackets, leading zeros, separators of thousands and near words are put right.
No digit of a figure is changed, so that no figure is guessed.
"""

import re

from explanation.figures import MARKS, PARTS, SIGNS, TEMPLATES
from explanation.forms import THOUSANDS, digits, near
from explanation.lines import LONGEST, PART_WORDS, Shape, decoded, is_form, normal, shape_of
from tests.reference import reference

WORDS = (*TEMPLATES, *PART_WORDS, *reference.SIDES, *MARKS, 'margins')
BEFORE_FIGURES = {'grid', 'plant', 'source', *(word for kinds in PARTS.values()
                  for words in kinds.values() for word, figures in words.items() if figures)}


def pieces(atom: str) -> list[str]:
    """A word and its figure, or a sign and a reading, written without their space."""
    match = re.fullmatch('([a-z]+)([0-9]+)', atom)
    if match and atom not in WORDS and match[1] in BEFORE_FIGURES:
        return [match[1], match[2]]
    match = re.fullmatch('([+-])([0-9a-fx]+)', atom)
    return [match[1], match[2]] if match else [atom]


def meant_atom(atom: str, is_register: bool) -> str:
    if is_register:
        return atom.removeprefix('0x')
    if THOUSANDS.fullmatch(atom):
        return digits(atom)
    if re.fullmatch('0[0-9]+', atom):
        return atom.lstrip('0') or '0'
    if re.fullmatch('[a-z-]{3,}[0-9]*', atom):
        close = near(atom, WORDS, 0.75)
        return close if close and abs(len(close) - len(atom)) <= 2 else atom
    return atom


def meant_part(atoms: list[str]) -> list[str]:
    joined: list[str] = []
    for atom in (piece for atom in atoms for piece in pieces(atom)):
        if joined and joined[-1] + atom in WORDS:
            joined[-1] += atom
        else:
            joined.append(atom)
    made: list[str] = []
    for atom in joined:
        is_register = made[:1] == ['single'] and any(sign in made for sign in SIGNS)
        made.append(meant_atom(atom, is_register))
    return made


def meant_shape(line: bytes) -> Shape:
    shape = shape_of(normal(decoded(line[:LONGEST])))
    return Shape(meant_part(shape.head), [meant_part(part) for part in shape.parts])


def meant(line: bytes) -> str | None:
    """The line as it was perhaps meant, where that is a form."""
    if len(line) > LONGEST:
        return None
    text = meant_shape(line).text
    return text if is_form(text.encode()) else None
