"""A line as it was typed: its signs, its atoms, and the gaps between them.

Atoms are words and figures, gaps are spaces and brackets. The gaps are compared with those of the
line as it would be written from the same atoms. So a line of plain signs, of which neither an atom
nor a gap is wrong, is a form.
"""

import re
import unicodedata
from collections import Counter
from typing import NamedTuple

from explanation.decimals import shown
from explanation.figures import PARTS
from tests.reference import reference

NO_FORM = 14
CUT = 60  # signs of a word that is quoted, at most
LONGEST = 4 * reference.LINE_LIMIT  # bytes of a line of which the parts are looked at


class Finding(NamedTuple):
    number: int  # the refusal that this part alone would bring
    what: str
    do: str = ''


class Shape(NamedTuple):
    """The atoms of a line: its first word with what follows it, then its parts in brackets."""

    head: list[str]
    parts: list[list[str]]

    @property
    def text(self) -> str:
        """As it is written: one space between parts, and none elsewhere."""
        parts = [f'({" ".join(part)})' for part in self.parts]
        return f'({" ".join([*self.head, *parts])})'


def wrong(what: str, do: str = '') -> Finding:
    return Finding(NO_FORM, what, do)


def is_form(line: bytes) -> bool:
    return len(line) <= reference.LINE_LIMIT and any(
        pattern.fullmatch(line) for pattern, _ in reference.CALLS)


# 1. Signs

BOM = '\ufeff'
# What other programs write, and the plain sign for it.
OTHER_SIGNS = {
    **dict.fromkeys('\u2010\u2011\u2012\u2013\u2014\u2015', ('a long dash', '-')),
    '\u2212': ('a minus sign that is no hyphen', '-'), '\t': ('a tab', ' '),
    **dict.fromkeys('\u00a0\u2007\u2009\u202f', ('a space that is no plain space', ' ')),
    '\r': ('a CR', ' ')}
PLAIN = str.maketrans({sign: plain for sign, (_, plain) in OTHER_SIGNS.items()})
NO_TEXT = '\ufffd'  # what a byte is read as that is no text


def decoded(line: bytes) -> str:
    return line.decode('utf-8', 'replace')


def visible(line: bytes) -> str:
    """As typed, with signs that cannot be seen as their codes; a line that is too long is cut."""
    text = line[:reference.LINE_LIMIT].decode('utf-8', 'backslashreplace')
    seen = ''.join(sign if sign.isprintable() else sign.encode('unicode_escape').decode()
                   for sign in text)
    return seen if len(line) <= reference.LINE_LIMIT else f'{seen}..'


def quoted(word: str) -> str:
    seen = visible(word.encode('utf-8', 'replace'))
    return seen if len(seen) <= CUT else f'{seen[:CUT]}..'


def normal(text: str) -> str:
    """The text with plain signs, in lower case; a mark before it and a CR behind it go."""
    plain = text.removeprefix(BOM).removesuffix('\r').translate(PLAIN)
    return re.sub('[A-Z]+', lambda upper: upper[0].lower(), plain)


def sign_name(sign: str) -> str:
    if sign == NO_TEXT:
        return 'a byte that is no text'
    if sign in OTHER_SIGNS:
        return OTHER_SIGNS[sign][0]
    return unicodedata.name(sign, f'the sign {quoted(sign)}').lower()


def sign_findings(text: str) -> list[Finding]:
    found = []
    if text.startswith(BOM):
        found.append(wrong('a byte-order mark before the line',
                           'save the file as UTF-8 without BOM'))
    if text.endswith('\r'):
        found.append(wrong('a CR at its end, as Windows writes it',
                           "save the file with LF line ends, or use: tr -d '\\r' < FILE"))
    text = text.removeprefix(BOM).removesuffix('\r')
    odd = {sign: text.index(sign) + 1 for sign in text if not ' ' <= sign <= '~'}
    found += [wrong(f'{sign_name(sign)} at place {place}', 'type the line in a plain editor')
              for sign, place in list(odd.items())[:3]]
    upper = [atom for atom in ATOM.findall(text) if re.search('[A-Z]', atom)]
    if upper:
        found.append(wrong(f'upper case: {quoted(" ".join(upper))}', 'write small letters'))
    return found


# 2. Atoms and gaps

ATOM = re.compile(r'[^\s()]+')
PART_WORDS = tuple(word for kinds in PARTS.values() for words in kinds.values() for word in words)


def shape_of(text: str) -> Shape:
    """A part begins behind a bracket, and with a word that only a part begins with."""
    groups: list[list[str]] = [[]]
    after_bracket = False
    for token in re.findall(r'[()]|[^\s()]+', text):
        if token in ('(', ')'):
            after_bracket = bool(groups[0])
        elif groups[0] and (after_bracket or token in PART_WORDS):
            groups.append([token])
            after_bracket = False
        else:
            groups[-1].append(token)
    return Shape(groups[0], groups[1:])


def some(sign: str, count: int) -> str:
    """As a space, 2 spaces, a (."""
    name = {' ': 'space', '(': '(', ')': ')'}.get(sign, 'other sign')
    return f'a {name}' if count == 1 else f'{shown(count)} {name}{"s" * (len(name) > 1)}'


def gap_words(typed: str, wanted: str) -> str:
    missing = Counter(wanted) - Counter(typed)
    more = Counter(typed) - Counter(wanted)
    words = [f'{some(sign, count)} {"is" if count == 1 else "are"} missing'
             for sign, count in missing.items()]
    words += [f'{some(sign, count)} too many' for sign, count in more.items()]
    return ', '.join(words) or 'a space at the wrong place'


def gap_findings(text: str, wanted: str) -> list[Finding]:
    """Of a text and the one that it should be, which has the same atoms."""
    atoms = ATOM.findall(text)
    found = []
    for at, (typed, gap) in enumerate(zip(ATOM.split(text), ATOM.split(wanted))):
        if typed != gap:
            place = (f'at the end, after {quoted(atoms[-1])}' if at == len(atoms)
                     else f'after {quoted(atoms[at - 1])}' if at else 'at the beginning')
            only_spaces = re.sub(r'\s', '', typed) == re.sub(r'\s', '', gap)
            found.append(wrong(f'{place}: {gap_words(typed, gap)}',
                               'one space between parts, and none elsewhere' if only_spaces
                               else 'each part has brackets of its own, and the line too'))
    return found
