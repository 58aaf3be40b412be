"""A line that is no form, refused 14: each part of it that is wrong."""

import difflib
import re
from collections.abc import Collection

from explanation.decimals import counted, listed, shown
from explanation.figures import FIGURES, MARKS, METERS, PARTS, SIGNS, TEMPLATES, template
from explanation.lines import (
    BOM, LONGEST, Finding, Shape, decoded, gap_findings, normal, quoted, shape_of, sign_findings,
    wrong)
from tests.reference import reference

# 1. Words and figures


def is_number(word: str) -> bool:
    return re.fullmatch(reference.NUMBER.decode(), word) is not None


def digits(word: str) -> str:
    return re.sub('[^0-9]', '', word)


def near(word: str, words: Collection[str], least: float = 0.6) -> str | None:
    """The closest of some words that has the same digits: no digit is guessed."""
    if word in words:
        return word
    alike = [each for each in words if digits(each) == digits(word)]
    return next(iter(difflib.get_close_matches(word, alike, 1, least)), None)


def perhaps(word: str, words: Collection[str]) -> str:
    close = near(word, words)
    return f'perhaps {close}' if close else f'write {listed_or(words)}'


def listed_or(words: Collection[str]) -> str:
    return listed(words).replace(' and ', ' or ')


THOUSANDS = re.compile(r"[0-9]{1,3}(?:(,[0-9]{3}){2,}|(\.[0-9]{3}){2,}|(['_][0-9]{3})+)")


def number_findings(key: str, typed: str) -> list[Finding]:
    """Of a figure by its key in FIGURES."""
    named = FIGURES[key]
    said = f'{named.name}: {quoted(typed)}'
    if is_number(typed):
        return []
    if re.fullmatch('0[0-9]+', typed):
        return [wrong(f'{said} begins with 0', f'write {quoted(typed.lstrip("0") or "0")}')]
    if re.fullmatch('[0-9]+', typed):
        return [wrong(f'{said} has {len(typed)} digits, more than {reference.NUMBER_DIGITS}',
                      'look at the number')]
    if THOUSANDS.fullmatch(typed):
        return [wrong(f'{said} has separators', f'write {digits(typed)}')]
    hint = f': {named.hint}' if named.hint else f', in {named.unit}' if named.unit else ''
    if re.fullmatch("[0-9]*([.,'_][0-9]*)+", typed):
        return [wrong(f'{said} has a point or a comma', f'write a whole number{hint}')]
    if re.fullmatch('[+-][0-9]+', typed):
        return [wrong(f'{said} has a sign', 'numbers have none; the sign of a meter stands apart')]
    if re.fullmatch(r'[0-9.,]+[^0-9.,].*', typed):
        return [wrong(f'{said} has a unit or other signs', 'write the number alone')]
    return [wrong(f'{said} is no number', f'write a whole number{hint}')]


def figures_findings(keys: tuple[str, ...], typed: list[str], form: str) -> list[Finding]:
    """As many figures as keys, each a number."""
    found = [each for key, figure in zip(keys, typed) for each in number_findings(key, figure)]
    if len(typed) != len(keys):
        count = counted(len(typed), 'figure') if typed else 'no figure'
        found.append(wrong(f'{count} where {len(keys)} belong{"s" * (len(keys) == 1)}',
                           f'as {form}'))
    return found


def register_findings(key: str, typed: str) -> list[Finding]:
    wanted = reference.REGISTER_DIGITS
    said = f'{FIGURES[key].name}: {quoted(typed)}'
    if re.fullmatch(reference.REGISTER.decode(), typed):
        return []
    if re.fullmatch('0x[0-9a-f]+', typed):
        return [wrong(f'{said} begins with 0x', f'write {quoted(typed[2:])}')]
    if re.fullmatch('[0-9a-f]+', typed):
        return [wrong(f'{said} has {len(typed)} digits; a register has {wanted}',
                      'write its zeros too')]
    return [wrong(f'{said} is no register of {wanted} hexadecimal digits',
                  'a meter that shows decimal digits is entered as whole, in Wh')]


# 2. The forms


def apart_or_joined(part: list[str], words: Collection[str]) -> str:
    """For a space that is missing or too many: captive1, default 20."""
    if len(part) > 1 and part[0] + part[1] in words:
        return f'one word: ({part[0]}{part[1]})'
    apart = re.fullmatch('([a-z]+)([0-9]+)', part[0])
    return f'with a space: ({apart[1]} {apart[2]})' if apart and apart[1] in words else ''


def part_findings(words: dict[str, tuple], kind: str, part: list[str]) -> list[Finding]:
    """Of a supply, a loss, heat or a fuel by its word and figures."""
    word, *figures = part
    if word not in words:
        hint = apart_or_joined(part, words)
        unknown = wrong(f'unknown {kind}: ({quoted(" ".join(part))})', hint or perhaps(word, words))
        close = None if hint else near(word, words)
        return [unknown, *(part_findings(words, kind, [close, *figures]) if close else [])]
    if not words[word] and figures:
        return [wrong(f'({word}) carries no figure', f'write ({word})')]
    form = template(word, words[word])
    return [wrong(f'({word} ..): {each.what}', each.do)
            for each in figures_findings(words[word], figures, form)]


def meter_findings(number: int, part: list[str]) -> list[Finding]:
    word, *figures = part
    if word not in METERS:
        unknown = wrong(f'meter {number}: unknown kind {quoted(word)}', perhaps(word, METERS))
        close = near(word, METERS)
        return [unknown, *(meter_findings(number, [close, *figures]) if close else [])]
    form = f'as ({word} + first last) or ({word} ratio + first last)'
    at = next((at for at, figure in enumerate(figures) if figure in SIGNS), None)
    if at is None:
        return [wrong(f'meter {number}: no sign, + or -, standing apart', form)]
    ratio, readings = figures[:at], figures[at + 1:]
    if not ratio and len(readings) == 3:
        return [wrong(f'meter {number}: a ratio behind the sign',
                      f'write it before the sign: ({word} {quoted(readings[0])} {figures[at]} ..)')]
    found = figures_findings(('ratio',), ratio, form) if ratio else []
    look = number_findings if word == 'whole' else register_findings
    found += [each for key, typed in zip(METERS[word], readings) for each in look(key, typed)]
    if len(readings) != len(METERS[word]):
        found.append(wrong(f'{counted(len(readings), "reading")} behind the sign; there are '
                           f'{len(METERS[word])}', form))
    return [wrong(f'meter {number}, {each.what}', each.do) for each in found]


def kind_of(part: list[str], kinds: dict[str, dict], expected: str) -> str:
    """The kind of part that its word, or one near to it, begins; else the expected one."""
    words = {word: kind for kind, each in kinds.items() for word in each}
    word = part[0] if part[0] in words else ''.join(part[:2])
    return words.get(near(word, words) or near(part[0], words), expected)


def order_findings(kinds: list[str]) -> list[Finding]:
    """One supply, one loss, then meters."""
    found = []
    for kind in ('supply', 'loss'):
        if kind not in kinds:
            found.append(wrong(f'the {kind} is missing', f'as {TEMPLATES["source"]}'))
        elif kinds.count(kind) > 1:
            found.append(wrong(f'{kinds.count(kind)} parts for the {kind}', 'one belongs there'))
    if not found and kinds != ['supply', 'loss', *(len(kinds) - 2) * ['meter']]:
        found.append(wrong('the parts are in another order',
                           'first the supply, then the loss, then the meters'))
    return found


def source_findings(shape: Shape) -> list[Finding]:
    head, parts = shape
    found = head_findings('source', ('N',), head[1:2])
    side = head[2] if len(head) > 2 else None
    if side is None:
        found.append(wrong('the side is missing', f'write {listed_or(reference.SIDES)}'))
    elif side not in reference.SIDES:
        found.append(wrong(f'unknown side: {quoted(side)}', perhaps(side, reference.SIDES)))
    found += bare_findings('source', head[3:])
    kinds = []
    for at, part in enumerate(parts):
        kinds.append(kind_of(part, PARTS['source'], ('supply', 'loss', 'meter')[min(at, 2)]))
        found += (meter_findings(kinds.count('meter'), part) if kinds[-1] == 'meter'
                  else part_findings(PARTS['source'][kinds[-1]], kinds[-1], part))
    return found + order_findings(kinds)


def plant_findings(shape: Shape) -> list[Finding]:
    found = head_findings('plant', ('N', 'S', 'G'), shape.head[1:4])
    found += bare_findings('plant', shape.head[4:])
    words = {**PARTS['plant']['heat'], **PARTS['plant']['fuel']}
    for at, part in enumerate(shape.parts):
        found += part_findings(words, 'part', part)
        if at and part[0] in PARTS['plant']['heat']:
            found.append(wrong('(heat H) stands elsewhere than behind G',
                               'write it before the fuels, once'))
    return found


def grid_findings(shape: Shape) -> list[Finding]:
    figures = shape.head[1:]
    if len(figures) == 2 and figures[0] in MARKS:
        return [wrong('the mark stands before the figure',
                      f'write (grid {quoted(figures[1])} {figures[0]})')]
    mark = figures[-1] if figures and re.search('[a-z]{3}', figures[-1]) else None
    found = inner_findings('grid', shape.parts)
    if mark is None:
        found.append(wrong('the mark is missing', f'end with {listed_or(MARKS)}'))
    elif mark not in MARKS:
        found.append(wrong(f'unknown mark: {quoted(mark)}', perhaps(mark, MARKS)))
    figures = figures if mark is None else figures[:-1]
    if figures[:1] == ['margins']:
        return found + head_findings('grid', ('O', 'B', 'X', 'Y'), figures[1:])
    if len(figures) == 4:
        return found + [wrong('four figures without the word margins',
                              'write (grid margins O B X Y thermal)')]
    return found + head_findings('grid', ('F',), figures)


def drop_findings(shape: Shape) -> list[Finding]:
    found = inner_findings('drop', shape.parts)
    what = shape.head[1] if len(shape.head) > 1 else ''
    if what not in ('source', 'plant'):
        return [*found, wrong(f'drop what? {quoted(what)}'.strip(), f'write {TEMPLATES["drop"]}')]
    return found + head_findings('drop', ('N',), shape.head[2:])


def report_findings(shape: Shape) -> list[Finding]:
    others = [*shape.head[1:], *(word for part in shape.parts for word in part)]
    return [wrong(f'{quoted(" ".join(others))} behind report', 'write (report)')] if others else []


def head_findings(word: str, keys: tuple[str, ...], typed: list[str]) -> list[Finding]:
    return figures_findings(keys, typed, TEMPLATES[word])


def bare_findings(word: str, atoms: list[str]) -> list[Finding]:
    """Of what stands in the head where only parts in brackets may follow."""
    return [wrong(f'{quoted(atoms[0])} stands without brackets of its own',
                  f'as {TEMPLATES[word]}')] if atoms else []


def inner_findings(word: str, parts: list[list[str]]) -> list[Finding]:
    return [wrong(f'a part that no such line has: {quoted(" ".join(parts[0]))}',
                  f'as {TEMPLATES[word]}; one form a line')] if parts else []


FORMS = {'grid': grid_findings, 'plant': plant_findings, 'source': source_findings,
         'drop': drop_findings, 'report': report_findings}


COMMENTS = ('#', ';', '%', '//', '--')  # as other files begin them


def nothing_said(line: bytes) -> Finding | None:
    """Of a line that was to enter nothing."""
    text = decoded(line).removeprefix(BOM).strip()
    if not text:
        return wrong('the line is empty', 'leave it out')
    if text.startswith(COMMENTS):
        return wrong('a comment: there are none', 'leave it out')
    return None


def form_findings(line: bytes) -> list[Finding]:
    """Each thing wrong with a line that is no form."""
    text = decoded(line)
    if '\0' in text:
        return [wrong('a NUL byte, as in files of UTF-16', 'save the file as UTF-8 without BOM')]
    nothing = nothing_said(line)
    if nothing:
        return [nothing]
    found = sign_findings(text)
    if len(line) > reference.LINE_LIMIT:
        found.append(wrong(f'the line has {shown(len(line))} bytes, more than '
                           f'{reference.LINE_LIMIT}', 'leave out zeros and spaces; an entry never '
                           'needs so many'))
    return found + (shape_findings(normal(text)) if len(line) <= LONGEST else [])


SECOND_FORM = re.compile(rf'\)\s*\(\s*(?:{"|".join(TEMPLATES)})\b')


def shape_findings(text: str) -> list[Finding]:
    shape = shape_of(text)
    if not shape.head:
        return [wrong('no word', f'write {listed_or(TEMPLATES)} behind the first (')]
    if SECOND_FORM.search(text):
        return [wrong('more than one form', 'write each on a line of its own')]
    word = shape.head[0]
    found = [] if word in FORMS else [wrong(f'unknown word: {quoted(word)}',
                                            perhaps(word, TEMPLATES))]
    close = near(word, TEMPLATES)
    return found + FORMS[close](shape) + gap_findings(text, shape.text) if close else found
