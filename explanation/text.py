"""A file explained as plain text, for a terminal or a mail."""

import textwrap

from explanation.decimals import KEPT_SPACE, lines_named, shown, with_units
from explanation.history import GivenReport, History, RefusedLine, groups
from explanation.lines import visible
from explanation.rows import Row, SidePart
from explanation.sentences import (
    HOW_WE_KNOW, LEGEND, Block, checksum, file_words, findings_words, meant_words, missing_words,
    new_blocks, nothing_to_explain, outcome_words, question, reduction_title, reduction_words,
    relation, repeats_words, side_title, side_words, summary)

WIDTH = 100



def wrapped(words: str, indent: int = 0, then: int | None = None) -> str:
    """With an indent, and another one of the lines after the first. A unit is not cut off."""
    return textwrap.fill(with_units(words), WIDTH, initial_indent=' ' * indent,
                         subsequent_indent=' ' * (indent if then is None else then),
                         break_long_words=False, break_on_hyphens=False).replace(KEPT_SPACE, ' ')


def written(history: History) -> str:
    nothing = nothing_to_explain(history)
    if nothing:
        return f'{wrapped(nothing)}\n'
    parts = [wrapped(words) for words in (summary(history), file_words(history.data)) if words]
    if history.refused:
        parts.append(heading('Refused lines'))
    parts += [refused(lines, history.mended) for lines in groups(history.refused)]
    seen: dict = {}
    for report in history.reports:
        parts.append(heading(f'The report of line {report.number}'))
        parts += reported(report, seen)
    if history.reports:
        parts += [heading('How we know'), *(wrapped(words) for words in HOW_WE_KNOW)]
    return '\n\n'.join([*parts, checksum(history)]) + '\n'


def heading(words: str) -> str:
    return f'{words}\n{"=" * len(words)}'


def refused(lines: list[RefusedLine], mended: dict[int, int]) -> str:
    first, *others = lines
    numbers = lines_named([line.number for line in lines]).capitalize()
    rows = [wrapped(f'{numbers}, the first of them:'), f'    {visible(first.typed)}',
            f'    each {first.answer}'] if others else [
                f'{numbers}   {visible(first.typed)}'.rstrip(), f'    {first.answer}']
    rows += [wrapped(f'- {words}', 4, 6) for words in findings_words(first.findings)]
    if first.meant and not others:
        rows += [wrapped(meant_words(first), 4), f'      {first.meant}']
    outcome = outcome_words(lines, mended)
    return '\n'.join([*rows, wrapped(outcome, 4)] if outcome else rows)


def reported(report: GivenReport, seen: dict) -> list[str]:
    followed = report.followed
    parts = ['\n'.join(f'    {row}' for row in report.answer.split('\n'))]
    if report.repeats:
        return [*parts, wrapped(repeats_words(report))]
    missing = missing_words(report)
    if missing:
        parts.append('\n'.join(['LOOK FIRST', *(wrapped(f'- {words}', 0, 2) for words in missing)]))
    parts.append('\n'.join(wrapped(words) for words in question(followed)))
    parts += [side(part) for part in followed.sides.values()]
    parts.append(f'{reduction_title(followed.reduction)}\n{wrapped(reduction_words(followed), 4)}')
    blocks, before = new_blocks(seen, report)
    if blocks:
        parts.append(wrapped(LEGEND))
    parts += [block_text(block) for block in blocks]
    return parts + ([wrapped(before)] if before else [])


def side(part: SidePart) -> str:
    if not part.sources:
        return side_title(part)
    rows = [side_title(part), f'    {relation(part)}']
    values = (('printed', part.printed.value), ('your sum', part.summed.value),
              ('exact', part.printed.exact))
    width = max(len(shown(value)) for _, value in values)
    rows += [f'    {name:10}{shown(value):>{width}} t' for name, value in values]
    return '\n'.join([*rows, wrapped(side_words(part), 4)])


def block_text(block: Block) -> str:
    note = [wrapped(block.note, 4)] if block.note else []
    return '\n'.join([block.title, *note, table(block.rows)])


def table(rows: list[Row]) -> str:
    """Below each row what it is worked out from."""
    cells = [('', 'exact', 'in the report', 'leans', 'less than')]
    cells += [(row.name, f'{shown(row.exact)} {row.unit}', f'{shown(row.value)} {row.unit}',
               shown(row.lean), shown(row.limit)) for row in rows]
    widths = [max(len(row[at]) for row in cells) for at in range(len(cells[0]))]
    lines = ['    ' + '  '.join([row[0].ljust(widths[0]), *(
        cell.rjust(width) for cell, width in zip(row[1:], widths[1:]))]) for row in cells]
    made = lines[:1]
    for line, row in zip(lines[1:], rows):
        made += [line, wrapped(row.how, 8, 10)]
    return '\n'.join(made)
