"""A file explained as one HTML page, to show and to print: no script, no outside part."""

from pathlib import Path
from xml.etree.ElementTree import Element

from explanation.decimals import lines_named, shown, with_units
from explanation.elements import document, element
from explanation.history import GivenReport, History, RefusedLine, groups
from explanation.lines import visible
from explanation.picture import hatching, reduction_picture, side_picture
from explanation.rows import Row, SidePart
from explanation.sentences import (
    HOW_WE_KNOW, LEGEND, Block, checksum, file_words, findings_words, meant_words, missing_words,
    new_blocks, nothing_to_explain, outcome_words, question, reduction_title, reduction_words,
    relation, repeats_words, side_title, side_words, summary)

STYLE = Path(__file__).with_name('page.css').read_text(encoding='utf-8')
DECIMALS = 6  # in a table


def written(history: History) -> str:
    nothing = nothing_to_explain(history)
    if nothing:
        return page('Nothing to explain', [element('p', nothing)])
    parts = [small(summary(history))]
    whole_file = file_words(history.data)
    if whole_file:
        parts.append(element('p', whole_file, class_='look'))
    left = [line for line in history.refused if line.number not in history.mended]
    later = [line for line in history.refused if line.number in history.mended]
    parts += refused_lines('Refused lines', left, history.mended)
    seen: dict = {}
    parts += [report_section(report, seen) for report in history.reports]
    parts += refused_lines('Refused lines that were mended later', later, history.mended)
    if history.reports:
        parts.append(card('How we know', *(element('p', words) for words in HOW_WE_KNOW)))
    return page('Which total is true?' if history.reports else 'No report was given',
                [*parts, small(checksum(history))])


def page(title: str, parts: list[Element]) -> str:
    head = element('head', element('meta', charset='utf-8'),
                   element('meta', name='viewport', content='width=device-width'),
                   element('title', title), element('style', STYLE))
    body = element('body', hatching(), element('h1', title), *parts)
    return document(element('html', head, body, lang='en'))


def small(words: str) -> Element:
    return element('p', with_units(words), class_='small')


def card(title: str, *parts: Element) -> Element:
    return element('div', element('h2', title), *parts, class_='card')


# 1. Refused lines


def refused_lines(title: str, lines: list[RefusedLine], mended: dict[int, int]) -> list[Element]:
    if not lines:
        return []
    return [element('h2', title), *(refused(same, mended) for same in groups(lines))]


def refused(lines: list[RefusedLine], mended: dict[int, int]) -> Element:
    first, *others = lines
    numbers = lines_named([line.number for line in lines]).capitalize()
    parts = [element('p', f'{numbers}: {"each " if others else ""}', element('code', first.answer),
                     ', the first of them:' if others else ''),
             element('pre', visible(first.typed)),
             element('ul', *(element('li', words) for words in findings_words(first.findings)))]
    if first.meant and not others:
        parts += [element('p', meant_words(first)), element('pre', first.meant)]
    outcome = outcome_words(lines, mended)
    parts += [element('p', outcome)] if outcome else []
    return element('div', *parts, class_='look')


# 2. Reports


def report_section(report: GivenReport, seen: dict) -> Element:
    followed = report.followed
    asked, answered = question(followed)
    parts = [element('h2', f'The report of line {report.number}')]
    if report.repeats:
        return element('section', *parts, element('p', repeats_words(report)))
    missing = missing_words(report)
    if missing:
        parts.append(element('div', element('p', element('b', 'Look first')),
                             element('ul', *(element('li', words) for words in missing)),
                             class_='look'))
    parts.append(element('p', f'{with_units(asked)} ', element('b', with_units(answered)),
                         class_='question'))
    parts += [side_card(part) for part in followed.sides.values()]
    parts.append(card(reduction_title(followed.reduction), reduction_picture(followed),
                      small(reduction_words(followed))))
    blocks, before = new_blocks(seen, report)
    parts += [element('h2', 'Step by step'), small(LEGEND)] if blocks else []
    for block in blocks:
        parts += block_parts(block)
    parts += [small(before)] if before else []
    parts += [element('h3', 'As tally printed it'), element('pre', report.answer)]
    return element('section', *parts, class_='report')


def side_card(part: SidePart) -> Element:
    if not part.sources:
        return card(side_title(part))
    return card(side_title(part), element('p', relation(part), class_='question'),
                side_picture(part), small(side_words(part)))


def block_parts(block: Block) -> list[Element]:
    note = [small(block.note)] if block.note else []
    return [element('h3', block.title), *note, table(block.rows)]


HEAD = (('Step', ''), ('Exact', 'n'), ('In the report', 'n'), ('Leans', 'n'), ('Less than', 'n'),
        ('From', ''))


def table(rows: list[Row]) -> Element:
    head = element('tr', *(element('th', name, class_=style) for name, style in HEAD))
    return element('table', head, *(element(
        'tr', element('td', row.name, class_='first'),
        element('td', f'{shown(row.exact, DECIMALS)} {row.unit}', class_='n'),
        element('td', f'{shown(row.value)} {row.unit}', class_='n'),
        element('td', shown(row.lean, DECIMALS), class_='n'),
        element('td', shown(row.limit, DECIMALS), class_='n'),
        element('td', row.how, class_='how')) for row in rows))
