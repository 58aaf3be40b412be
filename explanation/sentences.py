"""What ./explain says, once for the text and for the page."""

import hashlib
from fractions import Fraction
from typing import NamedTuple

from explanation import steps
from explanation.decimals import MILLION, counted, lines_named, listed, ranges, shown
from explanation.history import REPORT, GivenReport, History, RefusedLine, Subject, what_counts
from explanation.lines import Finding
from explanation.rows import Followed, Row, SidePart, SitePart, SourcePart, rounding
from tests.reference import reference
from tests.reference.reference import DEFAULT_SUPPLIES, GRID_SUPPLIES, Ledger, Source, rounds_up

TONNE_DECIMALS = 6  # of a value in tonnes: grams
GRAM_DECIMALS = 3
MOST_ADDED = 8  # sources of a side whose grams are shown one by one


def sentence(*parts: str) -> str:
    """Each part that says something, begun with a capital and ended with a point."""
    return ' '.join(f'{part[0].upper()}{part[1:]}.' for part in parts if part)


def tonnes(value) -> str:
    return f'{shown(value, TONNE_DECIMALS)} t'


def grams(value) -> str:
    """Of a value in tonnes."""
    return f'{shown(value * MILLION, GRAM_DECIMALS)} g'


# 1. The file


def nothing_to_explain(history: History) -> str:
    """'' where there is something."""
    if history.too_long:
        return sentence(
            f'the file has more than {shown(reference.INPUT_LIMIT)} bytes, and tally answered '
            f'{history.output.strip()} to all of it',
            'leave out lines that later ones replace, or use ./panel, which reads any number of '
            'lines')
    return '' if history.lines else sentence('the file is empty: there is nothing to answer')


def summary(history: History) -> str:
    reports = len(history.reports)
    words = sentence(f'{counted(history.lines, "line")}: {shown(history.accepted)} accepted, '
                     f'{shown(len(history.refused))} refused, {counted(reports, "report")} given')
    if reports:
        return f'{words} ' + sentence('every figure that tally printed was worked out a second '
                                      'time, and is the same')
    if file_words(history.data):
        return words
    asked = any(line.subject == REPORT for line in history.refused)
    return f'{words} ' + sentence('no report was given: each one asked for was refused' if asked
                                  else 'no line asks for a report, (report)')


def file_words(data: bytes) -> str:
    """What is wrong with the whole file, where one cause explains its lines."""
    if data[:2] in (b'\xff\xfe', b'\xfe\xff') or data[1:2] == b'\0':
        return sentence('the file is UTF-16, as some Windows programs write it',
                        'no line of it can be read: save it as UTF-8 without BOM')
    if b'\r' in data and b'\n' not in data:
        return sentence('the lines end with CR alone, so that the file is one line',
                        'save it with LF line ends')
    return ''


def checksum(history: History) -> str:
    return (f'Input: {counted(len(history.data), "byte")}, '
            f'SHA-256 {hashlib.sha256(history.data).hexdigest()}')


# 2. Refused lines

MOST_FINDINGS = 6  # that are shown of a line


def findings_words(findings: list[Finding]) -> list[str]:
    words = [sentence(finding.what, finding.do) for finding in findings[:MOST_FINDINGS]]
    more = len(findings) - len(words)
    return [*words, sentence(f'and {counted(more, "fault")} more')] if more else words


def meant_words(line: RefusedLine) -> str:
    return f'Perhaps meant; it would be answered {line.meant_answer}. Look at it before you use it:'


def outcome_words(lines: list[RefusedLine], mended: dict[int, int]) -> str:
    """What counts after a refused line, or after each of several."""
    if len(lines) > 1:
        return several_outcomes(lines, mended)
    line, = lines
    later = mended.get(line.number)
    if line.subject == REPORT:
        return sentence(f'the report of line {later} was given' if later else '')
    return sentence(f'so {what_counts(line.subject, line.entered_at)}' if line.subject else '',
                    f'line {later} was accepted in its place' if later else '')


def several_outcomes(lines: list[RefusedLine], mended: dict[int, int]) -> str:
    """A subject is named once, by the last of its lines."""
    last = {line.subject: line.entered_at for line in lines if line.subject not in (None, REPORT)}
    missing = [subject.name for subject, entered_at in last.items() if entered_at is None]
    older = [f'{subject.name} as on line {entered_at}' for subject, entered_at in last.items()
             if entered_at is not None]
    later = [line.number for line in lines if line.number in mended]
    return sentence(f'so these are not entered: {listed(missing)}' if missing else '',
                    f'these still count as entered before: {listed(older)}' if older else '',
                    f'mended later: {lines_named(later)}' if later else '')


# 3. A report


def repeats_words(report: GivenReport) -> str:
    return sentence(f'it is the report of line {report.repeats} again: nothing was entered or '
                    'dropped between')


def question(followed: Followed) -> tuple[str, str]:
    """The manager's question with her figures, and its answer: of the first side on which her sum
    and the printed total differ."""
    if not followed.sources:
        return 'No source is entered.', 'So every figure is 0.'
    for part in followed.sides.values():
        if part.summed.value != part.printed.value:
            more, beyond = ('less', 'below') if part.up else ('more', 'above')
            return (f'You add up the {part.side} sources and get {tonnes(part.summed.value)}, '
                    f'{more} than the printed {tonnes(part.printed.value)}: which is true?',
                    f'Both are safe: the exact value is {tonnes(part.printed.exact)}, and neither '
                    f'is {beyond} it. The printed total counts.')
    return ('You add up the sources of a side, and get the printed total.',
            'The sums are whole tonnes: nothing was rounded there.')


def missing_words(report: GivenReport) -> list[str]:
    """What to look at before the figures are used."""
    return [sentence(words) for words in report.missing]


def relation(part: SidePart) -> str:
    def sign(one, other) -> str:
        return '=' if one == other else '≤'
    exact, summed, printed = part.printed.exact, part.summed.value, part.printed.value
    if part.up:
        return f'exact {sign(exact, summed)} your sum {sign(summed, printed)} printed'
    return f'printed {sign(printed, summed)} your sum {sign(summed, exact)} exact'


def side_title(part: SidePart) -> str:
    if not part.sources:
        return f'{part.side.capitalize()}: 0 t, as no source is entered'
    return f'{part.side.capitalize()}: {tonnes(part.printed.value)} printed, {rounding(part.up)}'


def side_words(part: SidePart) -> str:
    """How her sum comes about, how far both lean, and what is not the rule."""
    numbers = [each.number for each in part.sources]
    added = (part.summed.how if len(numbers) <= MOST_ADDED
             else f'{shown(part.summed.value * MILLION)} g')
    words = sentence(
        f'your sum, of source{"s" * (len(numbers) > 1)} {ranges(numbers)}: {added} = '
        f'{tonnes(part.summed.value)}',
        f'it leans {grams(part.summed.lean)} to the safe side (proved: less than '
        f'{grams(part.summed.limit)}), the printed total {tonnes(part.printed.lean)} (proved: '
        f'less than {tonnes(part.printed.limit)})')
    if part.tonnes_first != part.printed.value:
        words += ' ' + sentence(f'tonnes rounded source by source would give '
                                f'{tonnes(part.tonnes_first)}, which is not the rule')
    return words


def reduction_title(row: Row) -> str:
    return f'Reduction: {tonnes(row.value)}'


def reduction_words(followed: Followed) -> str:
    row = followed.reduction
    saved = ('no tonne is claimed that was not saved' if row.value >= 0 else
             'it is below zero: project and leakage emit more than the baseline')
    return sentence(
        f'{row.how} = {tonnes(row.value)}, from the printed tonnes',
        f'from your sums it is {tonnes(followed.summed_reduction)}, exactly {tonnes(row.exact)}',
        f'it leans {tonnes(row.lean)} to the safe side (proved: less than {tonnes(row.limit)})',
        saved)


# 4. Why this loss and this factor


def loss_words(ledger: Ledger, source: Source, T: int) -> str:
    name, percent = source.loss.name, f'{shown(Fraction(T, 100))} percent'
    if name == 'none':
        return 'electricity of captive plants carries no loss'
    if name == 'loss':
        return f'the loss is {percent}, as measured'
    if rounds_up(source.side) == {'default20': True, 'default3': False}[name]:
        return f'the loss is {percent} by default'
    sums = reference.totals_over(ledger, GRID_SUPPLIES)
    return (f'the loss is {percent} by default, open to {source.side} because '
            + more_words(sums, "'"))


def choice_words(ledger: Ledger, part: SourcePart) -> str:
    """Why F is this one, where there was a choice."""
    source, F, up = part.source, shown(part.figure.factor), rounds_up(part.source.side)
    if source.supply.name == 'captivedefault':
        return f'F is {F} for {"project and leakage" if up else "baseline"} by default'
    if source.supply.name == 'griddefault':
        return f'{default_words(ledger)}, so that F is {F}'
    if source.supply.name != 'either':
        return ''
    site = source.supply.site
    combined = shown(reference.combined_factor(ledger.grid, up))
    captive = shown(reference.captive_factor(ledger, site, up))
    taken = f'site {site}' if part.figure.option == 'captive' else 'combined'
    return (f'of combined, {combined}, and site {site}, {captive}, the '
            f'{"greater" if up else "smaller"} is F: {taken}')


def more_words(sums: reference.Totals, prime: str = '') -> str:
    """Which of P and B, or of P' and B', is the greater."""
    P, B = f'P{prime} = {shown(sums.project)} Wh', f'B{prime} = {shown(sums.baseline)} Wh'
    if sums.project > sums.baseline:
        return f'project and leakage use more grid electricity, {P}, than the baseline, {B}'
    return f'the baseline uses more grid electricity, {B}, than project and leakage, {P}'


def default_words(ledger: Ledger) -> str:
    """By which condition a default of the grid is open."""
    sums = reference.totals_over(ledger, DEFAULT_SUPPLIES)
    if sums.baseline_sources == 0:
        return 'no baseline source uses (combined) or (griddefault)'
    if sums.project > sums.baseline:
        return more_words(sums)
    mark = f'the grid is marked {ledger.grid.mark}'
    if sums.project_sources == 0:
        return f'no project or leakage source uses (combined) or (griddefault), and {mark}'
    return f'{more_words(sums)}, and {mark}'


# 5. Step by step


class Block(NamedTuple):
    """A site or a source with its rows."""

    name: str
    title: str
    note: str
    rows: list[Row]


LEGEND = ('"Exact" is rounded nowhere. "Leans" is how far the figure in the report is off to the '
          'safe side: 0 is exact, below 0 would be unsafe. "Less than" is its proved limit. ".." '
          'stands for further decimals.')


def site_block(ledger: Ledger, part: SitePart) -> Block:
    sides = 'project and leakage' if part.up else 'baseline'
    heated = [str(number) for number, plant in sorted(ledger.plants.items())
              if plant.site == part.site and plant.gives_heat]
    note = (f'plant{"s" * (len(heated) > 1)} {listed(heated)} also made heat: '
            + ('nothing is taken off for it on this side' if part.up
               else 'the fuel for it is taken off')) if heated else ''
    return Block(f'site {part.site}', f'Site {part.site}, {rounding(part.up)} for {sides}',
                 sentence(note), part.rows)


def source_block(report: GivenReport, part: SourcePart) -> Block:
    ledger, source = report.followed.ledger, part.source
    line = report.entered_at[Subject('source', part.number)]
    supply = ' '.join(str(word) for word in source.supply if word is not None)
    return Block(f'source {part.number}', f'Source {part.number}: {source.side}, {supply}',
                 sentence(f'line {line}', loss_words(ledger, source, part.figure.loss),
                          choice_words(ledger, part)), part.rows)


def new_blocks(seen: dict[str, tuple[Block, int]], report: GivenReport) -> tuple[list[Block], str]:
    """Those that an earlier report did not have so, and words on those that it had. `seen` has
    each as it was shown last, by its title, with the report's line."""
    followed = report.followed
    blocks = [site_block(followed.ledger, part) for part in followed.sites]
    blocks += [source_block(report, part) for part in followed.sources.values()]
    new, before = [], {}
    for block in blocks:
        shown_block, line = seen.get(block.title, (None, 0))
        if shown_block == block:
            before.setdefault(line, []).append(block.name)
        else:
            seen[block.title] = block, report.number
            new.append(block)
    return new, sentence(*(f'as in the report of line {line}: {listed(dict.fromkeys(names))}'
                           for line, names in before.items()))


# 6. How we know

HOW_WE_KNOW = (
    'Every step is rounded to the safe side, and a machine has checked a proof of it for every '
    'list of entries that can be typed: each source, each side and the reduction stand on the safe '
    f'side, by less than their limits (the law {steps.ALL_REPORTS}). docs/ANSWER.md and '
    'docs/PROVED.md say more.',
    'The printed figures are those of the proved program. The exact values, and the steps between, '
    'are worked out by a second program with fractions. What both print was compared, and every '
    'step was found on the safe side and within its limit, before this was written.',
    'A wrong reading gives a wrong figure, safely rounded: nothing is said of the meters '
    'themselves.')
