"""A file walked line by line beside tally's answers: what was refused and why, and each report.

tally's output is compared with the reference's byte by byte before anything is explained.
`explained` raises Failed where the two differ, where a figure may not be shown, or where a refusal
has no words: then nothing is shown.
"""

import subprocess
import sys
import tempfile
from contextlib import suppress
from itertools import zip_longest
from pathlib import Path
from typing import NamedTuple

from explanation.decimals import lines_named
from explanation.forms import is_number, nothing_said
from explanation.lines import NO_FORM, Finding
from explanation.meant import meant, meant_shape
from explanation.refusals import NoWords, why
from explanation.rows import Followed, Unsafe, follow, standing
from tests.reference import reference
from tests.reference.reference import Ledger, Refused, Report

ROOT = Path(__file__).resolve().parents[1]


class Failed(Exception):
    """Nothing may be shown."""


class Subject(NamedTuple):
    """What a line is about."""

    kind: str  # grid, plant, source, or report
    number: int | None = None

    @property
    def name(self) -> str:
        return f'the {self.kind}' if self.number is None else f'{self.kind} {self.number}'


REPORT = Subject('report')


class RefusedLine(NamedTuple):
    number: int  # of the line, from 1
    typed: bytes
    answer: str
    findings: list[Finding]
    meant: str | None  # the line as perhaps meant
    meant_answer: str  # what that would be answered
    subject: Subject | None  # None: it cannot be told
    entered_at: int | None  # the line of the subject's entry that still counts


class GivenReport(NamedTuple):
    number: int
    answer: str
    followed: Followed
    entered_at: dict[Subject, int]  # the line of each entry that counts
    missing: list[str]  # what lines before it were to change, and did not
    repeats: int | None  # the line of a report of which all this is the same


class History(NamedTuple):
    data: bytes
    output: str
    accepted: int
    refused: list[RefusedLine]
    reports: list[GivenReport]
    mended: dict[int, int]  # a refused line -> the later one that was accepted in its place

    @property
    def lines(self) -> int:
        return self.accepted + len(self.refused) + len(self.reports)

    @property
    def too_long(self) -> bool:
        return len(self.data) > reference.INPUT_LIMIT


# 1. tally


def tell(words: str):
    """On standard error, where it is open."""
    with suppress(OSError, AttributeError):
        sys.stderr.write(words)
        sys.stderr.flush()


def tally(data: bytes) -> bytes:
    """What ./tally answers. What it says while it is built is passed on."""
    with tempfile.TemporaryFile() as given, tempfile.TemporaryFile() as answers:
        given.write(data)
        given.seek(0)
        try:
            process = subprocess.Popen([ROOT / 'tally'], stdin=given, stdout=answers,
                                       stderr=subprocess.PIPE)
        except OSError as error:
            raise Failed(f'./tally cannot be run: {error.strerror}') from error
        for words in process.stderr:
            tell(words.decode('utf-8', 'replace'))
        if process.wait() != 0:
            raise Failed(f'./tally ended with status {process.returncode}')
        answers.seek(0)
        return answers.read()


def difference(ours: bytes, theirs: bytes) -> str:
    for at, (one, other) in enumerate(zip_longest(ours.split(b'\n'), theirs.split(b'\n')), 1):
        if one != other:
            told, expected = ('no more' if text is None else f'"{text.decode("utf-8", "replace")}"'
                              for text in (one, other))
            return f'First in line {at} of the output: tally has {told}, the reference {expected}.'
    return ''


def explained(data: bytes, run=tally) -> History:
    output, expected = run(data), reference.tally(data)
    if output != expected:
        raise Failed('tally and the reference differ on this file: the figures of tally are the '
                     f'proved ones, and nothing is explained. {difference(output, expected)}')
    if len(data) > reference.INPUT_LIMIT:
        return History(data, output.decode(), 0, [], [], {})
    walker = Walker()
    for number, line in enumerate(reference.lines_of(data), 1):
        try:
            walker.walk(number, line)
        except (Unsafe, NoWords) as error:
            raise Failed(f'line {number}: {error}') from error
    return History(data, output.decode(), walker.accepted, walker.refused, walker.reports,
                   walker.mended)


# 2. The walk


class Intent(NamedTuple):
    """What a line was to do, as far as it can be told."""

    subject: Subject | None
    drops: bool


def intent_of(line: bytes) -> Intent:
    """Of a line that is perhaps no form."""
    head = meant_shape(line).head
    drops = head[:1] == ['drop']
    words = head[1:] if drops else head
    if head[:1] in (['grid'], ['report']):
        return Intent(Subject(head[0]), False)
    if words[:1] in (['plant'], ['source']) and len(words) > 1 and is_number(words[1]):
        return Intent(Subject(words[0], int(words[1])), drops)
    return Intent(None, drops)


class Walker:
    def __init__(self):
        self.ledger = Ledger()
        self.accepted = 0
        self.refused: list[RefusedLine] = []
        self.reports: list[GivenReport] = []
        self.mended: dict[int, int] = {}
        self.entered_at: dict[Subject, int] = {}
        self.gone: dict[Subject, str] = {}  # why nothing is entered
        # The refused lines about each subject that were not mended; None: it cannot be told.
        self.open: dict[Subject | None, list[int]] = {}

    def walk(self, number: int, line: bytes):
        answer = reference.perform(self.ledger, line)
        if isinstance(answer, Report):
            self.report(number, answer)
        elif answer is reference.OK:
            self.accept(number, intent_of(line))
        else:
            self.refuse(number, line, answer, intent_of(line))

    def report(self, number: int, given: Report):
        self.mend(REPORT, number)
        answer, missing = reference.answer_text(given).rstrip('\n'), self.missing()
        before = self.reports[-1] if self.reports else None
        if before and (before.answer, before.entered_at, before.missing) == (
                answer, self.entered_at, missing):
            self.reports.append(before._replace(number=number,
                                                repeats=before.repeats or before.number))
        else:
            self.reports.append(GivenReport(number, answer, follow(self.ledger, given),
                                            dict(self.entered_at), missing, None))

    def accept(self, number: int, intent: Intent):
        self.accepted += 1
        subject = intent.subject
        if subject is None:
            raise NoWords('accepted, and no words for what was entered')
        if intent.drops:
            del self.entered_at[subject]
            self.gone[subject] = f' (dropped on line {number})'
        else:
            self.entered_at[subject] = number
        self.mend(subject, number)

    def refuse(self, number: int, line: bytes, answer: int | Refused, intent: Intent):
        """The ledger is as it was before the line."""
        told = reference.answer_text(answer).rstrip('\n')
        findings = why(self.ledger, line, answer, self.told)
        subject = intent.subject
        if not nothing_said(line):
            self.open.setdefault(subject, []).append(number)
        if subject not in self.entered_at and not intent.drops:
            self.gone[subject] = f' (its entry on line {number} was {told})'
        perhaps = meant(line) if answer == NO_FORM else None
        self.refused.append(RefusedLine(
            number, line, told, findings, perhaps,
            first_answer(self.ledger, perhaps) if perhaps else '', subject,
            self.entered_at.get(subject)))

    def mend(self, subject: Subject | None, number: int):
        self.mended |= {line: number for line in self.open.pop(subject, [])}

    def told(self, kind: str, number: int | None) -> str:
        return self.gone.get(Subject(kind, number), '')

    def missing(self) -> list[str]:
        """What the refused lines so far were to change, as it counts now."""
        words = []
        for subject, lines in self.open.items():
            refused = f'{lines_named(lines)} {"was" if len(lines) == 1 else "were"} refused'
            if subject is None:
                words.append(f'{refused}, and it cannot be told what was to be entered')
            elif subject != REPORT:
                words.append(f'{refused}: {what_counts(subject, self.entered_at.get(subject))}')
        return words


def what_counts(subject: Subject, entered_at: int | None) -> str:
    """After a refused line about a subject."""
    if entered_at is None:
        return f'{subject.name} is not entered, and does not count'
    return f'{subject.name} still counts as entered on line {entered_at}'


def first_answer(ledger: Ledger, line: str) -> str:
    """What a line would be answered; the ledger stays as it is."""
    answer = reference.perform(standing(ledger), line.encode())
    return 'with a report' if isinstance(answer, Report) else reference.answer_text(answer).strip()


# 3. Refused lines together

TOGETHER = 3  # lines of the same fault, at least


def groups(lines: list[RefusedLine]) -> list[list[RefusedLine]]:
    """Lines of the same fault go together where there are several, in the order of the file."""
    alike: dict[tuple, list[RefusedLine]] = {}
    for line in lines:
        alike.setdefault((line.answer, tuple(line.findings)), []).append(line)
    made = []
    for same in alike.values():
        made += [same] if len(same) >= TOGETHER else [[line] for line in same]
    return sorted(made, key=lambda lines: lines[0].number)
