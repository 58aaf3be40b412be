"""Whether the documents can be read: a reader each, and a length.

    python3 -m tests.documents.form    README.md, docs/, box/README.md and tests/wrong/README.md

Each document names its reader in the first line below its title and has at most so many lines.
A paragraph, and an item of a list, has at most five lines of at most 120 characters, and a cell of
a table at most 200 characters. Blocks of code have any length. Above the titles of docs/PORT.md
and docs/DESIGN-PASS.md stand the names of commits.

Prints what is wrong, and last `N passed, M failed`.
"""

import re
import sys
from pathlib import Path

ROOT = Path(__file__).resolve().parents[2]

# The most lines of each, and of each note on a landing.
LINES = {'README.md': 95, 'docs/MANUAL.md': 240, 'docs/ANSWER.md': 130, 'docs/PROVED.md': 300,
         'docs/CODE.md': 90, 'docs/DECISIONS.md': 265, 'docs/MEASURED.md': 145,
         'docs/LANDINGS.md': 40, 'docs/PORT.md': 150, 'docs/DESIGN-PASS.md': 780, 'docs/LOOK-BACK.md': 150,
         'box/README.md': 135, 'tests/wrong/README.md': 110}
NOTE_LINES = 25
NOTES = 'docs/landings/'

WIDTH = 120
PARAGRAPH_LINES = 5
CELL = 200
COMMIT = re.compile(r'[0-9a-f]{40}')
READER = re.compile(r'For \w')  # as "For site managers: .."
ITEM = re.compile(r'\s*(?:[-*]|[0-9]+\.) ')
CELLS = re.compile(r'(?<!\\)\|')


def documents() -> dict[str, int]:
    notes = sorted((ROOT / NOTES).glob('*.md'))
    return LINES | {str(path.relative_to(ROOT)): NOTE_LINES for path in notes}


def blocks(text: str) -> list[list[tuple[int, str]]]:
    """Paragraphs, items of lists and tables, as their numbered lines; code and titles are left out."""
    found, code = [[]], False
    for number, line in enumerate(text.splitlines(), 1):
        if line.startswith('```'):
            code = not code
        if code or line.startswith(('#', '```', '    ')) or not line.strip():
            found.append([])
            continue
        if ITEM.match(line):
            found.append([])
        found[-1].append((number, line))
    return [block for block in found if block]


def too_long(block: list[tuple[int, str]]) -> list[str]:
    if block[0][1].startswith('|'):
        return [f'{number}: a cell of {len(cell.strip())} characters'
                for number, line in block for cell in CELLS.split(line) if len(cell.strip()) > CELL]
    wrong = [f'{number}: {len(line)} characters' for number, line in block if len(line) > WIDTH]
    if len(block) > PARAGRAPH_LINES:
        wrong.append(f'{block[0][0]}: a paragraph of {len(block)} lines')
    return wrong


def wrong_in(text: str, most: int) -> list[str]:
    lines = text.splitlines()
    wrong = []
    if len(lines) > most:
        wrong.append(f'{len(lines)}: lines, of at most {most}')
    below = [line for line in lines if line.strip() and not COMMIT.fullmatch(line)]
    if not below or not below[0].startswith('# '):
        wrong.append('1: no title')
    if not READER.match(next(iter(below[1:]), '')):
        wrong.append('2: no reader')
    return wrong + [each for block in blocks(text) for each in too_long(block)]


def main() -> int:
    checked, failed = documents(), 0
    for name, most in checked.items():
        path = ROOT / name
        wrong = wrong_in(path.read_text(encoding='utf-8'), most) if path.exists() else ['1: is missing']
        for each in wrong:
            print(f'{name}:{each}')
        failed += bool(wrong)
    others = {str(path.relative_to(ROOT)) for path in (ROOT / 'docs').rglob('*.md')} - checked.keys()
    for name in sorted(others):
        print(f'{name}: has no length here')
    failed += len(others)
    print(f'{len(checked) - failed} passed, {failed} failed')
    return 1 if failed else 0


if __name__ == '__main__':
    sys.exit(main())
