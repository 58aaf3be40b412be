"""Runs the examples of README.md and docs/MANUAL.md through ./tally.

    python3 -m tests.documents.examples

An example is a block of indented lines that begins with a form. Each form has its answer behind
two or more spaces, the further lines of a report's answer below it. Each block is a run of its own.
Prints what is wrong, and last `N passed, M failed`.
"""

import re
import subprocess
import sys
from pathlib import Path

ROOT = Path(__file__).resolve().parents[2]
DOCUMENTS = ('README.md', 'docs/MANUAL.md')
BLOCK = re.compile(r'^    \(.*\n(?:    .*\n)*', re.MULTILINE)
ROW = re.compile(r' {4}(\(.*?\)|) {2,}(\S.*)')


def wrong_in(block: str) -> str | None:
    rows = [ROW.fullmatch(line) for line in block.splitlines()]
    if None in rows:
        return 'a line has no answer'
    forms = ''.join(f'{row[1]}\n' for row in rows if row[1])
    answers = ''.join(f'{row[2]}\n' for row in rows)
    found = subprocess.run([ROOT / 'tally'], input=forms, capture_output=True, text=True,
                           check=True).stdout
    return None if found == answers else f'the answers are {found.splitlines()}'


def main() -> int:
    passed = failed = 0
    for name in DOCUMENTS:
        text = (ROOT / name).read_text(encoding='utf-8')
        for block in BLOCK.finditer(text):
            wrong = wrong_in(block[0])
            if wrong:
                print(f'{name}:{text.count(chr(10), 0, block.start()) + 1}: {wrong}')
            failed, passed = failed + bool(wrong), passed + (not wrong)
    print(f'{passed} passed, {failed} failed')
    return 1 if failed or not passed else 0


if __name__ == '__main__':
    sys.exit(main())
