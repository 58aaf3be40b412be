"""Looks up each name that the documents cite: what they say is proved or refused has to exist.

    python3 -m tests.documents.names    README.md, docs/, box/README.md and tests/wrong/README.md; of docs/ not
                                        PORT.md and DESIGN-PASS.md, which cite what is gone

A name is a word in `code` quotes. What looks like a path is a file or a folder, a must-fail edit
(CRATE/LABEL) or a file of definitions or laws (CRATE/specs/FILE); any other name has to stand in
the code, the definitions, the laws or the firmware and its test, comments left out, or to be an
edit's. A note on a landing may also cite what docs/DESIGN-PASS.md says is gone. Words of the text form, commands and formulas are passed over: they are one letter or have
a space, a bracket or another sign that no name has.

The tables of docs/PROVED.md and tests/wrong/README.md name edits with marks: (t) for one of
tests/wrong, (d) for one of a definition, (c) for one of a contract. Each edit has to be where and
what its marks say, and each edit that there is has to be named in a row of its crate.

Prints what is wrong, and last `N passed, M failed`.
"""

import re
import sys
from pathlib import Path

ROOT = Path(__file__).resolve().parents[2]
WRONG = ROOT / 'tests/wrong/README.md'
DESIGN = ROOT / 'docs/DESIGN-PASS.md'  # names what is gone, which the notes of before may cite
NOTES = ROOT / 'docs/landings'
OF_BEFORE = {ROOT / 'docs/PORT.md', DESIGN}
PAGES = [path for path in sorted((ROOT / 'docs').rglob('*.md')) if path not in OF_BEFORE]
DOCUMENTS = [ROOT / 'README.md', *PAGES, ROOT / 'box/README.md', WRONG]
CODED = re.compile(r'`([^`\n]+)`')
NAME = re.compile(r"[A-Za-z_][\w'ᵣ·-]+(?:(?:::|\.|/)[A-Za-z_*][\w'*-]*)*(?:\.\.)?")
# The rows of the tables that name edits.
EDIT_TABLES = re.compile(r'^\| (?:Worthless build|Slip|Contract) \|.*\n\|[-|]+\n((?:\|.*\|\n)+)', re.MULTILINE)
MARKED = re.compile(r'`((?:\w+/)?[a-z_0-9]+)`((?: \([tdc]\))*)')

# Words of the text form, of formulas and of the toolchain, which nothing declares.
WORDS = {'ok', 'refused', 'damaged', 'project', 'leakage', 'baseline', 'thermal', 'hydro', 'rt', 'io', 'libc', 'extern',
         'requires', 'ensures', 'usize', 'isize', 'Box', 'Vec', 'code', 'python3', 'valgrind', 'qemu-system-arm',
         'gcc-arm-none-eabi'}

# What begins a comment, by the ending of a file.
COMMENTS = {'.rt': '//', '.antt': '--', '.c': '//', '.py': '#'}


def edits() -> dict[str, Path]:
    """The edits by CRATE/LABEL; those of tests/wrong after a (t)."""
    gate = {f'{path.parts[-3]}/{path.stem}': path for path in ROOT.glob('crates/*/must-fail/*.edit')}
    beside = {f'(t){path.parts[-2]}/{path.stem}': path for path in ROOT.glob('tests/wrong/*/*.edit')}
    return gate | beside


def words() -> set[str]:
    """Each word that stands in the code, the definitions, the laws or the firmware, comments left out."""
    found = {path.name for path in (ROOT / 'crates').iterdir()}
    for path in [*(ROOT / 'crates').rglob('*'), *(ROOT / 'box').iterdir()]:
        comment = COMMENTS.get(path.suffix)
        if comment is None:
            continue
        for line in path.read_text(encoding='utf-8').split('\n'):
            found |= set(re.findall(r"[A-Za-z_][\w'ᵣ·-]*", line.split(comment)[0]))
    return found


def stands(name: str, known: set[str], labels: set[str]) -> bool:
    places = (ROOT / name, ROOT / 'box' / name, ROOT / 'explanation' / name, ROOT / 'crates' / name,
              ROOT / 'crates' / f'{name}.antt', *(folder / name for folder in (ROOT / 'tests').iterdir()))
    if any(place.exists() for place in places) or name in labels:
        return True
    if name.endswith('..'):
        return any(word.startswith(name[:-2]) for word in known)
    return '/' not in name and all(part in known for part in re.split(r'::|\.', name))


def missing_names(made: dict[str, Path]) -> tuple[int, list[str]]:
    known = words()
    labels = {*made, *(path.stem for path in made.values())}
    gone = set(CODED.findall(DESIGN.read_text(encoding='utf-8')))
    looked_up, wrong = 0, []
    for document in DOCUMENTS:
        cited = set(CODED.findall(document.read_text(encoding='utf-8'))) - WORDS
        if document.parent == NOTES:
            cited -= gone
        for name in sorted(name for name in cited if NAME.fullmatch(name)):
            looked_up += 1
            if not stands(name, known, labels):
                wrong.append(f'{document.relative_to(ROOT)}: `{name}` is nowhere')
    return looked_up, wrong


def marks_of(path: Path) -> set[str]:
    """What an edit is of: a definition, a contract, or the code, which has no mark."""
    text = path.read_text(encoding='utf-8')
    if text.startswith('file: specs/'):
        return {'d'}
    return {'c'} if re.search(r'^old: *ensures', text, re.MULTILINE) else set()


def named_edits() -> list[tuple[str, str, set[str]]]:
    """Crate, label and marks of each edit that a table names."""
    tables = [table for path in (ROOT / 'docs/PROVED.md', WRONG)
              for table in EDIT_TABLES.findall(path.read_text(encoding='utf-8'))]
    named = []
    for row in ''.join(tables).splitlines():
        first, *_, last = row.strip('| ').split(' | ')
        crate = re.match(r'\w+', first).group()
        for name, marks in MARKED.findall(last):
            of, label = name.split('/') if '/' in name else (crate, name)
            named.append((of, label, set(re.findall(r'[tdc]', marks))))
    return named


def wrong_edits(made: dict[str, Path]) -> tuple[int, list[str]]:
    wrong, met = [], set()
    named = named_edits()
    for crate, label, marks in named:
        key = f'{"(t)" if "t" in marks else ""}{crate}/{label}'
        met.add(key)
        if key not in made:
            wrong.append(f'there is no edit {key}')
        elif marks_of(made[key]) != marks - {'t'}:
            wrong.append(f'{key} is marked {sorted(marks - {"t"})}')
    wrong += [f'no table names the edit {key}' for key in sorted(made.keys() - met)]
    return len(named) + len(made), wrong


def main() -> int:
    made = edits()
    looked_up, wrong = missing_names(made)
    compared, unlike = wrong_edits(made)
    for what in wrong + unlike:
        print(what)
    failed = len(wrong + unlike)
    print(f'{looked_up + compared - failed} passed, {failed} failed')
    return 1 if failed or not looked_up or not compared else 0


if __name__ == '__main__':
    sys.exit(main())
