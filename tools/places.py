"""Places of an older form of Rattle in src/, by the points of docs/DESIGN-PASS.md.

    python3 tools/places.py [FOLDER]    of the repository, or of another checkout of it

Prints a line for each kind of place with its number, and below it the places. A pattern finds some places that are
none, and no pattern finds all twins: the page says which are which.
"""

import re
import sys
from collections import Counter
from pathlib import Path

ENUM = re.compile(r'^(?:pub )?enum (\w+)[^{]*\{(.*?)^\}', re.MULTILINE | re.DOTALL)
EMPTY = re.compile(r'^ *(Refused|Missing|Absent|Damaged|Nothing|No\w+|TooLarge|TooShort|Beyond|End|NoForm)\b', re.MULTILINE)
LINES = {
    '1 flags beside a value': r'^ *(pub )?(\w+): bool,$',
    '1 values beside an answer': r'struct \w+Kept\b',
    '1 numbers of refusals': r'(Refused|RefusedAt|refused)\(\w*[(]?[0-9]+|Refused(At)?\(u8',
    '1 numbers that say "none"': r'len\(\) \+ 1;|^ *16$|Ok\(u64::MAX\)|=> 0,$',
    '3 loops that count by hand': r'^ *while ',
    '4 comparisons and conversions by match': r'=> (true|false),$',
    '4 numbers cut to a field by hand': r'at_most\(number',
    '5 a text or buffer and a place in it': r'fn .*\b\w+: &(mut )?\[u8\], (at|i|from|place): usize',
    '6 an array and how much of it counts': r'fn .*\[\w+(; [\w:]+)?\], count: |fn .*buffer: &\[u8\], count: ',
    '7 a choice of the step to run': r'match (kind|field\(line, 0\)|read_kind\(.*\)\?) \{',
}


def sources(root: Path) -> list[tuple[str, str]]:
    return [(str(path.relative_to(root)), path.read_text()) for path in sorted(root.glob('crates/*/src/*.rt'))]


def told(title: str, places: list[str]) -> None:
    print(f'{len(places):4} {title}')
    for place in places:
        print(f'       {place}')


def main() -> None:
    root = Path(sys.argv[1]) if len(sys.argv) > 1 else Path(__file__).resolve().parent.parent
    files = sources(root)
    told('1 enums with a case that holds nothing, or a refusal',
         [f'{name}: {found[1]}' for name, text in files for found in ENUM.finditer(text) if EMPTY.search(found[2])])
    for title, pattern in LINES.items():
        told(title, [f'{name}:{number}: {line.strip()}' for name, text in files
                     for number, line in enumerate(text.splitlines(), 1)
                     if re.search(pattern, line) and not line.strip().startswith('//')])
    facts = Counter(fact.strip() for _, text in files for clause in re.findall(r'(?:requires|ensures) \w*\s*\{(.*)\}', text)
                    for fact in re.split(r' × |≡ \(', clause) if '≡ true' in fact or '≤' in fact or 'Within' in fact)
    told('5 facts in three or more contracts', [f'{n} times {fact}' for fact, n in facts.items() if n > 2])
    answers = sorted(root.glob('crates/*/proofs/**/Answers.antt'))
    goals = sum(len(re.findall(r'^pub [\w+-]+ : goal\.', path.read_text(), re.MULTILINE)) for path in answers)
    told(f'8 goals with an answer, in {len(answers)} files', [])
    print(f'{goals:4} 8 answers')


if __name__ == '__main__':
    main()
