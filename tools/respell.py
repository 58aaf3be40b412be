#!/usr/bin/env python3
"""Respells this repository's own definitions and lemmas: words in snake case, `lossFor` as `loss_for`.

usage: python3 tools/respell.py      once, at the top of a tree that the kit's port.py has turned

Types, modules and facts keep their capitals, and names of the sources (functions, fields, variants) are not touched:
in a .rt file only clauses and `ghost use` lines are read. With --list it prints what it would rename, and what falls together.
"""
import glob
import os
import re
import sys

# Lemmas that port.py had already brought to the name that a definition gets here: they take the guide's ending.
LEMMAS = {name: name + "_lem" for name in ("no_line", "no_source", "on_read", "one_more")}
WORD = re.compile(r"(?<![\w'◌-])[a-z][\w'-]*(?![\w'◌-])")
DEFINED = re.compile(r"^\s*(?:unfoldable |abbrev |pub |data |record )*([^\s:(){}]+)(?:\s+[({].*)?\s+:(?:\s|$)")
CAMEL = re.compile(r"[a-z0-9][A-Z]")
CLAUSE = re.compile(r"\b(?:requires|ensures)\b\*?(?:\s+\w+)?\s*\{|ghost use [^;]*;|\bghost \w+: \{")


def snake(name):
    return re.sub(r"(?<=[a-z0-9])([A-Z])", lambda m: "_" + m.group(1).lower(), name)


def antt_files():
    for pattern in ("crates/*/specs/**/*.antt", "crates/*/proofs/**/*.antt"):
        yield from sorted(glob.glob(pattern, recursive=True))


def read(path):
    with open(path, encoding="utf-8") as f:
        return f.read()


def defined():
    names = set()
    for path in antt_files():
        for line in read(path).split("\n"):
            m = DEFINED.match(line)
            if m and CAMEL.search(m.group(1)) and m.group(1)[0].islower():
                names.add(m.group(1))
    return names


def spans(text):
    """The clauses and ghost imports of a .rt file."""
    found, at = [], 0
    while m := CLAUSE.search(text, at):
        end = m.end()
        if not m.group().endswith(";"):
            depth = 1
            while depth:
                depth += {"{": 1, "}": -1}.get(text[end], 0)
                end += 1
        found.append((m.start(), end))
        at = end
    return found


def respelled(text, names):
    return WORD.sub(lambda m: snake(m.group()) if m.group() in names else LEMMAS.get(m.group(), m.group()), text)


def in_clauses(text, names):
    parts, at = [], 0
    for start, end in spans(text):
        parts += [text[at:start], respelled(text[start:end], names)]
        at = end
    return "".join(parts) + text[at:]


def in_edit(text, names):
    return text if re.match(r"file: src/", text) else respelled(text, names)


def in_page(text, names):
    """In a page a name stands between backticks."""
    return re.sub(r"`[^`\n]+`", lambda m: respelled(m.group(), names), text)


def turns():
    for path in antt_files():
        yield path, respelled
    for path in sorted(glob.glob("crates/*/src/**/*.rt", recursive=True)):
        yield path, in_clauses
    for path in sorted(glob.glob("crates/*/must-fail/*.edit") + glob.glob("tests/wrong/*/*.edit")):
        yield path, in_edit
    for path in sorted(glob.glob("**/*.md", recursive=True)):
        yield path, in_page


def main(argv):
    names = defined()
    if argv == ["--list"]:
        for n in sorted(names):
            print(n, snake(n))
        return
    changed = 0
    for path, turn in list(turns()):
        old = read(path)
        new = turn(old, names)
        if new != old:
            with open(path, "w", encoding="utf-8") as f:
                f.write(new)
            changed += 1
    print(f"respell: {len(names)} names, {changed} files")


if __name__ == "__main__":
    main(sys.argv[1:])
