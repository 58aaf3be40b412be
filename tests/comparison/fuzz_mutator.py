"""Changes an input by its lines, for AFL++, which itself changes inputs by their bytes.

AFL++ calls init first, fuzz for each input that it wants made, and deinit last.
"""

import random

from tests.comparison import generate

NUMBERS = (0, 1, *generate.WIDE, *(value for _, limit in generate.FIELDS
                                   for value in generate.around(limit)))
DECIMAL = rb'\b(?:0|[1-9][0-9]*)\b'
REGISTER = rb'\b[0-9a-f]{8}\b'

rng = random.Random()
maker = generate.Generator(0)  # of new lines
maker.out_of_range = 0.05


def init(seed: int):
    rng.seed(seed)
    maker.rng.seed(seed)


def deinit():
    """Nothing to do; AFL++ wants it there."""


def new_number(old: bytes) -> bytes:
    near = int(old) + rng.choice((-1, 1))
    return str(rng.choice((*NUMBERS, *[max(near, 0)] * 40))).encode()


def new_register(old: bytes) -> bytes:
    near = (int(old, 16) + rng.choice((-1, 1))) % 2**32
    return b'%08x' % rng.choice((near, maker.any_register()))


def new_line() -> bytes:
    maker.equal_energies = rng.random() < 0.5
    maker.last_source = rng.choice((5, 31))
    make = rng.choice((maker.grid, maker.plant, maker.source, maker.source, maker.drop))
    return make().encode()


def another_number(line: bytes) -> bytes:
    return generate.replaced(rng, line, DECIMAL, new_number)


def another_register(line: bytes) -> bytes:
    return generate.replaced(rng, line, REGISTER, new_register)


def damaged(line: bytes) -> bytes:
    return rng.choice(generate.DAMAGES)(rng, line) if line else line


def change(lines: list[bytes], others: list[bytes]):
    """One line changed, put in or taken away."""
    at = rng.randrange(len(lines))
    kind = rng.randrange(10)
    if kind < 5:
        edit = (another_number, another_number, another_number, another_register, damaged)[kind]
        lines[at] = edit(lines[at])
    elif kind < 9:
        lines.insert(at, (new_line(), b'(report)', rng.choice(lines), rng.choice(others))[kind - 5])
    else:
        del lines[at]


def fuzz(data: bytearray, other: bytearray, largest: int) -> bytearray:
    lines, others = bytes(data).split(b'\n'), bytes(other or b'').split(b'\n')
    for _ in range(rng.choice((1, 1, 2, 3, 6))):
        if lines:
            change(lines, others)
    # AFL++ stops at an input without bytes.
    return bytearray(b'\n'.join(lines)[:largest] or b'\n')
