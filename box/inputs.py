"""Writes the inputs on which the firmware and the x86-64 program are compared, a file each.

    inputs.py FOLDER

They are document 01's listing, the example, the inputs made by hand of
tests/comparison/generate.py, with the edge cases of lines among them, lines of other lengths, 50
random inputs by seed, and a full ledger with a report.
"""

import sys
from pathlib import Path

ROOT = Path(__file__).resolve().parent.parent
sys.path.insert(0, str(ROOT))
from tests.comparison import generate  # noqa: E402

SEEDS = range(7_000, 7_050)
LINES = 300  # of a random input, so that many records stand
# With lines of all kinds. The others have heat, which adds to a report's work and is refused beside
# a carbon line.
CARBON_PLANTS = 2

# $ is a site, % the default loss that is open to the side.
SUPPLIES = ('(combined) (%)', '(captive $) (none)', '(either $) (%)', '(griddefault) (%)',
            '(captivedefault) (none)', '(combined) (loss 1234)', '(either $) (loss 777)',
            '(captive $) (none)')


def full_ledger() -> list[str]:
    """A grid of margins, 8 plants of 4 fuel lines on 4 sites, two of them of all kinds and six with
    heat, and 32 sources of 4 meters, two of them by a ratio, over all supplies and losses."""
    lines = ['(grid margins 1012400 612501 50 50 thermal)']
    for plant in range(8):
        kinds = ('(fuel {} 43013 74093)', '(mass {} 8593)', '(volume {} 991 8587)')
        quantities = [100_000 + 777 * plant + 31 * k for k in range(4)]
        fuels = [kinds[(plant + k) % 3 if plant < CARBON_PLANTS else 0].format(quantity)
                 for k, quantity in enumerate(quantities)]
        if plant >= CARBON_PLANTS:
            fuels.insert(0, f'(heat {5_000_000_007 + 1_000_003 * plant})')
        lines.append(f'(plant {plant} {plant % 4} {7_000_000 + 1_111 * plant} {" ".join(fuels)})')
    for source in range(32):
        side = ('project', 'leakage', 'baseline')[source % 3]
        supply = SUPPLIES[source % 8].replace('$', str(source // 8))
        supply = supply.replace('%', 'default3' if side == 'baseline' else 'default20')
        meters = (f'(whole + {17 * source} {80_000_000 + 98_765 * source})'
                  f' (single {40 + source} + 3f800000 42f6e979)'
                  f' (whole {2 + source} - 5 {1_000 + 3 * source})'
                  ' (single - 3f000000 41200000)')
        lines.append(f'(source {source} {side} {supply} {meters})')
    return lines


def lengths() -> bytes:
    """Lines that are no form, around the limit and far above it."""
    return b''.join(b'x' * length + b'\n(report)\n' for length in (255, 256, 257, 258, 1_000))


def inputs() -> dict[str, bytes]:
    found = {'listing': generate.listing(), 'example': (ROOT / 'examples/site.txt').read_bytes(),
             'full': generate.joined([*full_ledger(), '(report)']), 'lengths': lengths()}
    found |= {f'hand-{n}': data for n, data in enumerate(generate.boundary_inputs())}
    return found | {f'random-{seed}': generate.random_input(seed, LINES) for seed in SEEDS}


def main() -> int:
    folder = Path(sys.argv[1])
    folder.mkdir()
    for name, data in inputs().items():
        (folder / name).write_bytes(data)
    return 0


if __name__ == '__main__':
    sys.exit(main())
