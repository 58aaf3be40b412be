"""Measures a firmware: its memory, the deepest stack by frames and calls, the cost of a run.

Where it meets what it does not know, as a recursion or a call through a register, it raises
Unexpected.
"""

import bisect
import re
import subprocess
from collections import Counter
from pathlib import Path
from typing import NamedTuple

import machine
from machine import Unexpected

HERTZ = 16_000_000
WORD = 4

# Cycles by ARM DDI 0432C, table 3-1, with no wait states and a multiplier of one cycle. The table
# leaves BKPT open, by which start.c calls the host: it counts as one.
CYCLES = {'b': 3, 'bl': 4, 'bx': 3, 'blx': 3, 'mrs': 4, 'msr': 4, 'isb': 4, 'dmb': 4, 'dsb': 4}
CYCLES |= dict.fromkeys('ldr ldrb ldrh ldrsb ldrsh str strb strh'.split(), 2)
CYCLES |= dict.fromkeys('adcs add adds ands asrs bics bkpt cmn cmp eors lsls lsrs mov movs muls '
                        'mvns negs nop orrs rev rev16 revsh rors rsbs sbcs sub subs sxtb sxth tst '
                        'uxtb uxth'.split(), 1)
MULTIPLE = {'ldmia', 'stmia', 'push', 'pop'}
CONDITIONAL = {f'b{suffix}' for suffix in 'eq ne cs cc mi pl vs vc hi ls ge lt gt le'.split()}


class Instruction(NamedTuple):
    name: str
    operands: str
    next: int  # the address after it

    def registers(self) -> list[str]:
        """Of a list in braces, which objdump writes out."""
        return re.findall(r'\w+', self.operands[self.operands.index('{'):])

    def target(self) -> int:
        return int(self.operands.split()[0], 16)

    def is_table_jump(self) -> bool:
        """A switch's: the module has no other jump to a place in a register (module.py)."""
        return self.name in ('mov', 'add') and self.operands.startswith('pc,')

    def returns(self) -> bool:
        """Or leaves by a place on the stack, as gcc's division by zero, for a handler without one."""
        return (self.name == 'bx' and self.operands == 'lr'
                or self.name == 'pop' and 'pc' in self.registers())

    def cycles(self, is_taken: bool) -> int:
        if self.name in MULTIPLE:  # 1 + N, or 4 + N with PC, which N counts too
            return len(self.registers()) + (4 if self.returns() else 1)
        if self.name in CONDITIONAL:
            return 3 if is_taken else 1
        if self.is_table_jump():
            return 3
        if self.name not in CYCLES:
            raise Unexpected(f'the table of cycles has no {self.name} {self.operands}')
        return CYCLES[self.name]


# 1. The code


def tool(name: str, *words: str | Path) -> str:
    return subprocess.run([f'arm-none-eabi-{name}', *words], stdout=subprocess.PIPE, text=True,
                          check=True).stdout


class Code:
    """A firmware's functions, instructions and the words of data among them, by address."""

    def __init__(self, elf: Path):
        self.elf = elf
        symbols = re.findall(r'^(\w+) (\w) (.+)$', tool('nm', '--defined-only', elf), re.MULTILINE)
        self.places = {name: int(place, 16) for place, _, name in symbols}
        self.names = {self.places[name]: name for _, kind, name in symbols if kind in 'tTW'}
        self.starts = sorted(self.names)
        self.instructions: dict[int, Instruction] = {}
        self.words: dict[int, int] = {}
        listing = tool('objdump', '-d', elf)
        for place, code, name, operands in re.findall(
                r'^ *(\w+):\t([0-9a-f ]+)\t(\S+)\t?(.*)$', listing, re.MULTILINE):
            at = int(place, 16)
            if name == '.word':
                self.words[at] = int(operands.split()[0], 16)
            elif not name.startswith('.'):
                after = at + len(code.replace(' ', '')) // 2
                self.instructions[at] = Instruction(name.removesuffix('.n'), operands, after)

    def function_at(self, address: int) -> int:
        """The start of the function that an address is in."""
        return self.starts[bisect.bisect_right(self.starts, address) - 1]

    def of_function(self, start: int) -> list[int]:
        """The addresses of its instructions, rising."""
        return sorted(at for at in self.instructions if self.function_at(at) == start)

    def start_of(self, name: str) -> int:
        if name not in self.places:
            raise Unexpected(f'the firmware has no function {name}')
        return self.places[name]

    def sizes(self) -> tuple[int, int]:
        """Bytes of flash and of static RAM."""
        text, data, bss = map(int, tool('size', self.elf).splitlines()[1].split()[:3])
        return text + data, data + bss

    def stack_size(self) -> int:
        return self.places['stack_top'] - self.places['stack_low']


# 2. The deepest stack


class Frames(NamedTuple):
    """The depth of a function's stack before each of its instructions, and at each of its calls."""
    depths: dict[int, int]
    calls: dict[int, int]


def pushed(code: Code, at: int) -> int:
    """By how much an instruction makes the stack deeper; below zero where it takes from it."""
    instruction = code.instructions[at]
    name, operands = instruction.name, instruction.operands
    if name in ('push', 'pop'):
        return WORD * len(instruction.registers()) * (1 if name == 'push' else -1)
    if name != 'msr' and not operands.startswith('sp,'):
        return 0
    constant = re.fullmatch(r'sp, (?:sp, )?#(\d+)(?:\s.*)?', operands)
    if constant and name in ('add', 'sub'):
        return int(constant[1]) * (1 if name == 'sub' else -1)
    register = re.fullmatch(r'sp, (?:sp, )?(r\d)', operands)
    if register and name == 'add':
        return -loaded(code, register[1], at)
    raise Unexpected(f'the stack pointer is set at {at:x}: {name} {operands}')


def loaded(code: Code, register: str, at: int) -> int:
    """What was loaded into a register, just before, from the words beside the code."""
    for before in (at - 2, at - 4):
        load = code.instructions.get(before)
        place = load and re.fullmatch(rf'{register}, \[pc, #\d+\]\s+@ \((\w+) .*\)', load.operands)
        if place and load.name == 'ldr':
            word = code.words[int(place[1], 16)]
            return word - 2**32 if word >= 2**31 else word
    raise Unexpected(f'a frame of unknown size at {at:x}')


def successors(code: Code, start: int, at: int) -> list[tuple[int, bool]]:
    """Where an instruction leads to, and whether as a call. A table's jump is left to `frames`."""
    instruction = code.instructions[at]
    name = instruction.name
    if instruction.returns() or instruction.is_table_jump() or name == 'udf':
        return []
    if name in ('bx', 'blx'):
        raise Unexpected(f'a call through a register, in {code.names[start]}: '
                         f'{name} {instruction.operands}')
    if name == 'b':
        return [(instruction.target(), False)]
    after = [(instruction.next, False)]
    if name == 'bl':
        target = instruction.target()
        if target not in code.names:  # within the function: a jump too far for a b
            return [(target, False)]
        does_return = code.function_at(instruction.next) == start
        return [(target, True), *(after if does_return else [])]
    return [(instruction.target(), False), *after] if name in CONDITIONAL else after


def walk(code: Code, start: int, begin: int, depth: int, found: Frames):
    """Follows every path from a place of a function, and notes the depths."""
    waiting = [(begin, depth)]
    while waiting:
        at, depth = waiting.pop()
        if at not in code.instructions:
            raise Unexpected(f'no instruction at {at:x}, in {code.names[start]}')
        if found.depths.setdefault(at, depth) != depth:
            raise Unexpected(f'two depths of the stack at {at:x}, in {code.names[start]}')
        depth += pushed(code, at)
        for place, is_call in successors(code, start, at):
            if is_call or code.function_at(place) != start:
                if place not in code.names:
                    raise Unexpected(f'a jump into another function at {at:x}')
                found.calls[place] = max(found.calls.get(place, 0), depth)
            elif found.depths.get(place) != depth:
                waiting.append((place, depth))


def frames(code: Code, start: int) -> Frames:
    """What no path leads to is reached by a table, and has the depth of the table's jump."""
    found = Frames({}, {})
    walk(code, start, start, 0, found)
    for at in code.of_function(start):
        if at not in found.depths and code.instructions[at].name != 'nop':
            for depth in jump_depths(code, found):
                walk(code, start, at, depth, found)
    if len(jump_depths(code, found)) > 1:
        raise Unexpected(f'jumps at several depths, in {code.names[start]}')
    return found


def jump_depths(code: Code, found: Frames) -> set[int]:
    return {depth for at, depth in found.depths.items() if code.instructions[at].is_table_jump()}


class Chain(NamedTuple):
    """The calls that take most stack, the outermost first, and how much they take."""
    size: int
    names: tuple[str, ...]


def deepest(code: Code, start: int, callers: tuple[int, ...] = (),
            known: dict[int, Chain] | None = None) -> Chain:
    known = {} if known is None else known
    if start in callers:
        raise Unexpected(f'a recursion: {", ".join(code.names[at] for at in (*callers, start))}')
    if start not in known:
        own = frames(code, start)
        chains = [Chain(max(own.depths.values()), ())]
        for place, depth in own.calls.items():
            below = deepest(code, place, (*callers, start), known)
            chains.append(Chain(depth + below.size, below.names))
        most = max(chains)
        known[start] = Chain(most.size, (code.names[start], *most.names))
    return known[start]


# 3. The cost of a run


class Cost(NamedTuple):
    instructions: int
    cycles: int

    def less(self, other: 'Cost') -> 'Cost':
        return Cost(self.instructions - other.instructions, self.cycles - other.cycles)

    def milliseconds(self) -> float:
        return 1000 * self.cycles / HERTZ


def cost(code: Code, ram: int, data: bytes) -> Cost:
    """Of a whole run, from reset to its last instruction but one."""
    steps = machine.steps(code.elf, ram, data)
    look_at_paint(code, steps)
    instructions = cycles = 0
    for (at, after), count in steps.items():
        instruction = code.instructions[at]
        instructions += count
        cycles += count * instruction.cycles(after != instruction.next)
    return Cost(instructions, cycles)


def look_at_paint(code: Code, steps: Counter[tuple[int, int]]):
    """A test of the trace: start.c paints each word of the stack below its own frame, once."""
    paint = code.start_of('paint')
    stores = [at for at in code.of_function(paint)
              if code.instructions[at].name in ('str', 'stmia')]
    painted = sum(count for (at, _), count in steps.items() if at in stores)
    words = (code.stack_size() - frames(code, code.start_of('reset')).calls[paint]) // WORD
    if painted != words:
        raise Unexpected(f'the trace has {painted:,} words painted, and not {words:,}')
