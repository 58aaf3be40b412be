"""Shows that box/test can fail: each slip below has to be caught, and as what it is.

    self_test.py FOLDER LEVEL RAM    FOLDER has module/ and inputs/, as box/test leaves them

Prints what was caught, and last `N passed, M failed`; fails if M is not 0.
"""

import os
import re
import shutil
import subprocess
import sys
import textwrap
from pathlib import Path

import machine
import measure
import module

BOX = Path(__file__).resolve().parent
FEW = re.compile(r'listing|example|full|random-700[0-2]')  # inputs
PEERS = ('gcc', 'clang')

# The default loss, the function of its rule, and the slip.
LOSS, RULE, SLIP = ' i16 2000,', '@"emissions::Loss::judged"(', ' i16 2001,'
# The same in the plain C. RAM that is too small for it.
LOSS_IN_C, SLIP_IN_C, LITTLE_RAM = '*loss = 2000;', '*loss = 2001;', 2_048
# In the proved division, what is done for a million, by which crates/text does not call it; a slip.
SIXTEENTH, EIGHTH = ' = udiv i64 %a0, 16\n', ' = udiv i64 %a0, 8\n'

# Scripts in place of QEMU: what they do, and how it is caught. PANEL is the x86-64 program.
MARK = "echo 'stack 00000800 of 00001000' >&2"
EMULATORS = (
    ('prints nothing', 'exit 0', 'the answers differ'),
    ('prints a mark and nothing else', MARK, 'the answers differ'),
    ('loses the last byte', f'PANEL | head -c -1; {MARK}', 'the answers differ'),
    ('prints a byte more', f'PANEL; echo; {MARK}', 'the answers differ'),
    ('tells no mark', 'PANEL', 'the firmware tells no mark'),
    ('says more than its mark', f'PANEL; echo oh >&2; {MARK}', 'the firmware tells no mark'),
    ('answers all and then faults', 'PANEL; echo fault >&2; exit 3', 'the firmware faults'),
    ('answers all and is then killed', f'PANEL; {MARK}; kill -9 $$',
     'the firmware ended with status -9'),
    ('does not end', 'exec sleep 100', 'the firmware ended with status none'))
# Scripts in place of the x86-64 program.
PROGRAMS = (
    ('answers all and ends badly', 'PANEL; exit 1', 'the x86-64 program ended with status 1'),
    ('is killed', 'kill -9 $$', 'the x86-64 program ended with status -9'),
    ('prints nothing', 'exit 0', 'the x86-64 program does not answer|the answers differ'))

# Firmware that cannot be measured, and one that reads at a place of RAM.
RECURSION = '''
__attribute__((noinline)) int deep(volatile int *n) { return *n == 0 ? 0 : deep(n) + *n; }
int main(void) { volatile int n = 0; return deep(&n); }'''
THROUGH_REGISTER = '''
static int one(int n) { return n + 1; }
int (*volatile chosen)(int) = one;
int main(void) { return chosen(1); }'''
READS_AT = 'int main(void) { return *(volatile int *)(0x20000000 + %d); }'

# What must not be in the module: lines outside of functions, lines within one, other words.
OUTSIDE = ('@number = constant ptr null', 'module asm "nop"')
WITHIN = ('%x = ptrtoint ptr null to i64', '%x = inttoptr i64 0 to ptr',
          'call void asm "nop", ""()', 'call void %x()', 'indirectbr ptr null, []',
          '%x = getelementptr ptr, ptr null, i64 1', '%x = alloca { ptr, i64 }, align 8',
          '%x = udiv exact i64 %a0, 10', '%x = udiv i64 10, %a0', '%x = udiv i64 %a0, -10',
          '%x = load { i8, ptr }, ptr %a0, align 8', 'store { i8, ptr } poison, ptr null, align 8')
OTHERS = (
    ('another layout', 'e-m:e-', 'E-m:e-'),
    ('another triple', 'x86_64-unknown', 'aarch64-unknown'),
    ('another processor', '"target-cpu"="x86-64" }', '"target-cpu"="x86-64-v3" }'),
    ('a second processor', '"target-cpu"="x86-64" }', '"target-cpu"="x86-64" "target-cpu"="x86-64" }'),
    ('a main that starts something else', f' = {module.START}\n', ' = call i32 @f()\n'),
    ('a pointer read as bytes', 'start:\n',
     'start:\n  %x = alloca ptr, align 8\n  call void @f(ptr %x)\n'),
    ('no proved division', module.DEFINED, module.DEFINED.replace(module.DIVISION, 'other')),
    ('a second proved division', module.DEFINED,
     f'{module.DEFINED}{{\nstart:\n  ret i64 %a0\n}}\n\n{module.DEFINED}'),
    ('a proved division of other numbers', module.DEFINED,
     module.DEFINED.replace('i64 noundef %a1', 'i32 noundef %a1')),
    ('the sign of a module that was not proved', module.PROVED, '!{!"rattle-cases'))


def with_slip(text: str) -> str:
    """All places of the number have to be in its rule."""
    functions = [part for part in text.split('\ndefine ') if LOSS in part]
    if not functions or any(RULE not in part.split('\n')[0] for part in functions):
        raise module.Unexpected(f'{len(functions)} functions have the default loss of 2,000')
    return text.replace(LOSS, SLIP)


def with_slip_in_division(text: str) -> str:
    before, after = text.split(module.DEFINED)
    own, end, others = after.partition('\n}\n')
    return before + module.DEFINED + module.edited(own, SIXTEENTH, EIGHTH) + end + others


class SelfTest:
    def __init__(self, folder: Path, level: str, ram: int):
        self.folder, self.level, self.ram = folder, level, ram
        self.panel = folder / 'module/panel'
        self.few = folder / 'few'
        self.few.mkdir()
        for path in (folder / 'inputs').iterdir():
            if FEW.fullmatch(path.name):
                shutil.copy(path, self.few)
        self.passed = self.failed = 0

    def count(self, name: str, wrong: str = '', word: str = 'caught'):
        self.passed, self.failed = self.passed + (not wrong), self.failed + bool(wrong)
        print(f'FAILED {name}: {wrong}' if wrong else f'{word}: {name}', flush=True)

    # 1. Firmware and what compare.py says of it

    def built(self, text: str, ram: int) -> Path:
        """The firmware of a module's text."""
        source, elf = self.folder / 'slip.ll', self.folder / 'slip.elf'
        source.write_text(text)
        subprocess.run([BOX / 'firmware', source, elf, self.level, str(ram)], check=True)
        return elf

    def built_from_c(self, source: str) -> Path:
        return self.built(module.compiled(source, '-O1', '-fno-builtin', '-fshort-enums'), self.ram)

    def built_peer(self, compiler: str, loss: str = LOSS_IN_C, ram: int | None = None) -> Path:
        """The plain C as firmware."""
        root, elf = self.folder / 'plain', self.folder / f'{compiler}.elf'
        source, rules = root / 'box/plain_panel.c', root / 'measure/plain_tally.c'
        for path in (source, rules):
            path.parent.mkdir(parents=True, exist_ok=True)
            shutil.copy(BOX.parent / path.relative_to(root), path)
        rules.write_text(module.edited(rules.read_text(), LOSS_IN_C, loss))
        subprocess.run([BOX / 'peer', source, compiler, elf, self.level, str(ram or self.ram)],
                       check=True)
        return elf

    def compare(self, elf: Path, *words: str, program: Path | None = None, path: str = '') -> str:
        """What compare.py prints on few inputs, and its status."""
        done = subprocess.run(
            [sys.executable, BOX / 'compare.py', program or self.panel, elf, self.few,
             f'--ram={self.ram}', *words],
            stdout=subprocess.PIPE, text=True,
            env=os.environ | {'PATH': f'{path}:{os.environ["PATH"]}'})
        return f'{done.stdout}status {done.returncode}\n'

    def catches(self, name: str, expected: str, printed: str):
        """It has to fail, and for nothing else than what is expected."""
        found = re.findall(r'^FAILED (?:[\w-]+: )?(.*)$', printed, re.MULTILINE)
        has_failed = re.search(r'^\d+ passed, [1-9]\d* failed\nstatus 1\n\Z', printed, re.MULTILINE)
        if has_failed and found and all(re.match(expected, line) for line in found):
            self.count(f'{name} ({len(found)} times: {found[0]})')
        else:
            self.count(name, f'it is not caught as such\n{textwrap.indent(printed, "    ")}')

    # 2. Slips

    def slips(self, text: str):
        """A limit below the mark, RAM that is too small, and a wrong default loss."""
        elf = self.built(text, self.ram)
        right = self.compare(elf)
        mark = re.search(r'^stack, largest mark: ([\d,]+) bytes', right, re.MULTILINE)
        if mark is None or not right.endswith(' 0 failed\nstatus 0\n'):
            self.count('the firmware without a slip', textwrap.indent(right, '    '))
            return
        self.count('the firmware without a slip', word='right')
        largest = int(mark[1].replace(',', ''))
        self.catches('a limit of one byte below the mark', 'the mark, [0-9,]+, is above the limit',
                     self.compare(elf, f'--limit={largest - 1}'))
        ram = largest + measure.Code(elf).sizes()[1] - 8
        self.catches('a stack that leaves RAM by 8 bytes',
                     'the firmware faults|the deepest stack by frames',
                     self.compare(self.built(text, ram), f'--ram={ram}'))
        self.catches(f'a default loss of 2,001 at the {text.count(LOSS)} places of its rule',
                     'the answers differ', self.compare(self.built(with_slip(text), self.ram)))
        self.catches('a slip in the proved division, which is called where the module divides',
                     'the answers differ',
                     self.compare(self.built(with_slip_in_division(text), self.ram)))

    def peers(self, text: str):
        """As they are, and each with a slip beside the other without one."""
        elf = self.built(text, self.ram)
        words = [f'--peer={name}={self.built_peer(name)}' for name in PEERS]
        printed = self.compare(elf, *words)
        is_right = (all(f'times {name}' in printed for name in PEERS)
                    and printed.endswith(' 0 failed\nstatus 0\n'))
        self.count('the peers without a slip', '' if is_right else textwrap.indent(printed, '    '),
                   'right')
        for name in PEERS:
            self.built_peer(name, loss=SLIP_IN_C)
            self.catches(f'a default loss of 2,001 in the plain C by {name}',
                         f'peer {name}: the answers differ', self.compare(elf, *words))
            self.built_peer(name, ram=LITTLE_RAM)
            self.catches(f'the plain C by {name} with a stack that leaves RAM',
                         f'peer {name}: the firmware faults', self.compare(elf, *words))
            self.built_peer(name)

    def stand_ins(self, text: str):
        elf = self.built(text, self.ram)
        folder = self.folder / 'stand-in'
        folder.mkdir()
        kinds = (('a firmware', machine.EMULATOR, EMULATORS), ('a program', 'program', PROGRAMS))
        for kind, name, cases in kinds:
            for what, script, expected in cases:
                stand_in = folder / name
                stand_in.write_text(f'#!/bin/sh\n{script.replace("PANEL", str(self.panel))}\n')
                stand_in.chmod(0o755)
                printed = self.compare(elf, '--seconds=1', path=str(folder),
                                       program=stand_in if name == 'program' else None)
                self.catches(f'{kind} that {what}', expected, printed)
                stand_in.unlink()

    # 3. What is measured, and the machine

    def unmeasurable(self):
        for name, source in (('a recursion', RECURSION),
                             ('a call through a register', THROUGH_REGISTER)):
            code = measure.Code(self.built_from_c(source))
            try:
                chain = measure.deepest(code, code.start_of('reset'))
                self.count(name, f'a deepest stack was found: {chain}')
            except machine.Unexpected as error:
                is_right = str(error).startswith(name)
                self.count(f'{error}', '' if is_right else f'it is not {name}')

    def machine_itself(self):
        """Where RAM begins and ends, and memory.c."""
        for place, status in ((0, 0), (self.ram - 4, 0), (-4, 3), (self.ram, 3)):
            elf = self.built_from_c(READS_AT % place)
            outcome = machine.run(machine.command(elf, self.ram), b'')
            self.count(f'RAM read at {place:,} gives status {status}',
                       '' if outcome.status == status else f'it gives {outcome.status}', 'right')
        elf = self.built_from_c((BOX / 'memory_test.c').read_text())
        outcome = machine.run(machine.command(elf, self.ram), b'')
        is_right = (outcome.output, outcome.status) == (b'ok\n', 0)
        self.count('memory.c does what plain loops do', '' if is_right else f'{outcome}', 'right')

    # 4. The module

    def modules(self, text: str):
        """`text` is the module as it was taken."""
        target = module.compiled('')
        module.turned(text, target)
        self.count('the module as it was taken', word='right')
        outside = [(line, '\n\n', f'\n\n{line}\n') for line in OUTSIDE]
        within = [(line, 'start:\n', f'start:\n  {line}\n') for line in WITHIN]
        for name, old, new in (*outside, *within, *OTHERS):
            try:
                module.turned(text.replace(old, new, 1), target)
                self.count(f'in the module, {name}', 'it was turned')
            except module.Unexpected:
                self.count(f'in the module, {name}')


def main() -> int:
    test = SelfTest(Path(sys.argv[1]), sys.argv[2], int(sys.argv[3]))
    text = (test.folder / 'module/module.ll').read_text()
    test.slips(text)
    test.peers(text)
    test.stand_ins(text)
    test.unmeasurable()
    test.machine_itself()
    test.modules((test.folder / 'module/taken.ll').read_text())
    print(f'{test.passed} passed, {test.failed} failed')
    return 1 if test.failed else 0


if __name__ == '__main__':
    sys.exit(main())
