"""Runs ./tally and ./panel in a terminal, as a person does, and while they are built.

    python3 -m tests.programs.terminal

What they say to a person goes to standard error, and only where it is a terminal; what they answer,
and their status, is the same without one. program.sh tests the rest of the wrappers.
Prints each failure and, last, `N passed, M failed`.
"""

import os
import pty
import shutil
import signal
import subprocess
import sys
import tempfile
import termios
import time
from pathlib import Path
from typing import NamedTuple

ROOT = Path(__file__).resolve().parents[2]
EXAMPLE = (ROOT / 'examples/site.txt').read_bytes()
ANSWERS = (ROOT / 'examples/site.out').read_bytes()
REPORT = b'project 0 0 0\nleakage 0 0 0\nbaseline 0 0 0\nreduction 0\n'
SECONDS = 20
CTRL_D = b'\x04'

READS = 'reads lines until Ctrl-D, then answers them all\n'
TYPE = 'type a line and press Enter; Ctrl-D ends\n'


class Ended(NamedTuple):
    status: int
    answers: bytes
    words: str  # on standard error


def open_terminal() -> tuple[int, int]:
    """Its two ends. It shows neither what is typed nor a CR at the end of a line."""
    master, slave = pty.openpty()
    settings = termios.tcgetattr(slave)
    settings[1] &= ~termios.OPOST
    settings[3] &= ~termios.ECHO
    termios.tcsetattr(slave, termios.TCSANOW, settings)
    return master, slave


def read_all(master: int) -> str:
    """What was written to a terminal that nobody has open any more: then a read fails."""
    words = b''
    try:
        while part := os.read(master, 4096):
            words += part
    except OSError:
        pass
    os.close(master)
    return words.decode()


def ended_status(process: subprocess.Popen) -> int:
    """Its status, that of a kill where it does not end by itself."""
    try:
        return process.wait(SECONDS)
    except subprocess.TimeoutExpired:
        os.killpg(process.pid, signal.SIGKILL)
        return process.wait()


def hear_ctrl_c():
    """As in a terminal: what starts this may have it ignored."""
    signal.signal(signal.SIGINT, signal.SIG_DFL)


def run(command: list, typed: bytes | None = None, data: bytes = b'', terminal: bool = True,
        **more) -> Ended:
    """Standard error is a terminal, or a file; standard input is one where something is typed."""
    master, slave = open_terminal()
    with tempfile.TemporaryFile() as given, tempfile.TemporaryFile() as out, \
            tempfile.TemporaryFile() as err:
        given.write(data)
        given.seek(0)
        process = subprocess.Popen(command, stdin=given if typed is None else slave, stdout=out,
                                   stderr=slave if terminal else err, start_new_session=True, **more)
        os.close(slave)
        if typed is not None:
            os.write(master, typed)
        status = ended_status(process)
        words = read_all(master)
        err.seek(0)
        out.seek(0)
        return Ended(status, out.read(), words if terminal else err.read().decode())


def listed(numbers: str, count: str) -> str:
    return (f'refused lines, which count for nothing: {numbers} ({count}); '
            './explain < FILE says why\n')


class Tests:
    def __init__(self, room: Path):
        self.room = room
        self.passed = self.failed = 0

    def check(self, name: str, holds: bool, found):
        if holds:
            self.passed += 1
        else:
            self.failed += 1
            print(f'FAILED {name}: {found}')

    def said(self, name: str, program: str, words: str, answers: bytes, **how):
        """Ends with status 0, these answers and these words, each after the program's name."""
        ended = run([ROOT / program], **how)
        lines = ''.join(f'{program}: {line}' for line in words.splitlines(True))
        self.check(f'{program}, {name}', ended == Ended(0, answers, lines), ended)

    def refused_lines(self):
        """The report's own refusal is a line, its answer of four lines is one."""
        for name, data, words, answers in (
                ('the example', EXAMPLE, listed('9', '1 of 14'), ANSWERS),
                ('no line refused', b'(report)\n(report)', 'no line is refused, of 2\n', 2 * REPORT),
                ('an empty input', b'', 'the input is empty\n', b''),
                ('an empty line', b'\n', listed('1', '1 of 1'), b'refused 14\n'),
                ('a report between', b'x\n(report)\nx', listed('1, 3', '2 of 3'),
                 b'refused 14\n' + REPORT + b'refused 14\n'),
                ('a refused report', b'(source 0 project (captive 0) (none) (whole + 0 1))\n(report)\n',
                 listed('2', '1 of 2'), b'ok\nrefused 9 source 0\n'),
                ('ten refused', 10 * b'x\n', listed('1, 2, 3, 4, 5, 6, 7, 8, 9, 10', '10 of 10'),
                 10 * b'refused 14\n'),
                ('twelve refused', 12 * b'x\n',
                 listed('1, 2, 3, 4, 5, 6, 7, 8, 9, 10 and 2 more', '12 of 12'),
                 12 * b'refused 14\n'),
                ('the largest input', 65_536 * b'\n',
                 listed('1, 2, 3, 4, 5, 6, 7, 8, 9, 10 and 65526 more', '65536 of 65536'),
                 65_536 * b'refused 14\n'),
                ('an input that is too large', 65_537 * b'\n',
                 'the whole input is refused: it has more than 65,536 bytes\n', b'refused 14\n')):
            self.said(name, 'tally', words, answers, data=data)
            self.said(f'{name}, no terminal', 'tally', '', answers, data=data, terminal=False)

    def typed(self):
        self.said('typed', 'tally', f'{READS}no line is refused, of 1\n', REPORT,
                  typed=b'(report)\n' + CTRL_D)
        self.said('typed', 'panel', TYPE, REPORT, typed=b'(report)\n' + CTRL_D)
        self.said('from a file', 'panel', '', ANSWERS, data=EXAMPLE)
        for program in ('tally', 'panel'):
            self.said('typed, words not to a terminal', program, '', REPORT,
                      typed=b'(report)\n' + CTRL_D, terminal=False)

    def copied(self, name: str, rt: str) -> tuple[Path, dict]:
        """A copy of the wrappers without their programs, beside a toolchain of this script."""
        folder = self.room / name
        (folder / 'bin').mkdir(parents=True)
        for program in ('tally', 'panel'):
            (folder / 'crates' / program).mkdir(parents=True)
            for file in ('stdin', 'stdout'):
                (folder / 'crates' / program / file).touch()
        (folder / 'temporary').mkdir()
        for file in ('tally', 'panel', 'wrapper.sh', 'crates.txt'):
            shutil.copy(ROOT / file, folder)
        (folder / 'bin/rt').write_text(f'#!/bin/sh\n{rt}\n')
        (folder / 'bin/rt').chmod(0o755)
        return folder, {**os.environ, 'PATH': f'{folder}/bin:{os.environ["PATH"]}',
                        'TMPDIR': str(folder / 'temporary')}

    def build(self):
        makes = ('program=out/$(basename "$PWD"); mkdir -p out; printf "#!/bin/sh\\n" >"$program";'
                 ' chmod +x "$program"')
        folder, environment = self.copied('built', makes)
        for program, count in (('tally', 11), ('panel', 11)):
            ended = run([folder / program], terminal=False, env=environment)
            self.check(f'{program}, how many crates are proved',
                       ended.words.startswith(f'{program}: the first build proves {count} crates'), ended)
            ended = run([folder / program], terminal=False, env=environment)
            self.check(f'{program}, built once', ended.words == '', ended)

    def read_only(self):
        """A folder that cannot be made is one that cannot be written, whoever runs this."""
        folder, environment = self.copied('closed', 'echo built >&2')
        (folder / 'target').write_text('')
        ended = run([folder / 'tally'], terminal=False, env=environment)
        words = f'tally: {folder}/target cannot be written\ntally: not built\n'
        self.check('tally, a folder that cannot be written', ended == Ended(1, b'', words), ended)

    def interrupted(self):
        """Ctrl-C while it is built."""
        folder, environment = self.copied('interrupted', ': >../../began; sleep 60')
        process = subprocess.Popen([folder / 'tally'], stdin=subprocess.DEVNULL, env=environment,
                                   stdout=subprocess.DEVNULL, stderr=subprocess.DEVNULL,
                                   start_new_session=True, preexec_fn=hear_ctrl_c)
        until = time.monotonic() + SECONDS
        while not (folder / 'began').exists() and time.monotonic() < until:
            time.sleep(0.05)
        os.killpg(process.pid, signal.SIGINT)
        status = ended_status(process)
        left = [path.name for path in (folder / 'temporary').iterdir()]
        left += [path.name for path in (folder / 'target').rglob('*')]
        self.check('tally, Ctrl-C while it is built', status in (-signal.SIGINT, 130) and not left,
                   (status, left))


def main() -> int:
    with tempfile.TemporaryDirectory() as room:
        tests = Tests(Path(room))
        # The first run may still have to look whether the program is built.
        for program in ('tally', 'panel'):
            subprocess.run([ROOT / program], stdin=subprocess.DEVNULL, capture_output=True, check=True)
        tests.refused_lines()
        tests.typed()
        tests.build()
        tests.read_only()
        tests.interrupted()
        print(f'{tests.passed} passed, {tests.failed} failed')
        return 1 if tests.failed else 0


if __name__ == '__main__':
    sys.exit(main())
