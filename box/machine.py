"""Runs a firmware on QEMU's microbit, a Cortex-M0, with as much RAM as is said."""

import os
import subprocess
import tempfile
import threading
from collections import Counter
from itertools import pairwise
from pathlib import Path
from typing import NamedTuple

EMULATOR = 'qemu-system-arm'
SECONDS = 60  # for one run


class Unexpected(Exception):
    """Something is not as the measuring takes it to be."""


class Outcome(NamedTuple):
    output: bytes
    error: bytes
    status: int | str


def command(elf: Path, ram: int, *more: str) -> list[str]:
    return [EMULATOR, '-M', 'microbit', '-global', f'nrf51-soc.sram-size={ram}',
            '-display', 'none', '-monitor', 'none', '-serial', 'null',
            '-semihosting-config', 'enable=on,target=native', *more, '-kernel', str(elf)]


def run(words: list[str], data: bytes, seconds: float = SECONDS) -> Outcome:
    try:
        done = subprocess.run(words, input=data, capture_output=True, timeout=seconds)
    except subprocess.TimeoutExpired:
        return Outcome(b'', b'', f'none after {seconds} s')
    return Outcome(done.stdout, done.stderr, done.returncode)


# A trace


def one_at_a_time() -> list[str]:
    """Words by which QEMU logs each instruction and not blocks of them; they differ by version."""
    words = subprocess.run([EMULATOR, '-help'], capture_output=True, text=True, check=True).stdout
    if 'one-insn-per-tb' in words:
        return ['-accel', 'tcg,one-insn-per-tb=on']
    if '\n-singlestep' in words:
        return ['-singlestep']
    raise Unexpected('this QEMU has neither one-insn-per-tb nor -singlestep')


def steps(elf: Path, ram: int, data: bytes) -> Counter[tuple[int, int]]:
    """How often which instruction followed on which, by their addresses, in a whole run. The log
    comes through a pipe, since it has more than a hundred megabytes."""
    reader, writer = os.pipe()
    words = command(elf, ram, *one_at_a_time(), '-d', 'exec,nochain', '-D', f'/dev/fd/{writer}')
    with tempfile.TemporaryFile() as given, open(reader, 'rb') as log:
        given.write(data)
        given.seek(0)
        process = subprocess.Popen(words, stdin=given, stdout=subprocess.DEVNULL,
                                   stderr=subprocess.DEVNULL, pass_fds=[writer])
        os.close(writer)
        limit = threading.Timer(SECONDS, process.kill)
        limit.start()
        pairs = Counter(pairwise(log))
        status = process.wait()
        limit.cancel()
    if status != 0:
        raise Unexpected(f'the traced run ended with status {status}')
    return by_address(pairs)


def by_address(pairs: Counter[tuple[bytes, bytes]]) -> Counter[tuple[int, int]]:
    """A line is `Trace 0: HOST [BASE/ADDRESS/FLAGS/FLAGS] NAME`. Where QEMU is interrupted before
    it carries out what it logged, it says `Stopped ..`, and logs the instruction again."""
    found = Counter()
    for (before, after), count in pairs.items():
        kinds = {before.split(b' ')[0], after.split(b' ')[0]}
        if kinds == {b'Trace'}:
            found[address(before), address(after)] += count
        elif kinds != {b'Trace', b'Stopped'}:
            raise Unexpected(f'in the log, {before!r} and {after!r}')
    return found


def address(line: bytes) -> int:
    return int(line.split(b'[')[1].split(b'/')[1], 16)
