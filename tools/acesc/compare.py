"""`aces-c test`: the accesses of the C program, natively, against those of its firmware, in the source run and on the image."""
from __future__ import annotations

import os
import re
import subprocess
import sys
import tempfile
from dataclasses import dataclass
from typing import Iterator

from .command import HERE, Options, argument, finish_options, parse_option, show, translate
from .common import Messages, UsageFault
from .dump import ClangFault
from .native import MOST_ACCESSES, NativeFault, NativeRun, build, native_run
from .peripherals import Peripheral

POLICIES = ('filename', 'optimized', 'peripheral')
FIRST_STEPS, MOST_STEPS = 4_000_000, 100_000_000
DEFAULT_ACES = os.path.join(os.path.dirname(os.path.dirname(HERE)), 'crates', 'aces', 'out', 'aces')
USAGE = '''usage: aces-c test [options] --board BOARD --tape TAPE FILE.c ..

Builds the C natively with its volatile accesses turned into calls that read the tape, and compares the accesses with those of the
firmware under each policy, in the source run and on the image. The options are those of aces-c, and

  --policy POLICY        one policy alone (filename, optimized, peripheral)
  --steps N              at most N steps of a run, in place of 100,000,000

The program is named by the environment variable ACES. Status 0: all accesses are equal; 1: the first that differs is told, or the
program is refused; 2: usage.'''


class Difference(Exception):
    """What differs, or what a command refused."""


@dataclass
class Wanted:
    """What is to be compared."""

    options: Options
    board: str = ''
    tape: str = ''
    policies: tuple[str, ...] = POLICIES
    steps: int = MOST_STEPS


def parse(words: list[str]) -> Wanted:
    """The words of a request."""
    wanted = Wanted(Options())
    rest = iter(words)
    for word in rest:
        if word == '--board':
            wanted.board = argument(word, rest)
        elif word == '--tape':
            wanted.tape = argument(word, rest)
        elif word == '--policy':
            wanted.policies = (argument(word, rest),)
            if wanted.policies[0] not in POLICIES:
                raise UsageFault(f'policy {wanted.policies[0]} is not known')
        elif word == '--steps':
            number = argument(word, rest)
            if not re.fullmatch(r'[1-9]\d{0,9}', number):
                raise UsageFault(f'--steps {number}: a number of steps is wanted')
            wanted.steps = min(int(number), 0xFFFFFFFF)
        elif not parse_option(wanted.options, word, rest):
            wanted.options.add_file(word)
    finish_options(wanted.options)
    for name, path in (('--board', wanted.board), ('--tape', wanted.tape)):
        if not os.path.isfile(path):
            raise UsageFault(f'cannot read {path}' if path else f'option {name} is missing')
    return wanted


def read_tape(path: str, peripherals: list[Peripheral]) -> dict[str, list[int]]:
    """The recorded words of each peripheral."""
    known = {p.name for p in peripherals}
    found: dict[str, list[int]] = {}
    with open(path, encoding='utf-8', errors='replace') as file:
        for number, line in enumerate(file.read().split('\n'), 1):
            words = line.split('#')[0].split()
            if not words:
                continue
            if len(words) != 2 or not re.fullmatch(r'-?(\d+|0x[0-9a-fA-F]+)', words[1]):
                raise UsageFault(f'{path}:{number}: bad line')
            if words[0] not in known:
                raise UsageFault(f'{path}:{number}: unknown peripheral')
            value = int(words[1], 0 if 'x' in words[1] else 10)
            found.setdefault(words[0], []).append(value & 0xFFFFFFFF)
    return found


def aces(*words: str) -> 'subprocess.CompletedProcess[str]':
    """Runs the program."""
    program = os.environ.get('ACES', DEFAULT_ACES)
    try:
        return subprocess.run([program, *words], capture_output=True, text=True, check=False)
    except OSError as fault:
        raise UsageFault(f'{program} cannot be run ({fault.strerror}): name the program of aces by the environment variable ACES') from fault


def accepted(done: 'subprocess.CompletedProcess[str]', what: str) -> str:
    """What a command printed; a refusal is a difference."""
    if done.returncode < 0:
        raise Difference(f'{what}: aces was ended by signal {-done.returncode}')
    if done.returncode not in (0, 7):
        raise Difference(f'{what}: {done.stderr.strip() or "status " + str(done.returncode)}')
    return done.stdout


def until_enough(what: str, native: NativeRun, most: int, *words: str) -> list[str]:
    """The lines of a run with as many steps as the native accesses need, at most `most`."""
    steps = min(FIRST_STEPS, most)
    while True:
        lines = accepted(aces(*words, str(steps)), what).splitlines()
        if lines[-1] != 'end limit' or len(lines) > len(native.accesses) + 1 or steps >= most:
            return lines
        steps = min(steps * 16, most)


def compare_lines(what: str, native: NativeRun, lines: list[str]) -> None:
    """Tells the first difference."""
    accesses = [re.sub(r'^\d+ ', '', line) for line in lines[:-1]]
    for number, (one, other) in enumerate(zip(native.accesses, accesses), 1):
        if one != other:
            raise Difference(f'{what}: access {number} differs: native {one}, {what.split()[-1]} {other}')
    cut = native.end == 'end limit'
    if len(accesses) < len(native.accesses) or len(accesses) > len(native.accesses) and not cut:
        number = min(len(accesses), len(native.accesses))
        one = (native.accesses + [native.end])[number]
        other = (accesses + [lines[-1]])[number]
        raise Difference(f'{what}: access {number + 1} differs: native {one}, {what.split()[-1]} {other}')
    if not cut and lines[-1] != native.end:
        raise Difference(f'{what}: the end differs: native {native.end}, {what.split()[-1]} {lines[-1]}')


def compare(wanted: Wanted, firmware: str, peripherals: list[Peripheral], folder: str) -> Iterator[str]:
    """Compares everything; gives lines for the user as it goes."""
    tape = read_tape(wanted.tape, peripherals)
    program = build(wanted.options.clang, wanted.options.all_flags(), wanted.options.files, folder, wanted.options.library)
    native = native_run(program, peripherals, tape)
    yield f'native: {len(native.accesses)} accesses, {native.end}'
    if native.end == 'end limit':
        yield f'note: the native run was cut at {MOST_ACCESSES:,} accesses; only these are compared'
    accepted(aces('check', firmware), 'check')
    for policy in wanted.policies:
        what = f'policy {policy}, source'
        compare_lines(what, native, until_enough(what, native, wanted.steps, 'source', firmware, policy, wanted.tape))
        image = os.path.join(folder, f'{policy}.image')
        accepted(aces('compile', firmware, wanted.board, policy, image), f'policy {policy}, compile')
        what = f'policy {policy}, image'
        compare_lines(what, native, until_enough(what, native, wanted.steps, 'run', image, wanted.tape))
        yield f'policy {policy}: equal in the source run and on the image'


def test_main(words: list[str]) -> int:
    """The command `aces-c test`; gives the status."""
    if words and words[0] in ('-h', '--help'):
        print(USAGE)
        return 0
    messages = Messages()
    try:
        wanted = parse(words)
        text, emitter = translate(wanted.options, messages)
        show(messages)
        if text is None or emitter is None:
            return 1
        with tempfile.TemporaryDirectory() as folder:
            firmware = os.path.join(folder, 'firmware.ir')
            with open(firmware, 'w', encoding='utf-8') as file:
                file.write(text)
            for line in compare(wanted, firmware, emitter.shown_peripherals(), folder):
                print(line, flush=True)
    except UsageFault as fault:
        print(f'aces-c: {fault}\n{USAGE.splitlines()[0]} (aces-c test --help tells more)', file=sys.stderr)
        return 2
    except ClangFault as fault:
        sys.stderr.write(str(fault))
        return 1
    except (Difference, NativeFault) as fault:
        print(f'aces-c: {fault}', file=sys.stderr)
        return 1
    print('all accesses are equal')
    return 0

