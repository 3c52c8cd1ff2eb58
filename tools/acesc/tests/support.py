"""What the tests share: where things lie, tapes, and runs of the command."""
from __future__ import annotations

import os
import random
import re
import shutil
import subprocess
import sys
from pathlib import Path

TESTS = Path(__file__).resolve().parent
TOOLS = TESTS.parent.parent
COMMAND = TOOLS / 'aces-c'
PROGRAMS = TESTS / 'programs'
CASES = TESTS / 'cases'
ACES = os.environ.get('ACES', str(TOOLS.parent / 'crates' / 'aces' / 'out' / 'aces'))
HAS_ACES = os.access(ACES, os.X_OK)
BOARD = '[flash]\nbase = 0x08000000\nsize = 524288\n[ram]\nbase = 0x20000000\nsize = 131072\nstack = 8192\n'
NAMES = sorted(p.parent.name for p in PROGRAMS.glob('*/main.c'))

Done = subprocess.CompletedProcess[str]


def aces_c(*words: object, command: Path = COMMAND, seed: str = '0', seconds: int = 600) -> Done:
    """Runs the command; it, and each program that it runs, is ended after so many seconds of processor time."""
    environment = {**os.environ, 'ACES': ACES, 'PYTHONHASHSEED': seed}
    line = ['sh', '-c', 'ulimit -t "$0" && exec "$@"', str(seconds), sys.executable, str(command), *map(str, words)]
    return subprocess.run(line, capture_output=True, text=True, env=environment, check=False)


def program_words(name: str) -> list[str]:
    """The options and files of a program."""
    folder = PROGRAMS / name
    return ['-p', str(folder / 'peripherals.txt'), '-I', str(PROGRAMS), *map(str, sorted(folder.glob('*.c')))]


def tape(folder: Path, name: str, words: int = 60) -> str:
    """Words for each peripheral: small numbers, single bits, any, and the program's own texts; the same on each run."""
    generator = random.Random(name)
    own = [line.split() for line in (folder / 'words.txt').read_text().splitlines()] if (folder / 'words.txt').exists() else []
    lines: list[str] = []
    for line in (folder / 'peripherals.txt').read_text().splitlines():
        peripheral = line.split()[0]
        texts = [[int(x, 0) for x in t[1:]] for t in own if t and t[0] == peripheral]
        count = 0
        while count < words:
            kind = generator.random()
            if texts and kind < 0.6:
                some = generator.choice(texts)
            else:
                some = [generator.choice((generator.getrandbits(32), generator.randrange(256), 0xFFFFFFFF, 1 << generator.randrange(32)))]
            lines += [f'{peripheral} 0x{word & 0xFFFFFFFF:X}' for word in some]
            count += len(some)
    return '\n'.join(lines) + '\n'


def compared(folder: Path, words: list[str], text: str, command: Path = COMMAND, policy: str = '') -> Done:
    """Runs `aces-c test` with a tape."""
    (folder / 'board.toml').write_text(BOARD)
    (folder / 'tape').write_text(text)
    policies = ['--policy', policy] if policy else []
    return aces_c('test', '--board', folder / 'board.toml', '--tape', folder / 'tape', *policies, *words, command=command)


def clangs() -> list[str]:
    """Every clang from 14 on that is installed."""
    found = []
    for name in ['clang', *(f'clang-{n}' for n in range(14, 40))]:
        path = shutil.which(name)
        if path:
            version = re.search(r'version (\d+)', subprocess.run([path, '--version'], capture_output=True, text=True, check=False).stdout)
            if version and int(version.group(1)) >= 14:
                found.append(path)
    return found
