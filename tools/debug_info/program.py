"""Runs of the program `aces`, which ACES names; else it is crates/aces/out/aces."""
from __future__ import annotations

import os
import subprocess
import sys

ACES = os.environ.get('ACES') or os.path.join(os.path.dirname(os.path.abspath(__file__)), '..', '..', 'crates', 'aces', 'out', 'aces')


def run(*words: str) -> str:
    """What a command prints; ends this program with what it said where it fails."""
    try:
        done = subprocess.run(words, capture_output=True, check=False)
    except OSError as fault:
        sys.exit(f'{os.path.basename(sys.argv[0])}: {words[0]}: {fault.strerror}')
    if done.returncode:
        sys.exit((done.stderr or done.stdout).decode(errors='replace').rstrip())
    return done.stdout.decode()


def aces(*words: str) -> str:
    """What `aces` prints for these words."""
    return run(ACES, *words)


def flash_bytes(firmware: str, board: str, policy: str, folder: str) -> bytes:
    """The bytes of flash, by `compile` and `bin`, which write into the folder."""
    aces('compile', firmware, board, policy, f'{folder}/image')
    aces('bin', f'{folder}/image', f'{folder}/flash')
    return content(f'{folder}/flash')


def content(name: str) -> bytes:
    """The bytes of a file; ends this program where it cannot be read."""
    try:
        with open(name, 'rb') as file:
            return file.read()
    except OSError as fault:
        sys.exit(f'{os.path.basename(sys.argv[0])}: {name}: {fault.strerror}')
