"""Libraries that nobody here wrote, where they are installed: the headers libjsmn-dev and libxxhash-dev of Debian."""
from __future__ import annotations

import os
import random
from pathlib import Path

import pytest
from support import HAS_ACES, TESTS, compared

TEXTS = ['{"speed": [1, 2.5, -3e2], "on": true, "name": "a\\\\n"}', '[[],{},[{"a":null}]]', '{"a" 1}', '[1,2', '"x"']


def words(name: str) -> list[int]:
    """What the port gives."""
    if name == 'json':
        return [byte for text in TEXTS for byte in (text + '\n').encode()]
    generator = random.Random(5)
    return [value for length in (0, 3, 17, 40, 79) for value in (length, *(generator.randrange(256) for _ in range(length)))]


@pytest.mark.skipif(not HAS_ACES, reason='the program aces is not built')
@pytest.mark.parametrize('name,header', [('json', 'jsmn.h'), ('hash', 'xxhash.h')])
def test_library(name: str, header: str, tmp_path: Path) -> None:
    """A library makes the accesses that it makes natively."""
    if not os.path.exists(f'/usr/include/{header}'):
        pytest.skip(f'{header} is not installed')
    folder = TESTS / 'foreign'
    tape = ''.join(f'PORT {word}\n' for word in words(name))
    done = compared(tmp_path, ['-p', str(folder / 'peripherals.txt'), str(folder / f'{name}.c')], tape, policy='filename')
    assert done.returncode == 0, done.stdout + done.stderr
