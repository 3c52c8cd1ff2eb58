"""Faults that are planted in a copy of the translator are found by the comparison."""
from __future__ import annotations

import shutil
from pathlib import Path

import pytest
from support import CASES, HAS_ACES, TOOLS, compared

# The file, what is right there, and what is put in its place.
FAULTS = [
    ('access.py', "return self.operate('sar', self.operate('shl', value, count), count)", 'return value'),
    ('values.py', 'old = [self.copy_of(register) for register in old]', 'pass'),
    ('arithmetic.py', "sign = 's' if signed else 'u'\n        if len(left) == 1", "sign = 'u'\n        if len(left) == 1"),
    ('arithmetic.py', "return [self.extended(register, to)] if to.signed else [self.operate_by('and', register, high)]", 'return [register]'),
    ('arithmetic.py', "return [low, self.operate('add', high, self.operate('ult', low, left[0]))]", 'return [low, high]'),
    ('statements.py', 'self.go_on(self.cases[id(node)])', 'self.block = self.cases[id(node)]'),
    ('flow.py', 'return set(range(len(code.types))) - several', 'return set(range(len(code.types)))'),
    ('objects.py', 'for number in range(count):\n                body(number)', 'for number in range(count - 1):\n                body(number)'),
    ('places.py', 'found.append(self.moved_number(register, pointer, count, index, size, negative))', 'found.append(register)'),
]
PORT = ''.join(f'GPIOA {word}\n' for word in (0, 1, 2, 3, 0x80000000, 0xFFFF8000, 0xFF, 6))


@pytest.mark.skipif(not HAS_ACES, reason='the program aces is not built')
@pytest.mark.parametrize('file,right,wrong', [('', '', ''), *FAULTS])
def test_planted(file: str, right: str, wrong: str, tmp_path: Path) -> None:
    """The comparison tells a difference; without a fault (first) it tells none."""
    shutil.copytree(TOOLS / 'acesc', tmp_path / 'acesc', ignore=shutil.ignore_patterns('tests', '__pycache__'))
    shutil.copy(TOOLS / 'aces-c', tmp_path / 'aces-c')
    if file:
        text = (tmp_path / 'acesc' / file).read_text()
        assert text.count(right) == 1
        (tmp_path / 'acesc' / file).write_text(text.replace(right, wrong))
    words = ['--steps', '100000', '-p', str(CASES / 'peripherals.txt'), str(CASES / 'faults.c')]
    done = compared(tmp_path, words, PORT, tmp_path / 'aces-c', 'filename')
    assert done.returncode == (1 if file else 0), done.stdout + done.stderr
    assert not file or ' differs: ' in done.stderr, done.stderr
