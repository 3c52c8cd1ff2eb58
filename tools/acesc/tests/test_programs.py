"""Sixteen firmwares and the small cases make the accesses that they make natively."""
from __future__ import annotations

from pathlib import Path

import pytest
from support import CASES, HAS_ACES, NAMES, PROGRAMS, aces_c, clangs, compared, program_words, tape

EXPECTED = [line.split(' ', 1) for line in (CASES / 'expected.txt').read_text().splitlines() if not line.startswith('#')]
# Cases that are not compared: a loop without input, a left-out handler's counter, assembly of another processor, and undefined behaviour.
NOT_COMPARED = {'9', '16', '17'}


@pytest.mark.skipif(not HAS_ACES, reason='the program aces is not built')
@pytest.mark.parametrize('name', NAMES)
def test_program(name: str, tmp_path: Path) -> None:
    """Source run and image, under each policy."""
    done = compared(tmp_path, program_words(name), tape(PROGRAMS / name, name))
    assert done.returncode == 0, done.stdout + done.stderr
    assert done.stdout.endswith('all accesses are equal\n')


@pytest.mark.parametrize('number,what', EXPECTED)
def test_case(number: str, what: str, tmp_path: Path) -> None:
    """A construct is translated and agrees, or is refused with its place and what to write instead."""
    words = ['-p', str(CASES / 'peripherals.txt'), f'-DCASE={number}', str(CASES / 'cases.c')]
    out = tmp_path / 'out.ir'
    translated = what.startswith('translated')
    if translated and HAS_ACES and number not in NOT_COMPARED:
        done = compared(tmp_path, words, tape(CASES, number, 40), policy='filename')
    else:
        done = aces_c('-o', out, *words)
    assert done.returncode == (0 if translated else 1), done.stdout + done.stderr
    assert (what[len('translated '):] if translated else what) in done.stderr, done.stderr
    assert translated or 'cases.c:' in done.stderr and not out.exists()


@pytest.mark.parametrize('name', NAMES[::4])
def test_same_text(name: str) -> None:
    """Each clang and each run give the same bytes."""
    texts = {aces_c('--clang', clang, *program_words(name), seed=str(seed)).stdout for seed, clang in enumerate(clangs() + clangs()[:1])}
    assert len(texts) == 1 and texts != {''}
