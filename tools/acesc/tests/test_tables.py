"""Peripherals from tables and from SVD files, notes on wide pointers, and the example."""
from __future__ import annotations

import os
import subprocess
from pathlib import Path

import pytest
from support import ACES, HAS_ACES, TOOLS, aces_c

ROVER = TOOLS.parent / 'examples' / 'rover'
SVD = '''<device><peripherals>
<peripheral><name>PORT%s</name><dim>2</dim><dimIncrement>0x400</dimIncrement><dimIndex>A,B</dimIndex><baseAddress>0x40010800</baseAddress>
<addressBlock><offset>0</offset><size>{size}</size><usage>registers</usage></addressBlock></peripheral>
<peripheral derivedFrom="PORT%s"><name>PORTC</name><baseAddress>0x40011000</baseAddress></peripheral>
<peripheral><name>ODD</name><baseAddress>0x40020010</baseAddress><addressBlock><offset>4</offset><size>20</size></addressBlock></peripheral>
<peripheral><name>CORE</name><baseAddress>0xE000E000</baseAddress><addressBlock><offset>0</offset><size>0x1000</size></addressBlock></peripheral>
</peripherals></device>
'''
USES = '#define AT(x) (*(volatile unsigned *)(x))\nint main(void) { AT(0x40010C04u) = 1; AT(0x40011000u) = 2; AT(0x40020020u) = 3; }\n'


def translated(tmp_path: Path, svd: str, source: str) -> 'subprocess.CompletedProcess[str]':
    """A translation with an SVD file."""
    (tmp_path / 'chip.svd').write_text(svd)
    (tmp_path / 'main.c').write_text(source)
    return aces_c('--svd', tmp_path / 'chip.svd', tmp_path / 'main.c')


def test_windows(tmp_path: Path) -> None:
    """Only what is used is declared: arrays, derived peripherals, and the smallest window with all registers."""
    done = translated(tmp_path, SVD.format(size='0x400'), USES)
    assert done.returncode == 0, done.stderr
    windows = [line for line in done.stdout.splitlines() if line.startswith('periph ')]
    assert windows == ['periph PORTB 0x40010C00 1024', 'periph PORTC 0x40011000 1024', 'periph ODD 0x40020000 64']


def test_windows_that_meet(tmp_path: Path) -> None:
    """Used windows that meet are told, and a processor's registers are in none."""
    done = translated(tmp_path, SVD.format(size='0x800'), USES.replace('0x40010C04u', '0x40011804u'))
    assert done.returncode == 1 and 'the windows of ' in done.stderr
    done = translated(tmp_path, SVD.format(size='0x400'), USES.replace('0x40020020u', '0xE000E010u'))
    assert done.returncode == 1 and 'a register of the processor' in done.stderr


@pytest.mark.parametrize('text', ['<device', '<device></device>', SVD.format(size='many'), SVD.replace('<addressBlock>', '<other>')
                                  .replace('</addressBlock>', '</other>')])
def test_bad_description(text: str, tmp_path: Path) -> None:
    """What is no description is told, with status 2."""
    done = translated(tmp_path, text, USES)
    assert done.returncode == 2 and 'chip.svd' in done.stderr, done.stderr


@pytest.mark.parametrize('line', ['PORT 0x40010800', 'PORT 0x40010800 1000', 'PORT 0x40010810 1024', 'PORT 0x60000000 1024', 'load 0x40010800 1024',
                                  'A 0x40010800 1024\nB 0x40010A00 512', 'A 0x40010800 32\nA 0x40010C00 32'])
def test_bad_table(line: str, tmp_path: Path) -> None:
    """Windows that the language does not have are told with their line."""
    (tmp_path / 'table').write_text(line + '\n')
    (tmp_path / 'main.c').write_text('int main(void) {}\n')
    done = aces_c('-p', tmp_path / 'table', tmp_path / 'main.c')
    assert done.returncode == 2 and f'table:{line.count(chr(10)) + 1}: ' in done.stderr, done.stderr


def test_note_on_a_wide_pointer(tmp_path: Path) -> None:
    """A pointer that leads to objects of several files is told, one that leads to those of one file is not."""
    (tmp_path / 'one.c').write_text('int one, two;\nvoid fill(int *where);\nextern int other;\nint main(void) { fill(&one); fill(&other); }\n')
    (tmp_path / 'other.c').write_text('int other;\nvoid fill(int *where) { *where = 1; }\n')
    done = aces_c(tmp_path / 'one.c', tmp_path / 'other.c')
    assert done.returncode == 0 and 'other.c:2:16: note: where may point to one (one.c) and other (other.c)\n' in done.stderr, done.stderr
    (tmp_path / 'one.c').write_text('int one, two;\nvoid fill(int *where);\nextern int other;\nint main(void) { fill(&one); fill(&two); }\n')
    assert 'may point to' not in aces_c(tmp_path / 'one.c', tmp_path / 'other.c').stderr


def test_one_of_both(tmp_path: Path) -> None:
    """A table and an SVD file together are no request."""
    assert aces_c('-p', ROVER / 'rover.tape', '--svd', ROVER / 'rover.svd', ROVER / 'control.c').returncode == 2


@pytest.mark.skipif(not HAS_ACES, reason='the program aces is not built')
def test_example() -> None:
    """The example runs as it is shown."""
    done = subprocess.run(['sh', str(TOOLS / 'c_demo.sh')], capture_output=True, text=True, env={**os.environ, 'ACES': ACES}, check=False)
    assert done.returncode == 0 and 'all accesses are equal\n' in done.stdout, done.stdout + done.stderr
