"""Random C by csmith, with fixed seeds: no program differs, and enough of them are compared."""
from __future__ import annotations

import shutil
import signal
import subprocess
from concurrent.futures import ThreadPoolExecutor
from pathlib import Path

import pytest
from support import HAS_ACES, aces_c, BOARD

# 10 and 18 are left out: their programs do not end.
SEEDS = [seed for seed in range(1, 33) if seed not in (10, 18)]
# Seconds of processor time for each program that is run with a seed, so that other work on the machine changes nothing.
SECONDS = 20
# At most so many may be refused or take too long: programs of another csmith are others.
NOT_COMPARED = 6
OPTIONS = ['--no-float', '--no-argc', '--max-funcs', '2', '--max-block-size', '3', '--max-array-dim', '2', '--max-array-len-per-dim', '4',
           '--no-packed-struct', '--max-expr-complexity', '6', '--max-block-depth', '3']
# csmith's own main and header are put aside: the checksum goes to a port.
HEADER = '''
#include <stdint.h>
#include <limits.h>
#define printf(...) ((void)0)
static uint32_t crc32_context = 0xFFFFFFFFu;
static void transparent_crc(uint64_t value, const char *name, int flag)
{
    for (int i = 0; i < 8; i++)
        crc32_context = (crc32_context ^ (uint32_t)(value >> 8 * i & 0xFF)) * 16777619u;
    *(volatile uint32_t *)0x40010800u = crc32_context;
}
static void platform_main_begin(void) {}
static void crc32_gentab(void) {}
static void platform_main_end(uint32_t value, int flag) { *(volatile uint32_t *)0x40010804u = value; }
'''


def program(seed: int, folder: Path) -> str:
    """A program with csmith's arithmetic written as C's, which this test's options keep defined where it matters."""
    made = subprocess.run(['csmith', '--seed', str(seed), *OPTIONS], capture_output=True, text=True, check=True, cwd=folder).stdout
    return made.replace('#include "csmith.h"', HEADER + safe_operations())


def safe_operations() -> str:
    """The functions safe_.. that csmith calls: operations that have a meaning for all operands."""
    out: list[str] = []
    for sign, letter in (('', 's'), ('u', 'u')):
        for bits in (8, 16, 32, 64):
            one = f'{sign}int{bits}_t'
            name = f'{one}_{letter}'
            wide = f'uint{max(bits, 32)}_t'
            out.append(f'static {one} safe_unary_minus_func_{name}({one} a) {{ return ({one})(0 - ({wide})a); }}')
            for word, symbol in (('add', '+'), ('sub', '-'), ('mul', '*')):
                out.append(f'static {one} safe_{word}_func_{name}_{letter}({one} a, {one} b) {{ return ({one})(({wide})a {symbol} ({wide})b); }}')
            for word, symbol in (('div', '/'), ('mod', '%')):
                out.append(f'static {one} safe_{word}_func_{name}_{letter}({one} a, {one} b) '
                           f'{{ return b == 0 || ({one})-1 < 0 && b == ({one})-1 ? a : ({one})(a {symbol} b); }}')
            for other in ('s', 'u'):
                count = 'int' if other == 's' else 'unsigned'
                out.append(f'static {one} safe_lshift_func_{name}_{other}({one} a, {count} b) '
                           f'{{ return ({one})(({wide})a << ((unsigned)b & {bits - 1})); }}')
                out.append(f'static {one} safe_rshift_func_{name}_{other}({one} a, {count} b) '
                           f'{{ return ({one})(a >> ((unsigned)b & {bits - 1})); }}')
    return '\n'.join(out) + '\n'


def outcome(seed: int, folder: Path) -> str:
    """`agrees`, `differs` with what differs, or why it was not compared."""
    here = folder / str(seed)
    here.mkdir()
    (here / 'random.c').write_text(program(seed, here))
    (here / 'table').write_text('PORT 0x40010800 1024\n')
    (here / 'tape').write_text('')
    (here / 'board').write_text(BOARD)
    done = aces_c('test', '--board', here / 'board', '--tape', here / 'tape', '--policy', 'filename', '-p', here / 'table', here / 'random.c',
                  seconds=SECONDS)
    if done.returncode == 0:
        return 'agrees'
    if done.returncode < 0 or f'ended by signal {signal.SIGKILL:d}' in done.stderr:
        return 'takes too long'
    return f'differs: {done.stderr}' if ' differs: ' in done.stderr else f'refused: {done.stderr[:200]}'


@pytest.mark.skipif(not HAS_ACES, reason='the program aces is not built')
@pytest.mark.skipif(shutil.which('csmith') is None, reason='csmith is not installed')
def test_random_programs(tmp_path: Path) -> None:
    """Thirty programs."""
    with ThreadPoolExecutor(2) as pool:
        found = list(pool.map(lambda seed: outcome(seed, tmp_path), SEEDS))
    agreeing, slow, refused = (sum(what.startswith(word) for what in found) for word in ('agrees', 'takes too long', 'refused'))
    print(f'{agreeing} of {len(SEEDS)} agree, {slow} take too long, {refused} are refused')
    assert not [f'seed {seed} {what}' for seed, what in zip(SEEDS, found) if what.startswith('differs')]
    assert slow + refused <= NOT_COMPARED, found
