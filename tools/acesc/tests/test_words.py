"""Options, messages and statuses, as a C programmer knows them."""
from __future__ import annotations

import re
import subprocess
import sys
from pathlib import Path

import pytest
from support import CASES, TOOLS, aces_c

TABLE = str(CASES / 'peripherals.txt')
PORT = '#define PORT (*(volatile unsigned *)0x40010800u)\n'


@pytest.mark.parametrize('words', [[], ['-p'], ['-x', 'a.c'], ['-p', 'no such file', str(CASES / 'cases.c')], ['no such file.c'],
                                   ['--clang', 'no-such-clang', str(CASES / 'cases.c')], ['test', str(CASES / 'cases.c')]])
def test_usage(words: list[str]) -> None:
    """Words that are no request."""
    done = aces_c(*words)
    assert done.returncode == 2 and done.stdout == '' and 'aces-c: ' in done.stderr


def test_all_errors_at_once(tmp_path: Path) -> None:
    """Every refusal is told with its place, and nothing is written."""
    one, other, out = tmp_path / 'one.c', tmp_path / 'other.c', tmp_path / 'out.ir'
    one.write_text(PORT + 'int twice(int);\nint main(void) {\n  float f = 1;\n  PORT = (unsigned)f;\n  PORT = twice(2);\n}\n')
    other.write_text('int printf(const char *, ...);\nint twice(int x) {\n  return printf("%d", x);\n}\n')
    done = aces_c('-p', TABLE, '-o', out, one, other)
    assert done.returncode == 1 and not out.exists() and done.stdout == ''
    places = re.findall(r'(?m)^\S*/(\w+\.c):(\d+):\d+: error: ', done.stderr)
    assert ('one.c', '4') in places and ('other.c', '3') in places


def test_text_to_the_standard_output(tmp_path: Path) -> None:
    """Without -o; with comments that tell the lines of C."""
    source = tmp_path / 'led.c'
    source.write_text(PORT + 'int main(void) {\n  PORT = LEVEL;\n}\n')
    done = aces_c('-p', TABLE, '-DLEVEL=7', source)
    assert done.returncode == 0 and '  # led.c:3\n' in done.stdout and 'file led.c {' in done.stdout
    assert '# led.c' not in aces_c('-p', TABLE, '-DLEVEL=7', '--no-lines', source).stdout


def test_clang_tells_its_own_errors(tmp_path: Path) -> None:
    """What is no C is told by clang."""
    source = tmp_path / 'bad.c'
    source.write_text('int main(void) { return beep(; }\n')
    done = aces_c(source)
    assert done.returncode == 1 and 'bad.c:1:' in done.stderr and 'error: ' in done.stderr


def test_short_enums(tmp_path: Path) -> None:
    """Enums have the size that the option gives them."""
    source = tmp_path / 'enums.c'
    source.write_text(PORT + 'enum e { A, B };\nint main(void) { PORT = sizeof(enum e); }\n')
    assert ' = 4\n' in aces_c('-p', TABLE, source).stdout
    assert ' = 1\n' in aces_c('-p', TABLE, '-fshort-enums', source).stdout


def test_weak_gives_way(tmp_path: Path) -> None:
    """A strong definition takes the place of a weak one, whatever the order of the files."""
    one, other = tmp_path / 'one.c', tmp_path / 'other.c'
    one.write_text(PORT + '__attribute__((weak)) void tick(void) { PORT = 17; }\nint main(void) { tick(); }\n')
    other.write_text(PORT + 'void tick(void) { PORT = 23; }\n')
    for files in ((one, other), (other, one)):
        text = aces_c('-p', TABLE, *files).stdout
        assert ' = 23\n' in text and ' = 17\n' not in text


def test_many_values_at_once(tmp_path: Path) -> None:
    """Values beyond the registers are kept in locals, and a large function is translated in linear time."""
    names = [f'v{k}' for k in range(170)]
    lines = [f'unsigned {n} = PORT;' for n in names] + [f'PORT = {n} * {k + 3}u;' for k, n in enumerate(names)] * 12
    source = tmp_path / 'many.c'
    source.write_text(PORT + 'int main(void) {\n' + '\n'.join(lines) + '\n}\n')
    done = aces_c('-p', TABLE, '--stats', source)
    assert done.returncode == 0 and ' spilled' in done.stderr, done.stderr


def test_every_function(tmp_path: Path) -> None:
    """Of a library without main: how many functions are translated, and the text where all are."""
    source = tmp_path / 'library.c'
    source.write_text('int twice(int x) { return 2 * x; }\nfloat half(int x) { return x / 2.0f; }\n')
    done = aces_c('--all', source)
    assert done.returncode == 1 and done.stdout == '' and 'functions 2, translated 1\n' in done.stderr
    source.write_text('int twice(int x) { return 2 * x; }\n')
    done = aces_c('--all', source)
    assert done.returncode == 0 and 'func twice(' in done.stdout and 'func main()' in done.stdout


def test_types() -> None:
    """`mypy --strict` finds nothing."""
    pytest.importorskip('mypy')
    done = subprocess.run([sys.executable, '-m', 'mypy', '--strict', '--cache-dir', '/dev/null', 'acesc', '--exclude', 'tests'], cwd=TOOLS,
                          capture_output=True, text=True, check=False)
    assert done.returncode == 0, done.stdout
