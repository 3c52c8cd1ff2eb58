"""Sizes and offsets of random structs are those of clang."""
from __future__ import annotations

import random
import subprocess
import sys
from pathlib import Path

from support import TOOLS, clangs

sys.path.insert(0, str(TOOLS))

from acesc.common import Messages  # noqa: E402
from acesc.c_types import RecordType  # noqa: E402
from acesc.dump import declarations, run_clang  # noqa: E402
from acesc.program import Program, Unit  # noqa: E402
from acesc.unit import UnitReader  # noqa: E402

KINDS = ('char', 'short', 'int', 'unsigned', 'long long', 'void *', 'short', 'unsigned char')


def record(generator: random.Random, number: int) -> str:
    """A struct or union with plain fields, arrays, bit fields and earlier structs."""
    fields = []
    for k in range(generator.randrange(1, 8)):
        kind = generator.choice(KINDS)
        if number and generator.random() < 0.15:
            fields.append(f'struct s{generator.randrange(number)} f{k};')
        elif kind in ('int', 'unsigned', 'short', 'unsigned char') and generator.random() < 0.4:
            most = {'short': 16, 'unsigned char': 8}.get(kind, 32)
            width = generator.choice((0, generator.randrange(1, most + 1)))
            fields.append(f'{kind} {f"f{k}" if width else ""} : {width};')
        else:
            fields.append(f'{kind} f{k}{generator.choice(("", "", "[3]"))};')
    packed = generator.choice(('', '', '__attribute__((packed)) '))
    return f'struct {packed}s{number} {{ {" ".join(fields)} int last; }};'


def test_layouts(tmp_path: Path) -> None:
    """Two hundred structs."""
    generator = random.Random(7)
    text = '\n'.join(record(generator, k) for k in range(200)) + '\n'
    source = tmp_path / 'layout.c'
    source.write_text(text)
    program = Program(Messages())
    unit = Unit(str(source), False)
    program.units.append(unit)
    UnitReader(program, unit).read(declarations(run_clang(clangs()[0], [], str(source)), True))
    assert not program.messages.errors
    asserts = []
    for key in sorted(program.records):
        ctype = RecordType(key)
        asserts.append(f'_Static_assert(sizeof(struct {key}) == {program.layouts.size(ctype)}, "{key}");')
        asserts.append(f'_Static_assert(_Alignof(struct {key}) == {program.layouts.alignment(ctype)}, "alignment of {key}");')
        asserts += [f'_Static_assert(__builtin_offsetof(struct {key}, {f.name}) == {f.offset}, "{key}.{f.name}");'
                    for f in program.layouts.fields(ctype) if f.name and f.bits is None]
    source.write_text(text + '\n'.join(asserts) + '\n')
    done = subprocess.run([clangs()[0], '--target=thumbv7m-none-eabi', '-fsyntax-only', '-w', str(source)], capture_output=True, text=True, check=False)
    assert done.returncode == 0, done.stderr[:3000]
