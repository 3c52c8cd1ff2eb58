#!/usr/bin/env python3
"""Makes an ELF file of a compiled firmware, with symbols, lines, variables and call frames, for objdump and gdb.

    elf.py [--origins] FIRMWARE BOARD POLICY ELF

It takes the lines of `aces symbols` and `list`, the bytes of `aces bin`, and the firmware's text, and calls `as`, `ld` and `objcopy` of
binutils-arm-none-eabi. With --origins the lines are those of comments such as `# main.c:60`, as tools/aces-c puts them. ACES names the program; else it
is crates/aces/out/aces. It is not proved, and nothing that is claimed rests on it; the bytes of the file are those of `aces bin`, which is tested each
time, and no file is left where they are not.
"""
from __future__ import annotations

import os
import sys
import tempfile

sys.dont_write_bytecode = True
sys.path.insert(0, os.path.dirname(os.path.abspath(__file__)))
from debug_info.assembly import Assembly, Unexpected  # noqa: E402
from debug_info.firmware_text import Firmware  # noqa: E402
from debug_info.lines import Listing, Symbols  # noqa: E402
from debug_info.program import aces, content, flash_bytes, run  # noqa: E402


def write(name: str, text: str) -> None:
    """Writes a file."""
    with open(name, 'w', encoding='utf-8') as file:
        file.write(text)


def linker_script(sections: list[tuple[str, int]]) -> str:
    """Each section at its address; those of RAM are not loaded."""
    lines = []
    for name, address in sorted(sections, key=lambda section: section[1]):
        kept = '(NOLOAD) ' if name in ('.stack', '.block') or name.startswith('.ram.') else ''
        lines.append(f'  {name} 0x{address:08x} {kept}: {{ *({name}) }}\n')
    return 'ENTRY(monitor_start)\nSECTIONS {\n' + ''.join(lines) + '}\n'


def link(assembly: Assembly, elf: str, folder: str) -> bytes:
    """Writes the file; the bytes of flash that it holds."""
    write(f'{folder}/text.s', assembly.text())
    write(f'{folder}/script.ld', linker_script(assembly.sections))
    run('arm-none-eabi-as', '-mcpu=cortex-m4', '-o', f'{folder}/object', f'{folder}/text.s')
    run('arm-none-eabi-ld', '--no-warn-rwx-segments', '-T', f'{folder}/script.ld', '-o', elf, f'{folder}/object')
    run('arm-none-eabi-objcopy', '-O', 'binary', '--gap-fill', '255', elf, f'{folder}/again')
    return content(f'{folder}/again')


def main(words: list[str]) -> int:
    """The command; its status."""
    by_origins = words[:1] == ['--origins']
    if len(words) != 4 + by_origins:
        print(__doc__, file=sys.stderr)
        return 2
    firmware, board, policy, elf = words[by_origins:]
    symbols, listing = Symbols(aces('symbols', firmware, board, policy)), Listing(aces('list', firmware, board, policy))
    text = Firmware(content(firmware).decode(), by_origins)
    with tempfile.TemporaryDirectory() as folder:
        flash = flash_bytes(firmware, board, policy, folder)
        try:
            written = link(Assembly(text, symbols, listing, flash, os.path.abspath(firmware)), elf, folder)
        except Unexpected as fault:
            sys.exit(f'elf.py: {fault}')
    if written != flash:
        os.remove(elf)
        sys.exit('elf.py: the bytes of the ELF file are not those of the image')
    places = sum(len(one.places) for one in symbols.functions.values())
    print(f'{elf}: {len(symbols.functions)} functions, {len(symbols.globals)} globals, {places} places of code')
    return 0


if __name__ == '__main__':
    sys.exit(main(sys.argv[1:]))
