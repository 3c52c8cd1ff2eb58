"""The assembler's text of an image: sections, symbols, lines and call frames."""
from __future__ import annotations

from typing import Optional

from .firmware_text import Firmware, Function, Instruction, Place
from .lines import FunctionCode, Listing, Part, Symbols
from .variables import MONITOR_WORDS, Variables

PAGE, SVC_CALL = 4096, 0xDF00


class Unexpected(Exception):
    """The lines of the program and the firmware's text do not fit."""


class Assembly:
    """The text; `sections` has the names and addresses of what it makes."""

    def __init__(self, firmware: Firmware, symbols: Symbols, listing: Listing, flash: bytes, name: str) -> None:
        self.firmware, self.symbols, self.listing, self.flash, self.name = firmware, symbols, listing, flash, name
        self.lines: list[str] = []
        self.sections: list[tuple[str, int]] = []
        self.files: dict[Optional[str], int] = {None: 1}
        self.taken = {one.name for one in symbols.globals} | set(symbols.functions)

    def text(self) -> str:
        """All of it."""
        self.put('.syntax unified', '.cpu cortex-m4', '.thumb', '.cfi_sections .debug_frame', f'.file 1 "{self.name}"')
        self.vectors_and_monitor()
        self.tables()
        self.compartments()
        self.memory()
        self.put(*Variables(self.firmware, self.symbols, self.name, len(self.flash)).lines())
        return '\n'.join(self.lines) + '\n'

    def put(self, *lines: str) -> None:
        """Adds lines."""
        self.lines += lines

    def section(self, name: str, address: int, flags: str = 'ax', kind: str = 'progbits') -> None:
        """Begins a section."""
        self.sections.append((name, address))
        self.put(f'.section {name},"{flags}",%{kind}')

    def symbol(self, name: str, kind: str, size: int) -> None:
        """A symbol of the firmware."""
        self.put(f'.global "{name}"', f'.type "{name}",%{kind}', *(['.thumb_func'] if kind == 'function' else []), f'"{name}":',
                 f'.size "{name}",{size}')

    def own_symbol(self, name: str, kind: str, size: int) -> None:
        """A symbol of this tool, which gives way to those of the firmware."""
        while name in self.taken:
            name += '_'
        self.symbol(name, kind, size)

    def half(self, address: int) -> int:
        """A halfword of flash."""
        at = address - self.symbols.base
        return int.from_bytes(self.flash[at:at + 2], 'little')

    def length(self, address: int) -> int:
        """The bytes of the instruction of the processor at an address."""
        return 4 if self.half(address) >> 11 in (29, 30, 31) else 2

    def code(self, at: int, end: int, numbers: bool = True) -> None:
        """Instructions as such; with `numbers`, those of sites behind SVC 0 as data."""
        while at < end:
            half = self.half(at)
            if self.length(at) == 4:
                self.put(f'.inst.w 0x{half:04x}{self.half(at + 2):04x}')
                at += 4
                continue
            self.put(f'.inst.n 0x{half:04x}')
            at += 2
            if numbers and half == SVC_CALL:
                self.put(f'.short {self.half(at)}')
                at += 2

    def data(self, at: int, end: int) -> None:
        """Bytes of flash."""
        content = self.flash[at - self.symbols.base:end - self.symbols.base]
        if content and content.count(255) == len(content):
            self.put(f'.fill {len(content)},1,255')
            return
        for first in range(0, len(content), 16):
            self.put('.byte ' + ','.join(map(str, content[first:first + 16])))

    def vectors_and_monitor(self) -> None:
        """The first 4,096 bytes."""
        base, parts = self.symbols.base, self.symbols.monitor
        self.section('.vectors', base, 'a')
        self.own_symbol('vectors', 'object', 64)
        self.data(base, base + 64)
        self.section('.monitor', base + 64)
        leave = parts[-1]
        # gdb looks a return address up by the byte before it, so the call frame of the leave stub begins one instruction early
        for part in parts[:-1]:
            self.own_symbol(f'monitor_{part.name}', 'function', part.size)
            self.code(part.address, part.end - 2 if part is parts[-2] else part.end, numbers=False)
        self.put('.cfi_startproc', '.cfi_signal_frame', *self.border())
        self.code(leave.address - 2, leave.address, numbers=False)
        self.own_symbol(f'monitor_{leave.name}', 'function', leave.size)
        self.code(leave.address, leave.end, numbers=False)
        self.put('.cfi_endproc')
        self.data(leave.end, base + PAGE)

    def border(self) -> list[str]:
        """The call frame from one compartment to the one that called it, as a DWARF expression over the monitor's block.

        Of the saved entries the last one whose stack pointer is at sp or above counts: the caller's frame, as SVC pushed it, ends 32 bytes above that
        pointer. Where there is none, `main` was left, and the caller's pc is read as 0 from the vectors.
        """
        def word(number: int) -> list[int]:
            return [0x0C, *number.to_bytes(4, 'little')]

        def skip(count: int) -> list[int]:
            return list(count.to_bytes(2, 'little', signed=True))

        drop, duplicate, over_end, load, plus = 0x13, 0x12, 0x2F, 0x06, 0x22
        start = word(self.symbols.block.address + 8) + [load]               # the number k of waiting calls
        is_none = [duplicate, 0x30, 0x29, 0x28]                             # k = 0, and a branch
        entry = [0x31, 0x1C, duplicate, 0x34, 0x24] + word(self.symbols.block.address + 32) + [plus, load]     # k - 1, and its stack pointer
        is_below = [duplicate, 0x7D, 0, 0x2D, 0x28]                         # below sp, and a branch
        found = [0x23, 32, over_end]                                        # 32 above it; a jump to the end
        again = [drop, over_end]                                            # the loop's jump back
        none = word(self.symbols.base + 28)
        loop = len(is_none) + 2 + len(entry) + len(is_below) + 2 + len(found) + 2 + len(again) + 2
        expression = (start + is_none + skip(loop - len(is_none) - 2) + entry + is_below + skip(len(found) + 2) + found
                      + skip(len(again) + 2 + len(none)) + again + skip(-loop) + none)
        return [f'.cfi_escape 0x0f,{len(expression)},{",".join(map(str, expression))}', '.cfi_offset 14,-12', '.cfi_offset 15,-8']

    def tables(self) -> None:
        """The tables, and what lies between them and the first code."""
        at = self.symbols.base + PAGE
        self.section('.tables', at, 'a')
        for part in self.symbols.tables:
            if part.size:
                self.own_symbol(f'tables_{part.name}', 'object', part.size)
                self.data(part.address, part.end)
            at = part.end
        self.data(at, min(one.code.address for one in self.listing.compartments))

    def compartments(self) -> None:
        """The code of all compartments, by rising address."""
        by_name = {one.name: one for one in self.firmware.functions}
        for number, compartment in sorted(enumerate(self.listing.compartments), key=lambda one: one[1].code.address):
            inside = [one for one in self.symbols.functions.values() if one.compartment == number]
            files = sorted({by_name[one.part.name].file for one in inside})
            self.section(f'.compartment{number}' + (f'.{files[0]}' if len(files) == 1 else ''), compartment.code.address)
            at = compartment.code.address
            for one in inside:
                self.code(at, one.part.address)
                self.function(one, by_name[one.part.name])
                at = one.part.end
            self.data(at, compartment.code.end)

    def location(self, place: Place) -> str:
        """The line of what follows."""
        if place.file not in self.files:
            self.files[place.file] = len(self.files) + 1
            self.put(f'.file {self.files[place.file]} "{place.file}"')
        return f'.loc {self.files[place.file]} {place.line}'

    def instructions(self, code: FunctionCode, function: Function) -> list[tuple[int, int, Instruction]]:
        """Where the code of each instruction begins and ends; all of the text are there."""
        found = []
        for place, end in zip(code.places, [one.address for one in code.places[1:]] + [code.part.end]):
            block = function.blocks.get(place.block, [])
            at = len(block) - 1 if place.number is None else place.number
            if not 0 <= at < len(block) or block[at].ends != (place.number is None):
                raise Unexpected(f'{function.name} block {place.block} instruction {place.number} is not in the text')
            found.append((place.address, end, block[at]))
        if len(found) != sum(len(block) for block in function.blocks.values()):
            raise Unexpected(f'{function.name} has other instructions in the text')
        return found

    def function(self, code: FunctionCode, function: Function) -> None:
        """A function, with lines and call frames: PUSH {lr} stands first, and then what takes the frame."""
        inside = self.instructions(code, function)
        first, frame = code.part.address, code.frame
        self.symbol(function.name, 'function', code.part.size)
        self.put('.cfi_startproc', self.location(inside[0][2].place if self.firmware.by_origins else Place(None, function.line)))
        self.code(first, first + 2)
        self.put('.cfi_def_cfa_offset 4', '.cfi_offset 14,-4')
        at = first + 2 + self.length(first + 2)
        self.code(first + 2, at)
        self.put(f'.cfi_def_cfa_offset {frame}')
        for start, end, instruction in inside:
            self.code(at, start)
            self.put(self.location(instruction.place))
            # before POP {pc}, which returns, the frame is gone
            at = end - 2 if instruction.returns else end
            self.code(start, at)
            if instruction.returns:
                self.put('.cfi_def_cfa_offset 4')
                self.code(at, end)
                self.put(f'.cfi_def_cfa_offset {frame}')
                at = end
        self.put('.cfi_endproc')

    def memory(self) -> None:
        """The blocks of RAM."""
        stack, block = self.symbols.stack, self.symbols.block
        words = [Part(name, block.address + 4 * number, 4) for number, name in enumerate(MONITOR_WORDS)]
        blocks = [(stack, '.stack', [stack]), (block, '.block', words)]
        for slot in self.listing.blocks.values():
            inside = [part for part in self.symbols.globals if part.name in slot.names]
            blocks.append((slot.part, f'.ram.{inside[0].name}', inside))
        blocks.sort(key=lambda one: one[0].address)
        for part, name, parts in blocks:
            # a block may stand in the tail of another one
            end = min([part.end] + [other.address for other, *_ in blocks if other.address > part.address])
            self.section(name, part.address, 'aw', 'nobits')
            at = part.address
            for one in parts:
                self.put(f'.space {one.address - at}')
                (self.symbol if name.startswith('.ram.') else self.own_symbol)(one.name, 'object', one.size)
                self.put(f'.space {one.size}')
                at = one.end
            self.put(f'.space {end - at}')
