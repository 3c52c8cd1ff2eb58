"""Variables and their types, as DWARF 4."""
from __future__ import annotations

from .firmware_text import WIDTHS, Array, Firmware, Function, Named, Pointer, Signature, Type
from .lines import FunctionCode, Symbols

# attributes and their forms
NAME, LINE_TABLE, LOW, HIGH, LANGUAGE, PRODUCER = (0x03, 0x08), (0x10, 0x17), (0x11, 0x01), (0x12, 0x06), (0x13, 0x0B), (0x25, 0x08)
TYPE, BYTE_SIZE, LONG_SIZE, ENCODING, UPPER, OFFSET = (0x49, 0x13), (0x0B, 0x0B), (0x0B, 0x05), (0x3E, 0x0B), (0x2F, 0x06), (0x38, 0x05)
LINE, LOCATION, EXTERNAL, FRAME_BASE = (0x3B, 0x05), (0x02, 0x18), (0x3F, 0x19), (0x40, 0x18)
# the kinds of entries: a tag, whether entries stand inside, and attributes; an entry names its kind by the number in this list, from 1 on
KINDS = (
    ('unit', 0x11, 1, (PRODUCER, NAME, LINE_TABLE, LOW, HIGH, LANGUAGE)),
    ('number', 0x24, 0, (NAME, BYTE_SIZE, ENCODING)),
    ('pointer', 0x0F, 0, (TYPE,)),
    ('array', 0x01, 1, (TYPE,)),
    ('range', 0x21, 0, (UPPER,)),
    ('struct', 0x13, 1, (NAME, LONG_SIZE)),
    ('field', 0x0D, 0, (NAME, TYPE, OFFSET)),
    ('signature', 0x15, 1, (TYPE,)),
    ('signature without result', 0x15, 1, ()),
    ('argument', 0x05, 0, (TYPE,)),
    ('global', 0x34, 0, (NAME, TYPE, LINE, LOCATION, EXTERNAL)),
    ('function', 0x2E, 1, (NAME, LINE, LOW, HIGH, FRAME_BASE, EXTERNAL, TYPE)),
    ('function without result', 0x2E, 1, (NAME, LINE, LOW, HIGH, FRAME_BASE, EXTERNAL)),
    ('parameter', 0x05, 0, (NAME, TYPE, LOCATION)),
    ('local', 0x34, 0, (NAME, TYPE, LOCATION)))
NUMBERS = {kind[0]: number for number, kind in enumerate(KINDS, 1)}
UNSIGNED, UNSIGNED_CHARACTER = 7, 8
WORD = Named('u32')
# the first words of the monitor's block
MONITOR_WORDS = ('monitor_running', 'monitor_top', 'monitor_calls', 'monitor_loans')


def kind(name: str) -> str:
    """The number with which an entry begins."""
    return f'.uleb128 {NUMBERS[name]}'


class Variables:
    """The sections of variables, types and functions."""

    def __init__(self, firmware: Firmware, symbols: Symbols, name: str, size: int) -> None:
        self.firmware, self.symbols, self.name, self.size = firmware, symbols, name, size
        self.labels: dict[Type, str] = {}
        self.types: list[list[str]] = []

    def lines(self) -> list[str]:
        """The assembler's lines."""
        entries = self.globals()
        for function in self.firmware.functions:
            entries += self.function(function, self.symbols.functions[function.name])
        head = ['.section .debug_line,"",%progbits', '.Lline:', '.section .debug_info,"",%progbits', '.Linfo:', '.4byte .Lend-.Lunit', '.Lunit:',
                '.2byte 4', '.4byte .Labbrev', '.byte 4', kind('unit'), '.asciz "aces"', f'.asciz "{self.name}"', '.4byte .Lline',
                f'.4byte 0x{self.symbols.base:08x}', f'.4byte {self.size}', '.byte 12']
        types = [line for lines in self.types for line in lines]
        return head + types + entries + ['.byte 0', '.Lend:'] + kinds()

    def reference(self, of: Type) -> str:
        """The line that refers to a type."""
        return f'.4byte {self.label(of)}-.Linfo'

    def label(self, of: Type) -> str:
        """The label of a type's entry, which is made where it is not there."""
        if of not in self.labels:
            self.labels[of] = f'.Ltype{len(self.labels)}'
            self.types.append(self.entry(of, self.labels[of]))
        return self.labels[of]

    def entry(self, of: Type, label: str) -> list[str]:
        """The entry of a type."""
        if isinstance(of, Pointer):
            return [f'{label}: {kind("pointer")}', self.reference(of.target)]
        if isinstance(of, Array):
            return [f'{label}: {kind("array")}', self.reference(of.element), kind('range'), f'.4byte {of.count - 1}', '.byte 0']
        if isinstance(of, Signature):
            lines = [f'{label}to: {kind("signature")}', self.reference(of.result)] if of.result else [f'{label}to: {kind("signature without result")}']
            for one in of.arguments:
                lines += [kind('argument'), self.reference(one)]
            return lines + ['.byte 0', f'{label}: {kind("pointer")}', f'.4byte {label}to-.Linfo']
        if of.name in WIDTHS:
            width = WIDTHS[of.name]
            return [f'{label}: {kind("number")}', f'.asciz "{of.name}"', f'.byte {width}', f'.byte {UNSIGNED_CHARACTER if width == 1 else UNSIGNED}']
        lines = [f'{label}: {kind("struct")}', f'.asciz "{of.name}"', f'.2byte {self.firmware.layout(of)[0]}']
        for field, offset in self.firmware.fields(of.name):
            lines += [kind('field'), f'.asciz "{field.name}"', self.reference(field.type), f'.2byte {offset}']
        return lines + ['.byte 0']

    def globals(self) -> list[str]:
        """Globals, peripherals as arrays of words, and the first words of the monitor's block."""
        found = [(one.name, self.firmware.globals[one.name][0], one.address, self.firmware.globals[one.name][1]) for one in self.symbols.globals]
        found += [(one.name, Array(one.size // 4, WORD), one.address, 1) for one in self.symbols.windows]
        found += [(name, WORD, self.symbols.block.address + 4 * number, 1) for number, name in enumerate(MONITOR_WORDS)]
        entries: list[str] = []
        for name, of, at, line in found:
            entries += [kind('global'), f'.asciz "{name}"', self.reference(of), f'.2byte {line}', '.uleb128 5', '.byte 3', f'.4byte 0x{at:08x}']
        return entries

    def function(self, function: Function, code: FunctionCode) -> list[str]:
        """A function; all that it has stands in its frame."""
        lines = [kind('function' if function.result else 'function without result'), f'.asciz "{function.name}"', f'.2byte {function.line}',
                 f'.4byte 0x{code.part.address:08x}', f'.4byte {code.part.size}', '.uleb128 1', '.byte 0x9c']
        if function.result:
            lines.append(self.reference(function.result))
        inside = [('parameter' if number < len(function.parameters) else 'local', variable, 4 * number)
                  for number, variable in enumerate(function.registers())]
        inside += [('local', variable, offset) for variable, offset in zip(function.locals, self.firmware.frame(function))]
        for what, variable, offset in inside:
            lines += [kind(what), f'.asciz "{variable.name}"', self.reference(variable.type), '.uleb128 1f-0f', '0: .byte 0x91',
                      f'.sleb128 {offset - code.frame}', '1:']
        return lines + ['.byte 0']


def kinds() -> list[str]:
    """The section of the kinds."""
    lines = ['.section .debug_abbrev,"",%progbits', '.Labbrev:']
    for number, (_, tag, inside, attributes) in enumerate(KINDS, 1):
        lines += [f'.uleb128 {number},{tag}', f'.byte {inside}', *[f'.uleb128 {one},{form}' for one, form in attributes], '.uleb128 0,0']
    return lines + ['.byte 0']
