"""The firmware text: all functions and globals in their order, frames within their limit."""
from __future__ import annotations

import re
from typing import Optional

from .builder import Callee
from .c_types import Array
from .code import FunctionCode, Instruction
from .common import Place, Refusal, UNKNOWN_FORM, WORD, as_refusal, fresh
from .first_values import CellValue, FirstValues, InCode, Scalar
from .functions import INITIALISER
from .program import Function, Program, Unit, Variable
from .peripherals import Peripheral
from .regs import allot
from .routines import routine_text
from .shape import Shapes, undefined
from .widening import Sets, first_contents, tell_wide_pointers

FRAME_LIMIT = 992
OBJECT_LIMIT = 65536


class Declared:
    """A global as it is written."""

    def __init__(self, variable: Variable, values: list[CellValue], in_code: bool) -> None:
        self.variable, self.values, self.in_code = variable, values, in_code


class Emitter(FirstValues):
    """Translates all that the analysis found, and writes the text."""

    def __init__(self, program: Program, shapes: Shapes, strings: dict[bytes, Variable], peripherals: list[Peripheral], only_used: bool,
                 lines: bool) -> None:
        super().__init__(program, peripherals)
        self.shapes, self.strings, self.only_used, self.lines = shapes, strings, only_used, lines
        self.refused = shapes.refused
        self.function_cells = set()
        self.routine_names: dict[tuple[str, Unit], str] = {}
        self.initialiser_names: dict[Unit, str] = {}
        self.globals_declared: list[Declared] = []
        self.moved_locals: list[tuple[str, str]] = []
        self.codes: dict[Unit, list[FunctionCode]] = {u: [] for u in program.units}
        self.calls: dict[str, set[str]] = {}
        self.struct_sizes: dict[str, tuple[int, int]] = {}

    def translated(self) -> Optional[str]:
        """The firmware text, or nothing where something was refused."""
        self.name_everything(self.shapes.functions)
        for variable in self.shapes.globals:
            if variable.text_name is None:
                variable.text_name = fresh(f'{variable.function.name}.{variable.name}' if variable.function else variable.name, self.taken)
        self.tell_casts()
        self.translate_globals()
        self.translate_functions()
        if self.messages.errors:
            return None
        self.find_calls()
        texts = {unit: [t for t in map(self.finished, self.codes[unit]) if t is not None] for unit in self.program.units}
        if self.messages.errors:
            return None
        self.tell_wide_pointers()
        return self.text(texts)

    def tell_wide_pointers(self) -> None:
        """Tells of pointers that may lead to objects of several files."""
        sets = Sets()
        files: dict[str, str] = {}
        for declared in self.globals_declared:
            first_contents(sets, declared.variable, declared.values)
            if not declared.variable.is_const:
                files[str(declared.variable.text_name)] = declared.variable.unit.home.name
        tell_wide_pointers(sets, [code for unit in self.program.units for code in self.codes[unit]], files, self.messages)

    def tell_casts(self) -> None:
        """Tells of pointers to integers that may lead to structs with pointers, which are null when read so."""
        for node, pointer in self.shapes.casts:
            for view in self.views(pointer.memory()):
                if view[0] == 'record' and str(view[1]) not in self.integer_records():
                    name = self.records[str(view[1])].name
                    self.messages.warning(f'this pointer may also lead to struct {name}, which holds pointers: read as numbers through it, '
                                          'the struct is a null pointer and stops the run; copy it field by field', node.get('_place'))

    def integer_records(self) -> set[str]:
        """The records without pointers."""
        return {k for k, r in self.records.items() if r.fields is not None and all(self.layouts.integers_only(f.ctype) for f in r.fields)}

    # ---- translation
    def translate_globals(self) -> None:
        """First values of all globals, and the functions that store those which the text cannot tell."""
        todo: dict[Unit, list[tuple[Variable, list[Scalar]]]] = {}
        for variable in self.shapes.globals:
            try:
                self.unit = variable.unit
                if not variable.is_defined and variable.data is None:
                    raise Refusal(undefined(variable.name), variable.place)
                if isinstance(variable.ctype, Array) and variable.ctype.count == 0:
                    variable.ctype = Array(1, variable.ctype.of)
                values, scalars = self.first_values_of(variable)
                if scalars:
                    todo.setdefault(variable.unit, []).append((variable, scalars))
                self.globals_declared.append(Declared(variable, values, bool(scalars)))
            except (Refusal, *UNKNOWN_FORM) as fault:
                refusal = as_refusal(fault)
                self.messages.error(refusal.what, refusal.place or variable.place)
        self.initialised_units = [unit for unit in self.program.units if unit in todo]
        for unit in self.initialised_units:
            self.initialiser_names[unit] = fresh(f'init.{unit.name}', self.taken)
        for unit in self.initialised_units:
            try:
                self.codes[unit].append(self.initialiser_code(unit, self.initialiser_names[unit], todo[unit]))
            except Refusal as fault:
                self.messages.error(fault.what, fault.place)

    def translate_functions(self) -> None:
        """The code of all functions that are reached."""
        for unit in self.program.units:
            for function in unit.functions:
                if function not in self.shapes.functions or function in self.refused:
                    continue
                try:
                    self.codes[unit].append(self.function_code(function))
                except (Refusal, *UNKNOWN_FORM) as fault:
                    refusal = as_refusal(fault)
                    self.refuse_function(function, refusal.what, refusal.place)
                except RecursionError:
                    self.refuse_function(function, 'an expression that is nested too deep', None)

    def refuse_function(self, function: Optional[Function], what: str, place: Optional[Place]) -> None:
        """Tells of a function that has no form."""
        self.messages.error(what, place or (function.place if function else None))
        self.refused.add(function)

    def finished(self, code: FunctionCode) -> Optional[str]:
        """Allots the registers of a function and writes it."""
        taken = set(self.taken) | {n for n, _ in code.locals}

        def new_local(name: str, ctype: str) -> str:
            found = fresh(name, taken)
            code.locals.append((found, ctype))
            return found
        try:
            allot(code, new_local)
            self.fit_frame(code)
            return self.function_text(code)
        except Refusal as fault:
            self.refuse_function(code.function, fault.what, fault.place)
            return None

    # ---- frames
    def find_calls(self) -> None:
        """Which functions may call which."""
        codes = [code for unit in self.program.units for code in self.codes[unit]]
        all_of = [(code, i) for code in codes for block in code.blocks for i in block.instructions]
        pointed = {i.what.text_name for _, i in all_of if i.kind == 'function'} | self.function_cells
        kinds = {str(f.text_name): self.function_type(f.memory.root().functions[0]) for f in self.shapes.functions if f.text_name in pointed}
        self.calls = {code.name: set() for code in codes}
        for code, instruction in all_of:
            if instruction.kind == 'call' and isinstance(instruction.what, Function):
                self.calls[code.name].add(str(instruction.what.text_name))
            elif instruction.kind == 'call_pointer':
                self.calls[code.name] |= {n for n, t in kinds.items() if t == code.types[instruction.operands[0]]}

    def reaches_itself(self, name: str) -> bool:
        """Whether a function may be called while it runs."""
        seen: set[str] = set()
        todo = list(self.calls.get(name, ()))
        while todo:
            one = todo.pop()
            if one == name:
                return True
            if one not in seen:
                seen.add(one)
                todo += self.calls.get(one, ())
        return False

    def fit_frame(self, code: FunctionCode) -> None:
        """Where a frame is too large, makes globals of the largest locals: one call at a time is live."""
        while True:
            size = 4 * code.register_count + 4 + sum((self.text_size(t)[0] + 3) // 4 * 4 for _, t in code.locals)
            size = (size + 7) // 8 * 8
            if size <= FRAME_LIMIT:
                return
            largest = max(range(len(code.locals)), key=lambda k: self.text_size(code.locals[k][1])[0], default=-1)
            if largest < 0 or self.reaches_itself(code.name) or self.text_size(code.locals[largest][1])[0] > OBJECT_LIMIT:
                raise Refusal(f'{code.name}: a frame of {size} bytes; the language has 992: make large local variables static')
            name, ctype = code.locals.pop(largest)
            moved = fresh(f'{code.name}.{name}', self.taken)
            self.moved_locals.append((moved, ctype))
            self.messages.note(f'{code.name}: the local {name} ({self.text_size(ctype)[0]} bytes) is kept in a global, since frames have 992 bytes',
                               code.place)
            for block in code.blocks:
                block.instructions = [i._replace(what=moved) if i.kind == 'address' and i.what == name else i for i in block.instructions]

    def text_size(self, ctype: str) -> tuple[int, int]:
        """Size and alignment of a type of the language."""
        array = re.match(r'\[(\d+)\](.*)$', ctype)
        if array:
            size, alignment = self.text_size(array.group(2))
            return int(array.group(1)) * size, alignment
        if ctype in ('u8', 'u16', 'u32'):
            return int(ctype[1:]) // 8, int(ctype[1:]) // 8
        if ctype[0] == '*' or ctype.startswith('fn'):
            return 4, 4
        if ctype not in self.struct_sizes:
            at, most = 0, 1
            for _, field in dict(self.structs)[ctype]:
                size, alignment = self.text_size(field)
                at = (at + alignment - 1) // alignment * alignment + size
                most = max(most, alignment)
            self.struct_sizes[ctype] = ((at + most - 1) // most * most, most)
        return self.struct_sizes[ctype]

    # ---- text
    def text(self, texts: dict[Unit, list[str]]) -> Optional[str]:
        """The whole text."""
        functions: list[str] = []
        names: set[str] = set()
        for unit in self.program.units:
            if unit.home is not unit:
                continue
            functions.append(f'file {fresh(unit.name, names)} {{')
            functions += [text for own in self.program.units if own.home is unit for text in texts[own]]
            functions += [routine_text(kind, name, self.helper('args', [WORD, '*u32']) if kind.endswith('64') else '')
                          for (kind, owner), name in self.routine_names.items() if owner.home is unit]
            functions.append('}')
        if 'main' not in self.taken:        # a library, of which every function is translated
            functions.append('file main { func main() { start: ret } }')
        globals_: list[str] = []
        for declared in self.globals_declared:
            try:
                globals_.append(self.global_line(declared))
            except Refusal as fault:
                self.messages.error(fault.what, declared.variable.place)
        globals_ += [f'global {name}: {ctype}' for name, ctype in self.moved_locals]
        structs = [f'struct {name} {{ ' + ', '.join(f'{n}: {t}' for n, t in fields) + ' }' for name, fields in self.structs]
        self.check_windows()
        windows = [f'periph {p.name} 0x{p.base:08X} {p.size}' for p in self.shown_peripherals()]
        for count, most, what in ((len(structs), 256, 'structs'), (len(windows), 64, 'peripherals'), (len(globals_), 1024, 'globals'),
                                  (sum(map(len, texts.values())), 1024, 'functions')):
            if count > most:
                self.messages.error(f'{count} {what}; the language has {most:,}', None)
        return None if self.messages.errors else '\n'.join(structs + windows + globals_ + functions) + '\n'

    def shown_peripherals(self) -> list[Peripheral]:
        """The peripherals that are declared: all of a table, and those of an SVD file that are used."""
        if not self.only_used:
            return self.peripherals
        return [p for p in self.peripherals if p.name in self.used_peripherals]

    def check_windows(self) -> None:
        """Tells of used peripherals whose windows meet."""
        shown = self.shown_peripherals()
        for number, one in enumerate(shown):
            for other in shown[:number]:
                if one.base < other.base + other.size and other.base < one.base + one.size:
                    self.messages.error(f'the windows of {other.name} and {one.name} meet: give a table of windows by -p', None)

    def global_line(self, declared: Declared) -> str:
        """A global with its first values."""
        variable = declared.variable
        head = 'const ' if variable.is_const and not declared.in_code else ''
        values = ', '.join(map(self.cell_text, declared.values))
        return f'{head}global {variable.text_name}: {self.object_type(variable.memory, variable.ctype)}' + (f' = {{{values}}}' if values else '')

    @staticmethod
    def cell_text(value: CellValue) -> str:
        """A first value of a cell."""
        if isinstance(value, int):
            return str(value)
        assert value is not None and not isinstance(value, InCode)
        thing = value.thing
        return f'fn {thing.text_name}' if isinstance(thing, Function) else f'addr {thing if isinstance(thing, str) else thing.text_name}'

    def name_of(self, what: object) -> str:
        """The name of what an instruction means."""
        if isinstance(what, Callee):
            if what.name == INITIALISER:
                return self.initialiser_names[what.unit]
            key = (what.name, what.unit)
            if key not in self.routine_names:
                self.routine_names[key] = fresh(what.name, self.taken)
            return self.routine_names[key]
        return str(what.text_name) if isinstance(what, (Function, Variable)) else str(what)

    def function_text(self, code: FunctionCode) -> str:
        """A function."""
        parameters = ', '.join(f'{n}: {t}' for n, t in code.parameter_lines)
        out = [f'func {code.name}({parameters})' + (f' -> {code.result}' if code.result else '') + ' {']
        out += [f'  local {n}: {t}' for n, t in code.locals] + [f'  reg {n}: {t}' for n, t in code.register_lines]
        for block in code.blocks:
            out.append(f'{block.name}:')
            line = None
            for instruction in block.instructions:
                if instruction.kind == 'line':
                    line = instruction.what
                    continue
                if line and self.lines:
                    out.append(f'  # {line}')
                    line = None
                out.append('  ' + self.instruction_text(code, instruction))
            end = block.ended()
            value = '' if end.value is None else ' ' + code.registers[end.value]
            word = 'ret' if end.kind == 'return' else end.kind
            out.append(f'  {word}{value}' + ''.join(f' {t}' for t in end.targets))
        return '\n'.join(out + ['}'])

    def instruction_text(self, code: FunctionCode, instruction: Instruction) -> str:
        """An instruction."""
        kind, what = instruction.kind, instruction.what
        words = [code.registers[v] for v in instruction.operands]
        to = '' if instruction.to is None else f'{code.registers[instruction.to]} = '
        if kind == 'number':
            return f'{to}{what}'
        if kind == 'operate':
            return f'{to}{what} {words[0]}, {words[1]}'
        if kind in ('address', 'function'):
            return f'{to}{"addr" if kind == "address" else "faddr"} {self.name_of(what)}'
        if kind == 'field':
            return f'{to}field {words[0]}, {what}'
        if kind == 'call':
            return f'{to}call {self.name_of(what)}({", ".join(words)})'
        if kind == 'call_pointer':
            return f'{to}icall {words[0]}({", ".join(words[1:])})'
        if kind == 'move':
            return to + words[0]
        return f'{to}{ {"element": "elem", "load": "load", "store": "store"}[kind]} {", ".join(words)}'

