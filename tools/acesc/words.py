"""Types of the language for C types: words of pointers, cells, structs, and function types."""
from __future__ import annotations

from typing import Optional

from .c_types import Array, CType, Float, Int, Pointer, RecordType, VaList, Void
from .classes import Classes, LoweredSignature, Memory, NUMBER, PointerClass, Signature, View
from .common import FLOATING, Refusal, VARIADIC, WORD, fresh
from .layout import Field, Record
from .program import Function, Program, Variable

Word = tuple[View, str]     # what a word of a pointer leads to, and its type in the language
OBJECT_LIMIT = 65536


class Words(Classes):
    """The types, and the structs that they need."""

    def __init__(self, program: Program) -> None:
        super().__init__(program)
        self.taken: set[str] = set()                                    # names of globals, peripherals and functions
        self.struct_names: set[str] = set()
        self.structs: list[tuple[str, list[tuple[str, str]]]] = []
        self.helpers: dict[tuple[str, tuple[str, ...]], str] = {}
        self.pointer_words: dict[int, list[Word]] = {}
        self.kept: list[PointerClass] = []                              # so that their identities stay theirs
        self.next_number = 0x20000000

    def number_of(self, entity: Variable | Function) -> int:
        """The number that stands for an address where pointers are compared."""
        if entity.number is None:
            entity.number = self.next_number
            size = 8
            if isinstance(entity, Variable):
                try:
                    size = self.layouts.size(entity.ctype)
                except Refusal:
                    pass
            self.next_number += (size + 15) // 8 * 8 + 8
        return entity.number

    # ---- pointers
    def words_of(self, pointer: PointerClass, depth: int = 0) -> list[Word]:
        """The words of a pointer: one for each view of what it leads to, and its number."""
        pointer = pointer.root()
        found = self.pointer_words.get(id(pointer))
        if found is None:
            if depth > 6:
                raise Refusal('a type of pointers that leads back to itself without a struct between: put the pointer into a struct')
            memory = pointer.memory()
            found = [(view, self.word_type(memory, view, depth + 1)) for view in self.views(memory)]
            if pointer.numbered:
                found.append((NUMBER, WORD))
            self.pointer_words[id(pointer)] = found
            self.kept.append(pointer)
        return found

    def word_type(self, memory: Memory, view: View, depth: int) -> str:
        """The type of one word."""
        if view[0] == 'u':
            return '*' + self.double_word() if view[1] == 8 else f'*u{8 * int(view[1])}'
        if view[0] == 'record':
            return '*' + self.record_name(str(view[1]))
        if view[0] == 'pointer':
            return '*' + self.pointer_cell(self.pointer_in(memory), depth)
        return self.function_type(memory.functions[int(view[1])], depth)

    def pointer_cell(self, pointer: PointerClass, depth: int = 0) -> str:
        """The type of a pointer in memory."""
        words = self.words_of(pointer, depth)
        return words[0][1] if len(words) == 1 else self.helper('ptr', [t for _, t in words])

    def helper(self, name: str, types: list[str]) -> str:
        """A struct of these types, made where it is new."""
        key = (name, tuple(types))
        if key not in self.helpers:
            self.helpers[key] = fresh(name, self.struct_names)
            self.structs.append((self.helpers[key], [(f'w{k}', t) for k, t in enumerate(types)]))
        return self.helpers[key]

    def double_word(self) -> str:
        """The struct of a 64-bit number."""
        return self.helper('u64', [WORD, WORD])

    # ---- structs
    def record_name(self, key: str) -> str:
        """The name of the struct for a record, which is made where it is new."""
        record = self.records.get(key)
        if record is None:
            return self.helper('opaque', ['u8'])
        if record.fault:
            raise Refusal(record.fault)
        if not record.text_name:
            record.text_name = fresh(record.name, self.struct_names)
            if record.fields is None:
                self.structs.append((record.text_name, [('w0', 'u8')]))
                return record.text_name
            try:
                self.struct(record, record.fields)
            except Refusal as fault:
                record.fault = f'struct {record.name}: {fault.what}'
                raise Refusal(record.fault, fault.place) from fault
        return record.text_name

    def struct(self, record: Record, fields: list[Field]) -> None:
        """Writes the struct of a record."""
        self.layouts.record(RecordType(record.key))
        taken: set[str] = set()
        lines: list[tuple[str, str]] = []
        units: dict[int, Field] = {}
        shared = ''
        for field in fields:
            if record.union and self.layouts.integers_only(field.ctype):
                if not shared:
                    shared = fresh('bytes', taken)
                    lines.append((shared, f'[{self.layouts.union_bytes(record)}]u8'))
                field.text_name = shared
            elif field.bits is not None:
                if field.bits:
                    self.bit_field(record, field, units, taken, lines)
            else:
                field.text_name = fresh(field.name or 'part', taken)
                empty = self.layouts.size(field.ctype) == 0
                lines.append((field.text_name, 'u8' if empty else self.object_type(field.memory, field.ctype)))
        if len(lines) > 64:
            raise Refusal(f'struct {record.name} has {len(lines)} fields; the language has 64: put some into a struct of their own')
        self.structs.append((record.text_name, lines or [('w0', 'u8')]))

    @staticmethod
    def bit_field(record: Record, field: Field, units: dict[int, Field], taken: set[str], lines: list[tuple[str, str]]) -> None:
        """Bit fields of one storage unit are one field of the struct."""
        size = field.integer.size
        if field.unit != size:
            raise Refusal(f'bit fields of the packed struct {record.name}, which holds a pointer too: put them into a struct of their own')
        first = units.get(field.offset)
        if first is None:
            units[field.offset] = first = field
            field.text_name = fresh(f'bits{field.offset}', taken)
            lines.append((field.text_name, f'u{8 * size}'))
        if first.integer.size != size:
            raise Refusal(f'bit fields of different types share a unit in struct {record.name}, which holds a pointer too: give them one type')
        field.text_name = first.text_name

    # ---- objects
    def cell_type(self, memory: Memory, ctype: CType) -> str:
        """The type of a cell, or of the struct, of an element; `ctype` is no array."""
        if isinstance(ctype, Int):
            return self.double_word() if ctype.size == 8 else f'u{8 * ctype.size}'
        if isinstance(ctype, Pointer):
            return self.pointer_cell(self.pointer_in(memory))
        if isinstance(ctype, RecordType):
            self.layouts.record(ctype)
            return self.record_name(ctype.key)
        raise Refusal(FLOATING if isinstance(ctype, Float) else VARIADIC if isinstance(ctype, VaList)
                      else 'a variable without a type that the language has')

    def object_type(self, memory: Memory, ctype: CType) -> str:
        """The type with which an object is declared."""
        memory, size = memory.root(), self.layouts.size(ctype)
        too_large = f'an object of {size} bytes; the language has 65,536'
        if size > OBJECT_LIMIT:
            raise Refusal(too_large)
        if self.in_units(memory, ctype):
            unit = memory.units[0]
            count = max(size // unit, 1)
            return f'u{8 * unit}' if count == 1 and not isinstance(ctype, Array) else f'[{count}]u{8 * unit}'
        count, element = 1, ctype
        while isinstance(element, Array):
            count *= element.count
            element = element.of
        cell = self.cell_type(memory, element)
        return f'[{max(count, 1)}]{cell}' if isinstance(ctype, Array) else cell

    def is_array(self, memory: Memory, ctype: CType) -> bool:
        """Whether an object is declared as an array."""
        return isinstance(ctype, Array) or self.in_units(memory, ctype) and self.layouts.size(ctype) > memory.root().units[0]

    def value_types(self, memory: Memory, ctype: CType) -> list[str]:
        """The types of the registers that hold a value."""
        if isinstance(ctype, Int):
            return [WORD, WORD] if ctype.size == 8 else [WORD]
        if isinstance(ctype, Pointer):
            return [t for _, t in self.words_of(self.pointer_in(memory))]
        if isinstance(ctype, RecordType):
            return [self.word_type(memory.root(), self.view_of(memory, ctype), 0)]
        if isinstance(ctype, Void):
            return []
        raise Refusal(FLOATING if isinstance(ctype, Float) else 'a value of this type as parameter or result')

    # ---- functions
    def lowered(self, signature: Signature, depth: int = 0) -> LoweredSignature:
        """How parameters and results are passed: at most four words in registers, more in structs of the caller."""
        if signature.lowered is not None:
            return signature.lowered
        if depth > 6:
            raise Refusal('a function type that takes itself: pass a pointer to a struct that holds it')
        ctype = signature.ctype
        if ctype.variadic:
            raise Refusal(VARIADIC)
        words: list[str] = []
        result: Optional[str] = None
        extra: list[str] = []
        if isinstance(ctype.result, RecordType):
            words += self.value_types(signature.result, ctype.result)
        elif not isinstance(ctype.result, Void):
            result, *extra = self.value_types(signature.result, ctype.result)
            if extra:
                words.append('*' + self.extra_type(extra))
        told = ctype.parameters if len(ctype.parameters) == len(signature.parameters) else [self.plain_type(m) for m in signature.parameters]
        for memory, parameter in zip(signature.parameters, told):
            words += self.value_types(memory, parameter)
        direct, rest = words, None
        if len(words) > 4:
            rest = self.helper('args', words[3:])
            direct = words[:3] + ['*' + rest]
        signature.lowered = LoweredSignature(words, direct, rest, result, extra)
        return signature.lowered

    def extra_type(self, extra: list[str]) -> str:
        """The type of the place for the words of a result behind the first."""
        return extra[0] if len(extra) == 1 else self.helper('res', extra)

    @staticmethod
    def plain_type(memory: Memory) -> CType:
        """A type for a parameter of which only the class is known."""
        memory = memory.root()
        if memory.pointer:
            return Pointer(Void())
        if memory.records:
            return RecordType(min(memory.records))
        return Int(max(memory.widths or {4}), False)

    def function_type(self, signature: Signature, depth: int = 0) -> str:
        """The type of a function in the language."""
        lowered = self.lowered(signature, depth)
        return f'fn({", ".join(lowered.direct)})' + (f' -> {lowered.result}' if lowered.result else '')

    def element_size(self, view: View) -> int:
        """The bytes of C by which `elem` steps in a word of a pointer."""
        if view[0] == 'u':
            return int(view[1])
        return self.layouts.size(RecordType(str(view[1]))) if view[0] == 'record' else 4

