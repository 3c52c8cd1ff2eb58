"""First values of globals: cells where the text can tell them, and code for the rest."""
from __future__ import annotations

from dataclasses import dataclass
from typing import NamedTuple, Optional, Union

from .builder import AnyPlace, MemoryPlace
from .c_types import Array, BYTE, CType, Float, Int, Pointer, RecordType
from .classes import Memory, NUMBER, PointerClass, View
from .code import End, FunctionCode
from .common import FLOATING, Node, Refusal
from .constants import ConstantAddress
from .functions import Functions
from .layout import Field, Record
from .program import Function, Unit, Variable
from .objects import array_values, memory_place
from .peripherals import find
from .shape import undefined
from .tree import WRAPPERS, is_cast, is_null, parts


class ToField(NamedTuple):
    """A step from a struct to a field."""

    record: Record
    field: Field


class ToElement(NamedTuple):
    """A step from an array to an element, with its size and type."""

    number: int
    size: int
    ctype: CType


Step = Union[ToField, ToElement]


@dataclass
class Scalar:
    """A number or pointer that is given in braces: where, of which type and class, and by which expression or number."""

    offset: int
    ctype: CType
    memory: Memory
    given: Union[Node, int]
    field: Optional[Field]
    path: list[Step]


@dataclass
class Cell:
    """A cell of a global: a number of `size` bytes, or word `word` of a pointer."""

    offset: int
    size: int = 0
    word: Optional[int] = None
    view: Optional[View] = None


@dataclass(frozen=True)
class AddressOf:
    """A cell that holds the address of a global, a peripheral (by name) or a function."""

    thing: Union[Variable, Function, str]


class InCode:
    """A word that the text cannot tell."""


IN_CODE = InCode()
CellValue = Union[int, AddressOf, InCode, None]     # None is null


class FirstValues(Functions):
    """First values."""

    function_cells: set[str] = set()

    # ---- the cells of a type
    def cells(self, memory: Memory, ctype: CType, offset: int, found: list[Cell]) -> None:
        """Adds the cells of an object, in their order."""
        memory = memory.root()
        if self.in_units(memory, ctype):
            unit = memory.units[0]
            found += [Cell(offset + k * unit, unit) for k in range(max(self.layouts.size(ctype) // unit, 1))]
        elif isinstance(ctype, Array):
            size = self.layouts.size(ctype.of)
            for number in range(max(ctype.count, 1)):
                self.cells(memory, ctype.of, offset + number * size, found)
        elif isinstance(ctype, Int):
            found += [Cell(offset, 4), Cell(offset + 4, 4)] if ctype.size == 8 else [Cell(offset, ctype.size)]
        elif isinstance(ctype, Pointer):
            words = self.words_of(self.pointer_in(memory))
            found += [Cell(offset, 4, number, view) for number, (view, _) in enumerate(words)]
        elif isinstance(ctype, RecordType):
            self.struct_cells(ctype, offset, found)
        else:
            raise Refusal(FLOATING if isinstance(ctype, Float) else 'a variable of this type')

    def struct_cells(self, ctype: RecordType, offset: int, found: list[Cell]) -> None:
        """Adds the cells of a struct, as `struct` declares its fields."""
        record = self.layouts.record(ctype)
        self.record_name(ctype.key)
        done: set[str] = set()
        before = len(found)
        for field in record.fields or ():
            shared = '' if field.bits == 0 else self.shared_part(record, field, done)
            if field.bits == 0 or shared == 'done':
                continue
            if shared == 'bits':
                found.append(Cell(offset + field.offset, field.integer.size))
            elif shared == 'bytes':
                found += [Cell(offset + k, 1) for k in range(self.layouts.union_bytes(record))]
            elif self.layouts.size(field.ctype) == 0:
                found.append(Cell(offset))
            else:
                self.cells(field.memory, field.ctype, offset + field.offset, found)
        if len(found) == before:
            found.append(Cell(offset))

    # ---- what is given
    def scalars(self, memory: Memory, ctype: CType, node: Node, offset: int, path: list[Step], found: list[Scalar]) -> None:
        """Adds each scalar that a first value gives."""
        if isinstance(ctype, (Array, RecordType)):
            node = self.braces(node, ctype)
        kind = node['kind']
        if kind == 'ImplicitValueInitExpr':
            return
        if isinstance(ctype, Array) and kind == 'StringLiteral':
            data = self.string(node).data or b''
            for number in range(min(len(data), ctype.count)):
                found.append(Scalar(offset + number, BYTE, memory, data[number], None, [*path, ToElement(number, 1, BYTE)]))
        elif isinstance(ctype, (Array, RecordType)) and kind != 'InitListExpr':
            raise self.refuse(node, 'this first value')
        elif isinstance(ctype, Array):
            size = self.layouts.size(ctype.of)
            for number, value in enumerate(array_values(node)):
                self.scalars(memory, ctype.of, value, offset + number * size, [*path, ToElement(number, size, ctype.of)], found)
        elif isinstance(ctype, RecordType):
            self.struct_scalars(ctype, node, offset, path, found)
        else:
            node = parts(node)[0] if kind == 'InitListExpr' else node
            found.append(Scalar(offset, ctype, memory, node, None, path))

    @staticmethod
    def braces(node: Node, ctype: CType) -> Node:
        """A first value of an array or struct without what stands around its braces."""
        while node['kind'] in (*WRAPPERS, 'CompoundLiteralExpr') or isinstance(ctype, RecordType) and is_cast(node, 'LValueToRValue', 'NoOp'):
            node = node['inner'][0]
        return node

    def struct_scalars(self, ctype: RecordType, node: Node, offset: int, path: list[Step], found: list[Scalar]) -> None:
        """Adds the scalars of a struct or union in braces."""
        record = self.layouts.record(ctype)
        fields = record.named_fields()
        if record.union:
            member = self.union_member(node, record)
            fields = [member] if member is not None else []
        for field, value in zip(fields, parts(node)):
            inner: list[Step] = [*path, ToField(record, field)]
            if field.bits is None:
                self.scalars(field.memory, field.ctype, value, offset + field.offset, inner, found)
            elif value['kind'] != 'ImplicitValueInitExpr':
                found.append(Scalar(offset + field.offset, field.ctype, field.memory, value, field, inner))

    # ---- words of constant pointers
    def constant_words(self, pointer: PointerClass, node: Node) -> list[CellValue]:
        """Each word of a constant pointer."""
        words = self.words_of(pointer)
        address = None if is_null(node) else self.constant_address(node)
        if is_null(node) or address is not None and address.thing == 0:
            return [0 if view == NUMBER else None for view, _ in words]
        if address is None:
            return [IN_CODE] * len(words)
        return [self.constant_word(pointer, view, word, address, len(words) - (words[-1][0] == NUMBER), node) for view, word in words]

    def constant_word(self, pointer: PointerClass, view: View, word: str, address: ConstantAddress, count: int, node: Node) -> CellValue:
        """One word of a constant pointer that has `count` of them beside its number."""
        thing = address.thing
        if isinstance(thing, int):
            return thing if view == NUMBER else self.device_word(thing, view)
        if view == NUMBER:
            return self.number_of(thing) + address.offset
        if isinstance(thing, Function):
            if view[0] != 'function' or not pointer.memory().functions[int(view[1])].like(thing.memory.root().functions[0]):
                return None
            if thing.body is None:
                raise self.refuse(node, undefined(thing.name))
            self.function_cells.add(str(thing.text_name))
            return AddressOf(thing)
        if view == self.view_of(thing.memory, thing.ctype) or count == 1:
            whole = address.offset == 0 and not self.is_array(thing.memory, thing.ctype)
            return AddressOf(thing) if whole and word == '*' + self.object_type(thing.memory, thing.ctype) else IN_CODE
        return IN_CODE if len(self.views(pointer.memory())) > 1 else None

    def device_word(self, address: int, view: View) -> CellValue:
        """A word of a pointer to a peripheral."""
        if view[0] != 'u' or int(view[1]) == 8:
            return None
        peripheral = find(self.peripherals, address)
        self.used_peripherals.add(peripheral.name)
        return AddressOf(peripheral.name) if peripheral.base == address else IN_CODE

    # ---- all first values of a global
    def first_values_of(self, variable: Variable) -> tuple[list[CellValue], list[Scalar]]:
        """The values of the first cells, and the scalars that code has to store."""
        cells: list[Cell] = []
        if variable.data is not None:
            self.cells(variable.memory, variable.ctype, 0, cells)
            return [int.from_bytes(variable.data[c.offset:c.offset + c.size], 'little') for c in cells], []
        if variable.first_value is None:
            return [], []
        given: list[Scalar] = []
        self.unit = variable.unit
        self.scalars(variable.memory, variable.ctype, variable.first_value, 0, [], given)
        memory = bytearray(self.layouts.size(variable.ctype) + 8)
        pointers: dict[int, list[CellValue]] = {}
        for scalar in given:
            if isinstance(scalar.ctype, Pointer):
                assert not isinstance(scalar.given, int)
                pointers[scalar.offset] = self.constant_words(self.pointer_in(scalar.memory), scalar.given)
            else:
                self.put_number(memory, scalar, variable)
        self.cells(variable.memory, variable.ctype, 0, cells)
        values = [self.cell_value(cell, memory, pointers) for cell in cells]
        while values and not isinstance(values[-1], (AddressOf, InCode)) and values[-1] in (0, None):
            values.pop()
        cut = next((k for k, value in enumerate(values) if value is None or isinstance(value, InCode)), None)
        if cut is None:
            return values, []
        while cut and cells[cut - 1].offset == cells[cut].offset:
            cut -= 1
        done = {cell.offset for cell in cells[:cut]}
        return values[:cut], [s for s in given if s.offset not in done and not self.is_zero(s)]

    def put_number(self, memory: bytearray, scalar: Scalar, variable: Variable) -> None:
        """Writes a number into the image of a global."""
        given, field = scalar.given, scalar.field
        if not isinstance(scalar.ctype, Int):
            raise Refusal(FLOATING, variable.place)
        number = given if isinstance(given, int) else self.constant(given)
        if number is None:
            assert not isinstance(given, int)
            raise self.refuse(given, 'a first value that is not constant: assign it in main')
        size = scalar.ctype.size if field is None else field.unit
        if field is not None:
            old = int.from_bytes(memory[scalar.offset:scalar.offset + size], 'little')
            mask = (1 << (field.bits or 0)) - 1
            number = (old & ~(mask << field.first_bit)) | (number & mask) << field.first_bit
        memory[scalar.offset:scalar.offset + size] = (number & (1 << 8 * size) - 1).to_bytes(size, 'little')

    @staticmethod
    def cell_value(cell: Cell, memory: bytearray, pointers: dict[int, list[CellValue]]) -> CellValue:
        """The value of a cell."""
        if cell.word is None:
            return int.from_bytes(memory[cell.offset:cell.offset + cell.size], 'little')
        words = pointers.get(cell.offset)
        if words is None:
            return 0 if cell.view == NUMBER else None
        return words[cell.word]

    def is_zero(self, scalar: Scalar) -> bool:
        """Whether a scalar is what cells hold at first."""
        if isinstance(scalar.given, int):
            return scalar.given == 0
        if isinstance(scalar.ctype, Pointer):
            return is_null(scalar.given)
        return self.constant(scalar.given) == 0

    # ---- by code
    def place_at(self, variable: Variable, path: list[Step]) -> MemoryPlace:
        """The place in a global that a path leads to."""
        place: AnyPlace = self.variable_place(variable)
        for step in path:
            if isinstance(step, ToField):
                place = self.member(memory_place(place), step.record, step.field, step.field.ctype)
            else:
                place = self.moved(memory_place(place), step.number, step.size, step.ctype)
        return memory_place(place)

    def initialiser_code(self, unit: Unit, name: str, todo: list[tuple[Variable, list[Scalar]]]) -> FunctionCode:
        """The function that stores the first values which the text cannot tell."""
        code = FunctionCode(name, None)
        self.begin(code, unit, None)
        for variable, scalars in todo:
            for scalar in scalars:
                try:
                    self.stored_scalar(variable, scalar)
                except Refusal as fault:
                    at = None if isinstance(scalar.given, int) else scalar.given.get('_place')
                    raise Refusal(fault.what, fault.place or at or variable.place) from fault
        self.block.end = End('return', None, ())
        return code

    def stored_scalar(self, variable: Variable, scalar: Scalar) -> None:
        """Stores one first value."""
        place = self.place_at(variable, scalar.path)
        place.ctype = scalar.ctype
        if isinstance(scalar.given, int):
            self.stored(place, [self.constant_value(scalar.given)])
        elif isinstance(scalar.ctype, Pointer):
            value = self.value(scalar.given)
            self.stored(place, self.converted(value, self.class_of_pointer(scalar.given), self.pointer_in(scalar.memory)))
        else:
            self.stored(place, self.constant_number(self.constant(scalar.given) or 0, scalar.ctype))
