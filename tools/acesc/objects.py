"""Whole objects: copies, zeros, and first values in code."""
from __future__ import annotations

from typing import Callable, Optional

from .access import Access
from .builder import AnyPlace, DevicePlace, Index, MemoryPlace, ObjectPlace, RegisterPlace, Registers
from .c_types import Array, BYTE, CType, Float, Int, Pointer, RecordType
from .classes import NUMBER, PointerClass
from .common import FLOATING, Node, Refusal
from .layout import Field, Record
from .program import Variable
from .tree import WRAPPERS, is_null, parts

# Beyond so many units, or elements, a loop is shorter.
UNITS_IN_LINE = 8
ELEMENTS_IN_LINE = 4
LETTERS_IN_LINE = 6


class Objects(Access):
    """Copies, zeros and first values."""

    def loop(self, count: int, body: Callable[[Index], None]) -> None:
        """`body(i)` for i from 0 to below a value."""
        index = self.new_value()
        self.emit('number', index, (), 0)
        head, inside, out = self.new_block('copy'), self.new_block('body'), self.new_block('done')
        self.go_on(head)
        self.branch(self.operate('ult', index, count), inside, out)
        self.block = inside
        body(Index(index))
        self.move(index, self.operate_by('add', index, 1))
        self.jump(head)
        self.block = out

    def repeat(self, count: int, limit: int, body: Callable[[int], None], unroll: bool = True) -> None:
        """`body(i)` for each i below a constant count: in line where they are few."""
        if count > limit or not unroll:
            self.loop(self.constant_value(count), body)
        else:
            for number in range(count):
                body(number)

    def moved(self, place: MemoryPlace, index: int, size: int, ctype: CType) -> MemoryPlace:
        """Element `index` (a constant, or an Index) of an array."""
        if isinstance(index, Index):
            return self.stepped(place, ctype, None, int(index), size)
        return self.stepped(place, ctype, index, None, size)

    # ---- copies
    def copied(self, to: AnyPlace, source: AnyPlace, ctype: CType) -> None:
        """Copies an object of a type."""
        if not isinstance(to, ObjectPlace) or not isinstance(source, ObjectPlace):
            raise Refusal('a struct copied to or from a peripheral: copy its registers one by one')
        if self.in_units(to.memory, ctype) and self.in_units(source.memory, ctype) and to.memory.units == source.memory.units:
            unit = to.memory.units[0]
            self.repeat(self.layouts.size(ctype) // unit, UNITS_IN_LINE, self.element_copy(to, source, Int(unit, False)))
        elif isinstance(ctype, Array):
            self.repeat(ctype.count, ELEMENTS_IN_LINE, self.object_copy(to, source, ctype.of))
        elif isinstance(ctype, RecordType):
            self.copied_struct(to, source, ctype)
        else:
            to.ctype = source.ctype = ctype
            self.copied_scalar(to, source, ctype)

    def object_copy(self, to: MemoryPlace, source: MemoryPlace, ctype: CType) -> Callable[[int], None]:
        """The copy of one object of two arrays."""
        size = self.layouts.size(ctype)

        def one(index: int) -> None:
            target = self.moved(to, index, size, ctype)
            self.copied(target, self.moved(source, index, size, ctype), ctype)
        return one

    def element_copy(self, to: MemoryPlace, source: MemoryPlace, ctype: Int) -> Callable[[int], None]:
        """The copy of one integer of two arrays."""
        def one(index: int) -> None:
            target = self.moved(to, index, ctype.size, ctype)
            self.stored(target, self.loaded(self.moved(source, index, ctype.size, ctype), False))
        return one

    def copied_scalar(self, to: ObjectPlace, source: ObjectPlace, ctype: CType) -> None:
        """Copies a number or a pointer."""
        if isinstance(ctype, Pointer):
            target, origin = self.pointer_in(to.memory), self.pointer_in(source.memory)
            if target is not origin:
                self.stored(to, self.converted(self.loaded(source), origin, target))
                return
        self.stored(to, self.loaded(source, False))

    def copied_struct(self, to: ObjectPlace, source: ObjectPlace, ctype: RecordType) -> None:
        """Copies a struct field by field; what shares a place is copied once."""
        record = self.layouts.record(ctype)
        done: set[str] = set()
        for field in record.fields or ():
            if self.layouts.size(field.ctype) == 0 or field.bits == 0:
                continue
            one, other = self.member(to, record, field, field.ctype), self.member(source, record, field, field.ctype)
            shared = self.shared_part(record, field, done)
            if shared == 'done':
                continue
            if shared == 'bits':
                assert isinstance(one, ObjectPlace) and isinstance(other, ObjectPlace)
                value = self.load_from(self.bit_cell(other, field))
                self.store_to(self.bit_cell(one, field), value)
            elif shared == 'bytes':
                together = Array(self.layouts.union_bytes(record), BYTE)
                one.ctype = other.ctype = together
                self.copied(one, other, together)
            else:
                self.copied(one, other, field.ctype)

    def shared_part(self, record: Record, field: Field, done: set[str]) -> str:
        """What a field shares with others: 'bits', 'bytes', nothing, or 'done' where that was seen before."""
        kind = ''
        if record.union:
            kind = 'bytes' if self.layouts.integers_only(field.ctype) else ''
        elif field.bits is not None:
            kind = 'bits'
        if not kind:
            return ''
        name = field.text_name if kind == 'bits' else 'bytes of the union'
        if name in done:
            return 'done'
        done.add(name)
        return kind

    # ---- zeros
    def zeroed(self, place: MemoryPlace, ctype: CType) -> None:
        """Writes zeros and nulls over an object."""
        if not isinstance(place, ObjectPlace):
            raise Refusal('registers of a peripheral that are filled at once: write them one by one')
        if self.in_units(place.memory, ctype):
            unit = place.memory.units[0]
            element = Int(unit, False)
            zero = self.constant_value(0)
            self.repeat(self.layouts.size(ctype) // unit, UNITS_IN_LINE, lambda k: self.stored(self.moved(place, k, unit, element), [zero]))
        elif isinstance(ctype, Array):
            size, of = self.layouts.size(ctype.of), ctype.of
            self.repeat(ctype.count, ELEMENTS_IN_LINE, lambda k: self.zeroed(self.moved(place, k, size, of), of))
        elif isinstance(ctype, RecordType):
            self.zeroed_struct(place, ctype)
        else:
            place.ctype = ctype
            if isinstance(ctype, Pointer):
                words = self.words_of(self.pointer_in(place.memory))
                self.stored(place, [self.constant_value(0) if view == NUMBER else self.null(word) for view, word in words])
            elif isinstance(ctype, Int):
                self.stored(place, [self.constant_value(0)] * (2 if ctype.size == 8 else 1))
            else:
                raise Refusal(FLOATING if isinstance(ctype, Float) else 'an object of this type')

    def zeroed_struct(self, place: ObjectPlace, ctype: RecordType) -> None:
        """Writes zeros over the fields of a struct."""
        record = self.layouts.record(ctype)
        done: set[str] = set()
        for field in record.fields or ():
            if self.layouts.size(field.ctype) == 0 or field.bits == 0:
                continue
            one = self.member(place, record, field, field.ctype)
            shared = self.shared_part(record, field, done)
            if shared == 'bits':
                self.store_to(self.bit_cell(one, field), self.constant_value(0))
            elif shared == 'bytes':
                one.ctype = Array(self.layouts.union_bytes(record), BYTE)
                self.zeroed(one, one.ctype)
            elif not shared:
                self.zeroed(one, field.ctype)

    # ---- first values in code
    def initialised(self, place: Callable[[], AnyPlace], ctype: CType, node: Node, clear: bool = False) -> None:
        """Writes a first value; `place()` gives the place anew, and `clear` tells that it holds zeros."""
        while isinstance(ctype, (Array, RecordType)) and node['kind'] in (*WRAPPERS, 'CompoundLiteralExpr'):
            node = node['inner'][0]
        kind = node['kind']
        if kind == 'ImplicitValueInitExpr':
            if not clear:
                self.zeroed(memory_place(place()), ctype)
        elif isinstance(ctype, Array) and kind == 'StringLiteral':
            self.initialised_text(place, ctype, node, clear)
        elif isinstance(ctype, Array) and kind == 'InitListExpr':
            self.initialised_array(place, ctype, node, clear)
        elif isinstance(ctype, RecordType) and kind == 'InitListExpr':
            self.initialised_struct(place, ctype, node, clear)
        elif isinstance(ctype, RecordType):
            value = self.struct_value(node)
            self.copied(place(), value, ctype)
        else:
            node = node['inner'][0] if kind == 'InitListExpr' else node
            if clear and (isinstance(ctype, Int) and self.constant(node) == 0 or isinstance(ctype, Pointer) and is_null(node)):
                return
            to = place()
            self.stored(to, self.value_for(node, ctype, to))

    def initialised_text(self, place: Callable[[], AnyPlace], ctype: Array, node: Node, clear: bool) -> None:
        """An array of letters."""
        variable = self.string(node)
        data = variable.data or b''
        count = min(len(data), ctype.count)
        if not clear and count < ctype.count:
            self.zeroed(memory_place(place()), ctype)
        if count > LETTERS_IN_LINE:
            to, source = memory_place(place()), memory_place(self.variable_place(variable))
            self.loop(self.constant_value(count), self.element_copy(to, source, BYTE))
            return
        to = memory_place(place())
        for number in range(count):
            if data[number] or not (clear or count < ctype.count):
                self.stored(self.moved(to, number, 1, BYTE), [self.constant_value(data[number])])

    def initialised_array(self, place: Callable[[], AnyPlace], ctype: Array, node: Node, clear: bool) -> None:
        """An array in braces."""
        values = array_values(node)
        size, element = self.layouts.size(ctype.of), ctype.of
        full = len(values) == ctype.count and not any(is_empty(x) for x in values)
        if not full and not clear:
            self.zeroed(memory_place(place()), ctype)
        for number, value in enumerate(values):
            if not is_empty(value):
                def one(at: int = number) -> MemoryPlace:
                    return self.moved(memory_place(place()), at, size, element)
                self.initialised(one, element, value, clear or not full)

    def initialised_struct(self, place: Callable[[], AnyPlace], ctype: RecordType, node: Node, clear: bool) -> None:
        """A struct or union in braces."""
        record = self.layouts.record(ctype)
        values = parts(node)
        if record.union:
            member = self.union_member(node, record)
            fields, full = [member] if member is not None and values else [], False
        else:
            fields = record.named_fields()
            full = len(values) >= len(fields) and not any(is_empty(x) for x in values) and not any(f.bits is not None for f in fields)
        if not full and not clear:
            self.zeroed(memory_place(place()), ctype)
        for field, value in zip(fields, values):
            if not is_empty(value) or record.union:
                def one(at: Field = field) -> MemoryPlace:
                    return self.member(memory_place(place()), record, at, at.ctype)
                self.initialised(one, field.ctype, value, clear or not full)

    def literal_place(self, node: Node) -> AnyPlace:
        """The place of `(T){..}`, filled where it is of a function."""
        variable: Variable = node['_variable']
        found = self.variable_place(variable)
        if variable.is_global:
            return found
        self.initialised(lambda: self.variable_place(variable), variable.ctype, parts(node)[0])
        return self.variable_place(variable)

    # ---- values for places
    def value_for(self, node: Node, ctype: CType, to: AnyPlace) -> Registers:
        """An expression that is to be stored in a place."""
        if isinstance(ctype, Pointer):
            return self.converted(self.value(node), self.class_of_pointer(node), self.pointer_class_of(to))
        if isinstance(to, RegisterPlace) or to.field is not None and to.field.bits is not None:
            return self.value(node)
        if not isinstance(ctype, Int):
            raise self.refuse(node, FLOATING if isinstance(ctype, Float) else 'a value of this type')
        return self.low_part(node, ctype.size)

    def pointer_class_of(self, place: AnyPlace) -> PointerClass:
        """The class of the pointers in a place."""
        assert not isinstance(place, DevicePlace)
        return self.pointer_in(place.variable.memory if isinstance(place, RegisterPlace) else place.memory)

    def low_part(self, node: Node, size: int) -> Registers:
        """A value of which only the low bytes count."""
        raise NotImplementedError


def memory_place(place: AnyPlace) -> MemoryPlace:
    """A place that is no register."""
    assert isinstance(place, (ObjectPlace, DevicePlace))
    return place


def is_empty(node: Node) -> bool:
    """Whether a first value is one that C leaves out."""
    return bool(node['kind'] == 'ImplicitValueInitExpr')


def array_values(node: Node) -> list[Node]:
    """The values in the braces of an array."""
    found: Optional[list[Node]] = node.get('inner')
    return found or list(node.get('array_filler', ()))[1:]
