"""Lvalues and pointers: where things lie, in words of the language."""
from __future__ import annotations

from typing import Optional

from .builder import AddressNumber, AnyPlace, Builder, DevicePlace, MemoryPlace, ObjectPlace, RegisterPlace, Registers
from .c_types import Array, CType, FunctionType, Pointer, RecordType, Void
from .classes import Memory, NUMBER, PointerClass, Signature, View, element_type, parameter_count
from .common import MASK32, Node, Refusal, RUNTIME_ADDRESS
from .layout import Field, Record
from .program import Function, Program, Variable
from .peripherals import Peripheral, find
from .shape import container
from .tree import WRAPPERS, is_cast, parts, peel, type_of


class Places(Builder):
    """Finding the place of an lvalue, and the value of a pointer to it."""

    def __init__(self, program: Program, peripherals: list[Peripheral]) -> None:
        super().__init__(program)
        self.peripherals = peripherals
        self.taken |= {p.name for p in peripherals}
        self.used_peripherals: set[str] = set()
        self.in_place: dict[Variable, tuple[Memory, int]] = {}      # struct parameters: the caller's copy

    # ---- variables
    def variable_place(self, variable: Variable) -> AnyPlace:
        """The place of a variable."""
        if variable in self.in_place:
            memory, register = self.in_place[variable]
            word = {self.view_of(memory, variable.ctype): (register, False)}
            return ObjectPlace(memory.root(), variable.ctype, word, 0, AddressNumber(self.number_of(variable)))
        if variable in self.variables:
            return RegisterPlace(variable, variable.ctype)
        if isinstance(variable.ctype, FunctionType):
            raise Refusal('a function as a variable')
        memory = variable.memory.root()
        view = self.view_of(memory, variable.ctype)
        self.declare_local(variable)
        register = self.made('*' + self.object_type(memory, variable.ctype), 'address', (), variable.text_name)
        word = {view: (register, self.is_array(memory, variable.ctype))}
        return self.completed(ObjectPlace(memory, variable.ctype, word, 0, AddressNumber(self.number_of(variable))))

    def declare_local(self, variable: Variable) -> None:
        """Makes the local of a variable of the function, once."""
        if not variable.is_global and (variable.text_name is None or variable.owner is not self.code):
            variable.text_name = self.new_local(variable.name, self.object_type(variable.memory, variable.ctype))
            variable.owner = self.code

    def completed(self, place: ObjectPlace) -> ObjectPlace:
        """Adds the other views of a struct: those of its first members."""
        views = self.views(place.memory)
        if not isinstance(place.ctype, RecordType) or self.in_units(place.memory, place.ctype) or len(views) < 2:
            return place
        start = place.words[('record', place.ctype.key)]
        current: CType = place.ctype
        path: list[Field] = []
        while isinstance(current, RecordType) and not self.records[current.key].units:
            record = self.layouts.record(current)
            if not record.fields or record.union or record.fields[0].bits is not None:
                break
            first = record.fields[0]
            self.record_name(current.key)
            path.append(first)
            current = first.ctype
            view = self.view_of(first.memory, element_type(current))
            if view in views and view not in place.words:
                place.words[view] = self.first_member(start, path)
            if isinstance(current, Array):
                break
        return place

    def first_member(self, start: tuple[int, bool], path: list[Field]) -> tuple[int, bool]:
        """A pointer to the first member of the first member, and so on."""
        register, is_array = self.whole(start), False
        for field in path:
            register = self.field_of(register, field.text_name, self.object_type(field.memory, field.ctype))
            is_array = self.is_array(field.memory, field.ctype)
        return register, is_array

    # ---- lvalues
    def place(self, node: Node) -> AnyPlace:
        """The place of an lvalue."""
        kind = node['kind']
        if kind in WRAPPERS or kind == 'PredefinedExpr' or is_cast(node, 'NoOp') or \
                kind == 'UnaryOperator' and node['opcode'] == '__extension__':
            return self.place(parts(node)[0])
        ctype = type_of(node)
        address = self.device_address(node)
        if address is not None:
            if not address:
                raise self.refuse(node, 'an access by the null pointer')
            return DevicePlace(address, ctype)
        if kind == 'DeclRefExpr':
            found = self.entity(node)
            assert isinstance(found, Variable)
            return self.variable_place(found)
        if kind == 'UnaryOperator' and node['opcode'] == '*':
            return self.pointed_to(parts(node)[0], ctype)
        if kind == 'ArraySubscriptExpr':
            return self.element_place(node, ctype)
        if kind == 'MemberExpr':
            return self.member_place(node, ctype)
        if kind == 'StringLiteral':
            return self.variable_place(self.string(node))
        if kind == 'CompoundLiteralExpr':
            return self.literal_place(node)
        if isinstance(ctype, RecordType):
            return self.struct_value(node)
        raise self.refuse(node, f'this lvalue ({kind})')

    def literal_place(self, node: Node) -> AnyPlace:
        """The place of `(T){..}`, filled where it is of a function."""
        raise NotImplementedError

    def element_place(self, node: Node, ctype: CType) -> MemoryPlace:
        """The place of `p[i]`."""
        pointer, index = parts(node)
        if not isinstance(type_of(pointer), Pointer):
            pointer, index = index, pointer
        array = peel(pointer)
        if is_cast(array, 'ArrayToPointerDecay') and self.device_address(array) is None:
            base = self.place(array['inner'][0])
            assert not isinstance(base, RegisterPlace)
        else:
            base = self.pointed_to(pointer, ctype)
        constant = self.constant(index)
        return self.stepped(base, ctype, constant, None if constant is not None else self.value(index)[0], self.layouts.size(ctype))

    def member_place(self, node: Node, ctype: CType) -> MemoryPlace:
        """The place of a member."""
        record, field = self.field(node)
        inner = parts(node)[0]
        if node.get('isArrow'):
            base = self.pointed_to(inner, RecordType(record.key))
        elif inner.get('valueCategory') == 'lvalue':
            found = self.place(inner)
            assert not isinstance(found, RegisterPlace)
            base = found
        else:
            base = self.struct_value(inner)
        return self.member(base, record, field, ctype)

    def pointed_to(self, node: Node, ctype: CType) -> MemoryPlace:
        """The place to which a pointer expression leads."""
        pointer = self.class_of_pointer(node)
        registers = self.value(node)
        found = self.place_by_pointer(registers, pointer, ctype)
        found.number = AddressNumber(0, registers[-1]) if pointer.root().numbered else None
        return found

    # ---- moving a place
    def stepped(self, place: MemoryPlace, ctype: CType, count: Optional[int], index: Optional[int], size: int) -> MemoryPlace:
        """A place moved by so many elements of a size: a constant count, or a value."""
        if isinstance(place, DevicePlace):
            if count is None:
                raise Refusal(RUNTIME_ADDRESS)
            return DevicePlace(place.address + count * size, ctype)
        number = place.number
        if number is not None:
            if count is not None:
                number = number.moved(count * size)
            elif index is not None:
                number = number._replace(terms=(*number.terms, (index, size, False)))
        if count is not None and self.in_units(place.memory, ctype):
            return ObjectPlace(place.memory, ctype, dict(place.words), place.offset + count * size, number)
        words: dict[View, tuple[int, bool]] = {}
        for view, word in place.words.items():
            step = self.element_size(view)
            if step == 0 or size % step:
                continue
            if count == 0 and not word[1]:
                words[view] = word
            else:
                words[view] = (self.moved_word(word, count, index, size // step), False)
        return ObjectPlace(place.memory, ctype, words, place.offset, number)

    def moved_word(self, word: tuple[int, bool], count: Optional[int], index: Optional[int], scale: int) -> int:
        """A word of a pointer moved by `scale` times a count or a value."""
        if count is not None:
            by = self.constant_value(count * scale)
        else:
            assert index is not None
            by = self.operate_by('mul', index, scale)
        register, is_array = word
        return self.element(register, by, self.element_pointer(register) if is_array else self.code.types[register])

    def member(self, base: MemoryPlace, record: Record, field: Field, ctype: CType) -> MemoryPlace:
        """The place of a field of a struct."""
        if isinstance(base, DevicePlace):
            return DevicePlace(base.address + field.offset, ctype, field)
        number = None if base.number is None else base.number.moved(field.offset)
        memory = field.memory.root()
        key: View = ('record', record.key)
        if record.units or self.in_units(base.memory, RecordType(record.key)):
            return ObjectPlace(memory, ctype, dict(base.words), base.offset + field.offset, number, field)
        if key not in base.words:
            raise Refusal(no_view(f'struct {record.name}'))
        whole = self.whole(base.words[key])
        self.record_name(record.key)
        shared = record.union and self.layouts.integers_only(field.ctype)
        if field.bits is not None and not record.union:
            register = self.field_of(whole, field.text_name, f'u{8 * field.integer.size}')
            return ObjectPlace(memory, ctype, {('u', field.integer.size): (register, self.is_array(memory, field.ctype))}, 0, number, field)
        declared = f'[{self.layouts.union_bytes(record)}]u8' if shared else self.object_type(memory, field.ctype)
        register = self.field_of(whole, field.text_name, declared)
        is_array = self.is_array(memory, field.ctype) or shared
        found = ObjectPlace(memory, ctype, {self.view_of(memory, field.ctype): (register, is_array)}, 0, number, field)
        if key in self.views(memory) and key not in found.words:
            found.words[key] = (whole, False)
        return self.completed(found)

    # ---- pointers to places
    def pointer_to(self, place: AnyPlace, pointer: PointerClass) -> Registers:
        """The value of a pointer to a place, for a class."""
        assert not isinstance(place, RegisterPlace)
        words = self.words_of(pointer)
        if isinstance(place, DevicePlace):
            return self.pointer_to_device(place, words)
        found: Registers = []
        for view, ctype in words:
            if view == NUMBER:
                found.append(self.number_of_place(place, pointer.root().numbered))
            elif view not in place.words:
                found.append(self.null(ctype))
            elif place.offset:
                step = self.element_size(view)
                if place.offset % step:
                    raise Refusal('a pointer into the middle of a cell: the object is used in larger units elsewhere')
                found.append(self.element(place.words[view][0], self.constant_value(place.offset // step), ctype))
            else:
                found.append(self.whole(place.words[view]))
        return found

    def pointer_to_device(self, place: DevicePlace, words: list[tuple[View, str]]) -> Registers:
        """The value of a pointer to a register of a peripheral."""
        found: Registers = []
        for view, ctype in words:
            width = int(view[1]) if view[0] == 'u' else 8
            if view == NUMBER:
                found.append(self.constant_value(place.address))
            elif width < 8 and place.address % width == 0:
                found.append(self.device(place.address, width))
            else:
                found.append(self.null(ctype))
        if all(r in self.code.nulls.values() for r in found):
            raise Refusal('a peripheral seen through a type with pointers or of 64 bits: declare its registers as 8, 16 or 32 bits')
        return found

    def number_of_place(self, place: ObjectPlace, numbered: int) -> int:
        """The number of a place; where only null is asked for, any that is not 0."""
        if place.number is None:
            return self.constant_value(1)
        if numbered > 1:
            return self.number_value(place.number)
        return self.constant_value(max(place.number.base, 1)) if place.number.value is None else place.number.value

    def device(self, address: int, width: int) -> int:
        """A pointer to a register of a peripheral."""
        peripheral = find(self.peripherals, address)
        self.used_peripherals.add(peripheral.name)
        register = self.made(f'*u{8 * width}', 'address', (), peripheral.name)
        offset = address - peripheral.base
        if offset % width:
            raise Refusal(f'an access of {width} bytes at the odd address 0x{address:08X}')
        return self.element(register, self.constant_value(offset // width), f'*u{8 * width}') if offset else register

    def converted(self, value: Registers, source: PointerClass, to: PointerClass) -> Registers:
        """A pointer of one class as one of another."""
        source, to = source.root(), to.root()
        if source is to:
            return value
        have = {view: register for (view, _), register in zip(self.words_of(source), value)}
        found: Registers = []
        for view, ctype in self.words_of(to):
            if view in have:
                found.append(have[view])
            else:
                found.append(self.constant_value(1) if view == NUMBER else self.null(ctype))
        return found

    def moved_pointer(self, value: Registers, pointer: PointerClass, ctype: CType, count: Optional[int], index: Optional[int],
                      negative: bool) -> Registers:
        """A pointer plus or minus a constant count, or a value."""
        assert isinstance(ctype, Pointer)
        size = 1 if isinstance(ctype.to, (Void, FunctionType)) else self.layouts.size(ctype.to)
        if count == 0:
            return value
        found: Registers = []
        words = self.words_of(pointer)
        for (view, word_type), register in zip(words, value):
            if view == NUMBER:
                found.append(self.moved_number(register, pointer, count, index, size, negative))
                continue
            step = self.element_size(view)
            if view[0] == 'function' or step == 0 or size % step:
                if register not in self.code.nulls.values() and len(words) == 1:
                    raise Refusal('arithmetic on a pointer of this type')
                found.append(register)
            elif count is not None:
                moved = count * (size // step)
                found.append(self.element(register, self.constant_value(-moved if negative else moved), word_type))
            else:
                assert index is not None
                by = self.operate_by('mul', index, size // step)
                by = self.operate('sub', self.constant_value(0), by) if negative else by
                found.append(self.element(register, by, word_type))
        return found

    def moved_number(self, register: int, pointer: PointerClass, count: Optional[int], index: Optional[int], size: int, negative: bool) -> int:
        """The number of a moved pointer."""
        operation = 'sub' if negative else 'add'
        if pointer.root().numbered < 2:
            return register
        if count is not None:
            return self.operate_by(operation, register, count * size & MASK32)
        assert index is not None
        return self.operate(operation, register, self.operate_by('mul', index, size))

    # ---- classes of expressions
    def class_of_pointer(self, node: Node) -> PointerClass:
        """The class of a pointer expression, as the analysis found it."""
        if '_pointer' in node:
            made: PointerClass = node['_pointer']
            return made.root()
        kind, inner = node['kind'], parts(node)
        if kind in WRAPPERS:
            return self.class_of_pointer(inner[0])
        if is_cast(node, 'LValueToRValue'):
            return self.pointer_in(self.class_of_place(inner[0]))
        if is_cast(node, 'BitCast'):
            member = container(self, node)
            return self.class_of_pointer(member[0] if member else inner[0])
        if is_cast(node, 'NoOp'):
            return self.class_of_pointer(inner[0])
        if is_cast(node, 'FunctionToPointerDecay'):
            return self.class_of_pointer(peel(inner[0])['inner'][0])
        if kind == 'UnaryOperator' and node['opcode'] in ('++', '--') or kind == 'CompoundAssignOperator' or \
                kind == 'BinaryOperator' and node['opcode'] == '=':
            return self.pointer_in(self.class_of_place(inner[0]))
        if kind == 'UnaryOperator' and node['opcode'] == '__extension__':
            return self.class_of_pointer(inner[0])
        if kind == 'BinaryOperator':
            second = node['opcode'] == ',' or not isinstance(type_of(inner[0]), Pointer)
            return self.class_of_pointer(inner[1] if second else inner[0])
        if kind == 'CallExpr':
            return self.pointer_in(self.signature_of(node).result)
        if kind == 'StmtExpr':
            return self.class_of_pointer(inner[0]['inner'][-1])
        raise self.refuse(node, f'this pointer ({kind})')

    def class_of_place(self, node: Node) -> Memory:
        """The class of an lvalue, as the analysis found it."""
        kind, inner = node['kind'], parts(node)
        found: Memory
        if kind in WRAPPERS or is_cast(node, 'NoOp'):
            return self.class_of_place(inner[0])
        if kind == 'DeclRefExpr':
            entity = self.entity(node)
            assert isinstance(entity, (Variable, Function))
            found = entity.memory
        elif kind == 'UnaryOperator' and node['opcode'] == '*':
            found = self.class_of_pointer(inner[0]).memory()
        elif kind == 'ArraySubscriptExpr':
            found = self.class_of_pointer(inner[0] if isinstance(type_of(inner[0]), Pointer) else inner[1]).memory()
        elif kind == 'MemberExpr':
            found = self.field(node)[1].memory
        elif kind == 'CompoundLiteralExpr':
            found = node['_variable'].memory
        elif kind == 'StringLiteral':
            found = self.string(node).memory
        else:
            raise self.refuse(node, f'this place ({kind})')
        return found

    def signature_of(self, node: Node) -> Signature:
        """The class of the function that a call calls."""
        function = self.callee(node)
        if function is not None:
            found: Signature = function.memory.root().functions[0]
            return found
        wanted = type_of(node['inner'][0])
        signature = self.signature_for(self.class_of_pointer(node['inner'][0]).memory(), parameter_count(wanted, len(node['inner']) - 1))
        if signature is None:
            raise self.refuse(node, 'a call of a function whose type is not known')
        return signature


def no_view(what: str) -> str:
    """What is told where an object is not to be seen through a pointer."""
    return f'no view of this object as {what}: pointers to it come from another type'

