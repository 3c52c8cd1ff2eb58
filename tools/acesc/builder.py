"""Putting instructions into blocks, and the places that lvalues are."""
from __future__ import annotations

import re
from dataclasses import dataclass, field
from typing import NamedTuple, Optional, Union

from .c_types import CType, Int, RecordType
from .classes import Memory, NUMBER, PointerClass, Signature, View
from .code import Block, End, FunctionCode, Instruction
from .common import MASK32, Node, WORD, fresh
from .layout import Field
from .program import Function, Program, Unit, Variable
from .words import Words

Registers = list[int]
NO_CHANGE = ('add', 'sub', 'or', 'xor', 'shl', 'shr', 'sar')


class Index(int):
    """A value that is an index, where a plain number is a constant one."""


class AddressNumber(NamedTuple):
    """The number of an address: of an object (or a value), moved by bytes and by scaled values."""

    base: int
    value: Optional[int] = None
    offset: int = 0
    terms: tuple[tuple[int, int, bool], ...] = ()       # value, scale, whether it is subtracted

    def moved(self, by: int) -> 'AddressNumber':
        """The number so many bytes further."""
        return self._replace(offset=self.offset + by)


@dataclass
class ObjectPlace:
    """An lvalue in memory: pointers to it by view (and whether to an array), and bytes still to be added."""

    memory: Memory
    ctype: CType
    words: dict[View, tuple[int, bool]]
    offset: int = 0
    number: Optional[AddressNumber] = None
    field: Optional[Field] = None


@dataclass
class DevicePlace:
    """A register of a peripheral, by its address."""

    address: int
    ctype: CType
    field: Optional[Field] = None


@dataclass
class RegisterPlace:
    """A variable that lives in registers."""

    variable: Variable
    ctype: CType
    field: Optional[Field] = None


MemoryPlace = Union[ObjectPlace, DevicePlace]
AnyPlace = Union[ObjectPlace, DevicePlace, RegisterPlace]


@dataclass
class Result:
    """The value of an expression: registers, or where a struct lies."""

    registers: Registers = field(default_factory=list)
    place: Optional[MemoryPlace] = None


class Callee(NamedTuple):
    """A function that is not of C: a routine or the function of first values of a unit."""

    name: str
    unit: Unit


class Builder(Words):
    """The function that is being built; the methods at the end are filled in by the classes above."""

    def __init__(self, program: Program) -> None:
        super().__init__(program)
        self.function: Optional[Function] = None
        self.code = FunctionCode('', None)
        self.block = Block('')
        self.variables: dict[Variable, Registers] = {}
        self.local_names: set[str] = set()
        self.scratch_locals: dict[str, list[str]] = {}
        self.scratch_used: dict[str, int] = {}
        self.routines: dict[Unit, set[str]] = {}
        self.refused: set[Optional[Function]] = set()

    def begin(self, code: FunctionCode, unit: Unit, function: Optional[Function]) -> None:
        """Begins a function."""
        self.code, self.unit, self.function = code, unit, function
        self.variables, self.local_names = {}, set(self.taken)
        self.scratch_locals, self.scratch_used = {}, {}
        self.block = self.new_block('start')

    # ---- blocks
    def new_block(self, name: str = 'b') -> Block:
        """A new block, which is not entered yet."""
        found = Block(f'{name}{len(self.code.blocks)}')
        self.code.blocks.append(found)
        return found

    def go_on(self, block: Block) -> None:
        """Jumps to a block, and goes on in it."""
        self.jump(block)
        self.block = block

    def jump(self, block: Block) -> None:
        """Ends the block by a jump, if it has no end yet."""
        if self.block.end is None:
            self.block.end = End('jump', None, (block.name,))

    def branch(self, value: int, yes: Block, no: Block) -> None:
        """Ends the block by a branch, if it has no end yet."""
        if self.block.end is None:
            self.block.end = End('branch', value, (yes.name, no.name))

    def leave(self, value: Optional[int]) -> None:
        """Ends the block by a return, if it has no end yet."""
        if self.block.end is None:
            self.block.end = End('return', value, ())

    # ---- instructions
    def emit(self, kind: str, to: Optional[int], operands: tuple[int, ...] = (), what: object = None) -> None:
        """Adds an instruction."""
        if self.block.end is not None:
            self.block = self.new_block('dead')
        self.block.instructions.append(Instruction(kind, to, operands, what))

    def new_value(self, ctype: str = WORD) -> int:
        """A new value of a type."""
        self.code.types.append(ctype)
        return len(self.code.types) - 1

    def made(self, ctype: str, kind: str, operands: tuple[int, ...] = (), what: object = None) -> int:
        """A new value, by an instruction."""
        found = self.new_value(ctype)
        self.emit(kind, found, operands, what)
        return found

    def constant_value(self, number: int) -> int:
        """A number."""
        return self.made(WORD, 'number', (), number & MASK32)

    def operate(self, operation: str, left: int, right: int) -> int:
        """The result of an operation."""
        return self.made(WORD, 'operate', (left, right), operation)

    def operate_by(self, operation: str, left: int, number: int) -> int:
        """The result of an operation with a constant."""
        if number == 0 and operation in NO_CHANGE:
            return left
        if operation == 'mul':
            if number == 1:
                return left
            if number and number & (number - 1) == 0:
                return self.operate_by('shl', left, number.bit_length() - 1)
        return self.operate(operation, left, self.constant_value(number))

    def move(self, to: int, value: int) -> None:
        """Copies a value into another."""
        self.emit('move', to, (value,))

    def null(self, ctype: str) -> int:
        """The null of a type: a register that is never written."""
        if ctype not in self.code.nulls:
            self.code.nulls[ctype] = self.new_value(ctype)
        return self.code.nulls[ctype]

    def element(self, pointer: int, index: int, ctype: str) -> int:
        """A pointer moved by an index."""
        return self.made(ctype, 'element', (pointer, index))

    def load_from(self, pointer: int, ctype: str = WORD) -> int:
        """The content of a cell."""
        return self.made(ctype, 'load', (pointer,))

    def store_to(self, pointer: int, value: int) -> None:
        """Writes a cell."""
        self.emit('store', None, (pointer, value))

    def field_of(self, pointer: int, name: str, ctype: str) -> int:
        """A pointer to a field of a type."""
        return self.made('*' + ctype, 'field', (pointer,), name)

    # ---- locals
    def new_local(self, name: str, ctype: str) -> str:
        """A local of the function."""
        found = fresh(name, self.local_names)
        self.code.locals.append((found, ctype))
        return found

    def scratch_name(self, ctype: str) -> str:
        """A local for arguments and results, taken anew for each call of a statement."""
        free = self.scratch_locals.setdefault(ctype, [])
        used = self.scratch_used.setdefault(ctype, 0)
        if used == len(free):
            free.append(self.new_local('t', ctype))
        self.scratch_used[ctype] += 1
        return free[used]

    def scratch(self, ctype: str) -> int:
        """A pointer to such a local."""
        return self.made('*' + ctype, 'address', (), self.scratch_name(ctype))

    # ---- what is done with words of pointers
    def whole(self, word: tuple[int, bool]) -> int:
        """A word of a pointer as one to an element: to the first one of an array."""
        register, is_array = word
        if not is_array:
            return register
        return self.element(register, self.constant_value(0), self.element_pointer(register))

    def element_pointer(self, register: int) -> str:
        """The type of a pointer to an element of what a register points to."""
        return '*' + re.sub(r'^\*\[\d+\]', '', self.code.types[register])

    def number_value(self, number: AddressNumber) -> int:
        """The value of an address number."""
        values = [] if number.value is None else [number.value]
        for value, scale, negative in number.terms:
            term = self.operate_by('mul', value, scale)
            values.append(self.operate('sub', self.constant_value(0), term) if negative else term)
        if not values:
            return self.constant_value(number.base + number.offset)
        found = values[0]
        for value in values[1:]:
            found = self.operate('add', found, value)
        return self.operate_by('add', found, number.base + number.offset & MASK32)

    def place_by_pointer(self, registers: Registers, pointer: PointerClass, ctype: CType) -> ObjectPlace:
        """The place to which a pointer value leads, without its number."""
        words = {view: (r, False) for (view, _), r in zip(self.words_of(pointer), registers) if view != NUMBER}
        return ObjectPlace(pointer.memory(), ctype, words)

    # ---- filled in by the classes above
    def value(self, node: Node) -> Registers:
        """The registers of an expression's value; a struct has none."""
        raise NotImplementedError

    def struct_value(self, node: Node) -> MemoryPlace:
        """Where the struct lies that an expression gives."""
        raise NotImplementedError

    def effect(self, node: Node) -> None:
        """An expression for its effects only."""
        raise NotImplementedError

    def condition(self, node: Node, yes: Block, no: Block) -> None:
        """Branches by an expression."""
        raise NotImplementedError

    def call(self, node: Node, wanted: bool) -> Result:
        """A call."""
        raise NotImplementedError

    def statement(self, node: Node) -> None:
        """A statement."""
        raise NotImplementedError

    def class_of_pointer(self, node: Node) -> PointerClass:
        """The class of a pointer expression, as the analysis found it."""
        raise NotImplementedError

    def signature_of(self, node: Node) -> Signature:
        """The class of the function that a call calls."""
        raise NotImplementedError

    def copied(self, to: AnyPlace, source: AnyPlace, ctype: CType) -> None:
        """Copies an object."""
        raise NotImplementedError


def is_record(ctype: CType) -> bool:
    """Whether a value of this type is a struct."""
    return isinstance(ctype, RecordType)


def is_wide(ctype: CType) -> bool:
    """Whether a number has two registers."""
    return isinstance(ctype, Int) and ctype.size == 8

