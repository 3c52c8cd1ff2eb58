"""memcpy, memmove and memset in place, and clang's own functions."""
from __future__ import annotations

import re
from typing import Optional

from .builder import Index, MemoryPlace, ObjectPlace, Registers
from .c_types import Array, BYTE, CType, Int, LONG, Pointer, RecordType, VOID
from .classes import Memory, PointerClass
from .code import End
from .common import MASK32, Node
from .shape import stripped
from .tree import type_of
from .values import Values

COUNTED = ('clz', 'ctz', 'popcount', 'ffs', 'clzl', 'ctzl', 'popcountl', 'ffsl')


class Operand:
    """A pointer argument: the type that it leads to, its class, and its words."""

    def __init__(self, ctype: CType, pointer: PointerClass, registers: Registers) -> None:
        self.ctype, self.pointer, self.registers = ctype, pointer, registers

    @property
    def memory(self) -> Memory:
        """The class of what it leads to."""
        return self.pointer.memory()


class MemoryCalls(Values):
    """Functions that are translated where they are called."""

    def operand(self, node: Node) -> Operand:
        """A pointer argument."""
        node = stripped(node)
        ctype = type_of(node)
        assert isinstance(ctype, Pointer)
        pointer = self.class_of_pointer(node)
        return Operand(ctype.to, pointer, self.value(node))

    def at_operand(self, operand: Operand, ctype: CType) -> ObjectPlace:
        """The place to which an argument leads, as a type."""
        return self.place_by_pointer(operand.registers, operand.pointer, ctype)

    def memory_call(self, node: Node, name: str, operands: list[Node]) -> Registers:
        """memcpy, memmove or memset; gives the first argument."""
        to = self.operand(operands[1])
        if 'set' in name:
            self.filled(node, to, operands)
            return to.registers
        source = self.operand(operands[2])
        if not self.copied_memory(to, source, operands[3], 'move' in name):
            raise self.refuse(node, f'{name} between objects of different types, or of a part of an object with pointers: '
                              'assign the structs, or copy field by field')
        return to.registers

    def filled(self, node: Node, to: Operand, operands: list[Node]) -> None:
        """memset."""
        constant, count, memory = self.constant(operands[2]), self.constant(operands[3]), to.memory
        value = self.value(operands[2])[0]
        size = self.layouts.size(to.ctype) if to.ctype != VOID else 0
        if count is not None and constant == 0 and size and count % size == 0:
            base = self.at_operand(to, to.ctype)
            if count == size:
                self.zeroed(base, to.ctype)
            else:
                self.loop(self.constant_value(count // size), lambda k: self.zeroed(self.moved(base, k, size, to.ctype), to.ctype))
            return
        unit = memory.units[0] if memory.units else next(iter(sorted(memory.widths)), 0)
        if unit in (0, 8) or not self.in_units(memory, Int(unit, False)) and not isinstance(to.ctype, Int) and to.ctype != VOID:
            raise self.refuse(node, 'memset of a part of an object with pointers: assign the fields')
        element = Int(unit, False)
        if constant is not None:
            pattern = self.constant_value(int.from_bytes(bytes([constant & 255]) * unit, 'little'))
        else:
            pattern = value if unit == 1 else self.operate_by('mul', self.operate_by('and', value, 255), 0x01010101)
        if count is not None:
            steps = self.constant_value(count // unit)
        else:
            steps = self.operate_by('shr', self.value(operands[3])[0], unit.bit_length() - 1)
        start = self.at_operand(to, element)
        self.loop(steps, lambda k: self.stored(self.moved(start, k, unit, element), [pattern]))

    def copied_memory(self, to: Operand, source: Operand, count_node: Node, overlapping: bool) -> bool:
        """memcpy or memmove; false where it cannot be said."""
        count = self.constant(count_node)
        size = self.layouts.size(to.ctype) if to.ctype != VOID else 0
        if count is not None and to.ctype == source.ctype and size and count % size == 0:
            if count == size:
                self.copied(self.at_operand(to, to.ctype), self.at_operand(source, to.ctype), to.ctype)
                return True
            return self.copied_elements(to, source, to.ctype, self.constant_value(count // size), overlapping, True)
        if kept_as_bytes(to.memory) and kept_as_bytes(source.memory):
            return self.copied_elements(to, source, BYTE, self.value(count_node)[0], overlapping)
        if isinstance(to.ctype, Int) and isinstance(source.ctype, Int) and to.ctype.size == source.ctype.size < 8:
            if count is not None:
                steps = self.constant_value(count // size)
            else:
                steps = self.operate_by('shr', self.value(count_node)[0], size.bit_length() - 1)
            return self.copied_elements(to, source, to.ctype, steps, overlapping)
        return count is not None and VOID not in (to.ctype, source.ctype) and self.copied_leaves(to, source, count)

    def copied_elements(self, to: Operand, source: Operand, ctype: CType, count: int, overlapping: bool, objects: bool = False) -> bool:
        """Copies elements of one type (`objects`: each as an object), from the first to the last; backwards too where they may overlap."""
        size = self.layouts.size(ctype)
        one, other = self.at_operand(to, ctype), self.at_operand(source, ctype)

        def element(index: int) -> None:
            target = self.moved(one, index, size, ctype)
            if objects:
                self.copied(target, self.moved(other, index, size, ctype), ctype)
            else:
                self.stored(target, self.loaded(self.moved(other, index, size, ctype), False))
        if not overlapping:
            self.loop(count, element)
            return True
        if to.pointer.root().numbered < 2 or source.pointer.root().numbered < 2:
            return False
        up, down, end = self.new_block('up'), self.new_block('down'), self.new_block('end')
        self.branch(self.operate('ult', source.registers[-1], to.registers[-1]), down, up)
        self.block = up
        self.loop(count, element)
        self.jump(end)
        self.block = down
        first = self.constant_value(1)
        self.loop(count, lambda k: element(Index(self.operate('sub', self.operate('sub', count, int(k)), first))))
        self.go_on(end)
        return True

    # ---- copies between different types
    def copied_leaves(self, to: Operand, source: Operand, count: int) -> bool:
        """Copies integer by integer, over words put together from what the source has."""
        targets, origins = self.leaves_within(to.ctype, count), self.leaves_within(source.ctype, count)
        if targets is None or origins is None:
            return False
        one, other = self.at_operand(to, to.ctype), self.at_operand(source, source.ctype)
        parts: dict[int, tuple[int, int, int]] = {}     # byte -> value that has it, bytes of that integer, which of them
        for offset, size in origins:
            value = self.loaded(self.leaf(other, source.ctype, offset, size), False)
            for byte in range(size):
                parts[offset + byte] = (value[byte // 4], size, byte)
        for offset, size in targets:
            words = [self.put_together(parts, at, min(at + 4, offset + size)) for at in range(offset, offset + size, 4)]
            self.stored(self.leaf(one, to.ctype, offset, size), words)
        return True

    def leaves_within(self, ctype: CType, count: int) -> Optional[list[tuple[int, int]]]:
        """The integers in the first bytes of objects of a type, if none is cut."""
        leaves, size = self.layouts.leaves(ctype), self.layouts.size(ctype)
        if not leaves or not size:
            return None
        found = [(k * size + o, s) for k in range(-(-count // size)) for o, s in leaves if k * size + o < count]
        return found if all(o + s <= count for o, s in found) else None

    def put_together(self, parts: dict[int, tuple[int, int, int]], begin: int, end: int) -> int:
        """The bytes from `begin` to below `end` as one number."""
        total, at = -1, begin
        while at < end:
            register, size, byte = parts[at]
            taken = min(size - byte, 4 - byte % 4, end - at)
            value = self.operate_by('shr', register, 8 * (byte % 4))
            if taken < 4 and byte % 4 + taken < min(size, 4):
                value = self.operate_by('and', value, (1 << 8 * taken) - 1)
            value = self.operate_by('shl', value, 8 * (at - begin))
            total = value if total < 0 else self.operate('or', total, value)
            at += taken
        return total

    def leaf(self, place: MemoryPlace, ctype: CType, offset: int, size: int) -> MemoryPlace:
        """The integer at a byte offset of an object of integers."""
        whole = self.layouts.size(ctype)
        if offset >= whole:
            place, offset = self.moved(place, offset // whole, whole, ctype), offset % whole
        while True:
            if isinstance(ctype, Array):
                step = self.layouts.size(ctype.of)
                place = self.moved(place, offset // step, step, ctype.of)
                offset, ctype = offset % step, ctype.of
            elif isinstance(ctype, RecordType):
                record = self.layouts.record(ctype)
                field = next(f for f in record.fields or () if f.offset <= offset < f.offset + self.layouts.size(f.ctype))
                place = self.member(place, record, field, field.ctype)
                offset, ctype = offset - field.offset, field.ctype
            else:
                place.ctype = Int(size, False)
                return place

    # ---- clang's own functions
    def builtin(self, node: Node, whole_name: str, operands: list[Node]) -> Registers:
        """A function that clang knows by itself."""
        name = whole_name[len('__builtin_'):]
        if name in ('expect', 'expect_with_probability', 'assume_aligned'):
            value = self.value(operands[1])
            for operand in operands[2:]:
                self.effect(operand)
            return value
        if name in ('unreachable', 'assume', 'prefetch'):
            return []
        if name in ('trap', 'abort'):
            block = self.new_block('trap')
            self.go_on(block)
            block.end = End('jump', None, (block.name,))
            return []
        if name == 'constant_p':
            return [self.constant_value(int(self.constant(operands[1]) is not None))]
        if name in ('bswap16', 'bswap32', 'bswap64'):
            return self.swapped(name, self.value(operands[1]))
        if re.fullmatch(r'rotate(left|right)(8|16|32|64)', name):
            return self.rotated(node, whole_name, 'left' in name, int(re.sub(r'\D', '', name)), operands)
        if name in COUNTED:
            return [self.routine(name.rstrip('l'), [self.value(operands[1])[0]])]
        if name == 'object_size':
            return [self.constant_value(MASK32)]
        raise self.refuse(node, f'the function "{whole_name}"')

    def swapped(self, name: str, value: Registers) -> Registers:
        """Bytes in the other order."""
        if name == 'bswap16':
            both = self.operate('or', self.operate_by('shr', value[0], 8), self.operate_by('shl', value[0], 8))
            return [self.operate_by('and', both, 0xFFFF)]
        found: Registers = []
        for word in reversed(value):
            mask = self.constant_value(0xFF00FF)
            high = self.operate('and', self.operate_by('shr', word, 8), mask)
            pairs = self.operate('or', high, self.operate_by('shl', self.operate('and', word, mask), 8))
            found.append(self.operate('or', self.operate_by('shr', pairs, 16), self.operate_by('shl', pairs, 16)))
        return found

    def rotated(self, node: Node, name: str, left: bool, bits: int, operands: list[Node]) -> Registers:
        """A rotation."""
        value, count = self.value(operands[1]), self.constant(operands[2])
        if count is None:
            if bits != 32:
                raise self.refuse(node, f'the function "{name}" with a count known only at run time')
            by = self.operate_by('and', self.value(operands[2])[0], 31)
            rest = self.operate('sub', self.constant_value(32), by)
            first, second = ('shl', 'shr') if left else ('shr', 'shl')
            one = self.operate(first, value[0], by)
            return [self.operate('or', one, self.operate(second, value[0], rest))]
        count = (count if left else -count) % bits
        if count == 0:
            return value
        if bits == 64:
            up, down = self.shifted64_by('<<', value, count, False), self.shifted64_by('>>', value, 64 - count, LONG.signed)
            return [self.operate('or', one, other) for one, other in zip(up, down)]
        both = self.operate('or', self.operate_by('shl', value[0], count), self.operate_by('shr', value[0], bits - count))
        return [both if bits == 32 else self.operate_by('and', both, (1 << bits) - 1)]


def kept_as_bytes(memory: Memory) -> bool:
    """Whether a class is kept as bytes alone."""
    return memory.units == (1,) or not memory.units and memory.widths == {1} and not memory.records
