"""Calls: words of parameters in registers and structs, results through places of the caller."""
from __future__ import annotations

from typing import Optional

from .builder import AddressNumber, ObjectPlace, Registers, Result
from .c_types import CType, Int, Pointer, RecordType
from .classes import Memory, Signature
from .common import Node
from .program import Function
from .memory_calls import MemoryCalls
from .shape import undefined
from .tree import MEMORY_FUNCTIONS, parts, type_of


class Calls(MemoryCalls):
    """Calls of functions."""

    def call(self, node: Node, wanted: bool) -> Result:
        """A call; `wanted`: whether its value is used."""
        operands, ctype = parts(node), type_of(node)
        function = self.callee(node)
        if function is not None and function.body is None:
            if function.name in MEMORY_FUNCTIONS:
                return Result(self.memory_call(node, function.name, operands))
            if function.name.startswith('__builtin_'):
                return Result(self.builtin(node, function.name, operands))
            raise self.refuse(node, undefined(function.name))
        signature = self.signature_of(node)
        lowered = self.lowered(signature)
        target = None if function is not None else self.call_target(node, operands[0], signature)
        words: Registers = []
        place: Optional[ObjectPlace] = None
        extra_at: Optional[int] = None
        if isinstance(ctype, RecordType):
            place = self.scratch_struct(signature.result, ctype)
            words.append(self.struct_word(place))
        elif lowered.extra:
            extra_at = self.scratch(self.extra_type(lowered.extra))
            words.append(extra_at)
        for number, operand in enumerate(operands[1:]):
            if number < len(signature.parameters):
                words += self.argument(operand, signature, number)
            else:
                self.effect(operand)
        if lowered.rest:
            words = self.packed_rest(words, lowered.rest, lowered.words)
        value = self.new_value(lowered.result) if lowered.result else None
        self.emit_call(function, target, value if wanted else None, words)
        if place is not None:
            return Result(place=place)
        if value is None or not wanted:
            return Result([] if value is None else [value])
        return Result([value] + self.extra_words(extra_at, lowered.extra))

    def call_target(self, node: Node, operand: Node, signature: Signature) -> int:
        """The word of a function pointer that is called."""
        pointer = self.class_of_pointer(operand)
        value = self.value(operand)
        for (view, _), register in reversed(list(zip(self.words_of(pointer), value))):
            if view[0] == 'function' and pointer.memory().functions[int(view[1])] is signature:
                return register
        raise self.refuse(node, 'a call by a pointer that is no function')

    def emit_call(self, function: Optional[Function], target: Optional[int], value: Optional[int], words: Registers) -> None:
        """The call itself."""
        if function is not None:
            self.emit('call', value, tuple(words), function)
        else:
            assert target is not None
            self.emit('call_pointer', value, (target, *words))

    def scratch_struct(self, memory: Memory, ctype: RecordType) -> ObjectPlace:
        """A local for a struct that is passed or given."""
        memory = memory.root()
        register = self.scratch(self.object_type(memory, ctype))
        word = {self.view_of(memory, ctype): (register, self.is_array(memory, ctype))}
        return ObjectPlace(memory, ctype, word, 0, AddressNumber(1))

    def struct_word(self, place: ObjectPlace) -> int:
        """The pointer to such a local."""
        return self.whole(place.words[self.view_of(place.memory, place.ctype)])

    def argument(self, operand: Node, signature: Signature, number: int) -> Registers:
        """The words of an argument."""
        ctype, memory = type_of(operand), signature.parameters[number]
        if isinstance(ctype, Pointer):
            value = self.value(operand)
            return self.converted(value, self.class_of_pointer(operand), self.pointer_in(memory))
        if isinstance(ctype, RecordType):
            source = self.struct_value(operand)
            place = self.scratch_struct(memory, ctype)
            self.copied(ObjectPlace(place.memory, ctype, dict(place.words), 0, AddressNumber(1)), source, ctype)
            return [self.struct_word(place)]
        told = signature.ctype.parameters
        wanted: CType = told[number] if number < len(told) else ctype
        value = self.value(operand)
        if isinstance(wanted, Int) and isinstance(ctype, Int):
            return self.converted_number(value, ctype, wanted, self.range_of(operand))
        return value

    def packed_rest(self, words: Registers, rest: str, types: list[str]) -> Registers:
        """Puts the words behind the third into a struct of the caller."""
        register = self.scratch(rest)
        for number, word in enumerate(words[3:]):
            self.store_to(self.field_of(register, f'w{number}', types[3 + number]), word)
        return words[:3] + [register]

    def extra_words(self, register: Optional[int], types: list[str]) -> Registers:
        """The words of a result behind the first."""
        found: Registers = []
        for number, ctype in enumerate(types):
            assert register is not None
            at = register if len(types) == 1 else self.field_of(register, f'w{number}', ctype)
            found.append(self.load_from(at, ctype))
        return found
