"""Classes of memory: what pointers may lead to, by unification over the whole program.

Each declared place has one node; a pointer assigned to another makes the two classes one. Fields are shared by all objects of a
struct. A cast joins the classes of both types, and so says how the memory is kept.
"""
from __future__ import annotations

from typing import Optional, Sequence, Union

from .c_types import Array, CType, Float, FunctionType, Int, Pointer, RecordType, Void
from .common import FLOATING, Refusal
from .constants import Reading
from .layout import Record
from .program import Program

# One word of a pointer: ('u', width), ('record', key), ('pointer',), ('function', number), or ('number',).
View = tuple[Union[str, int], ...]
NUMBER: View = ('number',)
POINTER_VIEW: View = ('pointer',)


class Memory:
    """A class of memory: what it holds, and how it is kept."""

    def __init__(self) -> None:
        self.parent: Optional['Memory'] = None
        self.widths: set[int] = set()           # of integers that it is used as
        self.records: set[str] = set()
        self.pointer: Optional['PointerClass'] = None
        self.functions: list['Signature'] = []
        self.peripheral = self.object = self.shared = self.floating = False
        self.units: tuple[int, ...] = ()        # widths of units, where integers share their place

    def root(self) -> 'Memory':
        """The class that this one was joined to."""
        node = self
        while node.parent is not None:
            if node.parent.parent is not None:
                node.parent = node.parent.parent
            node = node.parent
        return node


class PointerClass:
    """A class of pointers; `numbered`: 1 where they are tested for null, 2 where they are compared."""

    def __init__(self, target: Memory) -> None:
        self.parent: Optional['PointerClass'] = None
        self.target = target
        self.numbered = 0

    def root(self) -> 'PointerClass':
        """The class that this one was joined to."""
        node = self
        while node.parent is not None:
            node = node.parent
        return node

    def memory(self) -> Memory:
        """What the pointers lead to."""
        return self.root().target.root()


class Signature:
    """A function type, with the classes of its result and parameters."""

    def __init__(self, ctype: FunctionType, result: Memory, parameters: Sequence[Memory]) -> None:
        self.ctype, self.result, self.parameters = ctype, result, parameters
        self.lowered: Optional['LoweredSignature'] = None

    def like(self, other: 'Signature') -> bool:
        """Whether two functions can be one class."""
        return len(self.parameters) == len(other.parameters) and self.ctype.variadic == other.ctype.variadic


class LoweredSignature:
    """A function type in the language: words of parameters, of which some are in registers, and results."""

    def __init__(self, words: list[str], direct: list[str], rest: Optional[str], result: Optional[str], extra: list[str]) -> None:
        self.words, self.direct, self.rest, self.result, self.extra = words, direct, rest, result, extra


class Classes(Reading):
    """Making and joining classes, and how each class is kept once the analysis has settled it."""

    def __init__(self, program: Program) -> None:
        super().__init__(program)
        self.memories: list[Memory] = []

    def new_memory(self) -> Memory:
        """An empty class."""
        found = Memory()
        self.memories.append(found)
        return found

    def memory_of_type(self, ctype: CType) -> Memory:
        """A new class for an object of a type."""
        if isinstance(ctype, Array):
            return self.memory_of_type(ctype.of)
        found = self.new_memory()
        if isinstance(ctype, Int):
            if ctype.size > 8:
                raise Refusal(f'integers of {8 * ctype.size} bits')
            found.widths.add(ctype.size)
        elif isinstance(ctype, Pointer):
            found.pointer = PointerClass(self.memory_of_type(ctype.to))
        elif isinstance(ctype, RecordType):
            found.records.add(ctype.key)
            if ctype.key not in self.records:
                self.records[ctype.key] = Record(ctype.key, False, ctype.key)
            self.fields_of(ctype.key)
        elif isinstance(ctype, FunctionType):
            found.functions.append(Signature(ctype, self.memory_of_type(ctype.result), [self.memory_of_type(p) for p in ctype.parameters]))
        elif isinstance(ctype, Float):
            found.floating = True
        return found

    def fields_of(self, key: str) -> None:
        """Gives the fields of a record their classes."""
        record = self.records.get(key)
        for field in (record.fields if record else None) or ():
            if field.memory is None:
                field.memory = self.new_memory()
                try:
                    self.join(field.memory, self.memory_of_type(field.ctype))
                except Refusal:
                    field.memory.floating = True

    def join(self, one: Memory, other: Memory) -> None:
        """Makes two classes one, and all that follows."""
        todo: list[tuple[Memory, Memory]] = [(one, other)]
        while todo:
            first, second = (x.root() for x in todo.pop())
            if first is second:
                continue
            second.parent = first
            first.widths |= second.widths
            first.records |= second.records
            first.peripheral |= second.peripheral
            first.object |= second.object
            first.shared |= second.shared
            first.floating |= second.floating
            if second.pointer and first.pointer:
                todo.append(self._join_pointers(first.pointer, second.pointer))
            elif second.pointer:
                first.pointer = second.pointer
            for signature in second.functions:
                same = next((x for x in first.functions if x.like(signature)), None)
                if same is None:
                    first.functions.append(signature)
                else:
                    todo.append((same.result, signature.result))
                    todo += zip(same.parameters, signature.parameters)

    @staticmethod
    def _join_pointers(one: PointerClass, other: PointerClass) -> tuple[Memory, Memory]:
        """Makes two classes of pointers one; gives the classes of memory that have to be joined next."""
        one, other = one.root(), other.root()
        if one is not other:
            other.parent = one
            one.numbered = max(one.numbered, other.numbered)
        return one.target, other.target

    def pointer_in(self, memory: Memory) -> PointerClass:
        """The class of the pointers that a class of memory holds."""
        memory = memory.root()
        if memory.pointer is None:
            memory.pointer = PointerClass(self.new_memory())
        return memory.pointer.root()

    # ---- how a class is kept
    def views(self, memory: Memory) -> list[View]:
        """The kinds of thing that a pointer into the class may lead to; a pointer has one word for each."""
        memory = memory.root()
        integer_records = sorted(k for k in memory.records if self.layouts.integers_only(RecordType(k)))
        found: list[View] = []
        if memory.units and (memory.widths or integer_records):
            found += [('u', w) for w in memory.units]
        elif memory.widths:
            found += [('u', w) for w in sorted(memory.widths)]
        else:
            found += [('record', k) for k in integer_records]
        found += [('record', k) for k in sorted(memory.records) if k not in integer_records]
        if memory.pointer is not None:
            found.append(POINTER_VIEW)
        found += [('function', n) for n in range(len(memory.functions))]
        return found or [('u', 1)]

    def view_of(self, memory: Memory, ctype: CType) -> View:
        """The word of a pointer that is used for an lvalue of a type."""
        memory = memory.root()
        ctype = element_type(ctype)
        if isinstance(ctype, (Int, RecordType)) and memory.units and self.layouts.integers_only(ctype):
            if len(memory.units) > 1 and isinstance(ctype, Int):
                return ('u', min(ctype.size, 4))
            return ('u', memory.units[0])
        if isinstance(ctype, Int):
            return ('u', ctype.size)
        if isinstance(ctype, RecordType):
            return ('record', ctype.key)
        if isinstance(ctype, Pointer):
            return POINTER_VIEW
        if isinstance(ctype, FunctionType):
            for number, signature in enumerate(memory.functions):
                if len(signature.parameters) == len(ctype.parameters):
                    return ('function', number)
            return ('function', 0)
        if isinstance(ctype, Void):
            return self.views(memory)[0]
        raise Refusal(FLOATING if isinstance(ctype, Float) else 'variable arguments: give a pointer and a count')

    def in_units(self, memory: Memory, ctype: CType) -> bool:
        """Whether an object of a type is kept as an array of units."""
        ctype = element_type(ctype)
        return bool(memory.root().units) and isinstance(ctype, (Int, RecordType)) and self.layouts.integers_only(ctype)

    def signature_for(self, memory: Memory, count: int) -> Optional[Signature]:
        """The function in a class that takes so many parameters."""
        return next((s for s in memory.root().functions if len(s.parameters) == count), None)


def element_type(ctype: CType) -> CType:
    """The type of the elements of an array, of all dimensions; other types as they are."""
    while isinstance(ctype, Array):
        ctype = ctype.of
    return ctype


def parameter_count(wanted: CType, given: int) -> int:
    """How many parameters a call by a pointer of this type has."""
    if isinstance(wanted, Pointer) and isinstance(wanted.to, FunctionType) and not wanted.to.unknown:
        return len(wanted.to.parameters)
    return given

