"""How each class is kept: which integers share their place, and which pointers carry a number."""
from __future__ import annotations

from typing import Callable

from .c_types import BYTE, CType, Int, Pointer, RecordType, VOID
from .classes import Memory
from .common import Refusal
from .layout import Record
from .shape import Analysis, MemoryCopy
from .tree import type_of

ALL_WIDTHS = (1, 2, 4)


class Settling:
    """Settles the classes of an analysis that has visited everything."""

    def __init__(self, analysis: Analysis) -> None:
        self.analysis, self.layouts, self.records = analysis, analysis.layouts, analysis.records
        self.roots: list[Memory] = []
        self.integer_records: dict[str, bool] = {}
        self.record_widths: dict[str, set[int]] = {}
        self.odd: set[str] = set()
        self.changed = False

    def run(self) -> None:
        """Settles everything, in the order in which one thing follows from the other."""
        for copy in self.analysis.shapes.copies:
            self.copied(copy)
        self.spread_numbers()
        self.roots = list({id(m.root()): m.root() for m in self.analysis.memories}.values())
        self.integer_records = {k: self.layouts.integers_only(RecordType(k)) for k in self.records}
        for key, record in self.records.items():
            if self.integer_records[key] and has_bit_fields(record):
                self.bit_field_bytes(key, record)
        self.odd = {k for k, only in self.integer_records.items() if only and self.is_odd(k)}
        self.spread_peripherals()
        self.fixpoint(self.mixed)
        self.pointer_unions()
        self.fixpoint(self.joined_once_more)

    def fixpoint(self, step: Callable[[Memory], None]) -> None:
        """Repeats a step for all classes until nothing changes."""
        self.changed = True
        while self.changed:
            self.changed = False
            for memory in self.roots:
                step(memory)

    # ---- copies of memory
    def copied(self, copy: MemoryCopy) -> None:
        """Copies between alike objects go leaf by leaf; otherwise both are kept as bytes."""
        to = copy.destination.memory()
        to_type = type_of(copy.destination_node)
        assert isinstance(to_type, Pointer)
        target, count = to_type.to, copy.count
        if copy.source is None:
            self.filled(copy, to)
            return
        source, source_type = copy.source.memory(), type_of(copy.source_node)
        assert isinstance(source_type, Pointer)
        if target == source_type.to and target != VOID:
            if isinstance(target, Pointer):
                self.analysis.join(to, source)
            whole = count is not None and count % max(self.layouts.size(target), 1) == 0
            if not whole and isinstance(target, RecordType) and self.layouts.integers_only(target):
                to.widths.add(1)
                source.widths.add(1)
        elif VOID in (target, source_type.to):
            self.analysis.join(to, source)
            if not to.root().records and not to.root().pointer:
                to.root().widths.add(1)
        elif not self.leaf_by_leaf(copy, target, source_type.to):
            for memory, ctype in ((to, target), (source, source_type.to)):
                if self.layouts.integers_only(ctype):
                    memory.widths.add(1)
                    if isinstance(ctype, RecordType):
                        memory.records.add(ctype.key)

    def leaf_by_leaf(self, copy: MemoryCopy, one: CType, other: CType) -> bool:
        """Whether a copy between two types can go over their integers."""
        if isinstance(one, Int) and isinstance(other, Int) and one.size == other.size:
            return True
        return bool(copy.count is not None and copy.count <= 32 and self.layouts.leaves(one) and self.layouts.leaves(other))

    def filled(self, copy: MemoryCopy, to: Memory) -> None:
        """memset of something that is no whole object needs bytes."""
        ctype = type_of(copy.destination_node)
        assert isinstance(ctype, Pointer)
        target, count = ctype.to, copy.count
        if target == VOID:
            to.widths.add(1)
            return
        size = self.layouts.size(target)
        if count is not None and size and count % size == 0 or not self.layouts.integers_only(target) or target == BYTE:
            return
        if not (isinstance(target, Int) and self.analysis.constant(copy.source_node) is not None):
            to.widths.add(1)

    # ---- numbers and peripherals
    def spread_numbers(self) -> None:
        """A pointer that goes where numbers are needed carries one too."""
        self.changed = True
        while self.changed:
            self.changed = False
            for to, source in self.analysis.shapes.flows:
                to, source = to.root(), source.root()
                if to.numbered > source.numbered:
                    source.numbered = to.numbered
                    self.changed = True

    def spread_peripherals(self) -> None:
        """Peripherals and objects reach the fields of their records."""
        self.fixpoint(self._spread)
        for memory in self.roots:
            for key in sorted(memory.records):
                record = self.records[key]
                record.peripheral = record.peripheral or memory.peripheral
                record.object = record.object or memory.object

    def _spread(self, memory: Memory) -> None:
        for key in sorted(memory.records):
            for field in self.records[key].fields or ():
                below = field.memory.root()
                if memory.peripheral > below.peripheral or memory.object > below.object:
                    below.peripheral |= memory.peripheral
                    below.object |= memory.object
                    self.changed = True

    # ---- units
    def widths_of(self, key: str) -> set[int]:
        """The widths of the integers in a record, at most words."""
        if key not in self.record_widths:
            try:
                self.record_widths[key] = {min(x, 4) for x in self.layouts.widths(RecordType(key))}
            except Refusal:
                self.record_widths[key] = {1}
        return self.record_widths[key]

    def bit_field_bytes(self, key: str, record: Record) -> None:
        """Bit fields whose unit has another size than their type are read by bytes."""
        try:
            self.layouts.record(RecordType(key))
        except Refusal:
            return
        if any(f.bits and f.unit != f.integer.size for f in record.fields or ()):
            self.widths_of(key).add(1)

    def is_odd(self, key: str) -> bool:
        """Whether a record has to be kept as units whatever points to it: a union, bit fields, fields at odd places."""
        try:
            record = self.layouts.record(RecordType(key))
        except Refusal:
            return False
        return record.union or has_bit_fields(record) or \
            any(f.bits is None and f.offset % self.layouts.alignment(f.ctype) for f in record.fields or ())

    def set_units(self, owner: Memory | Record, units: tuple[int, ...]) -> None:
        """Keeps a class or record in units; where two ways meet, in bytes (by all widths where it is a peripheral alone)."""
        lowest = ALL_WIDTHS if owner.peripheral and not owner.object else (1,)
        if owner.units in (units, lowest):
            return
        if owner.units:
            units = lowest
        if len(units) > 1 and lowest == (1,):
            units = (1,)
        if owner.units != units:
            owner.units = units
            self.changed = True

    def mixed(self, memory: Memory) -> None:
        """A class that is seen through several kinds of integers is kept in units."""
        keys = sorted(k for k in memory.records if self.integer_records.get(k))
        widths = {min(x, 4) for x in memory.widths}.union(*(self.widths_of(k) for k in keys))
        several = memory.shared or len(keys) > 1 or keys and memory.widths or len(memory.widths) > 1 or self.odd.intersection(keys) or \
            memory.peripheral and keys or any(self.records[k].units for k in keys) or memory.units
        if not several or not widths:
            return
        alone = memory.peripheral and not memory.object
        if memory.units:
            units = memory.units
            if len(units) == 1 and any(x % units[0] for x in widths):
                units = ALL_WIDTHS if alone else (1,)
        elif len(widths) == 1:
            units = (next(iter(widths)),)
        else:
            units = ALL_WIDTHS if alone else (1,)
        self.set_units(memory, units)
        for key in keys:
            self.share_units(memory, self.records[key], True)

    def share_units(self, memory: Memory, record: Record, back: bool) -> None:
        """A class, a record in it and its fields are kept alike; `back`: the record follows its fields too."""
        self.set_units(record, memory.units)
        self.set_units(memory, record.units)
        for field in record.fields or ():
            self.set_units(field.memory.root(), record.units)
            if back:
                self.set_units(record, field.memory.root().units)

    def pointer_unions(self) -> None:
        """In a union with pointers the integer members share bytes."""
        for key, record in self.records.items():
            if record.union and not self.integer_records[key]:
                for field in record.fields or ():
                    if field.memory is not None and self.layouts.integers_only(field.ctype):
                        field.memory.root().shared = True

    def joined_once_more(self, memory: Memory) -> None:
        """Carries units to what follows from unions."""
        keys = sorted(k for k in memory.records if self.integer_records.get(k))
        if memory.shared and not memory.units and (memory.widths or keys):
            self.set_units(memory, (1,))
        for key in keys:
            units = memory.units or self.records[key].units
            if units:
                self.set_units(memory, units)
                self.share_units(memory, self.records[key], False)


def has_bit_fields(record: Record) -> bool:
    """Whether a record has bit fields."""
    return any(f.bits is not None for f in record.fields or ())


def settle(analysis: Analysis) -> None:
    """Settles the classes of an analysis."""
    Settling(analysis).run()
