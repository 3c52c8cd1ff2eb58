"""Records, and how the target lays out C types (the procedure call standard of Arm)."""
from __future__ import annotations

from typing import Any, Optional

from .c_types import Array, BadType, CType, Float, Int, Pointer, RecordType, VaList
from .common import Place, Refusal


class Field:
    """A field of a record: where it lies, and what the analysis found of it."""

    def __init__(self, name: str, ctype: CType, bits: Optional[int], index: int, alignment: int) -> None:
        self.name, self.ctype, self.bits = name, ctype, bits
        self.index, self.alignment = index, alignment
        self.offset = self.first_bit = 0
        self.unit = ctype.size if isinstance(ctype, Int) else 0     # bytes that a bit field is loaded with
        self.memory: Any = None                                      # its class (classes.Memory)
        self.text_name = ''

    @property
    def integer(self) -> Int:
        """The type of a bit field."""
        assert isinstance(self.ctype, Int)
        return self.ctype


class Record:
    """A struct or union, one for all units that declare it alike."""

    def __init__(self, key: str, union: bool, name: str) -> None:
        self.key, self.union, self.name = key, union, name
        self.fields: Optional[list[Field]] = None
        self.packed = False
        self.pack = self.alignment_wanted = 0
        self.units: tuple[int, ...] = ()    # widths, where it is kept as an array of units
        self.size = self.alignment = 0
        self.laid_out = False
        self.text_name = ''
        self.fault = ''
        self.peripheral = self.object = False
        self.place: Optional[Place] = None

    def named_fields(self) -> list[Field]:
        """The fields that first values are given for."""
        return [f for f in self.fields or () if f.name or f.bits is None]


def round_up(value: int, unit: int) -> int:
    """The next multiple of `unit`."""
    return (value + unit - 1) // unit * unit


class Layouts:
    """Sizes, alignments and offsets, in bytes."""

    def __init__(self, records: dict[str, Record]) -> None:
        self.records = records

    def record(self, ctype: CType) -> Record:
        """The record of a type, laid out."""
        assert isinstance(ctype, RecordType)
        record = self.records.get(ctype.key)
        if record is None or record.fields is None:
            raise Refusal(f'struct {ctype.key} is declared but never defined')
        if not record.laid_out:
            record.laid_out = True
            self._lay_out(record, record.fields)
        return record

    def fields(self, ctype: CType) -> list[Field]:
        """The fields of a record's type."""
        return self.record(ctype).fields or []

    def _lay_out(self, record: Record, fields: list[Field]) -> None:
        at, most, size = 0, 1, 0        # `at` in bits
        for field in fields:
            align = self.alignment(field.ctype)
            align = 1 if record.packed else min(align, record.pack) if record.pack else align
            align = max(align, field.alignment)
            if record.union:
                at = 0
            if field.bits is None:
                at = round_up(at, 8 * align)
                field.offset = at // 8
                at += 8 * self.size(field.ctype)
                most = max(most, align)
            else:
                at, most = self._bit_field(record, field, at, most, align)
            size = max(size, (at + 7) // 8)
        record.alignment = max(most, record.alignment_wanted)
        record.size = round_up(size, record.alignment)

    def _bit_field(self, record: Record, field: Field, at: int, most: int, align: int) -> tuple[int, int]:
        unit = 8 * field.integer.size
        bits = field.bits or 0
        if bits == 0:
            # ends the unit; the procedure call standard also aligns the struct so, even a packed one
            return round_up(at, unit), max(most, unit // 8)
        if record.packed or record.pack == 1:
            # any bit may be the first: the bytes that the field touches are its unit
            align = 1
            field.offset, field.first_bit = at // 8, at % 8
            field.unit = (field.first_bit + bits + 7) // 8
        else:
            if at % unit + bits > unit:
                at = round_up(at, unit)
            field.offset, field.first_bit, field.unit = at // unit * (unit // 8), at % unit, unit // 8
        return at + bits, max(most, align) if field.name else most

    def size(self, ctype: CType) -> int:
        """What `sizeof` gives; 1 for functions and void."""
        if isinstance(ctype, (Int, Float)):
            return ctype.size
        if isinstance(ctype, (Pointer, VaList)):
            return 4
        if isinstance(ctype, Array):
            return ctype.count * self.size(ctype.of)
        if isinstance(ctype, BadType):
            raise Refusal(ctype.what)
        return self.record(ctype).size if isinstance(ctype, RecordType) else 1

    def alignment(self, ctype: CType) -> int:
        """What `_Alignof` gives."""
        if isinstance(ctype, Array):
            return self.alignment(ctype.of)
        if isinstance(ctype, RecordType):
            return self.record(ctype).alignment
        return min(self.size(ctype), 8)

    def leaves(self, ctype: CType, at: int = 0) -> Optional[list[tuple[int, int]]]:
        """Offset and size of each integer; nothing where there is a pointer, union, bit field or floating-point number."""
        if isinstance(ctype, Int):
            return [(at, ctype.size)]
        if isinstance(ctype, Array):
            one, step = self.leaves(ctype.of), self.size(ctype.of)
            if one is None:
                return None
            return [(at + k * step + offset, size) for k in range(ctype.count) for offset, size in one]
        if not isinstance(ctype, RecordType) or self.record(ctype).union:
            return None
        found: list[tuple[int, int]] = []
        for field in self.fields(ctype):
            part = None if field.bits is not None else self.leaves(field.ctype, at + field.offset)
            if part is None:
                return None
            found += part
        return found

    def integers_only(self, ctype: CType) -> bool:
        """Whether a type holds integers of at most 64 bits and nothing else."""
        if isinstance(ctype, Int):
            return ctype.size <= 8
        if isinstance(ctype, Array):
            return self.integers_only(ctype.of)
        if isinstance(ctype, RecordType):
            record = self.records.get(ctype.key)
            return record is not None and record.fields is not None and all(self.integers_only(f.ctype) for f in record.fields)
        return False

    def widths(self, ctype: CType) -> set[int]:
        """The sizes of all integers in a type."""
        if isinstance(ctype, Int):
            return {ctype.size}
        if isinstance(ctype, Array):
            return self.widths(ctype.of)
        if isinstance(ctype, RecordType):
            return {w for f in self.fields(ctype) for w in self.widths(f.ctype)}
        return set()

    def union_bytes(self, record: Record) -> int:
        """The bytes that the integer members of a union with pointers share."""
        return max(self.size(f.ctype) for f in record.fields or () if self.integers_only(f.ctype))
