"""Loads and stores of scalars, bit fields among them."""
from __future__ import annotations

from typing import Iterator

from .builder import AnyPlace, DevicePlace, MemoryPlace, ObjectPlace, RegisterPlace, Registers
from .c_types import Int, Pointer
from .classes import POINTER_VIEW, View
from .common import MASK32, Refusal, WORD
from .layout import Field
from .places import Places, no_view

DEVICE_TYPE = 'a pointer, struct or 64-bit number in a peripheral: its registers have 8, 16 or 32 bits'
NARROW = 'an access of {} bytes to a register of {} bytes behind a pointer: name the peripheral directly'


class Access(Places):
    """Values out of places, and into them."""

    def extended(self, value: int, ctype: Int) -> int:
        """A narrow value with the sign of its type."""
        if not ctype.signed or ctype.size == 4:
            return value
        count = self.constant_value(32 - 8 * ctype.size)
        return self.operate('sar', self.operate('shl', value, count), count)

    def loaded(self, place: AnyPlace, extend: bool = True) -> Registers:
        """The value in a place; `extend`: with the sign of its type."""
        ctype = place.ctype
        if isinstance(place, RegisterPlace):
            return list(self.variables[place.variable])
        if place.field is not None and place.field.bits is not None:
            return self.loaded_bits(place, place.field)
        if isinstance(place, DevicePlace):
            if not isinstance(ctype, Int) or ctype.size > 4:
                raise Refusal(DEVICE_TYPE)
            # the order of clang's tree: the value is named before the address is made
            value = self.new_value()
            self.emit('load', value, (self.device(place.address, ctype.size),))
            return [self.extended(value, ctype) if extend else value]
        if isinstance(ctype, Int):
            return self.loaded_number(place, ctype, extend)
        if isinstance(ctype, Pointer):
            return self.loaded_pointer(place)
        raise Refusal('a value of this type')

    def loaded_number(self, place: ObjectPlace, ctype: Int, extend: bool) -> Registers:
        """An integer in memory."""
        view = self.number_view(place, ctype)
        if self.in_units(place.memory, ctype) or place.offset:
            found = self.loaded_units(place, view, ctype.size)
        elif ctype.size == 8:
            whole = self.whole(place.words[view])
            found = [self.load_from(self.field_of(whole, name, WORD)) for name in ('w0', 'w1')]
        else:
            value = self.new_value()
            self.emit('load', value, (self.whole(place.words[view]),))
            found = [value]
        return [self.extended(found[0], ctype)] if ctype.size < 4 and extend else found

    def number_view(self, place: ObjectPlace, ctype: Int) -> View:
        """The word of pointers through which an integer is seen."""
        view = self.view_of(place.memory, ctype)
        if view not in place.words:
            raise Refusal(no_view(f'an integer of {8 * ctype.size} bits'))
        return view

    def pointer_cells(self, place: ObjectPlace) -> Iterator[tuple[int, str]]:
        """Where the words of a pointer lie, one after the other, and their types."""
        if POINTER_VIEW not in place.words:
            raise Refusal(no_view('a pointer'))
        whole = self.whole(place.words[POINTER_VIEW])
        words = self.words_of(self.pointer_in(place.memory))
        for number, (_, ctype) in enumerate(words):
            yield whole if len(words) == 1 else self.field_of(whole, f'w{number}', ctype), ctype

    def loaded_pointer(self, place: ObjectPlace) -> Registers:
        """The words of a pointer in memory."""
        return [self.load_from(cell, ctype) for cell, ctype in self.pointer_cells(place)]

    def unit_at(self, place: ObjectPlace, view: View, offset: int) -> int:
        """A pointer to the unit at an offset of an object that is kept in units."""
        step = int(view[1])
        register, is_array = place.words[view]
        at = place.offset + offset
        if at % step:
            raise Refusal('a field at an odd place of an object that is used in larger units elsewhere')
        if at == 0 and not is_array:
            return register
        ctype = self.element_pointer(register) if is_array else self.code.types[register]
        return self.element(register, self.constant_value(at // step), ctype)

    @staticmethod
    def check_width(place: ObjectPlace, view: View, size: int) -> None:
        """A register of a peripheral is accessed at once, or not at all."""
        unit = int(view[1])
        if unit < size <= 4 and place.memory.peripheral:
            raise Refusal(f'a register of {size} bytes behind a pointer that also leads to memory kept in units of {unit}: '
                          'name the peripheral directly')

    def loaded_units(self, place: ObjectPlace, view: View, size: int) -> Registers:
        """An integer put together from units."""
        unit = int(view[1])
        self.check_width(place, view, size)
        if size < unit:
            raise Refusal(NARROW.format(size, unit))
        found: Registers = []
        for word in range(0, size, 4):
            total = -1
            for offset in range(word, min(word + 4, size), unit):
                value = self.new_value()
                self.emit('load', value, (self.unit_at(place, view, offset),))
                total = value if total < 0 else self.operate('or', total, self.operate_by('shl', value, 8 * (offset - word)))
            found.append(total)
        return found

    def stored(self, place: AnyPlace, value: Registers) -> None:
        """Writes a value into a place."""
        ctype = place.ctype
        if isinstance(place, RegisterPlace):
            for to, source in zip(self.variables[place.variable], value):
                self.move(to, source)
        elif place.field is not None and place.field.bits is not None:
            self.stored_bits(place, place.field, value)
        elif isinstance(place, DevicePlace):
            if not isinstance(ctype, Int) or ctype.size > 4:
                raise Refusal(DEVICE_TYPE)
            self.store_to(self.device(place.address, ctype.size), value[0])
        elif isinstance(ctype, Int):
            self.stored_number(place, ctype, value)
        elif isinstance(ctype, Pointer):
            self.stored_pointer(place, value)
        else:
            raise Refusal('a value of this type')

    def stored_pointer(self, place: ObjectPlace, value: Registers) -> None:
        """Writes the words of a pointer."""
        for (cell, _), word in zip(self.pointer_cells(place), value):
            self.store_to(cell, word)

    def stored_number(self, place: ObjectPlace, ctype: Int, value: Registers) -> None:
        """Writes an integer into memory."""
        view = self.number_view(place, ctype)
        if self.in_units(place.memory, ctype) or place.offset:
            unit = int(view[1])
            self.check_width(place, view, ctype.size)
            if ctype.size < unit:
                raise Refusal(NARROW.format(ctype.size, unit))
            for offset in range(0, ctype.size, unit):
                part = value[offset // 4]
                part = self.operate_by('shr', part, 8 * (offset % 4)) if offset % 4 else part
                self.store_to(self.unit_at(place, view, offset), part)
        elif ctype.size == 8:
            whole = self.whole(place.words[view])
            for name, part in zip(('w0', 'w1'), value):
                self.store_to(self.field_of(whole, name, WORD), part)
        else:
            self.store_to(self.whole(place.words[view]), value[0])

    # ---- bit fields
    def typed_bits(self, place: MemoryPlace, field: Field) -> bool:
        """Whether the storage unit of a bit field is a cell of its own."""
        return isinstance(place, ObjectPlace) and not self.in_units(place.memory, field.ctype)

    @staticmethod
    def bit_unit(place: MemoryPlace, field: Field) -> MemoryPlace:
        """The storage unit of a bit field, as an integer."""
        ctype = Int(field.unit, False)
        if isinstance(place, ObjectPlace):
            return ObjectPlace(place.memory, ctype, place.words, place.offset)
        return DevicePlace(place.address, ctype)

    @staticmethod
    def bit_cell(place: MemoryPlace, field: Field) -> int:
        """A pointer to the storage unit where it is a cell of its own."""
        assert isinstance(place, ObjectPlace)
        return place.words[('u', field.integer.size)][0]

    def loaded_unit(self, place: MemoryPlace, field: Field) -> Registers:
        """The storage unit of a bit field."""
        if field.integer.size == 8:
            raise Refusal('a bit field of 64 bits: use a type of 32 bits')
        if self.typed_bits(place, field):
            return [self.load_from(self.bit_cell(place, field))]
        return self.loaded(self.bit_unit(place, field))

    def loaded_bits(self, place: MemoryPlace, field: Field) -> Registers:
        """The value of a bit field."""
        unit = self.loaded_unit(place, field)
        bits, first = field.bits or 0, field.first_bit
        value = unit[0]
        if len(unit) > 1:
            value = self.operate('or', self.operate_by('shr', unit[0], first), self.operate_by('shl', unit[1], 32 - first))
            first = 0
        if field.integer.signed:
            return [self.operate_by('sar', self.operate_by('shl', value, 32 - bits - first), 32 - bits)]
        value = self.operate_by('shr', value, first)
        return [self.operate_by('and', value, (1 << bits) - 1) if bits + first < 8 * min(field.unit, 4) else value]

    def stored_bits(self, place: MemoryPlace, field: Field, value: Registers) -> None:
        """Writes a bit field: loads its unit, and stores it changed."""
        bits, first = field.bits or 0, field.first_bit
        mask = (1 << bits) - 1
        if field.integer.size == 8:
            raise Refusal('a bit field of 64 bits: use a type of 32 bits')
        if field.unit > 4:
            self.stored_wide_bits(place, field, value, mask)
            return
        new = self.operate_by('shl', self.operate_by('and', value[0], mask), first)
        if bits == 8 * field.unit:
            new = value[0]
        else:
            old = self.loaded_unit(place, field)[0]
            new = self.operate('or', self.operate('bic', old, self.constant_value(mask << first)), new)
        if self.typed_bits(place, field):
            self.store_to(self.bit_cell(place, field), new)
        else:
            self.stored(self.bit_unit(place, field), [new])

    def stored_wide_bits(self, place: MemoryPlace, field: Field, value: Registers, mask: int) -> None:
        """Writes a bit field that lies over more than four bytes."""
        unit, first = self.bit_unit(place, field), field.first_bit
        low = self.operate_by('and', value[0], mask)
        old = self.loaded(unit)
        one = self.operate('or', self.operate('bic', old[0], self.constant_value(mask << first & MASK32)), self.operate_by('shl', low, first))
        other = self.operate('or', self.operate('bic', old[1], self.constant_value(mask << first >> 32)),
                             self.operate_by('shr', low, 32 - first))
        self.stored(unit, [one, other])


