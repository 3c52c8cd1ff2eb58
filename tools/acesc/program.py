"""The units of a program, and what joins them: names with external linkage, and records of one name."""
from __future__ import annotations

import os
from typing import Any, Optional, Union

from .c_types import CType, FunctionType, TypeReader, VOID
from .common import Messages, Node, Place
from .layout import Layouts, Record


class Variable:
    """A variable: of a file, of a function, a parameter, or the text of a string literal."""

    def __init__(self, name: str, ctype: CType, unit: 'Unit') -> None:
        self.name, self.ctype, self.unit = name, ctype, unit
        self.is_global = self.is_parameter = self.is_const = self.address_taken = self.is_static = self.is_defined = self.is_weak = False
        self.first_value: Optional[Node] = None
        self.memory: Any = None             # its class (classes.Memory)
        self.text_name: Optional[str] = None
        self.owner: Any = None              # the function whose local `text_name` is
        self.number: Optional[int] = None   # of its address, for comparisons
        self.place: Optional[Place] = None
        self.function: Optional['Function'] = None
        self.data: Optional[bytes] = None   # of a string


class Function:
    """A function of C."""

    def __init__(self, name: str, ctype: FunctionType, unit: 'Unit') -> None:
        self.name, self.ctype, self.unit = name, ctype, unit
        self.is_static = self.is_interrupt = self.is_weak = False
        self.body: Optional[Node] = None
        self.parameters: list[Variable] = []
        self.memory: Any = None
        self.text_name: Optional[str] = None
        self.number: Optional[int] = None
        self.place: Optional[Place] = None
        self.fault: Optional[str] = None    # why it cannot be translated, where its declaration tells


Entity = Union[Variable, Function, int]


class Unit:
    """A translation unit: a .c file with what it includes."""

    def __init__(self, path: str, char_signed: bool, home: Optional['Unit'] = None) -> None:
        self.path, self.name = path, os.path.basename(path)
        self.home: 'Unit' = home or self                            # the unit in whose file its functions stand
        self.library: Optional['Unit'] = None                       # its copy of the small C library
        self.types = TypeReader(char_signed)
        self.entities: dict[str, Entity] = {}                       # by clang's number of the declaration
        self.statics: dict[str, Union[Variable, Function]] = {}
        self.field_places: dict[str, tuple[str, int]] = {}          # field declaration -> key of the record, index
        self.record_keys: dict[str, Union[str, CType]] = {}         # record declaration -> key; enum declaration -> type
        self.functions: list[Function] = []                         # in the order of the text


class Program:
    """All units, with what they share."""

    def __init__(self, messages: Messages) -> None:
        self.messages = messages
        self.records: dict[str, Record] = {}
        self.layouts = Layouts(self.records)
        self.units: list[Unit] = []
        self.externals: dict[str, Union[Variable, Function]] = {}
        self.all_globals: list[Variable] = []
        self.all_functions: list[Function] = []
        self.addresses_taken: list[tuple[Unit, str]] = []

    def settle_addresses(self) -> None:
        """Marks the variables whose address is taken somewhere; they cannot be registers."""
        for unit, declaration in self.addresses_taken:
            entity = unit.entities.get(declaration)
            if isinstance(entity, Variable):
                entity.address_taken = True

    def find_variable(self, unit: Unit, name: str, ctype: CType, static: bool, function: Optional[Function], place: Optional[Place]) -> Variable:
        """The variable of this name and linkage, made where it is new; static variables of a function are always new."""
        local = static and function is not None
        table = unit.statics if static else self.externals
        found = None if local else table.get(name)
        if found is None and not static:
            found = unit.statics.get(name)
        if isinstance(found, Function):
            self.messages.error(f'"{name}" is a function in another file', place)
            found = None
        if found is None:
            found = Variable(name, ctype, unit)
            found.is_global, found.is_static, found.function, found.place = True, static, function if local else None, place
            if not local:
                table[name] = found
            self.all_globals.append(found)
        return found

    def find_function(self, unit: Unit, name: str, ctype: FunctionType, static: bool, place: Optional[Place]) -> Function:
        """The function of this name and linkage, made where it is new."""
        found = unit.statics.get(name)
        if found is None and not static:
            found = self.externals.get(name)
        if isinstance(found, Variable):
            self.messages.error(f'"{name}" is a variable in another file', place)
            found = None
        if found is None:
            found = Function(name, ctype, unit)
            found.is_static, found.place = static, place
            (unit.statics if static else self.externals)[name] = found
            self.all_functions.append(found)
        return found

    def undeclared(self, unit: Unit, name: str, is_function: bool) -> Optional[Union[Variable, Function]]:
        """What a name means that the unit has no declaration of: builtin functions, and what was left out while reading."""
        found = unit.statics.get(name) or self.externals.get(name)
        if found is None and is_function:
            found = Function(name, FunctionType(VOID, (), False, True), unit)
            self.externals[name] = found
        return found

    def of_library(self, unit: Unit, function: Function) -> Function:
        """The unit's own copy of a library function, where no file defines the function."""
        if function.body is None and unit.library is not None:
            found = unit.library.statics.get(function.name)
            return found if isinstance(found, Function) else function
        return function

    def main(self) -> Optional[Function]:
        """The function where a run begins, or nothing; that it is missing is told."""
        found = self.externals.get('main')
        if isinstance(found, Function) and found.body is not None:
            return found
        self.messages.error('undefined reference to "main"', None)
        return None
