"""Reads the declarations of one translation unit from clang's dump."""
from __future__ import annotations

import os
import re
from typing import Iterable, Optional

from .attributes import check_attributes
from .c_types import Array, BadType, CType, FunctionType, Int, RecordType, VOID, decayed
from .common import Node, Place, Refusal
from .layout import Field, Record
from .program import Function, Program, Unit, Variable

BUILTIN_TYPES = ('__builtin_va_list', '__NSConstantString', '__int128_t', '__uint128_t')


class UnitReader:
    """Reads one unit into a program."""

    def __init__(self, program: Program, unit: Unit, short_enums: bool = False) -> None:
        self.program, self.messages, self.unit, self.short_enums = program, program.messages, unit, short_enums

    def read(self, declarations: Iterable[Node]) -> Unit:
        """Reads all declarations; what cannot be read is told."""
        for node in declarations:
            try:
                self.declaration(node)
            except Refusal as fault:
                self.messages.error(fault.what, fault.place or node.get('_place'))
        return self.unit

    def declaration(self, node: Node) -> bool:
        """Reads a declaration, of a file or inside of a function; tells whether it was one of these kinds."""
        kind = node.get('kind')
        if kind == 'TypedefDecl':
            self.typedef(node)
        elif kind == 'RecordDecl':
            self.record(node)
        elif kind == 'EnumDecl':
            self.enum(node)
        elif kind == 'VarDecl':
            self.variable(node, None)
        elif kind == 'FunctionDecl':
            self.function(node)
        elif kind == 'FileScopeAsmDecl':
            self.messages.error('assembly at file level: only C is translated', node.get('_place'))
        else:
            return False
        return True

    def type_of(self, node: Node) -> CType:
        """The type in a node."""
        told = node['type']
        try:
            return self.unit.types.parse(told['qualType'])
        except Refusal:
            if 'desugaredQualType' in told:
                return self.unit.types.parse(told['desugaredQualType'])
            raise

    # ---- types
    def record(self, node: Node) -> str:
        """Reads a struct or union; gives its key."""
        unit = self.unit
        at = node.get('_name_place') or Place('', 0, 0)
        name, place = node.get('name'), (os.path.basename(at.file), at.line, at.column)
        key = name or f'unnamed@{place[0]}:{place[1]}:{place[2]}'
        earlier = unit.record_keys.get(node.get('previousDecl', ''))
        if isinstance(earlier, str):
            key = earlier
        unit.record_keys[node['id']] = key
        unit.types.unnamed[place] = key
        record = self.program.records.get(key)
        if record is None:
            record = self.program.records[key] = Record(key, node.get('tagUsed') == 'union', name or 'anon')
            record.place = node.get('_place')
        if node.get('completeDefinition'):
            self.record_content(node, record, at)
        return key

    def record_content(self, node: Node, record: Record, at: Place) -> None:
        """Reads the fields of a complete definition."""
        fields: list[Field] = []
        packed, pack = False, 0
        for part in node.get('inner', ()):
            kind = part['kind']
            if kind == 'FieldDecl':
                fields.append(self.field(part, record.key, len(fields)))
            elif kind == 'PackedAttr':
                packed = True
            elif kind == 'MaxFieldAlignmentAttr':
                pack = pragma_pack(at, node)
            else:
                self.declaration(part)
        check_attributes(node, self.messages, layout=True)
        if record.fields is None:
            record.alignment_wanted = wanted_alignment(node)
            record.fields, record.packed, record.pack = fields, packed, pack
        elif [(f.name, f.ctype, f.bits) for f in record.fields] != [(f.name, f.ctype, f.bits) for f in fields] \
                or (record.packed, record.pack) != (packed, pack):
            raise Refusal(f'struct {record.key} is defined in two ways (in two .c files, or in two blocks): rename one', node.get('_place'))

    def field(self, node: Node, key: str, index: int) -> Field:
        """Reads a field."""
        check_attributes(node, self.messages, layout=True)
        try:
            ctype = self.type_of(node)
        except Refusal as fault:
            raise Refusal(fault.what, node.get('_place')) from fault
        bits = int(node['inner'][0].get('value', 0)) if node.get('isBitfield') else None
        self.unit.field_places[node['id']] = (key, index)
        return Field(node.get('name', ''), ctype, bits, index, wanted_alignment(node))

    def enum(self, node: Node) -> None:
        """Reads an enum and its values."""
        unit, value, values = self.unit, 0, [0]
        packed = self.short_enums
        for part in node.get('inner', ()):
            if part['kind'] == 'EnumConstantDecl':
                if part.get('inner'):
                    value = int(part['inner'][0].get('value', value))
                unit.entities[part['id']] = value
                values.append(value)
                value += 1
            packed = packed or part['kind'] == 'PackedAttr'
        ctype = enum_type(values, packed)
        if 'fixedUnderlyingType' in node:
            fixed = unit.types.parse(node['fixedUnderlyingType']['qualType'])
            ctype = fixed if isinstance(fixed, Int) else ctype
        if ctype.size > 4:
            raise Refusal('an enum with values of more than 32 bits: use constants of a 64-bit type', node.get('_place'))
        at = node.get('_name_place')
        if node.get('name'):
            self.one_meaning(unit.types.enums, node['name'], ctype, 'enum', node)
        elif at:
            key = f'enum@{at.file}:{at.line}:{at.column}'
            unit.types.unnamed[os.path.basename(at.file), at.line, at.column] = key
            unit.types.enums[key] = ctype
        unit.record_keys[node['id']] = ctype

    def one_meaning(self, table: dict[str, Int], name: str, ctype: Int, what: str, node: Node) -> None:
        """Names of types are read without their scopes, so one name has one meaning in a file."""
        if table.get(name, ctype) != ctype:
            raise Refusal(f'{what} {name} is defined in two ways in one file: rename one', node.get('_place'))
        table[name] = ctype

    def typedef(self, node: Node) -> None:
        """Reads a typedef."""
        unit, name = self.unit, node['name']
        if name in BUILTIN_TYPES:
            return
        own = unit.record_keys.get(owned_declaration(node) or '')
        meaning: CType
        if isinstance(own, str):
            meaning = RecordType(own)
            record = self.program.records[own]
            record.name = name if record.name == 'anon' else record.name
        elif own is not None:
            meaning = own
        else:
            try:
                meaning = self.type_of(node)
            except Refusal as fault:
                meaning = BadType(fault.what)
        if unit.types.typedefs.get(name, meaning) != meaning:
            raise Refusal(f'typedef {name} is defined in two ways in one file: rename one', node.get('_place'))
        unit.types.typedefs[name] = meaning

    # ---- variables
    def variable(self, node: Node, function: Optional[Function]) -> Variable:
        """Reads a variable of a file (no function), or of a function."""
        storage, name = node.get('storageClass'), node.get('name', '_')
        check_attributes(node, self.messages)
        if node.get('tls'):
            self.messages.warning(f'"{name}": there are no threads, so it is one variable', node.get('_place'))
        if node['kind'] == 'ParmVarDecl':
            found = Variable(name, decayed(self.type_of(node)), self.unit)
            found.is_parameter = True
            found.place = node.get('_place')
        elif function is not None and storage not in ('static', 'extern'):
            found = Variable(name, self.type_of(node), self.unit)
            found.place = node.get('_place')
        else:
            found = self.global_variable(node, function, storage, name)
        self.unit.entities[node['id']] = found
        return found

    def global_variable(self, node: Node, function: Optional[Function], storage: Optional[str], name: str) -> Variable:
        """Reads a variable with a place in memory for the whole run."""
        ctype, place = self.type_of(node), node.get('_place')
        static = storage == 'static'
        found = self.program.find_variable(self.unit, name, ctype, static, function if static else None, place)
        if isinstance(found.ctype, Array) and found.ctype.count == 0:
            found.ctype = ctype
        elif ctype != found.ctype and not (isinstance(ctype, Array) and ctype.count == 0):
            self.messages.error(f'"{name}" has two types in two files', place)
        told = node['type']
        found.is_const = is_const(told.get('desugaredQualType', told['qualType'])) or is_const(told['qualType'])
        weak = any(part['kind'] == 'WeakAttr' for part in node.get('inner', ()))
        values = content(node) if node.get('init') else []
        if values:
            self.define(found, values[-1], static, weak, place)
        elif storage != 'extern':
            if not found.is_defined:
                found.unit = self.unit
            found.is_defined = True
        return found

    def define(self, found: Variable, value: Node, static: bool, weak: bool, place: Optional[Place]) -> None:
        """Takes a first value; of a weak and a strong definition the strong one counts."""
        if found.first_value is not None:
            if weak:
                return
            if not found.is_weak and (found.unit is not self.unit or not static):
                self.messages.error(f'"{found.name}" is defined twice', place)
        found.first_value, found.unit, found.is_defined, found.is_weak = value, self.unit, True, weak

    # ---- functions
    def function(self, node: Node) -> None:
        """Reads a function, and its body where it has one."""
        unit, name, place = self.unit, node['name'], node.get('_place')
        storage = node.get('storageClass')
        static = storage == 'static' or bool(node.get('inline')) and storage != 'extern' or self.unit.home is not self.unit
        check_attributes(node, self.messages)
        fault = None
        try:
            ctype = self.type_of(node)
        except Refusal as refusal:
            ctype, fault = FunctionType(VOID, (), False, True), refusal.what
        if not isinstance(ctype, FunctionType):
            ctype, fault = FunctionType(VOID, (), False, True), f'the type of "{name}" has no form in the firmware language'
        found = self.program.find_function(unit, name, ctype, static, place)
        unit.entities[node['id']] = found
        parts = node.get('inner', ())
        found.is_interrupt = found.is_interrupt or any('InterruptAttr' in part['kind'] for part in parts)
        body = [part for part in parts if part['kind'] == 'CompoundStmt']
        if body:
            self.body(node, found, ctype, fault, body[0])
        elif fault and found.body is None:
            found.fault = fault

    def body(self, node: Node, found: Function, ctype: FunctionType, fault: Optional[str], body: Node) -> None:
        """Reads the body of a function; of a weak and a strong definition the strong one counts."""
        weak = any(part['kind'] == 'WeakAttr' for part in node['inner'])
        if found.body is not None:
            if weak:
                return
            if found.is_weak:
                found.unit.functions.remove(found)
            else:
                self.messages.error(f'function "{found.name}" is defined twice', node.get('_place'))
        found.unit, found.body, found.place, found.is_weak, found.ctype, found.fault = self.unit, body, node.get('_place'), weak, ctype, fault
        if fault:
            return
        try:
            found.parameters = [self.variable(part, found) for part in node['inner'] if part['kind'] == 'ParmVarDecl']
        except Refusal as refusal:
            found.fault = refusal.what
            return
        self.unit.functions.append(found)
        self.scan(body, found)

    def scan(self, node: Node, function: Optional[Function]) -> None:
        """Reads what is declared inside, in the order of the text; gives each node its type; finds variables whose address is taken."""
        kind = node.get('kind')
        if kind != 'VarDecl':
            try:
                if self.declaration(node):
                    return
            except Refusal as fault:
                self.messages.error(fault.what, fault.place or node.get('_place'))
                return
        if kind == 'VarDecl':
            try:
                node['_variable'] = self.variable(node, function)
            except Refusal as fault:
                node['_fault'] = fault.what
        elif kind == 'UnaryOperator' and node.get('opcode') == '&':
            self.address_of(node['inner'][0])
        if isinstance(node.get('type'), dict) and kind != 'VarDecl':
            node['_type'] = self.type_or_fault(node['type'], node)
            if 'argType' in node:
                node['_argument'] = self.type_or_fault(node['argType'], None)
        for key in ('inner', 'array_filler'):
            for part in node.get(key, ()):
                if part:
                    self.scan(part, function)

    def type_or_fault(self, told: Node, node: Optional[Node]) -> CType:
        """The type that is told, or why it has no form."""
        try:
            return self.type_of(node) if node else self.unit.types.parse(told['qualType'])
        except Refusal as fault:
            return BadType(fault.what)

    def address_of(self, node: Node) -> None:
        """Marks a variable whose address is taken, once all declarations are known."""
        while node['kind'] == 'ParenExpr':
            node = node['inner'][0]
        if node['kind'] == 'DeclRefExpr':
            self.program.addresses_taken.append((self.unit, node['referencedDecl']['id']))


def content(node: Node) -> list[Node]:
    """What stands in a declaration besides attributes and comments."""
    return [part for part in node.get('inner', ()) if not part['kind'].endswith(('Attr', 'Comment'))]


def owned_declaration(node: Node) -> Optional[str]:
    """The number of the struct, union or enum that a typedef names."""
    part = (node.get('inner') or [{}])[0]
    while part:
        if 'ownedTagDecl' in part:
            return str(part['ownedTagDecl']['id'])
        if part.get('kind') in ('RecordType', 'EnumType') and 'decl' in part:
            return str(part['decl']['id'])
        if part.get('kind') not in ('ElaboratedType', 'QualType', 'AttributedType'):
            return None
        part = (part.get('inner') or [{}])[0]
    return None


def wanted_alignment(node: Node) -> int:
    """The alignment that attributes ask for."""
    most = 1
    for part in node.get('inner', ()):
        if part['kind'] == 'AlignedAttr':
            value = (part.get('inner') or [{}])[0].get('value')
            most = max(most, int(value) if value else 8)
    return most


def enum_type(values: list[int], packed: bool) -> Int:
    """The integer type of an enum with these values, on this target."""
    signed = min(values) < 0
    for size in (1, 2, 4) if packed else (4,):
        low, high = (-(1 << 8 * size - 1), (1 << 8 * size - 1) - 1) if signed else (0, (1 << 8 * size) - 1)
        if low <= min(values) and max(values) <= high:
            return Int(size, signed)
    return Int(8, signed)


def pragma_pack(at: Place, node: Node) -> int:
    """The dump has the attribute without its number: it is looked up in the source."""
    try:
        with open(at.file, errors='replace') as file:
            lines = file.read().split('\n')[:at.line]
    except OSError:
        lines = []
    found = re.findall(r'pack\s*\(\s*(?:push\s*,\s*)?(?:\w+\s*,\s*)?(\d+)\s*\)', '\n'.join(lines))
    if not found:
        raise Refusal('#pragma pack whose number is not to be seen in the file: write __attribute__((packed))', node.get('_place'))
    return int(found[-1])


def is_const(text: str) -> bool:
    """Whether a type's text says that the object itself is constant."""
    text = re.sub(r'\[[^\]]*\]', '', text).strip()
    pointer = re.search(r'\(\*\s*(const)?\s*(volatile)?\s*\)', text)
    if pointer:
        return pointer.group(1) is not None
    if '*' in text:
        return 'const' in text.rsplit('*', 1)[1]
    return 'const' in text.split()
