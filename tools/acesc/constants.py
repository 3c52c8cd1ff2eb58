"""Constant expressions: numbers, addresses of peripherals, and addresses of globals."""
from __future__ import annotations

import operator
from typing import Any, Callable, NamedTuple, Optional, Union

from .c_types import Array, BYTE, CType, Int, Pointer, RecordType
from .common import MASK32, Node, Refusal
from .layout import Field, Record
from .program import Entity, Function, Program, Unit, Variable
from .strings import literal_bytes
from .tree import WRAPPERS, is_cast, parts, type_of

OPERATIONS: dict[str, Callable[[Any, Any], Any]] = {
    '+': operator.add, '-': operator.sub, '*': operator.mul, '&': operator.and_, '|': operator.or_, '^': operator.xor,
    '<<': operator.lshift, '>>': operator.rshift, '<': operator.lt, '>': operator.gt, '<=': operator.le, '>=': operator.ge,
    '==': operator.eq, '!=': operator.ne, '&&': lambda a, b: bool(b), '||': lambda a, b: bool(b),
}


class ConstantAddress(NamedTuple):
    """A constant pointer or lvalue: an offset in a thing, or in device memory where `thing` is a number."""

    thing: Union[Variable, Function, int]
    offset: int


def wrapped(value: int, ctype: CType) -> int:
    """A value cut to the width of its type."""
    if not isinstance(ctype, Int):
        return value
    value &= (1 << 8 * ctype.size) - 1
    return value - (1 << 8 * ctype.size) if ctype.signed and value >> 8 * ctype.size - 1 else value


class Reading:
    """What a pass asks of the tree while it reads the functions of `unit`; answers are kept in the nodes."""

    def __init__(self, program: Program) -> None:
        self.program, self.messages = program, program.messages
        self.layouts, self.records = program.layouts, program.records
        self.unit: Unit = program.units[0]
        self.strings: dict[bytes, Variable] = {}

    # ---- names
    def entity(self, node: Node) -> Optional[Entity]:
        """What a name in an expression means."""
        told = node['referencedDecl']
        found = self.unit.entities.get(told['id'])
        if found is None:
            found = self.program.undeclared(self.unit, told.get('name', ''), told['kind'] == 'FunctionDecl')
        return self.program.of_library(self.unit, found) if isinstance(found, Function) else found

    def field(self, node: Node) -> tuple[Record, Field]:
        """The record and the field of a member expression."""
        key, index = self.unit.field_places[node['referencedMemberDecl']]
        record = self.layouts.record(RecordType(key))
        assert record.fields is not None
        return record, record.fields[index]

    def string(self, node: Node) -> Variable:
        """The constant that holds a string literal; equal texts share one."""
        data = literal_bytes(node['value'])
        size = self.layouts.size(type_of(node))
        data = (data + bytes(8))[:size] if len(data) < size else data[:size]
        if data not in self.strings:
            found = Variable('text', Array(len(data), BYTE), self.unit)
            found.is_global = found.is_const = found.is_static = found.is_defined = True
            found.data = data
            self.strings[data] = found
        return self.strings[data]

    # ---- numbers
    def constant(self, node: Node) -> Optional[int]:
        """The value of a constant integer expression, or nothing."""
        if '_constant' not in node:
            try:
                node['_constant'] = self._constant(node)
            except (Refusal, ZeroDivisionError, KeyError):
                node['_constant'] = None
        found: Optional[int] = node['_constant']
        return found

    def _constant(self, node: Node) -> Optional[int]:
        kind, ctype = node['kind'], node.get('_type')
        if not isinstance(ctype, Int):
            return None
        if kind in ('IntegerLiteral', 'CharacterLiteral'):
            return wrapped(int(node['value']), ctype)
        if kind == 'ConstantExpr' and str(node.get('value', '')).lstrip('-').isdigit():
            return wrapped(int(node['value']), ctype)
        if kind in WRAPPERS:
            return self.constant(node['inner'][0])
        if kind == 'DeclRefExpr':
            found = self.entity(node)
            return found if isinstance(found, int) else None
        if is_cast(node):
            return self._constant_cast(node, ctype)
        if kind == 'UnaryExprOrTypeTraitExpr':
            return self._size_of(node)
        if kind == 'UnaryOperator':
            return self._constant_unary(node, ctype)
        if kind == 'BinaryOperator':
            return self._constant_binary(node, ctype)
        if kind == 'ConditionalOperator':
            test = self.constant(node['inner'][0])
            return None if test is None else self.constant(node['inner'][1 if test else 2])
        return None

    def _constant_cast(self, node: Node, ctype: Int) -> Optional[int]:
        cast, operand = node['castKind'], node['inner'][0]
        if cast in ('IntegralCast', 'NoOp'):
            value = self.constant(operand)
            return None if value is None else wrapped(value, ctype)
        if cast == 'IntegralToBoolean':
            value = self.constant(operand)
            return None if value is None else int(value != 0)
        if cast == 'PointerToIntegral':
            value = self.device_address(operand)
            return None if value is None else wrapped(value, ctype)
        return None

    def _size_of(self, node: Node) -> Optional[int]:
        argument = node.get('_argument') or type_of(node['inner'][0])
        if node['name'] == 'sizeof':
            return self.layouts.size(argument)
        return self.layouts.alignment(argument) if node['name'] in ('alignof', '_Alignof', '__alignof') else None

    def _constant_unary(self, node: Node, ctype: Int) -> Optional[int]:
        symbol = node['opcode']
        if symbol == '__extension__':
            return self.constant(node['inner'][0])
        if symbol not in '-+~!':
            return None
        value = self.constant(node['inner'][0])
        if value is None:
            return None
        return wrapped({'-': -value, '+': value, '~': ~value, '!': int(not value)}[symbol], ctype)

    def _constant_binary(self, node: Node, ctype: Int) -> Optional[int]:
        symbol = node['opcode']
        if symbol in ('=', ','):
            return None
        left = self.constant(node['inner'][0])
        if symbol == '&&' and left == 0:
            return 0
        if symbol == '||' and left:
            return 1
        right = self.constant(node['inner'][1])
        if left is None or right is None:
            return None
        if symbol in '/%':
            if right == 0:
                return None
            quotient = abs(left) // abs(right) * (1 if (left < 0) == (right < 0) else -1)
            return wrapped(quotient if symbol == '/' else left - quotient * right, ctype)
        if symbol in ('<<', '>>') and not 0 <= right < 8 * ctype.size:
            return None
        operation = OPERATIONS.get(symbol)
        return None if operation is None else wrapped(int(operation(left, right)), ctype)

    # ---- addresses of devices
    def device_address(self, node: Node) -> Optional[int]:
        """The constant address, of a peripheral or 0, of a pointer or an lvalue; or nothing."""
        if '_address' not in node:
            try:
                value = self._device_address(node)
            except (Refusal, KeyError):
                value = None
            node['_address'] = None if value is None else value & MASK32
        found: Optional[int] = node['_address']
        return found

    def _device_address(self, node: Node) -> Optional[int]:
        kind = node['kind']
        if kind in WRAPPERS:
            return self.device_address(node['inner'][0])
        if is_cast(node):
            if node['castKind'] == 'IntegralToPointer':
                return self.constant(node['inner'][0])
            if node['castKind'] == 'NullToPointer':
                return 0
            return self.device_address(node['inner'][0]) if node['castKind'] in ('BitCast', 'NoOp', 'ArrayToPointerDecay') else None
        if kind == 'UnaryOperator' and node['opcode'] in ('&', '*'):
            return self.device_address(node['inner'][0])
        if kind == 'MemberExpr':
            base = self.device_address(node['inner'][0])
            return None if base is None else base + self.field(node)[1].offset
        moved = self.pointer_and_index(node)
        if moved is None or not isinstance(type_of(moved[1]), Int):
            return None
        base, count = self.device_address(moved[0]), self.constant(moved[1])
        if base is None or count is None:
            return None
        return base + moved[2] * count * self.step_of(moved[0])

    def pointer_and_index(self, node: Node) -> Optional[tuple[Node, Node, int]]:
        """Pointer, index and sign of `p[i]`, `p + i` and `p - i`, or nothing."""
        if node['kind'] not in ('ArraySubscriptExpr', 'BinaryOperator') or node['kind'] == 'BinaryOperator' and node['opcode'] not in '+-':
            return None
        left, right = parts(node)
        if not isinstance(type_of(left), Pointer):
            left, right = right, left
        if not isinstance(type_of(left), Pointer):
            return None
        return left, right, -1 if node['kind'] == 'BinaryOperator' and node['opcode'] == '-' else 1

    def step_of(self, node: Node) -> int:
        """The bytes by which a pointer moves for each element."""
        ctype = type_of(node)
        assert isinstance(ctype, Pointer)
        return self.layouts.size(ctype.to)

    # ---- addresses of globals
    def constant_address(self, node: Node) -> Optional[ConstantAddress]:
        """What a constant pointer leads to, or what a constant lvalue is; or nothing."""
        kind = node['kind']
        device = self.device_address(node)
        if device is not None:
            return ConstantAddress(device, 0)
        if kind in WRAPPERS or kind == 'UnaryOperator' and node['opcode'] in ('&', '__extension__', '*'):
            return self.constant_address(node['inner'][0])
        if is_cast(node):
            if node['castKind'] in ('BitCast', 'NoOp', 'ArrayToPointerDecay', 'FunctionToPointerDecay'):
                return self.constant_address(node['inner'][0])
            return None
        if kind == 'StringLiteral':
            return ConstantAddress(self.string(node), 0)
        if kind == 'DeclRefExpr':
            found = self.entity(node)
            if isinstance(found, Function) or isinstance(found, Variable) and found.is_global:
                return ConstantAddress(found, 0)
            return None
        if kind == 'CompoundLiteralExpr' and '_variable' in node:
            return ConstantAddress(node['_variable'], 0)
        return self._moved_address(node)

    def _moved_address(self, node: Node) -> Optional[ConstantAddress]:
        if node['kind'] == 'MemberExpr':
            inner = node['inner'][0]
            if node.get('isArrow') and not isinstance(type_of(inner), Pointer):
                return None
            base = self.constant_address(inner)
            return base and ConstantAddress(base.thing, base.offset + self.field(node)[1].offset)
        moved = self.pointer_and_index(node)
        if moved is None or is_cast(moved[0], 'LValueToRValue'):
            return None
        base, count = self.constant_address(moved[0]), self.constant(moved[1])
        if base is None or count is None:
            return None
        return ConstantAddress(base.thing, base.offset + moved[2] * count * self.step_of(moved[0]))

    # ---- calls and casts
    def callee(self, node: Node) -> Optional[Function]:
        """The function of a direct call, or nothing."""
        inner = node['inner'][0]
        while is_cast(inner) or inner['kind'] == 'ParenExpr' or inner['kind'] == 'UnaryOperator' and inner['opcode'] in ('&', '*'):
            if inner.get('castKind') in ('LValueToRValue', 'BitCast'):
                return None
            inner = inner['inner'][0]
        found = self.entity(inner) if inner['kind'] == 'DeclRefExpr' else None
        return found if isinstance(found, Function) else None

    def union_member(self, node: Node, record: Record) -> Optional[Field]:
        """The member of a union that first values are for."""
        told = node.get('field')
        fields = record.fields or []
        if told:
            found = self.unit.field_places.get(told.get('id'))
            if found:
                return fields[found[1]]
            for field in fields:
                if field.name == told.get('name'):
                    return field
        return fields[0] if fields else None

    def refuse(self, node: Node, what: str) -> Refusal:
        """A refusal at a node, to be raised."""
        return Refusal(what, node.get('_place'))
