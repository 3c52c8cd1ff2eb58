"""Between which bounds a number is known to lie, so that conversions can be left out."""
from __future__ import annotations

from .arithmetic import Arithmetic, Range, bounds
from .c_types import Int
from .common import Node
from .tree import COMPARISONS, is_cast, parts, peel, type_of


class Ranges(Arithmetic):
    """Bounds of expressions."""

    def range_of(self, node: Node) -> Range:
        """The least and the greatest value that an integer expression can have."""
        ctype = type_of(node)
        assert isinstance(ctype, Int)
        constant = self.constant(node)
        if constant is not None:
            return constant, constant
        kind, inner = node['kind'], parts(node)
        if kind == 'ParenExpr':
            return self.range_of(inner[0])
        if is_cast(node) and isinstance(type_of(inner[0]), Int):
            return self.range_of_cast(node, ctype)
        if kind == 'UnaryOperator' and node['opcode'] == '!':
            return 0, 1
        if kind == 'BinaryOperator':
            return self.range_of_binary(node, ctype)
        if kind == 'ConditionalOperator':
            one, other = self.range_of(inner[1]), self.range_of(inner[2])
            return min(one[0], other[0]), max(one[1], other[1])
        return bounds(ctype)

    def range_of_cast(self, node: Node, ctype: Int) -> Range:
        """Bounds of a conversion, or of a bit field that is read."""
        low, high = bounds(ctype)
        operand = parts(node)[0]
        if node['castKind'] == 'IntegralToBoolean':
            return 0, 1
        if node['castKind'] == 'LValueToRValue':
            member = peel(operand)
            if member['kind'] == 'MemberExpr':
                field = self.field(member)[1]
                if field.bits is not None and not field.integer.signed:
                    return 0, (1 << field.bits) - 1
            return low, high
        one = self.range_of(operand)
        return one if low <= one[0] and one[1] <= high else (low, high)

    def range_of_binary(self, node: Node, ctype: Int) -> Range:
        """Bounds of an operator's result."""
        symbol = node['opcode']
        if symbol in COMPARISONS or symbol in ('&&', '||'):
            return 0, 1
        low, high = bounds(ctype)
        if symbol not in ('&', '|', '^', '+', '%', '>>', '<<', '*', '/'):
            return low, high
        one, other = (self.range_of(x) for x in parts(node))
        if symbol in '&|^':
            return range_of_bits(symbol, one, other, (low, high))
        if symbol in ('>>', '<<'):
            count = other[0]
            if count != other[1] or not 0 <= count < 8 * ctype.size:
                return low, high
            if symbol == '>>':
                return one[0] >> count, one[1] >> count
            return (0, one[1] << count) if one[0] >= 0 and one[1] << count <= high else (low, high)
        if symbol == '+' and low <= one[0] + other[0] and one[1] + other[1] <= high:
            return one[0] + other[0], one[1] + other[1]
        if one[0] >= 0:
            if symbol == '*' and other[0] >= 0 and one[1] * other[1] <= high:
                return 0, one[1] * other[1]
            if symbol == '%' and other[0] > 0:
                return 0, min(one[1], other[1] - 1)
            if symbol == '/' and other[0] > 0:
                return 0, one[1] // other[0]
        return low, high


def range_of_bits(symbol: str, one: Range, other: Range, whole: Range) -> Range:
    """Bounds of `&`, `|` and `^`."""
    if symbol == '&':
        if other[0] >= 0:
            return 0, min(other[1], one[1]) if one[0] >= 0 else other[1]
        return (0, one[1]) if one[0] >= 0 else whole
    if one[0] >= 0 and other[0] >= 0:
        return 0, (1 << max(one[1].bit_length(), other[1].bit_length())) - 1
    return whole
