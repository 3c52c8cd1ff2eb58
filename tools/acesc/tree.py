"""Small questions about nodes of the tree."""
from __future__ import annotations

from .c_types import BadType, CType, VOID
from .common import Node, Refusal

CASTS = ('ImplicitCastExpr', 'CStyleCastExpr')
WRAPPERS = ('ParenExpr', 'ConstantExpr')
COMPARISONS = ('<', '>', '<=', '>=', '==', '!=')
# Functions that are translated in place where no body is given.
MEMORY_FUNCTIONS = ('memcpy', 'memmove', 'memset', '__builtin_memcpy', '__builtin_memmove', '__builtin_memset',
                    '__builtin___memcpy_chk', '__builtin___memmove_chk', '__builtin___memset_chk')


def type_of(node: Node) -> CType:
    """The type of an expression; void where it has none."""
    found: CType = node.get('_type', VOID)
    if isinstance(found, BadType):
        raise Refusal(found.what, node.get('_place'))
    return found


def parts(node: Node) -> list[Node]:
    """The operands of an expression, or the parts of a statement."""
    found: list[Node] = node.get('inner', [])
    return found


def is_cast(node: Node, *kinds: str) -> bool:
    """Whether a node is a cast, of one of these kinds where any are given."""
    return node['kind'] in CASTS and (not kinds or node['castKind'] in kinds)


def peel(node: Node) -> Node:
    """The expression without brackets and casts that do nothing."""
    while node['kind'] in WRAPPERS or is_cast(node, 'NoOp'):
        node = node['inner'][0]
    return node


def is_null(node: Node) -> bool:
    """Whether an expression is a null pointer as C writes it."""
    node = peel(node)
    while is_cast(node, 'BitCast', 'NullToPointer', 'NoOp') or node['kind'] == 'ParenExpr':
        if node.get('castKind') == 'NullToPointer':
            return True
        node = node['inner'][0]
    return False
