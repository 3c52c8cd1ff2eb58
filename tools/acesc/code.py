"""Code of a function before and after registers are allotted: blocks of instructions over numbered values."""
from __future__ import annotations

from dataclasses import dataclass, field
from typing import Any, NamedTuple, Optional

from .common import Place


class Instruction(NamedTuple):
    """One instruction; `what` is the number, operation, name, field, or callee.

    Kinds: number, move, operate, address, function, element, field, load, store, call, call_pointer, and line (a comment).
    """

    kind: str
    to: Optional[int]
    operands: tuple[int, ...]
    what: Any = None


class End(NamedTuple):
    """The end of a block: jump, branch or return; `value` is what is tested or returned."""

    kind: str
    value: Optional[int]
    targets: tuple[str, ...]


@dataclass
class Block:
    """A block; without an end while it is being filled."""

    name: str
    instructions: list[Instruction] = field(default_factory=list)
    end: Optional[End] = None

    def ended(self) -> End:
        """The end, which is there once the function is whole."""
        assert self.end is not None
        return self.end


@dataclass
class FunctionCode:
    """The code of a function."""

    name: str
    place: Optional[Place]
    function: Any = None                                                # the C function (program.Function), if it is of one
    blocks: list[Block] = field(default_factory=list)
    types: list[str] = field(default_factory=list)                      # of each value
    parameters: list[int] = field(default_factory=list)
    nulls: dict[str, int] = field(default_factory=dict)                 # a value of each type that is never written
    locals: list[tuple[str, str]] = field(default_factory=list)
    result: Optional[str] = None
    names: dict[int, Any] = field(default_factory=dict)                 # values that are variables of C (program.Variable)
    # from here on: what allotment adds
    registers: dict[int, str] = field(default_factory=dict)             # of each value
    parameter_lines: list[tuple[str, str]] = field(default_factory=list)
    register_lines: list[tuple[str, str]] = field(default_factory=list)
    register_count: int = 0
    instruction_count: int = 0
    spilled: int = 0
    shared: bool = False                                                # whether pointers share registers


PURE = frozenset(('number', 'move', 'operate', 'address', 'function', 'element', 'field'))
