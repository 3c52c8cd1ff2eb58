"""Tells which pointers of C may lead to objects of several files: what one function needs of one, it gets of all.

The sets are those by which compartments are found: one for each register, for the content of each object and for each function's result,
whatever the order of instructions.
"""
from __future__ import annotations

from typing import Iterable, NamedTuple, Optional

from .builder import Callee
from .code import FunctionCode, Instruction
from .common import Messages, Place
from .first_values import AddressOf, CellValue
from .program import Function, Variable

SHOWN = 4
Node = tuple[str, str, str]     # ('register', function, name), ('content', object, ''), ('result', function, '')


class Thing(NamedTuple):
    """What a pointer leads to: a global or peripheral, a local of a function, or a function."""

    kind: str
    name: str


class Sets:
    """Inclusions between sets of things, solved as they are added."""

    def __init__(self) -> None:
        self.things: dict[Node, set[Thing]] = {}
        self.into: dict[Node, set[Node]] = {}
        self.loads: dict[Node, set[Node]] = {}
        self.stores: dict[Node, set[Node]] = {}
        self.calls: dict[Node, list[tuple[str, Instruction]]] = {}
        self.functions: dict[str, FunctionCode] = {}
        self.todo: list[tuple[Node, Thing]] = []

    def add(self, node: Node, thing: Thing) -> None:
        """A set has a thing."""
        if thing not in self.things.setdefault(node, set()):
            self.things[node].add(thing)
            self.todo.append((node, thing))

    def include(self, source: Node, to: Node) -> None:
        """All that one set has, another has too."""
        if source != to and to not in self.into.setdefault(source, set()):
            self.into[source].add(to)
            for thing in list(self.things.get(source, ())):
                self.add(to, thing)

    def solve(self) -> None:
        """Follows all things to where they go."""
        while self.todo:
            node, thing = self.todo.pop()
            for to in list(self.into.get(node, ())):
                self.add(to, thing)
            if thing.kind == 'function':
                for caller, instruction in self.calls.get(node, ()):
                    self.call(caller, instruction, thing.name, instruction.operands[1:])
                continue
            content: Node = ('content', f'{thing.kind} {thing.name}', '')
            for to in list(self.loads.get(node, ())):
                self.include(content, to)
            for source in list(self.stores.get(node, ())):
                self.include(source, content)

    def register(self, code: FunctionCode, value: int) -> Node:
        """The set of the register that holds a value."""
        return ('register', code.name, code.registers[value])

    def function(self, code: FunctionCode) -> None:
        """Adds the inclusions of a function."""
        local_names = {name for name, _ in code.locals}
        for block in code.blocks:
            for instruction in block.instructions:
                self.instruction(code, instruction, local_names)
            end = block.ended()
            if end.kind == 'return' and end.value is not None and is_pointer(code, end.value):
                self.include(self.register(code, end.value), ('result', code.name, ''))

    def instruction(self, code: FunctionCode, instruction: Instruction, local_names: set[str]) -> None:
        """Adds what one instruction does to pointers."""
        kind, what, operands = instruction.kind, instruction.what, instruction.operands
        if kind == 'call':
            name = what.name if isinstance(what, Callee) else str(what.text_name)
            self.call(code.name, instruction, name, operands)
        elif kind == 'call_pointer':
            self.calls.setdefault(self.register(code, operands[0]), []).append((code.name, instruction))
        elif kind == 'store' and is_pointer(code, operands[1]):
            self.stores.setdefault(self.register(code, operands[0]), set()).add(self.register(code, operands[1]))
        elif instruction.to is None or not is_pointer(code, instruction.to):
            return
        elif kind == 'address':
            name = str(what.text_name if isinstance(what, Variable) else what)
            thing = Thing('local', f'{code.name}.{name}') if name in local_names else Thing('global', name)
            self.add(self.register(code, instruction.to), thing)
        elif kind == 'function':
            self.add(self.register(code, instruction.to), Thing('function', str(what.text_name)))
        elif kind in ('move', 'element', 'field'):
            self.include(self.register(code, operands[0]), self.register(code, instruction.to))
        elif kind == 'load':
            self.loads.setdefault(self.register(code, operands[0]), set()).add(self.register(code, instruction.to))

    def call(self, caller: str, instruction: Instruction, name: str, operands: Iterable[int]) -> None:
        """Adds the flow of arguments and result."""
        code, callee = self.functions[caller], self.functions.get(name)
        if callee is None:
            return
        for (register, ctype), value in zip(callee.parameter_lines, operands):
            if ctype != 'u32':
                self.include(self.register(code, value), ('register', name, register))
        if instruction.to is not None and is_pointer(code, instruction.to):
            self.include(('result', name, ''), self.register(code, instruction.to))


def is_pointer(code: FunctionCode, value: int) -> bool:
    """Whether a value is a pointer or a function."""
    return code.types[value] != 'u32'


def first_contents(sets: Sets, variable: Variable, values: list[CellValue]) -> None:
    """Adds the pointers in the first values of a global."""
    content: Node = ('content', f'global {variable.text_name}', '')
    for value in values:
        if isinstance(value, AddressOf):
            thing = value.thing
            name = thing if isinstance(thing, str) else str(thing.text_name)
            sets.add(content, Thing('function' if isinstance(thing, Function) else 'global', name))


def tell_wide_pointers(sets: Sets, codes: list[FunctionCode], files: dict[str, str], messages: Messages) -> None:
    """Tells of each variable of C that may lead to written objects of several files, and of registers that several pointers share."""
    sets.functions = {code.name: code for code in codes}
    for code in codes:
        sets.function(code)
    sets.solve()
    for code in codes:
        registers: dict[str, list[Variable]] = {}
        for value, variable in code.names.items():
            if value in code.registers and is_pointer(code, value) and variable not in registers.setdefault(code.registers[value], []):
                registers[code.registers[value]].append(variable)
        told: set[tuple[Optional[Place], tuple[str, ...]]] = set()
        for register, variables in sorted(registers.items()):
            objects = sorted(t.name for t in sets.things.get(('register', code.name, register), ()) if t.kind == 'global' and t.name in files)
            shared = code.shared and len(variables) > 1
            if len(objects) < 2 or not shared and len({files[o] for o in objects}) < 2:
                continue
            key = (variables[0].place, tuple(objects))
            if key not in told:
                told.add(key)
                names = ' and '.join(sorted({v.name for v in variables}))
                why = ', in one register since 120 do not suffice' if shared else ''
                messages.note(f'{names} may point to {listed(objects, files)}{why}', variables[0].place or code.place)


def listed(objects: list[str], files: dict[str, str]) -> str:
    """Names of objects with their files, the first ones of many."""
    shown = [f'{o} ({files[o]})' for o in objects[:SHOWN]]
    if len(objects) > SHOWN:
        return ', '.join(shown) + f' and {len(objects) - SHOWN} more'
    return ', '.join(shown[:-1]) + ' and ' + shown[-1]
