"""Control flow of a function: blocks joined, values computed once, dead code left out."""
from __future__ import annotations

from typing import Any, Callable, Optional

from .code import Block, End, FunctionCode, Instruction, PURE


def successors(block: Block) -> tuple[str, ...]:
    """The blocks that may follow."""
    return block.ended().targets


def end_operands(end: End) -> tuple[int, ...]:
    """The value that a block's end uses, if any."""
    return () if end.value is None else (end.value,)


def threaded(code: FunctionCode) -> None:
    """Passes over empty blocks, drops blocks that are never reached, and joins straight lines."""
    first = code.blocks[0]
    empty = {b.name: successors(b)[0] for b in code.blocks[1:]
             if b.ended().kind == 'jump' and successors(b)[0] != b.name and all(i.kind == 'line' for i in b.instructions)}
    for block in code.blocks:
        end = block.ended()
        targets = tuple(last_target(empty, t) for t in end.targets)
        if end.kind == 'branch' and targets[0] == targets[1]:
            block.end = End('jump', None, targets[:1])
        else:
            block.end = End(end.kind, end.value, targets)
    by_name = {b.name: b for b in code.blocks}
    entries: dict[str, int] = {}
    reached, todo = {first.name}, [first.name]
    while todo:
        for name in successors(by_name[todo.pop()]):
            entries[name] = entries.get(name, 0) + 1
            if name not in reached:
                reached.add(name)
                todo.append(name)
    joined: set[str] = set()
    for block in code.blocks:
        if block.name not in reached or block.name in joined:
            continue
        while block.ended().kind == 'jump':
            name = successors(block)[0]
            if entries[name] != 1 or name in (block.name, first.name):
                break
            after = by_name[name]
            block.instructions += after.instructions
            block.end = after.end
            joined.add(name)
    code.blocks = [b for b in code.blocks if b.name in reached and b.name not in joined]


def last_target(empty: dict[str, str], name: str) -> str:
    """Where a jump to a block leads through empty ones."""
    seen: set[str] = set()
    while name in empty and name not in seen:
        seen.add(name)
        name = empty[name]
    return name


def without_dead(code: FunctionCode) -> None:
    """Drops instructions without an effect whose result nothing needs."""
    makers: dict[int, list[Instruction]] = {}
    todo: list[int] = []
    for block in code.blocks:
        todo += end_operands(block.ended())
        for instruction in block.instructions:
            if instruction.kind in PURE:
                assert instruction.to is not None
                makers.setdefault(instruction.to, []).append(instruction)
            else:
                todo += instruction.operands
    needed: set[int] = set()
    while todo:
        value = todo.pop()
        if value not in needed:
            needed.add(value)
            for instruction in makers.get(value, ()):
                todo += instruction.operands
    for block in code.blocks:
        block.instructions = [i for i in block.instructions if i.kind not in PURE or i.to in needed]


class Dominators:
    """Which block is passed on every way to which other."""

    def __init__(self, code: FunctionCode) -> None:
        self.blocks = {b.name: b for b in code.blocks}
        self.order = reverse_postorder(code.blocks[0], self.blocks)
        self.parent = immediate_dominators(self.order, self.blocks)
        self.begin: dict[str, int] = {}
        self.end: dict[str, int] = {}
        self.children: dict[str, list[str]] = {name: [] for name in self.order}
        for name in self.order[1:]:
            self.children[self.parent[name]].append(name)
        self._number()

    def _number(self) -> None:
        count = 0
        todo = [(self.order[0], False)]
        while todo:
            name, done = todo.pop()
            if done:
                self.end[name] = count
                continue
            self.begin[name] = count
            count += 1
            todo.append((name, True))
            todo += [(child, False) for child in reversed(self.children[name])]

    def dominates(self, one: str, other: str) -> bool:
        """Whether `one` is passed before `other` is reached; each block dominates itself."""
        return self.begin[one] <= self.begin[other] < self.end[one]


def reverse_postorder(first: Block, blocks: dict[str, Block]) -> list[str]:
    """The blocks, each before those that follow it but for jumps back."""
    order: list[str] = []
    seen = {first.name}
    stack = [(first.name, iter(successors(first)))]
    while stack:
        name, rest = stack[-1]
        for after in rest:
            if after not in seen:
                seen.add(after)
                stack.append((after, iter(successors(blocks[after]))))
                break
        else:
            order.append(name)
            stack.pop()
    return order[::-1]


def immediate_dominators(order: list[str], blocks: dict[str, Block]) -> dict[str, str]:
    """The closest dominator of each block (Cooper, Harvey and Kennedy's way)."""
    place = {name: k for k, name in enumerate(order)}
    before: dict[str, list[str]] = {name: [] for name in order}
    for name in order:
        for after in successors(blocks[name]):
            before[after].append(name)
    found = {order[0]: order[0]}
    changed = True
    while changed:
        changed = False
        for name in order[1:]:
            best: Optional[str] = None
            for one in before[name]:
                if one in found:
                    best = one if best is None else common(found, place, one, best)
            if best is not None and found.get(name) != best:
                found[name] = best
                changed = True
    return found


def common(found: dict[str, str], place: dict[str, int], one: str, other: str) -> str:
    """The closest block that dominates both."""
    while one != other:
        while place[one] > place[other]:
            one = found[one]
        while place[other] > place[one]:
            other = found[other]
    return one


def single_values(code: FunctionCode, dominators: Dominators) -> set[int]:
    """Values that never change: written nowhere, or at one place that is passed before every place where they are used."""
    places: dict[int, tuple[str, int]] = {p: (code.blocks[0].name, -1) for p in code.parameters}
    several: set[int] = set()
    for block in code.blocks:
        for number, instruction in enumerate(block.instructions):
            if instruction.to is not None:
                if instruction.to in places:
                    several.add(instruction.to)
                places[instruction.to] = (block.name, number)

    def before(value: int, name: str, number: int) -> bool:
        where, at = places[value]
        return at < number if where == name else dominators.dominates(where, name)
    for block in code.blocks:
        for number, instruction in enumerate(block.instructions):
            several.update(v for v in instruction.operands if v in places and not before(v, block.name, number))
        several.update(v for v in end_operands(block.ended()) if v in places and not before(v, block.name, len(block.instructions)))
    return set(range(len(code.types))) - several


def reused(code: FunctionCode, over_blocks: bool) -> None:
    """Uses values that were computed before and cannot have changed."""
    dominators = Dominators(code)
    single = single_values(code, dominators)
    known: dict[Any, int] = {}
    instead: dict[int, int] = {}
    undo: list[list[Any]] = []

    def get(value: int) -> int:
        return instead.get(value, value)

    def visit(block: Block) -> None:
        kept: list[Instruction] = []
        undo.append([])
        for instruction in block.instructions:
            instruction = instruction._replace(operands=tuple(get(v) for v in instruction.operands))
            to = instruction.to
            if to is None or to not in single:
                kept.append(instruction)
                continue
            if instruction.kind == 'move' and over_blocks and instruction.operands[0] in single:
                instead[to] = instruction.operands[0]
                continue
            key = value_key(code, instruction, single)
            if key is not None:
                if key in known:
                    instead[to] = known[key]
                    continue
                known[key] = to
                undo[-1].append(key)
            kept.append(instruction)
        block.instructions = kept

    def leave() -> None:
        for key in undo.pop():
            del known[key]
    if over_blocks:
        in_tree(dominators, visit, leave)
    else:
        for name in dominators.order:
            visit(dominators.blocks[name])
            leave()
    for block in code.blocks:
        block.instructions = [i._replace(operands=tuple(get(v) for v in i.operands)) for i in block.instructions]
        end = block.ended()
        block.end = End(end.kind, None if end.value is None else get(end.value), end.targets)


def in_tree(dominators: Dominators, visit: Callable[[Block], None], leave: Callable[[], None]) -> None:
    """Visits all blocks, each below its dominators; what it found is left again behind all blocks that it dominates."""
    todo: list[Optional[str]] = [dominators.order[0]]
    while todo:
        name = todo.pop()
        if name is None:
            leave()
            continue
        visit(dominators.blocks[name])
        todo.append(None)
        todo += reversed(dominators.children[name])


def value_key(code: FunctionCode, instruction: Instruction, single: set[int]) -> Any:
    """What a value is computed from, where nothing of that can change; else nothing."""
    kind, ctype = instruction.kind, code.types[instruction.to or 0]
    if kind in ('number', 'address', 'function'):
        return kind, instruction.what, ctype
    if kind in ('operate', 'element', 'field') and all(v in single for v in instruction.operands):
        return kind, instruction.what, instruction.operands, ctype
    return None
