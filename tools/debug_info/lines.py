"""The lines of `aces symbols`, `list` and `who`, as tools take them (docs/FORMATS.md)."""
from __future__ import annotations

from dataclasses import dataclass, field
from typing import Optional


@dataclass(frozen=True)
class Part:
    """A named range of addresses."""

    name: str
    address: int
    size: int

    @property
    def end(self) -> int:
        """The address behind it."""
        return self.address + self.size


@dataclass(frozen=True)
class CodePlace:
    """Where the code of an instruction begins, or that of a block's end, whose number is None."""

    address: int
    block: str
    number: Optional[int]


@dataclass
class FunctionCode:
    """A function in flash, with the bytes of its frame and the places of its code by rising address."""

    part: Part
    compartment: int
    frame: int
    places: list[CodePlace] = field(default_factory=list)


@dataclass(frozen=True)
class Site:
    """A call that may go to another compartment: the address behind its SVC, and the functions that it may call."""

    address: int
    caller: str
    called: tuple[str, ...]


def part_of(words: list[str], name: str) -> Part:
    """The range whose address and size stand first."""
    return Part(name, int(words[0], 16), int(words[1]))


class Symbols:
    """What `symbols` prints."""

    def __init__(self, text: str) -> None:
        self.monitor: list[Part] = []
        self.tables: list[Part] = []
        self.functions: dict[str, FunctionCode] = {}
        self.globals: list[Part] = []
        self.windows: list[Part] = []
        self.sites: list[Site] = []
        for line in text.splitlines():
            kind, *words = line.split()
            self.read(kind, words)

    def read(self, kind: str, words: list[str]) -> None:
        """A line."""
        if kind == 'stack':
            self.stack = part_of(words, kind)
        elif kind == 'block':
            self.block = part_of(words, kind)
        elif kind == 'function':
            self.functions[words[4]] = FunctionCode(part_of(words, words[4]), int(words[2]), int(words[3]))
        elif kind == 'site':
            self.sites.append(Site(int(words[0], 16), words[1], tuple(words[2:])))
        elif kind == 'code':
            number = None if words[-1] == 'end' and len(words) == 5 else int(words[-1])
            self.functions[words[1]].places.append(CodePlace(int(words[0], 16), words[3], number))
        else:
            {'monitor': self.monitor, 'tables': self.tables, 'global': self.globals, 'window': self.windows}[kind].append(part_of(words, words[2]))

    @property
    def base(self) -> int:
        """Where flash begins: 64 bytes of vectors stand before the monitor's first part."""
        return self.monitor[0].address - 64


@dataclass(frozen=True)
class Slot:
    """A slot of the protection unit: `data`, `read` or `periph`, with the names of what lies in it."""

    kind: str
    part: Part
    names: tuple[str, ...]


@dataclass
class Compartment:
    """A compartment of a listing."""

    code: Part
    functions: list[str] = field(default_factory=list)
    slots: list[Slot] = field(default_factory=list)
    lent: list[str] = field(default_factory=list)
    lent_to_read: list[str] = field(default_factory=list)
    exposed: int = 0
    exposed_to_read: Optional[int] = None
    undeclared: list[Part] = field(default_factory=list)


class Listing:
    """What `list` prints: its compartments, and the blocks of globals by their addresses."""

    def __init__(self, text: str) -> None:
        self.compartments: list[Compartment] = []
        self.blocks: dict[int, Slot] = {}
        self.used: dict[str, str] = {}
        for line in text.splitlines():
            kind, *words = line.split()
            self.read(kind, words)

    def read(self, kind: str, words: list[str]) -> None:
        """A line."""
        last = self.compartments[-1] if self.compartments else Compartment(Part('', 0, 0))
        if kind == 'compartment':
            self.compartments.append(Compartment(part_of(words[2:], words[0])))
        elif kind == 'function':
            last.functions.append(words[0])
        elif kind == 'slot':
            last.slots.append(Slot(words[1], part_of(words[2:], ''), tuple(words[4:])))
            if words[1] != 'periph':
                self.blocks[last.slots[-1].part.address] = last.slots[-1]
        elif kind in ('lend', 'lend-read'):
            (last.lent if kind == 'lend' else last.lent_to_read).append(words[0])
        elif kind == 'exposed':
            last.exposed, last.exposed_to_read = int(words[0]), int(words[2]) if len(words) > 1 else None
        elif kind == 'undeclared':
            last.undeclared.append(part_of(words, ''))
        elif kind == 'unwritten':
            self.blocks[int(words[0], 16)] = Slot('unwritten', part_of(words, ''), tuple(words[2:]))
        elif kind in ('flash', 'ram'):
            self.used[kind] = ' '.join(words)


@dataclass(frozen=True)
class Owners:
    """Which compartments may write a global or use a peripheral, and on a closed board read it."""

    writers: frozenset[int]
    readers: frozenset[int] = frozenset()


class Who:
    """What `who` prints. `exposed` has the compartments and names of what is reached without need."""

    def __init__(self, text: str) -> None:
        self.files: dict[int, str] = {}
        self.globals: dict[str, Owners] = {}
        self.peripherals: dict[str, Owners] = {}
        self.exposed: dict[tuple[str, int, str], int] = {}
        self.undeclared: dict[Part, set[int]] = {}
        self.calls: list[tuple[str, str, int, int]] = []
        for line in text.splitlines():
            kind, *words = line.split()
            self.read(kind, words)

    def read(self, kind: str, words: list[str]) -> None:
        """A line."""
        if kind == 'compartment' and len(words) == 3:
            self.files[int(words[0])] = words[2]
        elif kind == 'global':
            self.globals[words[0]] = Owners(numbers_behind('writers', words), numbers_behind('readers', words))
        elif kind == 'periph':
            self.peripherals[words[0]] = Owners(numbers_behind('users', words))
        elif kind in ('exposed', 'exposed-read'):
            what = 'read' if kind == 'exposed-read' else words[1]
            self.exposed[what, int(words[0]), words[2]] = int(words[3])
        elif kind == 'undeclared':
            self.undeclared.setdefault(part_of(words[1:], ''), set()).add(int(words[0]))
        elif kind == 'call':
            self.calls.append((words[0], words[1], int(words[2]), int(words[3])))


def numbers_behind(word: str, words: list[str]) -> frozenset[int]:
    """The numbers between a word and the next one; a name is no such word, as it stands first."""
    if word not in words[1:]:
        return frozenset()
    found = []
    for one in words[words.index(word, 1) + 1:]:
        if not one.isdigit():
            break
        found.append(int(one))
    return frozenset(found)
