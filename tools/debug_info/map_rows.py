"""The rows of a map of compartments: what each compartment may do with each thing, and whether it needs to."""
from __future__ import annotations

from dataclasses import dataclass, field

from .lines import Listing, Part, Slot, Symbols, Who

# with more globals those of a block that the same compartments reach share a row
MANY_GLOBALS = 30


@dataclass(frozen=True)
class Cell:
    """What a compartment may do: `write`, `read`, `execute`, `lent` or nothing; and the bytes that it reaches without need, by how it does."""

    access: str = ''
    word: str = ''
    unneeded: tuple[tuple[str, int], ...] = ()


@dataclass
class Row:
    """A thing with a cell for each compartment. The first row of a block has the number of its rows, and how much of it is used."""

    name: str
    address: str
    size: str
    cells: list[Cell]
    names: list[str] = field(default_factory=list)
    height: int = 0
    used: str = ''


def size_text(size: int) -> str:
    """Bytes, or whole KiB."""
    return f'{size // 1024} KiB' if size >= 1024 and size % 1024 == 0 else f'{size} B'


class Rows:
    """The rows, by the lines of `symbols`, `list` and `who`."""

    def __init__(self, symbols: Symbols, listing: Listing, who: Who) -> None:
        self.symbols, self.listing, self.who = symbols, listing, who
        self.every = range(len(listing.compartments))
        self.closed = any(one.exposed_to_read is not None for one in listing.compartments)
        self.readable = Cell() if self.closed else Cell('read')

    def peripherals(self) -> list[Row]:
        """Peripherals, and the addresses between them that nobody declared."""
        rows = []
        for part in self.symbols.windows:
            users = self.who.peripherals[part.name].writers
            rows.append(self.row(part, [self.cell('periph', number, part.name, number in users, False) for number in self.every]))
        for part, reaching in self.who.undeclared.items():
            reached = Cell('write', 'write', (('undeclared', part.size),))
            rows.append(self.row(Part('not declared', part.address, part.size), [reached if number in reaching else Cell() for number in self.every]))
        return sorted(rows, key=lambda row: row.address)

    def row(self, part: Part, cells: list[Cell]) -> Row:
        """The row of a range."""
        return Row(part.name, f'0x{part.address:08x}', size_text(part.size), cells, [part.name])

    def cell(self, kind: str, number: int, name: str, writes: bool, reads: bool) -> Cell:
        """What a compartment may do with a peripheral or a global."""
        unneeded = tuple((way, self.who.exposed[what, number, name]) for what, way in ((kind, kind), ('read', 'read'))
                         if (what, number, name) in self.who.exposed)
        access = 'write' if writes else 'read' if reads else ''
        return Cell(access, access, unneeded) if access else Cell() if kind == 'periph' else self.readable

    def global_cells(self, name: str) -> list[Cell]:
        """What each compartment may do with a global."""
        owners = self.who.globals[name]
        return [self.cell('global', number, name, number in owners.writers, number in owners.readers) for number in self.every]

    def globals(self) -> list[Row]:
        """Globals by their blocks."""
        return [row for _, block in sorted(self.listing.blocks.items()) for row in self.block(block)]

    def block(self, block: Slot) -> list[Row]:
        """The rows of a block."""
        rows: list[Row] = []
        inside = [part for part in self.symbols.globals if part.name in block.names]
        for part in inside:
            cells = self.global_cells(part.name)
            if len(self.symbols.globals) > MANY_GLOBALS and rows and not any(cell.unneeded for cell in cells) and rows[-1].cells == cells:
                rows[-1].names.append(part.name)
                rows[-1].name = f'{rows[-1].names[0]} +{len(rows[-1].names) - 1}'
                rows[-1].size = size_text(sum(one.size for one in inside if one.name in rows[-1].names))
            else:
                rows.append(self.row(part, cells))
        rows[0].height, rows[0].used = len(rows), f'{inside[-1].end - block.part.address}/{block.part.size}'
        return rows

    def stack_and_monitor(self) -> list[Row]:
        """The stack, lent locals, and the monitor's block."""
        rows = [self.row(self.symbols.stack, [Cell('write', 'its own part') for _ in self.every])]
        compartments = self.listing.compartments
        names = [name for one in compartments for name in one.lent + one.lent_to_read] if len(compartments) > 1 else []
        for name in dict.fromkeys(names):
            cells = [Cell('lent', 'lent') if name in one.lent else Cell('lent', 'lent, to read') if name in one.lent_to_read else self.readable
                     for one in compartments]
            rows.append(Row(name, 'in the stack', '', cells, [name]))
        return rows + [self.row(Part('monitor', self.symbols.block.address, self.symbols.block.size), [self.readable for _ in self.every])]

    def flash(self) -> list[Row]:
        """The monitor with its tables, and the code of each compartment."""
        blocks = sorted(enumerate(self.listing.compartments), key=lambda one: one[1].code.address)
        first = Part('monitor and its tables', self.symbols.base, blocks[0][1].code.address - self.symbols.base)
        rows = [self.row(first, [Cell('execute', 'read, execute') for _ in self.every])]
        for number, one in blocks:
            named = Part(f'code of {number}', one.code.address, one.code.size)
            rows.append(self.row(named, [Cell('execute', 'read, execute') if other == number else Cell('read') for other in self.every]))
        return rows

    def calls(self) -> dict[tuple[int, int], tuple[int, list[str]]]:
        """From one compartment to another: how many places of the code may call, and which functions which."""
        found: dict[tuple[int, int], tuple[int, list[str]]] = {}
        for site in self.symbols.sites:
            caller = self.symbols.functions[site.caller].compartment
            for called in {self.symbols.functions[name].compartment for name in site.called} - {caller}:
                count, _ = found.get((caller, called), (0, []))
                found[caller, called] = count + 1, [f'{one} calls {other}' for one, other, first, second in self.who.calls
                                                    if (first, second) == (caller, called)]
        return found
