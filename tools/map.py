#!/usr/bin/env python3
"""Draws what each compartment may reach, and who calls whom, as an SVG file.

    map.py FIRMWARE BOARD POLICY SVG

Columns are compartments, rows are peripherals, globals by their blocks of RAM, stack, monitor and flash. What is reached without need is hatched: globals and
peripherals by joins, and addresses that no peripheral of the firmware declares. It takes the lines of `aces symbols`, `list` and `who`; ACES names the
program, else it is crates/aces/out/aces. It is not proved, and nothing that is claimed rests on it.
"""
from __future__ import annotations

import os
import sys

sys.dont_write_bytecode = True
sys.path.insert(0, os.path.dirname(os.path.abspath(__file__)))
from debug_info.drawing import Drawing  # noqa: E402
from debug_info.lines import Listing, Symbols, Who  # noqa: E402
from debug_info.map_rows import Cell, Row, Rows, size_text  # noqa: E402
from debug_info.program import aces  # noqa: E402

COLOURS = {'write': '#f0932b', 'read': '#d6e6f5', 'execute': '#9fd39f', 'lent': '#c9a0dc', '': '#ffffff'}
MEANINGS = {'write': 'may write and read it', 'read': 'may read it', 'execute': 'may read and execute it', 'lent': 'reaches it while it is lent',
            '': 'does not reach it'}
RED, GREEN, GREY = '#c0392b', '#2d7d46', '#777'
NAMES, ROW, MOST_FUNCTIONS = 370, 20, 7


class Map:
    """The picture; `y` is where the next row is drawn."""

    def __init__(self, rows: Rows, title: str) -> None:
        self.rows, self.title, self.drawing = rows, title, Drawing()
        self.compartments = rows.listing.compartments
        self.column = max(96, min(148, 1300 // len(self.compartments)))
        self.y = 28.0

    def svg(self) -> str:
        """The file's text."""
        self.head()
        self.group('Peripherals', self.rows.peripherals())
        self.group('Globals', self.rows.globals(), 'bracketed by blocks of RAM: bytes used / size of the block')
        self.group('Stack and monitor', self.rows.stack_and_monitor())
        self.group('Flash', self.rows.flash())
        self.calls()
        self.legend()
        return self.drawing.svg(max(self.left(len(self.compartments)) + 96, 880), self.y)

    def left(self, number: int) -> int:
        """Where a compartment's column begins."""
        return NAMES + self.column * number

    def head(self) -> None:
        """The title, and each compartment with its functions and with what it reaches without need."""
        draw, listing = self.drawing, self.rows.listing
        draw.text(16, self.y, f'Compartments of {self.title}', 17, bold=True)
        draw.text(16, self.y + 20, f'{"Closed" if self.rows.closed else "Open"} reads.  Flash {listing.used["flash"]} bytes, RAM {listing.used["ram"]}.  '
                  f'{len(self.rows.symbols.sites)} calls may go to another compartment.', fill='#444')
        self.y += 56
        most = max(min(len(one.functions), MOST_FUNCTIONS) for one in self.compartments)
        for number, one in enumerate(self.compartments):
            middle = self.left(number) + self.column / 2
            told = self.reached(number)
            draw.box(self.left(number) + 2, self.y - 20, self.column - 4, 46 + 15 * most, '#fff6ee' if told else '#f6f7f9', '#ddd')
            draw.text(middle, self.y - 4, f'{number}  {self.rows.who.files.get(number, "")}', 13, 'middle', bold=True)
            draw.text(middle, self.y + 12, told or 'nothing without need', 10.5, 'middle', RED if told else GREEN, bool(told))
            for line, name in enumerate(shown(one.functions)):
                draw.text(middle, self.y + 28 + 15 * line, shortened(name, self.column // 7), 11, 'middle', '#555')
        self.y += 34 + 15 * most

    def reached(self, number: int) -> str:
        """What a compartment reaches without need."""
        one = self.compartments[number]
        joined = [size for (what, who, _), size in self.rows.who.exposed.items() if (what, who) == ('periph', number)]
        devices = sum(part.size for part in one.undeclared) + sum(joined)
        told = [f'{one.exposed} B exposed'] * bool(one.exposed) + [f'{one.exposed_to_read} B to read'] * bool(one.exposed_to_read)
        return ', '.join(told + [f'{size_text(devices)} of devices'] * bool(devices))

    def group(self, heading: str, rows: list[Row], said: str = '') -> None:
        """Rows under a heading."""
        if not rows:
            return
        self.heading(heading, said)
        writable = heading != 'Flash'
        if writable:
            self.drawing.text(self.left(len(self.compartments)) + 10, self.y - 7, 'may write', 11, fill=GREY)
        for row in rows:
            self.row(row, writable)

    def heading(self, heading: str, said: str) -> None:
        """A heading."""
        self.y += 12
        self.drawing.text(16, self.y + 10, heading, 13, bold=True)
        self.drawing.text(188, self.y + 10, said, 11, fill=GREY)
        self.y += 17

    def row(self, row: Row, writable: bool) -> None:
        """A row, and at its end who may write it."""
        draw, base = self.drawing, self.y + 14
        if row.height:
            draw.bracket(17, self.y + 3, ROW * row.height - 6)
            draw.text(262, base, row.used, 10, fill='#999')
        draw.text(28, base, shortened(row.name, 24))
        draw.text(188, base, row.address, 11, fill=GREY)
        draw.text(NAMES - 10, base, row.size, 11, 'end', GREY)
        for number, cell in enumerate(row.cells):
            self.cell(number, cell, ' '.join(row.names))
        writers = [number for number, cell in enumerate(row.cells) if cell.access == 'write' or cell.word == 'lent']
        if writable and row.name != 'stack':
            told = ', '.join(map(str, writers)) if len(writers) < 5 else f'{len(writers)} of {len(row.cells)}'
            draw.text(self.left(len(row.cells)) + 10, base, told or '-', 11, fill='#b35900' if len(writers) > 1 else '#222', bold=len(writers) > 1)
        self.y += ROW

    def cell(self, number: int, cell: Cell, names: str) -> None:
        """What a compartment may do with what stands in a row."""
        draw, left = self.drawing, self.left(number)
        tip = f'{names}: compartment {number} {MEANINGS[cell.access]}{", without need" if cell.unneeded else ""}'
        draw.box(left + 2, self.y + 1, self.column - 4, ROW - 2, COLOURS[cell.access], tip=tip)
        word = cell.word
        if cell.unneeded:
            told = ''.join(f' data-{how}="{size}"' for how, size in cell.unneeded)
            draw.box(left + 2, self.y + 1, self.column - 4, ROW - 2, 'url(#hatch)', RED, tip, f' data-compartment="{number}"{told}')
            word += ' without need' if self.column > 120 else ' !'
        if word:
            draw.text(left + self.column / 2, self.y + 14, word, 11, 'middle', '#8e1b0e' if cell.unneeded else '#222', bool(cell.unneeded), bool(cell.unneeded))

    def calls(self) -> None:
        """Who calls whom."""
        calls, every = self.rows.calls(), range(len(self.compartments))
        if not calls:
            return
        self.heading('Calls', 'from the row to the column, by number of places in the code')
        for caller in every:
            if not any((caller, called) in calls for called in every):
                continue
            self.drawing.text(28, self.y + 14, f'{caller}  {self.rows.who.files.get(caller, "")}')
            for called in every:
                count, pairs = calls.get((caller, called), (0, []))
                self.drawing.box(self.left(called) + 2, self.y + 1, self.column - 4, ROW - 2, '#e9e3f3' if count else '#f1f1f1' if called == caller else '#ffffff',
                                 tip='; '.join(pairs))
                self.drawing.text(self.left(called) + self.column / 2, self.y + 14, str(count or ''), 11, 'middle')
            self.y += ROW

    def legend(self) -> None:
        """What the colours mean."""
        self.y += 22
        x = 28.0
        for access, word, hatched in (('write', 'write and read', False), ('write', 'without need', True), ('read', 'read', False),
                                      ('execute', 'read and execute', False), ('lent', 'while lent', False), ('', 'not reached', False)):
            self.drawing.box(x, self.y, 22, 14, COLOURS[access], '#bbb')
            if hatched:
                self.drawing.box(x, self.y, 22, 14, 'url(#hatch)', RED)
            self.drawing.text(x + 28, self.y + 12, word, 11)
            x += 52 + 6.3 * len(word)
        self.y += 34


def shown(functions: list[str]) -> list[str]:
    """The functions that a compartment's head has room for."""
    if len(functions) <= MOST_FUNCTIONS:
        return functions
    return [*functions[:MOST_FUNCTIONS - 1], f'and {len(functions) - MOST_FUNCTIONS + 1} more']


def shortened(name: str, most: int) -> str:
    """A name of so many letters at most."""
    return name if len(name) <= most else name[:most - 2] + '..'


def main(words: list[str]) -> int:
    """The command; its status."""
    if len(words) != 4:
        print(__doc__, file=sys.stderr)
        return 2
    *asked, svg = words
    rows = Rows(Symbols(aces('symbols', *asked)), Listing(aces('list', *asked)), Who(aces('who', *asked)))
    firmware, board, policy = asked
    with open(svg, 'w', encoding='utf-8') as file:
        file.write(Map(rows, f'{os.path.basename(firmware)} on {os.path.basename(board)}, policy {policy}').svg())
    return 0


if __name__ == '__main__':
    sys.exit(main(sys.argv[1:]))
