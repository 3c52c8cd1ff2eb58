#!/usr/bin/env python3
"""Runs hostile code on QEMU's Cortex-M4 and looks at all RAM. It is not proved, and nothing that is claimed rests on it.

    qemu_hostile.py [--control] [COUNT [SEED]]

COUNT images, 40 where it is missing, are made from the satellite and the heater of examples/ on four boards: the code of one compartment is overwritten by
code that is drawn by SEED: stores and loads near the borders of what it may reach, calls of the monitor, jumps, plain random halfwords. Each
image is stepped on QEMU. Whenever the code of a compartment hands over to the monitor, no byte of RAM may have changed but in the slots that the image's
tables give to this compartment and in the stack that was open to it; whenever the monitor hands back, none but in its block and in the stack. Each
access of a device has to be one of a slot. And the lines are those of `aces run`, up to where the machine of the profile stops.

ACES names the program; else it is crates/aces/out/aces. A difference is told with the number of the image; status 1 where there is one. With
--control the protection unit is opened: the first slot of the hostile compartment becomes all of RAM, which has to be found.
"""
from __future__ import annotations

import contextlib
import io
import os
import random
import struct
import subprocess
import sys
import tempfile
from dataclasses import dataclass, field

sys.dont_write_bytecode = True
HERE = os.path.dirname(os.path.abspath(__file__))
sys.path.insert(0, HERE)
from qemu_run import FLASH_BASE, HARD_FAULT, PC, RAM_BASE, XPSR, Gone, Image, Run, read_image, read_tape  # noqa: E402

ACES = os.environ.get('ACES') or os.path.join(HERE, '..', 'crates', 'aces', 'out', 'aces')
EXAMPLES = os.path.join(HERE, '..', 'examples')
MOST_STEPS = 4000
SYSTEM = (0xE000E010, 0xE000E100, 0xE000ED08, 0xE000ED14, 0xE000ED24, 0xE000ED94, 0xE000ED9C, 0xE000EDA0)
NO_SLEEP = (0xBF20, 0xBF30)


@dataclass
class Compartment:
    """What the tables give to a compartment."""

    code: tuple[int, int]
    written: list[range] = field(default_factory=list)
    devices: list[range] = field(default_factory=list)


@dataclass
class Tables:
    """What `aces tables` says of an image."""

    compartments: list[Compartment] = field(default_factory=list)
    stack: range = range(0)
    monitor: int = 0


def aces(*words: str) -> str:
    """What the program prints."""
    done = subprocess.run([ACES, *words], capture_output=True, text=True, check=False)
    if done.returncode not in (0, 7):
        sys.exit(f'qemu_hostile.py: aces {" ".join(words)}: {done.stderr}')
    return done.stdout


def read_tables(text: str) -> Tables:
    """The tables of an image."""
    tables = Tables()
    for line in text.splitlines():
        words = line.split()
        if words[0] == 'compartment':
            tables.compartments.append(Compartment((int(words[3], 16), int(words[4]))))
        elif words[0] == 'slot' and words[2] == 'periph':
            tables.compartments[-1].devices.append(range(int(words[3], 16), int(words[3], 16) + int(words[4])))
        elif words[0] == 'slot' and words[2] == 'data':
            base, size = int(words[3], 16), int(words[4])
            less = int(words[6], 16) if len(words) > 5 else 0
            eighth = size // 8
            tables.compartments[-1].written += [range(base + k * eighth, base + (k + 1) * eighth) for k in range(8) if not less >> k & 1]
        elif words[0] == 'stack':
            tables.stack = range(int(words[1], 16), int(words[1], 16) + int(words[2]))
        elif words[0] == 'monitor':
            tables.monitor = int(words[1], 16)
    return tables


class HostileCode:
    """Draws code."""

    def __init__(self, draw: random.Random, tables: Tables) -> None:
        self.draw, self.tables = draw, tables

    def body(self) -> bytes:
        """Some pieces, and behind them a branch to itself."""
        pieces = [self.access, self.access, self.access, self.call, self.stack_pointer, self.jump, self.plain, self.anything]
        halves: list[int] = []
        for _ in range(self.draw.randrange(2, 14)):
            halves += self.draw.choice(pieces)()
        return struct.pack(f'<{len(halves) + 1}H', *halves, 0xE7FE)

    def address(self) -> int:
        """One near a border, in a device, in flash, in the system's range, or anywhere."""
        compartment = self.draw.choice(self.tables.compartments)
        borders = [at for one in compartment.written + compartment.devices for at in (one.start, one.stop)]
        borders += [self.tables.stack.start, self.tables.stack.stop, self.tables.monitor, self.tables.monitor + 1024]
        kind = self.draw.randrange(8)
        if kind < 5:
            return self.draw.choice(borders) + self.draw.choice((-4, -2, -1, 0, 0, 0, 1, 2, 4, 8, 32))
        if kind == 5:
            return self.draw.choice(SYSTEM)
        if kind == 6:
            return self.draw.choice((FLASH_BASE, RAM_BASE)) + self.draw.randrange(0x4000)
        return self.draw.getrandbits(32)

    @staticmethod
    def constant(register: int, value: int) -> list[int]:
        """MOVW and MOVT."""
        halves = []
        for first, half in ((0xF240, value & 0xFFFF), (0xF2C0, value >> 16)):
            halves += [first | half >> 12 | (half >> 11 & 1) << 10, (half >> 8 & 7) << 12 | register << 8 | half & 255]
        return halves

    def access(self) -> list[int]:
        """A load or store of one word, halfword, byte or several words, mostly in the form that the monitor serves."""
        low, base = self.draw.choice(((0, 1), (0, 1), (self.draw.randrange(8), self.draw.randrange(8))))
        code = self.draw.choice((0x6000, 0x6800, 0x7000, 0x7800, 0x8000, 0x8800)) | base << 3 | low
        several = self.draw.choice((0xC000, 0xC800)) | base << 8 | self.draw.randrange(1, 256)
        value = self.constant(low, self.draw.getrandbits(32)) if low != base else []
        return value + self.constant(base, self.address() & 0xFFFFFFFF) + [several if self.draw.random() < 0.15 else code]

    def call(self) -> list[int]:
        """A call of the monitor, with what it takes in r0, r1 and r12."""
        targets = [one.code[0] + 2 * self.draw.randrange(64) + 1 for one in self.tables.compartments]
        halves = self.constant(0, self.draw.choice((self.address() & ~3, self.tables.stack.stop - 4 * self.draw.randrange(64))) & 0xFFFFFFFF)
        halves += self.constant(1, self.draw.randrange(4)) + self.constant(12, self.draw.choice(targets))
        number = self.draw.choice((0, 0, 1, 2, 2, 3, 4, 255))
        return halves + [0xDF00 | number] + ([self.draw.randrange(8)] if number == 0 else [])

    def stack_pointer(self) -> list[int]:
        """MOV sp, r2, then a push, a pop or a NOP."""
        at = self.draw.choice((self.address(), self.tables.stack.start + 8 * self.draw.randrange(len(self.tables.stack) // 8)))
        return self.constant(2, at & 0xFFFFFFFF) + [0x4695, self.draw.choice((0xB5FF, 0xBDFF, 0xBF00))]

    def jump(self) -> list[int]:
        """BX to a piece of code, of the monitor, or to a value of an exception return."""
        code = self.draw.choice(self.tables.compartments).code
        to = self.draw.choice((code[0] + 2 * self.draw.randrange(code[1] // 2), FLASH_BASE + 64 + 2 * self.draw.randrange(1000), 0xFFFFFFFC, 0xFFFFFFF0,
                               self.tables.stack.start, self.address()))
        return self.constant(3, (to | 1) & 0xFFFFFFFF) + [self.draw.choice((0x4718, 0x4798))]

    def plain(self) -> list[int]:
        """Some additions and moves."""
        return [self.draw.randrange(0x0000, 0x4600) for _ in range(self.draw.randrange(1, 6))]

    def anything(self) -> list[int]:
        """Random halfwords."""
        drawn = [self.draw.getrandbits(16) for _ in range(self.draw.randrange(1, 5))]
        return [half for half in drawn if half not in NO_SLEEP]


class Watched(Run):
    """A run in which RAM is looked at whenever a compartment and the monitor hand over to each other."""

    def __init__(self, image: Image, tape: str, tables: Tables) -> None:
        super().__init__(image, read_tape(tape, image))
        self.tables, self.faults, self.handed_over = tables, list[str](), 0
        self.before, self.running, self.top = b'', -1, 0

    def memory(self) -> bytes:
        """All RAM."""
        self.debugger.ask(b'Qqemu.PhyMemMode:1')
        parts = [self.debugger.read(RAM_BASE + at, min(1024, self.image.ram_size - at)) for at in range(0, self.image.ram_size, 1024)]
        self.debugger.ask(b'Qqemu.PhyMemMode:0')
        return b''.join(parts)

    def step(self) -> None:
        """One step, and a look at RAM at a border."""
        was = self.registers[XPSR] & 511
        at = self.registers[PC]
        started = not self.thread_is_privileged
        super().step()
        now = self.registers[XPSR] & 511
        if not started and not self.thread_is_privileged:
            self.look(None, at)
        elif started and (was != now or self.end):
            self.look(self.permitted(was), at)

    def permitted(self, handler: int) -> list[range]:
        """What may have changed since the last border."""
        block = range(self.tables.monitor, self.tables.monitor + 1024)
        if handler:
            return [block, self.tables.stack]
        open_stack = range(self.tables.stack.start, self.top)
        # the frame of HardFault goes to the monitor's block
        return self.tables.compartments[self.running].written + [open_stack] + ([block] if self.registers[XPSR] & 511 == HARD_FAULT else [])

    def look(self, permitted: list[range] | None, at: int) -> None:
        """Compares RAM with what it was at the last border."""
        now = self.memory()
        if permitted is not None:
            self.handed_over += 1
            changed = [RAM_BASE + k for k, (one, other) in enumerate(zip(self.before, now)) if one != other]
            outside = [address for address in changed if not any(address in one for one in permitted)]
            if outside:
                self.faults.append(f'compartment {self.running} at 0x{at:08x} after {self.steps} steps: 0x{outside[0]:08x} has changed')
        self.before = now
        self.running, self.top = struct.unpack_from('<II', now, self.tables.monitor - RAM_BASE)

    def put(self, line: str) -> None:
        """Prints a line; an access has to be one of a slot."""
        super().put(line)
        words = line.split()
        if words[0] != 'end':
            base = next(one.base for one in self.image.windows if one.name == words[2])
            if not any(base + int(words[3], 16) in one for one in self.tables.compartments[int(words[0])].devices):
                self.faults.append(f'no slot for: {line}')


def run_on_qemu(image: Image, tape: str, tables: Tables) -> tuple[Watched, list[str]]:
    """Steps an image; its lines."""
    printed = io.StringIO()
    run = Watched(image, tape, tables)
    try:
        with contextlib.redirect_stdout(printed):
            while not run.end and run.steps < MOST_STEPS:
                run.step()
            if not run.end:
                run.finish('end limit')
    except Gone:
        # QEMU aborts where a processor locks up
        printed.write('end lockup\n')
    finally:
        run.close()
    return run, printed.getvalue().splitlines()


def differs(machine: list[str], qemu: list[str]) -> str:
    """Where the lines differ; the end of the machine counts where it did not stop."""
    stopped = machine[-1].startswith('end stop')
    wanted = machine[:-1] if stopped else machine
    have = qemu[:len(wanted)] if stopped else qemu
    return '' if have == wanted else f'aces run ends with {machine[-2:]}, QEMU with {qemu[-2:]}'


def board(regions: int, reads: str) -> str:
    """A board like that of the examples."""
    with open(os.path.join(EXAMPLES, 'board.toml'), encoding='utf-8') as file:
        return file.read() + f'[mpu]\nregions = {regions}\nreads = "{reads}"\n'


@dataclass(frozen=True)
class Plan:
    """What is asked for."""

    count: int
    seed: int
    opened: bool


def put(content: bytes, at: int, new: bytes) -> bytes:
    """The content with other bytes there."""
    return content[:at] + new + content[at + len(new):]


def hostile_image(content: bytes, image: Image, number: int, plan: Plan, tables: Tables) -> bytes:
    """The image file with other code in one compartment; its flash ends the file."""
    draw = random.Random(f'{plan.seed} {number}')
    own = draw.randrange(len(tables.compartments))
    code = tables.compartments[own].code
    flash = len(content) - len(image.flash)
    if plan.opened:
        # base and attributes of the first slot in the compartment's record: 64 KiB of RAM, to be read and written
        record = flash + 4096 + 32 + own * (8 * (image.regions - 4) + 16)
        content = put(content, record + 8, struct.pack('<II', RAM_BASE | 0x14, 0x1306001F))
    return put(content, flash + code[0] - FLASH_BASE, HostileCode(draw, tables).body()[:code[1]])


def one(folder: str, number: int, plan: Plan) -> tuple[int, int, list[str]]:
    """One image: its steps, the borders that were looked at, and what was found."""
    firmware = ('satellite', 'heater')[number % 2]
    paths = {name: os.path.join(folder, name) for name in ('board', 'image')}
    with open(paths['board'], 'w', encoding='utf-8') as file:
        file.write(board((8, 16)[number // 2 % 2], ('open', 'closed')[number // 4 % 2]))
    tape = os.path.join(EXAMPLES, f'{firmware}.tape')
    aces('compile', os.path.join(EXAMPLES, f'{firmware}.ir'), paths['board'], 'filename', paths['image'])
    tables = read_tables(aces('tables', paths['image']))
    with open(paths['image'], 'rb') as image:
        content = image.read()
    content = hostile_image(content, read_image(content), number, plan, tables)
    with open(paths['image'], 'wb') as image:
        image.write(content)
    with open(tape, encoding='utf-8') as words:
        run, qemu = run_on_qemu(read_image(content), words.read(), tables)
    difference = differs(aces('run', paths['image'], tape, str(MOST_STEPS)).splitlines(), qemu)
    found = run.faults + ([difference] if difference else []) + ['the units differ'] * bool(run.differences)
    return run.steps, run.handed_over, [f'image {number} of seed {plan.seed} ({firmware}): {fault}' for fault in found]


def main(words: list[str]) -> int:
    """The command; its status."""
    opened = words[:1] == ['--control']
    numbers = [int(word) for word in words[opened:]]
    plan = Plan(numbers[0] if numbers else 40, numbers[1] if len(numbers) > 1 else 1, opened)
    steps = borders = 0
    found: list[str] = []
    with tempfile.TemporaryDirectory() as folder:
        for number in range(plan.count):
            made, looked, faults = one(folder, number, plan)
            steps, borders, found = steps + made, borders + looked, found + faults
            for fault in faults:
                print(fault)
    print(f'{plan.count} hostile images, {steps} instructions, RAM looked at {borders} times; {len(found)} differ')
    return 1 if found else 0


if __name__ == '__main__':
    sys.exit(main(sys.argv[1:]))
