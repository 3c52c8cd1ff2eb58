#!/usr/bin/env python3
"""Runs an image on QEMU's Cortex-M4 and prints the lines of `aces run`. It is not proved, and nothing that is claimed rests on it.

    qemu_run.py [--steps FILE] [--regions N] IMAGE TAPE N

At most N instructions are run. Each is a single step of QEMU through its gdb stub: registers and flags are QEMU's, its own protection unit decides, and a
load of a peripheral then gets the tape's word. A peripheral where QEMU's machine has a device of its own, or nothing, is not touched: there a
model of the unit decides, which is fed with the monitor's own stores and compared with QEMU's unit at every other access; a difference is told
on the error output. FILE gets the number of steps behind which each line was printed. QEMU's unit has the image's number of regions, or N,
which is 0 for a core without a unit.

The board has flash at 0x08000000, at most 128 KiB of RAM at 0x20000000, and 8 or 16 regions. Ends are those of `aces run` but for stops:
what stops the machine of the profile is an exception of a processor, as in `end hard CFSR=00020000 HFSR=40000000 at 0x08002152`.
Statuses: 0; 7 for the other ends; 9 for a difference of the units. It needs qemu-system-arm with the machine netduinoplus2.
"""
from __future__ import annotations

import os
import socket
import struct
import subprocess
import sys
import tempfile
import time
from collections import deque
from contextlib import ExitStack
from dataclasses import dataclass, replace
from typing import Optional

FLASH_BASE, RAM_BASE, MOST_FLASH, MOST_RAM = 0x08000000, 0x20000000, 1 << 20, 1 << 17
MPU_CTRL, MPU_RNR, MPU_RBAR, MPU_RASR = 0xE000ED94, 0xE000ED98, 0xE000ED9C, 0xE000EDA0
CFSR, HFSR = 0xE000ED28, 0xE000ED2C
XPSR, PC = 16, 15
HARD_FAULT, MEMORY_FAULT = 3, 4
# Ranges of the machine's devices that do nothing: an access of them may be made by QEMU itself.
INERT = (
    (0x40001000, 0x400023FF), (0x40002800, 0x400033FF), (0x40004000, 0x400043FF), (0x40005400, 0x40005FFF), (0x40006400, 0x40006BFF),
    (0x40007000, 0x400077FF), (0x40010000, 0x400107FF), (0x40012000, 0x400125FF), (0x40012C00, 0x40012FFF), (0x40014000, 0x40014BFF),
    (0x40020000, 0x400223FF), (0x40023000, 0x400233FF), (0x40023800, 0x400243FF), (0x40026000, 0x400267FF), (0x40028000, 0x400293FF),
    (0x40040000, 0x4006FFFF), (0x50000000, 0x50030FFF), (0x50050000, 0x500503FF), (0x50060800, 0x50060BFF))


@dataclass(frozen=True)
class Window:
    """A peripheral of the image."""

    name: str
    base: int
    size: int


@dataclass(frozen=True)
class Image:
    """What an image file holds, as far as a run needs it (docs/FORMATS.md)."""

    ram_size: int
    monitor: int
    regions: int
    windows: tuple[Window, ...]
    flash: bytes


def read_image(content: bytes) -> Image:
    """The image of a file; ends the program where it is none of this board."""
    magic, version, flash_base, flash_size, ram_base, ram_size, monitor, _, _, count = struct.unpack_from('<4s9I', content)
    regions, at = (8, 40) if version == 1 else (struct.unpack_from('<I', content, 40)[0], 48)
    windows = []
    for _ in range(count):
        base, size, length = struct.unpack_from('<III', content, at)
        windows.append(Window(content[at + 12:at + 12 + length].decode(), base, size))
        at += 12 + length
    if magic != b'ACES' or flash_base != FLASH_BASE or flash_size > MOST_FLASH or ram_base != RAM_BASE or ram_size > MOST_RAM:
        sys.exit('qemu_run.py: not an image of this board')
    return Image(ram_size, monitor, regions, tuple(windows), content[at:at + flash_size])


def read_tape(content: str, image: Image) -> dict[str, deque[int]]:
    """The queue of each peripheral."""
    queues: dict[str, deque[int]] = {window.name: deque() for window in image.windows}
    for line in content.splitlines():
        words = line.split('#')[0].split()
        if words and words[0] not in queues:
            sys.exit(f'qemu_run.py: no peripheral of the image: {words[0]}')
        if words:
            queues[words[0]].append(int(words[1], 16 if 'x' in words[1] else 10) & 0xFFFFFFFF)
    return queues


class Gone(Exception):
    """QEMU has ended, or does not answer."""


class Debugger:
    """QEMU's gdb stub."""

    def __init__(self, path: str) -> None:
        self.socket = self.connected(path)
        self.socket.settimeout(60)
        self.received, self.acknowledgement = b'', b''
        for request in (b'qSupported:xmlRegisters=arm', b'qXfer:features:read:target.xml:0,ffb', b'?'):
            self.ask(request)

    @staticmethod
    def connected(path: str) -> socket.socket:
        """The stub's socket, as soon as QEMU has made it."""
        for _ in range(2000):
            one = socket.socket(socket.AF_UNIX)
            try:
                one.connect(path)
                return one
            except OSError:
                one.close()
                time.sleep(0.01)
        raise Gone('QEMU did not start')

    def ask(self, request: bytes) -> bytes:
        """The stub's answer."""
        self.socket.sendall(self.acknowledgement + b'$' + request + b'#%02x' % (sum(request) & 255))
        while True:
            start = self.received.find(b'$')
            end = self.received.find(b'#', start)
            if start >= 0 and end >= 0 and len(self.received) >= end + 3:
                answer, self.received, self.acknowledgement = self.received[start + 1:end], self.received[end + 3:], b'+'
                return answer
            try:
                more = self.socket.recv(65536)
            except OSError as fault:
                raise Gone(f'QEMU does not answer: {fault}') from fault
            if not more:
                raise Gone('QEMU ended')
            self.received += more

    def registers(self) -> list[int]:
        """r0 to r15, and xPSR."""
        return list(struct.unpack('<17I', bytes.fromhex(self.ask(b'g').decode())[:68]))

    def step(self) -> None:
        """One instruction, with the exception that it enters or returns from."""
        self.ask(b's')

    def set_register(self, number: int, value: int) -> None:
        """Writes r0 to r15, or xPSR."""
        self.ask(b'P%x=%s' % (25 if number == XPSR else number, struct.pack('<I', value & 0xFFFFFFFF).hex().encode()))

    def read(self, address: int, size: int) -> bytes:
        """Bytes as the processor reads them; 0 where nothing can be read."""
        answer = self.ask(b'm%x,%x' % (address, size))
        return bytes(size) if answer[:1] == b'E' else bytes.fromhex(answer.decode())

    def word(self, address: int) -> int:
        """A word as the processor reads it."""
        return int.from_bytes(self.read(address, 4), 'little')

    def physical(self, address: int, size: int) -> int:
        """A number in memory, whatever the protection unit says."""
        self.ask(b'Qqemu.PhyMemMode:1')
        number = int.from_bytes(self.read(address, size), 'little')
        self.ask(b'Qqemu.PhyMemMode:0')
        return number


class ProtectionUnit:
    """The protection unit as the manual has it (Armv7-M ARM, B3.5)."""

    def __init__(self, regions: int) -> None:
        self.control, self.number, self.bases, self.attributes = 0, 0, [0] * regions, [0] * regions

    def write(self, address: int, value: int) -> None:
        """A store to one of the unit's registers."""
        if address == MPU_CTRL:
            self.control = value & 7
        elif address == MPU_RNR:
            self.number = value & 255
        elif address == MPU_RBAR:
            if value & 16:
                self.number = value & 15
            if self.number < len(self.bases):
                self.bases[self.number] = value & ~31
        elif address == MPU_RASR and self.number < len(self.bases):
            self.attributes[self.number] = value

    def allows(self, address: int, stores: bool, privileged: bool) -> bool:
        """Whether a byte may be accessed: the highest region that holds it decides."""
        if not self.control & 1 or 0xE0000000 <= address <= 0xE00FFFFF:
            return True
        permission = None
        for base, attributes in zip(self.bases, self.attributes):
            size = (attributes >> 1 & 31) + 1
            taken_out = size >= 8 and attributes >> (8 + (address >> (size - 3) & 7)) & 1
            if attributes & 1 and size >= 5 and address >> size == base >> size and not taken_out:
                permission = attributes >> 24 & 7
        if permission is None:
            return privileged and bool(self.control & 4)
        if stores:
            return permission in (1, 2, 3) if privileged else permission == 3
        return permission in (1, 2, 3, 5, 6, 7) if privileged else permission in (2, 3, 6, 7)


@dataclass(frozen=True)
class Access:
    """A load or store of an instruction: `register` is what is loaded or stored where it is one word alone."""

    address: int
    width: int
    stores: bool
    words: int = 1
    register: int = 0
    widens: bool = False

    def is_aligned(self) -> bool:
        """Whether it is at a multiple of its width."""
        return self.address % self.width == 0

    def is_of_device(self) -> bool:
        """Whether it is one word at most, in the part of the address space that peripherals have."""
        return 0x40000000 <= self.address <= 0x5FFFFFFF and self.words == 1 and self.is_aligned()


def access_of(code: int, registers: list[int]) -> Optional[Access]:
    """The access that a halfword of code makes with these registers."""
    low, base, offset, field, group = code & 7, registers[code >> 3 & 7], registers[code >> 6 & 7], code >> 6 & 31, code >> 12
    loads = bool(code & 0x800)
    if group == 5:
        kind = code >> 9 & 7
        return Access((base + offset) & 0xFFFFFFFF, (4, 2, 1, 1, 4, 2, 1, 2)[kind], kind < 3, 1, low, kind in (3, 7))
    if group in (6, 7, 8):
        width = {6: 4, 7: 1, 8: 2}[group]
        return Access((base + field * width) & 0xFFFFFFFF, width, not loads, 1, low)
    if group == 9:
        return Access((registers[13] + (code & 255) * 4) & 0xFFFFFFFF, 4, not loads, 1, code >> 8 & 7)
    if code >> 11 == 9:
        return Access(((registers[PC] + 4 & ~3) + (code & 255) * 4) & 0xFFFFFFFF, 4, False, 1, code >> 8 & 7)
    if group == 12 and code & 255:
        return Access(registers[code >> 8 & 7], 4, not loads, (code & 255).bit_count())
    if code >> 9 == 0x5A and code & 511:
        count = (code & 511).bit_count()
        return Access((registers[13] - 4 * count) & 0xFFFFFFFF, 4, True, count)
    if code >> 9 == 0x5E and code & 511:
        return Access(registers[13], 4, False, (code & 511).bit_count())
    return None


def command(folder: str, image: Image) -> list[str]:
    """The words that start QEMU with this image, standing at its first instruction."""
    words = ['qemu-system-arm', '-M', 'netduinoplus2', '-display', 'none', '-serial', 'none', '-monitor', 'none', '-nodefaults', '-S',
             '-chardev', f'socket,id=debugger,path={folder}/debugger,server=on,wait=off', '-gdb', 'chardev:debugger',
             '-kernel', f'{folder}/flash', '-device', f'loader,file={folder}/ram,addr={RAM_BASE:#x},force-raw=on']
    return words if image.regions == 8 else words + ['-global', f'cortex-m4-arm-cpu.pmsav7-dregion={image.regions}']


class Run:
    """A run of an image on QEMU; QEMU ends with it."""

    def __init__(self, image: Image, queues: dict[str, deque[int]]) -> None:
        self.image, self.queues, self.unit = image, queues, ProtectionUnit(image.regions)
        self.end, self.steps, self.printed_at, self.differences = '', 0, list[int](), 0
        self.thread_is_privileged = True
        with ExitStack() as started:
            folder = started.enter_context(tempfile.TemporaryDirectory())
            for name, content in (('flash', image.flash.ljust(MOST_FLASH, b'\xff')), ('ram', b'\xa5' * image.ram_size)):
                with open(os.path.join(folder, name), 'wb') as file:
                    file.write(content)
            process = subprocess.Popen(command(folder, image), stdin=subprocess.DEVNULL, stdout=subprocess.DEVNULL, stderr=subprocess.DEVNULL)
            started.callback(process.wait)
            started.callback(process.kill)
            self.debugger = Debugger(os.path.join(folder, 'debugger'))
            started.callback(self.debugger.socket.close)
            # QEMU starts with the flag Z set, the machine of the profile with all flags clear
            self.debugger.set_register(XPSR, 0x01000000)
            self.registers = self.debugger.registers()
            self.close = started.pop_all().close

    def put(self, line: str) -> None:
        """Prints a line, and notes after how many steps."""
        print(line)
        self.printed_at.append(self.steps)

    def finish(self, line: str) -> None:
        """The line of the end."""
        self.end = line
        self.put(line)

    def code_at(self, address: int) -> int:
        """The halfword of code there."""
        offset = address - FLASH_BASE
        if 0 <= offset <= len(self.image.flash) - 2:
            return int.from_bytes(self.image.flash[offset:offset + 2], 'little')
        return self.debugger.physical(address, 2)

    def step(self) -> None:
        """One instruction."""
        address = self.registers[PC]
        code = self.code_at(address)
        handler = self.registers[XPSR] & 511
        privileged = handler != 0 or self.thread_is_privileged
        # in an IT block, of which compiled code has none, an access may not be executed: QEMU alone decides
        access = None if self.registers[XPSR] & 0x0600FC00 else access_of(code, self.registers)
        self.steps += 1
        if access and access.is_of_device() and self.is_not_touched(access, privileged):
            self.event(access)
            self.registers[PC] = address + 2
            self.debugger.set_register(PC, address + 2)
            return
        before = self.registers
        self.debugger.step()
        self.registers = self.debugger.registers()
        now = self.registers[XPSR] & 511
        if now == HARD_FAULT:
            self.finish(self.end_by(code, address))
            return
        self.follow(code, address, access, before, privileged)
        refused = handler == 0 and now == MEMORY_FAULT
        if access and handler == 0 and access.is_aligned() and not (refused and self.debugger.word(CFSR) & 1):
            self.compare(access, address, refused, privileged)
        if access and access.is_of_device() and not refused and now == handler:
            self.event(access, before[access.register])

    def is_not_touched(self, access: Access, privileged: bool) -> bool:
        """Whether an allowed access of a device is one that QEMU does not make."""
        inert = any(first <= access.address <= last for first, last in INERT)
        return not inert and self.unit.allows(access.address, access.stores, privileged)

    def end_by(self, code: int, address: int) -> str:
        """The end by HardFault: a BKPT, or an exception that was not to be."""
        if code >> 8 == 0xBE:
            return f'end halt {code & 255}'
        return f'end hard CFSR={self.debugger.word(CFSR):08x} HFSR={self.debugger.word(HFSR):08x} at 0x{address:08x}'

    def follow(self, code: int, address: int, access: Optional[Access], before: list[int], privileged: bool) -> None:
        """What the model of the unit has to know: stores to its registers, and writes of CONTROL."""
        if access and access.stores and access.width == 4 and MPU_CTRL <= access.address <= MPU_RASR and privileged:
            self.unit.write(access.address, before[access.register])
        if code & 0xFFF0 == 0xF380 and self.code_at(address + 2) & 0xFF == 20 and privileged:
            self.thread_is_privileged = not before[code & 15] & 1

    def compare(self, access: Access, address: int, refused: bool, privileged: bool) -> None:
        """Tells where the model of the unit and QEMU's unit differ."""
        words = [(access.address + 4 * k) & 0xFFFFFFFF for k in range(access.words)]
        if all(self.unit.allows(word, access.stores, privileged) for word in words) == refused:
            self.differences += 1
            print(f"the unit's model differs: at 0x{address:08x} QEMU {'refuses' if refused else 'allows'} an access of "
                  f'0x{access.address:08x}', file=sys.stderr)

    def event(self, access: Access, stored: Optional[int] = None) -> None:
        """The line of an access of a device; a load gets the tape's word."""
        window = next((one for one in self.image.windows if one.base <= access.address
                       and access.address + access.width <= one.base + one.size), None)
        if window is None:
            self.finish(f'end outside 0x{access.address:08x}')
            return
        value = self.registers[access.register] if stored is None else stored
        if not access.stores:
            if not self.queues[window.name]:
                self.finish('end input')
                return
            value = self.queues[window.name].popleft()
        value &= (1 << 8 * access.width) - 1
        running = self.debugger.physical(self.image.monitor, 4) if self.image.monitor else 0
        self.put(f"{running} {'write' if access.stores else 'read'} {window.name} 0x{access.address - window.base:04x} "
                 f'{access.width} 0x{value:08x}')
        if not access.stores:
            self.load(access, value)

    def load(self, access: Access, value: int) -> None:
        """Puts the value into the register; LDRSB and LDRSH widen with the sign."""
        if access.widens and value >> (8 * access.width - 1):
            value -= 1 << 8 * access.width
        self.debugger.set_register(access.register, value)
        self.registers[access.register] = value & 0xFFFFFFFF


def main(words: list[str]) -> int:
    """The command; its status."""
    options: dict[str, str] = {}
    while len(words) > 1 and words[0] in ('--steps', '--regions'):
        options[words[0]] = words[1]
        words = words[2:]
    if len(words) != 3:
        print(__doc__, file=sys.stderr)
        return 2
    with open(words[0], 'rb') as file:
        image = read_image(file.read())
    if '--regions' in options:
        image = replace(image, regions=int(options['--regions']))
    with open(words[1], encoding='utf-8') as tape:
        run = Run(image, read_tape(tape.read(), image))
    try:
        while not run.end and run.steps < int(words[2]):
            run.step()
        if not run.end:
            run.finish('end limit')
    finally:
        run.close()
    if '--steps' in options:
        with open(options['--steps'], 'w', encoding='utf-8') as steps:
            steps.writelines(f'{step}\n' for step in run.printed_at)
    if run.differences:
        return 9
    return 0 if run.end in ('end halt 0', 'end input', 'end limit') else 7


if __name__ == '__main__':
    try:
        sys.exit(main(sys.argv[1:]))
    except Gone as gone:
        sys.exit(f'qemu_run.py: {gone}')
