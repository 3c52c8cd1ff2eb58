"""The native side of a comparison: the C program on the host, with its volatile accesses turned into calls that read the tape."""
from __future__ import annotations

import os
import re
import struct
import subprocess
from dataclasses import dataclass

from .peripherals import Peripheral

HERE = os.path.dirname(os.path.abspath(__file__))
FLAGS = ('-O0', '-nostdlibinc', '-ffreestanding', '-fno-builtin', '-fno-stack-protector', '-fno-pic', '-funsigned-char', '-ffunction-sections', '-w')
NARROW = ('-m32', '-malign-double')
LINK = ('-nostdlib', '-static', '-no-pie', '-Wl,--gc-sections', '-Wl,-z,muldefs', '-Wl,--unresolved-symbols=ignore-all')
LOAD = re.compile(r'^(\s*%\S+ = )load volatile (i8|i16|i32), (i\d+\*|ptr) (.+), align \d+.*$')
STORE = re.compile(r'^\s*store volatile (i8|i16|i32) (.+?), (i\d+\*|ptr) (.+), align \d+.*$')
ENDS = {0: 'end halt 0', 10: 'end input', 11: 'end limit'}
# Accesses after which a native run is cut.
MOST_ACCESSES = 100000
SECONDS = 60


class NativeFault(Exception):
    """The native program could not be built or run."""


@dataclass
class NativeRun:
    """The accesses, as `aces source` prints them but for the compartment, and the end."""

    accesses: list[str]
    end: str


def run(*words: str) -> None:
    """Runs a program that has to succeed."""
    done = subprocess.run(words, capture_output=True, text=True, check=False)
    if done.returncode:
        raise NativeFault(f'{" ".join(words[:4])} ..: {done.stderr.strip()[:2000]}')


def width_flags(clang: str, folder: str) -> tuple[str, ...]:
    """The flags for a host of 32 bits where that runs: sizes of pointers and of `long` are then those of the target."""
    source, program = os.path.join(folder, 'probe.c'), os.path.join(folder, 'probe')
    with open(source, 'w', encoding='utf-8') as file:
        file.write('int fw_main(void) { return 0; }\n')
    try:
        run(clang, *FLAGS, *NARROW, *LINK, source, os.path.join(HERE, 'native', 'shim.c'), '-o', program)
        return NARROW if subprocess.run([program], input=bytes(4), check=False).returncode == 0 else ()
    except (NativeFault, OSError):
        return ()


def build(clang: str, flags: list[str], files: list[str], folder: str, library: bool) -> str:
    """Builds the native program; gives its path."""
    width = width_flags(clang, folder)
    objects: list[str] = []
    library_file = [os.path.join(HERE, 'lib', 'library.c')] if library else []
    for number, path in enumerate([*files, *library_file]):
        text, made = os.path.join(folder, f'{number}.ll'), os.path.join(folder, f'{number}.o')
        run(clang, *FLAGS, *width, '-Dmain=fw_main', *flags, '-emit-llvm', '-S', path, '-o', text)
        redirect(text)
        run(clang, *FLAGS, *width, '-c', text, '-o', made)
        objects.append(made)
    program = os.path.join(folder, 'native')
    run(clang, *FLAGS, *width, *LINK, *objects[:len(files)], os.path.join(HERE, 'native', 'shim.c'), *objects[len(files):], '-o', program)
    return program


def redirect(path: str) -> None:
    """Turns the volatile accesses in a text of LLVM into calls."""
    lines: list[str] = []
    pointers: set[str] = set()
    with open(path, encoding='utf-8', errors='replace') as file:
        for line in file.read().split('\n'):
            load, store = LOAD.match(line), STORE.match(line)
            if load:
                line = f'{load[1]}call {load[2]} @aces_load_{load[2]}({load[3]} {load[4]})'
                pointers.add(load[3])
            elif store:
                line = f'  call void @aces_store_{store[1]}({store[3]} {store[4]}, {store[1]} {store[2]})'
                pointers.add(store[3])
            lines.append(line)
    opaque = 'ptr' in pointers
    for width in ('i8', 'i16', 'i32'):
        pointer = 'ptr' if opaque else f'{width}*'
        lines += [f'declare {width} @aces_load_{width}({pointer})', f'declare void @aces_store_{width}({pointer}, {width})']
    with open(path, 'w', encoding='utf-8') as file:
        file.write('\n'.join(lines) + '\n')


def native_run(program: str, peripherals: list[Peripheral], tape: dict[str, list[int]], seconds: float = SECONDS) -> NativeRun:
    """Runs the native program on a tape."""
    words = [len(peripherals)]
    for peripheral in peripherals:
        words += [peripheral.base, peripheral.size, len(tape.get(peripheral.name, ()))]
    for peripheral in peripherals:
        words += tape.get(peripheral.name, ())
    try:
        done = subprocess.run([program], input=struct.pack(f'<{len(words)}I', *words), capture_output=True, timeout=seconds, check=False)
    except subprocess.TimeoutExpired as fault:
        raise NativeFault(f'the native run did not end within {seconds:g} seconds') from fault
    if done.returncode not in ENDS:
        raise NativeFault(f'the native run was ended by signal {-done.returncode}: an access of a peripheral that is not volatile, '
                          'a division by zero, or other undefined behaviour')
    values = struct.unpack(f'<{len(done.stdout) // 4}I', done.stdout)
    accesses = [f'{"write" if values[k] else "read"} {peripherals[values[k + 1]].name} 0x{values[k + 2]:04x} {values[k + 3]} 0x{values[k + 4]:08x}'
                for k in range(0, len(values), 5)]
    return NativeRun(accesses, ENDS[done.returncode])
