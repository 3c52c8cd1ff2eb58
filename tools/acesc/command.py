"""The command `aces-c`: words, passes in their order, messages and statuses."""
from __future__ import annotations

import os
import re
import sys
from dataclasses import dataclass, field
from typing import Iterator, Optional

from .common import Messages, UsageFault
from .dump import ClangFault, declarations, run_clang
from .emit import Emitter
from .program import Function, Program, Unit
from .peripherals import Peripheral, read_table
from .settle import settle
from .shape import Analysis
from .svd import read_svd
from .unit import UnitReader

USAGE = '''usage: aces-c [options] FILE.c ..
       aces-c test [options] --board BOARD --tape TAPE FILE.c ..

Translates C to a firmware text of `aces` (docs/C.md).

  -o OUT                 where the text goes; else to the standard output
  -I DIR, -D NAME[=VALUE], -U NAME, -include FILE, -isystem DIR, -std=STANDARD, -fshort-enums, -fsigned-char
                         as for a C compiler
  -p TABLE               the peripherals: a line NAME BASE SIZE for each
  --svd FILE             the peripherals by the vendor's description, in place of a table; those that are used are declared
  --all                  translates every function, not only what main reaches
  --no-lines             no comments with lines of the C sources
  --no-library           without the small C library (string.h and the like)
  --stats                sizes of all functions, on the error output
  --clang PROGRAM        the clang to use (14 or newer)

Messages are FILE:LINE:COLUMN: error: WHAT. Status 0: translated; 1: refused, and nothing is written; 2: usage.'''

HERE = os.path.dirname(os.path.abspath(__file__))
LIBRARY = os.path.join(HERE, 'lib', 'library.c')
HANDLERS = re.compile(r'(_IRQHandler|_Handler|_ISR|_isr)$')
NESTING = 50000


@dataclass
class Options:
    """What the words of the command ask for."""

    flags: list[str] = field(default_factory=list)
    files: list[str] = field(default_factory=list)
    out: Optional[str] = None
    table: Optional[str] = None
    svd: Optional[str] = None
    everything: bool = False
    lines: bool = True
    library: bool = True
    stats: bool = False
    clang: str = os.environ.get('ACES_CLANG', 'clang')

    def peripherals(self) -> list[Peripheral]:
        """The peripherals, by a table or by an SVD file."""
        if self.svd is not None:
            return read_svd(self.svd)
        return read_table(self.table) if self.table is not None else []

    def all_flags(self) -> list[str]:
        """The flags for clang, those of the library's headers too."""
        return self.flags + (['-idirafter', os.path.join(HERE, 'include')] if self.library else [])

    def add_file(self, word: str) -> None:
        """Takes a word that is no option."""
        if word.startswith('-') and word != '-':
            raise UsageFault(f'option {word} is not known')
        self.files.append(word)


def parse(words: list[str]) -> Options:
    """The options in the words of a request."""
    options = Options()
    rest = iter(words)
    for word in rest:
        if not parse_option(options, word, rest):
            options.add_file(word)
    finish_options(options)
    return options


def finish_options(options: Options) -> None:
    """Checks the options together."""
    if not options.files:
        raise UsageFault('no C files')
    if options.table is not None and options.svd is not None:
        raise UsageFault('one of -p and --svd')
    for path in options.files:
        if not os.path.isfile(path):
            raise UsageFault(f'cannot read {path}')


def parse_option(options: Options, word: str, rest: Iterator[str]) -> bool:
    """Takes one option; false where the word is none of these."""
    if word in ('-I', '-D', '-U', '-include', '-isystem', '-idirafter', '-iquote'):
        options.flags += [word, argument(word, rest)]
    elif word.startswith(('-I', '-D', '-U', '-std=', '-W')) or word in ('-fshort-enums', '-fno-short-enums', '-fsigned-char', '-funsigned-char'):
        options.flags.append(word)
    elif word == '-o':
        options.out = argument(word, rest)
    elif word == '-p':
        options.table = argument(word, rest)
    elif word == '--svd':
        options.svd = argument(word, rest)
    elif word == '--clang':
        options.clang = argument(word, rest)
    elif word == '--all':
        options.everything = True
    elif word == '--no-lines':
        options.lines = False
    elif word == '--no-library':
        options.library = False
    elif word == '--stats':
        options.stats = True
    else:
        return False
    return True


def argument(word: str, rest: Iterator[str]) -> str:
    """The word behind an option."""
    found = next(rest, None)
    if found is None:
        raise UsageFault(f'option {word} needs a word behind it')
    return found


def read_program(options: Options, messages: Messages) -> Program:
    """Reads all files, and those of the library that they name."""
    program = Program(messages)
    flags = options.all_flags()
    short_enums, char_signed = last_of(flags, '-fshort-enums', '-fno-short-enums'), last_of(flags, '-fsigned-char', '-funsigned-char')
    refused: list[str] = []

    def read(unit: Unit, everything: bool) -> None:
        program.units.append(unit)
        try:
            UnitReader(program, unit, short_enums).read(declarations(run_clang(options.clang, flags, unit.path), everything))
        except ClangFault as fault:
            refused.append(str(fault))
    for path in options.files:
        read(Unit(path, char_signed), options.everything)
    if options.library and not refused:
        for unit in list(program.units):
            if uses_library(program, unit):
                unit.library = Unit(LIBRARY, char_signed, unit)
                read(unit.library, False)
                unit.library.library = unit.library
    if refused:
        raise ClangFault(''.join(refused))
    scan_first_values(program, short_enums)
    program.settle_addresses()
    return program


def last_of(flags: list[str], yes: str, no: str) -> bool:
    """Which of two flags comes last."""
    found = [flag for flag in flags if flag in (yes, no)]
    return bool(found) and found[-1] == yes


def uses_library(program: Program, unit: Unit) -> bool:
    """Whether a unit names a function of the library that no file defines."""
    with open(LIBRARY, encoding='utf-8') as file:
        defined = set(re.findall(r'^(?:\w+ )+\*?(\w+)\(', file.read(), re.M))
    return any(isinstance(x, Function) and x.body is None and x.name in defined for x in unit.entities.values())


def scan_first_values(program: Program, short_enums: bool) -> None:
    """Gives the first values of globals their types, once all files are read."""
    for variable in program.all_globals:
        if variable.first_value is not None and variable.function is None:
            UnitReader(program, variable.unit, short_enums).scan(variable.first_value, None)


def roots_of(program: Program, options: Options) -> list[Function]:
    """The functions to begin with."""
    if options.everything:
        return [f for unit in program.units for f in unit.functions if f.place and f.place.file == unit.path]
    main = program.main()
    return [main] if main else []


def tell_handlers(program: Program, roots: list[Function], reached: list[Function]) -> None:
    """Tells of interrupt handlers that nothing calls: there are no interrupts."""
    for function in program.all_functions:
        if function.body is not None and function not in roots and function not in reached and \
                (HANDLERS.search(function.name) or function.is_interrupt):
            program.messages.note(f'{function.name} is left out: there are no interrupts; poll the device, and call this function from main',
                                  function.place)


def translate(options: Options, messages: Messages) -> tuple[Optional[str], Optional[Emitter]]:
    """The firmware text of C sources, or nothing where something is refused."""
    peripherals = options.peripherals()
    program = read_program(options, messages)
    roots = roots_of(program, options)
    analysis = Analysis(program)
    analysis.visit_all(roots)
    settle(analysis)
    tell_handlers(program, roots, analysis.shapes.functions)
    if messages.errors and not options.everything:
        return None, None
    emitter = Emitter(program, analysis.shapes, analysis.strings, peripherals, options.svd is not None, options.lines)
    return emitter.translated(), emitter


def main(words: list[str]) -> int:
    """The whole command; gives the status."""
    sys.setrecursionlimit(NESTING)
    if words and words[0] in ('-h', '--help'):
        print(USAGE)
        return 0
    messages = Messages()
    try:
        options = parse(words)
        text, emitter = translate(options, messages)
    except UsageFault as fault:
        print(f'aces-c: {fault}\n{USAGE.splitlines()[0]} (aces-c --help tells more)', file=sys.stderr)
        return 2
    except ClangFault as fault:
        sys.stderr.write(str(fault))
        return 1
    show(messages)
    if options.everything and emitter is not None:
        functions = emitter.shapes.functions
        print(f'functions {len(functions)}, translated {sum(f not in emitter.refused for f in functions)}', file=sys.stderr)
    if text is None:
        return 1
    if options.stats and emitter is not None:
        print_stats(emitter)
    return write(options.out, text)


def show(messages: Messages) -> None:
    """Tells everything on the error output."""
    for line in messages.lines():
        print(line, file=sys.stderr)


def write(out: Optional[str], text: str) -> int:
    """Writes the text; gives the status."""
    if out is None:
        sys.stdout.write(text)
        return 0
    try:
        with open(out, 'w', encoding='utf-8') as file:
            file.write(text)
    except OSError as fault:
        print(f'aces-c: cannot write {out}: {fault.strerror}', file=sys.stderr)
        return 1
    return 0


def print_stats(emitter: Emitter) -> None:
    """A line for each function."""
    for unit, codes in emitter.codes.items():
        for code in codes:
            print(f'{unit.name}:{code.name}: {code.instruction_count} instructions, {len(code.blocks)} blocks, {code.register_count} registers, '
                  f'{len(code.locals)} locals' + (f', {code.spilled} spilled' if code.spilled else ''), file=sys.stderr)
