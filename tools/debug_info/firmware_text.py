"""A firmware's text, with the line of each part: as much as an ELF file needs. `aces check` has to accept the text (docs/LANGUAGE.md)."""
from __future__ import annotations

import re
from dataclasses import dataclass, field
from typing import Iterator, Optional, Union

TOKEN = re.compile(r'(?:[ \t\r\n]+|#[^\n]*)*(?:(->|[{}()\[\],:=*])|(-?(?:0x[0-9a-fA-F]+|[0-9]+))|([A-Za-z_][A-Za-z0-9_.]*)|\Z)')
ORIGIN = re.compile(r'#[ \t]*([A-Za-z0-9_./-]+):([0-9]+)(?::[0-9]+)?[ \t\r]*$', re.M)
BINARY = frozenset('add sub mul udiv sdiv urem srem and or xor bic shl shr sar eq ne ult ule slt sle'.split())
WIDTHS = {'u8': 1, 'u16': 2, 'u32': 4}


@dataclass(frozen=True)
class Named:
    """A number's type, or a struct's."""

    name: str


@dataclass(frozen=True)
class Pointer:
    """The type of pointers to a type."""

    target: Type


@dataclass(frozen=True)
class Array:
    """So many elements of a type."""

    count: int
    element: Type


@dataclass(frozen=True)
class Signature:
    """The type of pointers to functions."""

    arguments: tuple[Type, ...]
    result: Optional[Type]


Type = Union[Named, Pointer, Array, Signature]


@dataclass(frozen=True)
class Variable:
    """A field, parameter, register or local."""

    name: str
    type: Type


@dataclass(frozen=True)
class Place:
    """A line of the firmware's text, or of the file from which a generator made it."""

    file: Optional[str]
    line: int


@dataclass(frozen=True)
class Instruction:
    """An instruction or a block's end."""

    place: Place
    ends: bool = False
    returns: bool = False


@dataclass
class Function:
    """A function, with all its instructions by the labels of its blocks."""

    name: str
    line: int
    file: str
    parameters: list[Variable] = field(default_factory=list)
    locals: list[Variable] = field(default_factory=list)
    other_registers: list[Variable] = field(default_factory=list)
    blocks: dict[str, list[Instruction]] = field(default_factory=dict)
    result: Optional[Type] = None

    def registers(self) -> list[Variable]:
        """Parameters and registers, as they stand in the frame."""
        return self.parameters + self.other_registers


@dataclass(frozen=True)
class Token:
    """A token with its place in the text, and by the last comment of a generator before it."""

    text: str
    line: int
    origin: Optional[Place]


def tokens_of(text: str) -> Iterator[Token]:
    """The tokens of a text."""
    at, line, origin = 0, 1, None
    while True:
        match = TOKEN.match(text, at)
        if match is None or match.lastindex is None:
            return
        for comment in ORIGIN.finditer(text, at, match.start(match.lastindex)):
            origin = Place(comment.group(1), int(comment.group(2)))
        line += text.count('\n', at, match.end())
        yield Token(match.group(match.lastindex), line, origin)
        at = match.end()


class Firmware:
    """The parts of a firmware. With `by_origins` the places of instructions are those of comments like `# main.c:60`."""

    def __init__(self, text: str, by_origins: bool = False) -> None:
        self.by_origins, self.tokens, self.at = by_origins, list(tokens_of(text)), 0
        self.structs: dict[str, list[Variable]] = {}
        self.peripherals: dict[str, tuple[int, int]] = {}
        self.globals: dict[str, tuple[Type, int]] = {}
        self.functions: list[Function] = []
        while self.at < len(self.tokens):
            self.declaration()

    def peek(self, ahead: int = 0) -> str:
        """A token that is to come; an empty text behind the last one."""
        return self.tokens[self.at + ahead].text if self.at + ahead < len(self.tokens) else ''

    def take(self, wanted: Optional[str] = None) -> str:
        """The next token."""
        token = self.tokens[self.at]
        if wanted is not None and token.text != wanted:
            raise ValueError(f'line {token.line}: {token.text} stands where {wanted} was to come')
        self.at += 1
        return token.text

    def number(self) -> int:
        """The next token, which is a number."""
        text = self.take()
        return int(text, 16 if 'x' in text else 10)

    def place(self) -> Place:
        """The place of the next token."""
        token = self.tokens[self.at]
        return token.origin if self.by_origins and token.origin else Place(None, token.line)

    def variables(self, end: str) -> list[Variable]:
        """Names with types up to a token."""
        found = []
        while self.peek() != end:
            name = self.take()
            self.take(':')
            found.append(Variable(name, self.type()))
            if self.peek() == ',':
                self.take()
        self.take(end)
        return found

    def type(self) -> Type:
        """The next tokens, which are a type."""
        word = self.take()
        if word == '*':
            return Pointer(self.type())
        if word == '[':
            count = self.number()
            self.take(']')
            return Array(count, self.type())
        if word != 'fn':
            return Named(word)
        self.take('(')
        arguments = []
        while self.peek() != ')':
            arguments.append(self.type())
            if self.peek() == ',':
                self.take()
        self.take(')')
        return Signature(tuple(arguments), self.result())

    def result(self) -> Optional[Type]:
        """The type behind an arrow, where there is one."""
        if self.peek() != '->':
            return None
        self.take()
        return self.type()

    def declaration(self) -> None:
        """A struct, a peripheral, a global or a file."""
        line, word = self.tokens[self.at].line, self.take()
        if word == 'const':
            word = self.take()
        name = self.take()
        if word == 'struct':
            self.take('{')
            self.structs[name] = self.variables('}')
        elif word == 'periph':
            self.peripherals[name] = (self.number(), self.number())
        elif word == 'global':
            self.take(':')
            self.globals[name] = (self.type(), line)
            if self.peek() == '=':
                while self.take() != '}':
                    pass
        else:
            self.take('{')
            while self.peek() != '}':
                self.function(name)
            self.take('}')

    def function(self, file: str) -> None:
        """A function of a file."""
        line = self.tokens[self.at].line
        self.take('func')
        function = Function(self.take(), line, file)
        self.functions.append(function)
        self.take('(')
        function.parameters = self.variables(')')
        function.result = self.result()
        self.take('{')
        while self.peek() in ('local', 'reg') and self.peek(2) == ':':
            among = function.locals if self.take() == 'local' else function.other_registers
            name = self.take()
            self.take(':')
            among.append(Variable(name, self.type()))
        while self.peek() != '}':
            label = self.take()
            self.take(':')
            function.blocks[label] = self.block()
        self.take('}')

    def block(self) -> list[Instruction]:
        """The instructions of a block, its end last."""
        block = [self.instruction()]
        while not block[-1].ends:
            block.append(self.instruction())
        return block

    def instruction(self) -> Instruction:
        """An instruction or a block's end."""
        place, word = self.place(), self.take()
        if word == 'ret':
            self.at += 1 if self.peek() != '}' and self.peek(1) != ':' else 0
            return Instruction(place, ends=True, returns=True)
        if word in ('jump', 'branch'):
            self.at += 1 if word == 'jump' else 3
            return Instruction(place, ends=True)
        if word in ('call', 'icall'):
            self.arguments()
        elif word == 'store':
            self.at += 3
        else:
            self.take('=')
            self.value(self.take())
        return Instruction(place)

    def value(self, kind: str) -> None:
        """What stands behind the first word of what an instruction gives a register."""
        if kind in ('call', 'icall'):
            self.arguments()
        elif kind in BINARY or kind in ('elem', 'field'):
            self.at += 3
        elif kind in ('addr', 'faddr', 'load'):
            self.at += 1

    def arguments(self) -> None:
        """What stands behind `call` or `icall`."""
        while self.take() != ')':
            pass

    def layout(self, of: Type) -> tuple[int, int]:
        """The size and the alignment of a type."""
        if isinstance(of, Array):
            size, alignment = self.layout(of.element)
            return size * of.count, alignment
        if not isinstance(of, Named):
            return 4, 4
        if of.name in WIDTHS:
            return WIDTHS[of.name], WIDTHS[of.name]
        at, most = 0, 1
        for one in self.structs[of.name]:
            size, alignment = self.layout(one.type)
            at, most = rounded(at, alignment) + size, max(most, alignment)
        return rounded(at, most), most

    def fields(self, struct: str) -> Iterator[tuple[Variable, int]]:
        """The fields of a struct with their offsets."""
        at = 0
        for one in self.structs[struct]:
            size, alignment = self.layout(one.type)
            at = rounded(at, alignment)
            yield one, at
            at += size

    def frame(self, function: Function) -> list[int]:
        """The offset of each local in a function's frame: registers stand first, in words."""
        at, offsets = 4 * len(function.registers()), []
        for one in function.locals:
            offsets.append(at)
            at += rounded(self.layout(one.type)[0], 4)
        return offsets


def rounded(number: int, to: int) -> int:
    """The next multiple."""
    return -(-number // to) * to
