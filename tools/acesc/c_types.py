"""C types, and their reading from the strings of clang's dump."""
from __future__ import annotations

import re
from dataclasses import dataclass
from typing import Optional, Union

from .common import Refusal


@dataclass(frozen=True)
class Void:
    """`void`."""


@dataclass(frozen=True)
class Int:
    """An integer of `size` bytes."""

    size: int
    signed: bool


@dataclass(frozen=True)
class Float:
    """A floating-point number; refused wherever it is used."""

    size: int


@dataclass(frozen=True)
class VaList:
    """`va_list`; refused wherever it is used."""


@dataclass(frozen=True)
class Pointer:
    """A pointer."""

    to: 'CType'


@dataclass(frozen=True)
class Array:
    """An array; 0 elements where the length is not told."""

    count: int
    of: 'CType'


@dataclass(frozen=True)
class RecordType:
    """A struct or union, by its key in the table of records."""

    key: str


@dataclass(frozen=True)
class FunctionType:
    """A function; `unknown` where it is declared without parameters, as in `int f()`."""

    result: 'CType'
    parameters: tuple['CType', ...]
    variadic: bool
    unknown: bool


@dataclass(frozen=True)
class BadType:
    """A type without a form in the language, and why."""

    what: str


CType = Union[Void, Int, Float, VaList, Pointer, Array, RecordType, FunctionType, BadType]

VOID = Void()
INT, UNSIGNED = Int(4, True), Int(4, False)
BYTE = Int(1, False)
LONG = Int(8, False)

INTEGERS = {
    'signed char': Int(1, True), 'unsigned char': BYTE, 'short': Int(2, True), 'unsigned short': Int(2, False),
    'int': INT, 'unsigned int': UNSIGNED, 'unsigned': UNSIGNED, 'long': INT, 'unsigned long': UNSIGNED,
    'long long': Int(8, True), 'unsigned long long': LONG, '_Bool': BYTE, 'bool': BYTE,
    'char8_t': BYTE, 'char16_t': Int(2, False), 'char32_t': UNSIGNED, 'wchar_t': UNSIGNED,
    '__int128': Int(16, True), 'unsigned __int128': Int(16, False),
}
FLOATS = {'float': 4, 'double': 8, 'long double': 8, '__fp16': 2, '_Float16': 2, '__bf16': 2, '_Complex': 8}
TOKEN = re.compile(r'\s*((?:(?:[A-Za-z_]\w*::)*\((?:unnamed|anonymous)[^()]*(?:\([^()]*\)[^()]*)?\))'
                   r'|[A-Za-z_]\w*(?:::[A-Za-z_]\w*)*|\d+|\.\.\.|.)')
QUALIFIERS = {'const', 'volatile', 'restrict', '__restrict', '_Atomic', '__unaligned', 'register'}
COMBINED = ('unsigned', 'signed', 'long', 'short', 'int', 'char', '_Complex', '__int128', 'double')
UNKNOWN_LENGTH = 'an array of a length known only at run time: give it a constant length'


def without_attributes(text: str) -> str:
    """The type without `__attribute__((..))`."""
    return re.sub(r'__attribute__\(\((?:[^()]|\([^()]*\))*\)\)', '', text)


def decayed(ctype: CType) -> CType:
    """The type of a parameter declared so."""
    if isinstance(ctype, Array):
        return Pointer(ctype.of)
    return Pointer(ctype) if isinstance(ctype, FunctionType) else ctype


class TypeReader:
    """Types of one translation unit: typedefs, enums and unnamed records by their places."""

    def __init__(self, char_signed: bool = False) -> None:
        self.typedefs: dict[str, CType] = {}
        self.enums: dict[str, Int] = {}
        self.unnamed: dict[tuple[str, int, int], str] = {}
        self.known: dict[str, CType] = {}
        self.char = Int(1, char_signed)

    def parse(self, text: str) -> CType:
        """The type that the dump writes so."""
        found = self.known.get(text)
        if found is None:
            tokens = [x for x in (m.group(1) for m in TOKEN.finditer(without_attributes(text))) if x.strip()]
            found, at = self.whole(tokens, 0)
            if at != len(tokens):
                raise Refusal(f'type "{text}" has no form in the firmware language')
            self.known[text] = found
        return found

    def whole(self, tokens: list[str], at: int) -> tuple[CType, int]:
        """A type name with its declarator, from token `at` on."""
        names: list[str] = []
        tag = None
        while at < len(tokens):
            word = tokens[at]
            if word in ('struct', 'union', 'enum'):
                tag = word
            elif word not in QUALIFIERS:
                if not re.match(r'[A-Za-z_]', word) and not ('unnamed' in word or 'anonymous' in word):
                    break
                if names and (tag or names[-1] not in COMBINED):
                    break
                names.append(word)
            at += 1
        return self.declarator(self.base(' '.join(names), tag), tokens, at)

    def base(self, name: str, tag: Optional[str]) -> CType:
        """The type that a name stands for."""
        key = self.record_key(name)
        if tag == 'enum' or tag is None and name in self.enums and name not in self.typedefs:
            return self.enums.get(key, UNSIGNED)
        if tag:
            return RecordType(key)
        if name in self.typedefs:
            return self.typedefs[name]
        if name == 'void':
            return VOID
        if name == 'char':
            return self.char
        if name in FLOATS or '_Complex' in name:
            return Float(FLOATS.get(name, 8))
        if name in ('__builtin_va_list', 'va_list', '__va_list'):
            return VaList()
        short = name if name in INTEGERS else name.replace(' int', '').replace('signed ', '')
        short = 'int' if short == 'signed' else short
        if short in INTEGERS:
            return INTEGERS[short]
        if 'unnamed' in name or 'anonymous' in name:
            return RecordType(key)
        raise Refusal(f'type "{name}" has no form in the firmware language')

    def record_key(self, name: str) -> str:
        """The key of a record or enum: its tag, or its place where it has none."""
        place = re.search(r'at (.*):(\d+):(\d+)\)$', name)
        if not place:
            return name
        return self.unnamed.get((place.group(1).split('/')[-1], int(place.group(2)), int(place.group(3))), name)

    def declarator(self, base: CType, tokens: list[str], at: int) -> tuple[CType, int]:
        """What stands around the name in a declaration."""
        while at < len(tokens) and (tokens[at] == '*' or tokens[at] in QUALIFIERS):
            if tokens[at] == '*':
                base = Pointer(base)
            at += 1
        inner = None
        if at + 1 < len(tokens) and tokens[at] == '(' and tokens[at + 1] in ('*', '('):
            end = closing(tokens, at)
            inner, at = tokens[at + 1:end], end + 1
        suffixes: list[Union[int, tuple[tuple[CType, ...], bool, bool]]] = []
        while at < len(tokens) and tokens[at] in ('(', '['):
            if tokens[at] == '[':
                length, at = array_length(tokens, at)
                suffixes.append(length)
            else:
                parameters, at = self.parameters(tokens, at + 1)
                suffixes.append(parameters)
        for suffix in reversed(suffixes):
            base = Array(suffix, base) if isinstance(suffix, int) else FunctionType(base, *suffix)
        if inner:
            base, used = self.declarator(base, inner, 0)
            if used != len(inner):
                raise Refusal('a declarator that this translator cannot read')
        return base, at

    def parameters(self, tokens: list[str], at: int) -> tuple[tuple[tuple[CType, ...], bool, bool], int]:
        """Parameters from behind the bracket on: types, whether more may follow, whether nothing is told."""
        types: list[CType] = []
        variadic = False
        while tokens[at] != ')':
            if tokens[at] == '...':
                variadic = True
                at += 1
            elif tokens[at] == ',':
                at += 1
            else:
                one, at = self.whole(tokens, at)
                types.append(one)
        unknown = not types and not variadic
        types = [] if types == [VOID] else types
        return (tuple(decayed(t) for t in types), variadic, unknown), at + 1


def closing(tokens: list[str], at: int) -> int:
    """The place of the bracket that closes the one at `at`."""
    depth = 0
    while True:
        depth += (tokens[at] == '(') - (tokens[at] == ')')
        if depth == 0:
            return at
        at += 1


def array_length(tokens: list[str], at: int) -> tuple[int, int]:
    """The length in square brackets, 0 where none is told."""
    end = tokens.index(']', at)
    words = [x for x in tokens[at + 1:end] if x not in QUALIFIERS and x != 'static']
    if words and not words[0].isdigit():
        raise Refusal(UNKNOWN_LENGTH)
    return (int(words[0]) if words else 0), end + 1
