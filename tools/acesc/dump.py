"""Runs clang on a .c file and reads its dump, leaving out declarations that nothing uses."""
from __future__ import annotations

import json
import re
import subprocess
from typing import Any, Iterator, Optional

from .common import Node, Place, UsageFault

FLAGS = ('--target=thumbv7m-none-eabi', '-ffreestanding', '-nostdlibinc', '-fsyntax-only', '-Wno-everything', '-Werror=implicit-function-declaration',
         '-Werror=int-conversion', '-Xclang', '-ast-dump=json')
# The path of offsetof is not in the dump, that of an expression is.
OFFSETOF = '-D__builtin_offsetof(t,m)=((__SIZE_TYPE__)&((t*)0)->m)'

HEAD = '"inner": [\n    {\n'
BETWEEN = '\n    },\n    {\n'
KIND = re.compile(r'^      "kind": "(\w+)"', re.M)
NAME = re.compile(r'^      "name": "([^"]*)"', re.M)
NAMES = re.compile(r'"name": "(\w+)"')
STORAGE = re.compile(r'^      "(?:storageClass": "(?:static|extern)"|inline": true)', re.M)
BODY = re.compile(r'^          "kind": "CompoundStmt"', re.M)
FILE = re.compile(r'"includedFrom": \{\s*"file": "(?:[^"\\]|\\.)*"|"file": ("(?:[^"\\]|\\.)*")')
WORDS = re.compile(r'[A-Za-z_]\w*')


class ClangFault(Exception):
    """What clang itself refuses; the text is clang's."""


def run_clang(clang: str, flags: list[str], path: str) -> str:
    """The dump of a file."""
    try:
        done = subprocess.run([clang, *FLAGS, OFFSETOF, *flags, path], capture_output=True, check=False)
    except OSError as fault:
        raise UsageFault(f'{clang} cannot be run ({fault.strerror}): install clang 14 or newer, or name one by --clang') from fault
    if done.returncode:
        raise ClangFault(done.stderr.decode(errors='replace') or f'{clang} failed')
    return done.stdout.decode(errors='replace')


def declarations(text: str, everything: bool) -> Iterator[Node]:
    """The declarations of a dump that something uses, with the places of all nodes restored."""
    places = Places()
    begin, end = text.find(HEAD), text.rfind('\n    }\n  ]')
    if begin < 0 or end < 0:
        tree = json.loads(text)
        places.restore(tree)
        yield from tree.get('inner', ())
        return
    chunks = text[begin + len(HEAD):end].split(BETWEEN)
    needed = set(range(len(chunks))) if everything else used(chunks)
    for number, chunk in enumerate(chunks):
        if number not in needed:
            places.skip(chunk)
            continue
        node = json.loads('{' + chunk + '}')
        places.restore(node)
        yield node


def used(chunks: list[str]) -> set[int]:
    """The numbers of declarations that a definition of the file leads to, by the words in them."""
    by_name: dict[str, list[int]] = {}
    needed: set[int] = set()
    todo: list[int] = []
    for number, chunk in enumerate(chunks):
        kind = KIND.search(chunk)
        names = provided(chunk, kind.group(1) if kind else '')
        for name in names:
            by_name.setdefault(name, []).append(number)
        if not names or is_root(chunk, kind.group(1) if kind else ''):
            needed.add(number)
            todo.append(number)
    while todo:
        for word in set(WORDS.findall(chunks[todo.pop()])):
            for number in by_name.pop(word, ()):
                if number not in needed:
                    needed.add(number)
                    todo.append(number)
    return needed


def provided(chunk: str, kind: str) -> list[str]:
    """The names that a declaration makes known; none for one that has to be kept in any case."""
    if kind == 'EnumDecl':
        return NAMES.findall(chunk)
    name = NAME.search(chunk)
    return [name.group(1)] if name else []


def is_root(chunk: str, kind: str) -> bool:
    """Whether a declaration defines something that other files may use."""
    if kind == 'FunctionDecl':
        return BODY.search(chunk) is not None and STORAGE.search(chunk) is None
    return kind == 'VarDecl' and (STORAGE.search(chunk) is None or '"init": "' in chunk and '"extern"' in chunk)


class Places:
    """The dump tells a file or a line only where it differs from the one told before, in the order of the text."""

    def __init__(self) -> None:
        self.file, self.line = '', 0

    def skip(self, chunk: str) -> None:
        """Follows file and line through a declaration that is not read."""
        for found in FILE.finditer(chunk):
            if found.group(1):
                self.file = json.loads(found.group(1))
        at = chunk.rfind('"line": ')
        if at >= 0:
            number = re.match(r'\d+', chunk[at + 8:])
            self.line = int(number.group()) if number else self.line

    def _bare(self, where: Node) -> Place:
        self.file = where.get('file', self.file)
        self.line = where.get('line', self.line)
        return Place(self.file, self.line, where.get('col', 0))

    def _location(self, where: Optional[Node]) -> Optional[Place]:
        if not where:
            return None
        if 'spellingLoc' in where or 'expansionLoc' in where:
            found = None
            for key, value in where.items():
                if key in ('spellingLoc', 'expansionLoc'):
                    place = self._bare(value)
                    found = place if key == 'expansionLoc' else found
            return found
        return self._bare(where) if 'offset' in where or 'col' in where else None

    def restore(self, node: Any) -> None:
        """Gives each node below its place, as `_place`; declarations also `_name_place`, the place of their name."""
        if isinstance(node, list):
            for part in node:
                if isinstance(part, (dict, list)):
                    self.restore(part)
            return
        at_name = begin = None
        for key, value in node.items():
            if key == 'loc':
                at_name = self._location(value)
            elif key == 'range':
                begin = self._location(value.get('begin'))
                self._location(value.get('end'))
            elif key != 'type' and isinstance(value, (dict, list)):
                self.restore(value)
        if at_name or begin:
            node['_name_place'] = at_name
            node['_place'] = (at_name if node.get('kind', '').endswith('Decl') else None) or begin
