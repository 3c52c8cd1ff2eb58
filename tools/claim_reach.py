#!/usr/bin/env python3
"""What there is to read behind the claim of the program's one call: the definitions that its clauses reach.

    tools/claim_reach.py files     # each crate's files, in the order of crates.txt, with the lines reached, comments not counted
    tools/claim_reach.py names     # the same, with the names of the definitions
    tools/claim_reach.py beyond    # the files of definitions of which the claim reaches nothing
    tools/claim_reach.py mark      # has the first line of each of these files say so, and of no other
    tools/claim_reach.py files aces_compiler/specs/Compiled.antt IsImageFor      # what one definition reaches
    tools/claim_reach.py files aces_compiler/specs/Compiled.antt IsImageFor linked      # and what it reaches without some of its fields

A definition reaches those whose names stand in it, in its own file or by its file's imports. A variable that has the name of
a definition counts as that, so a little too much may be listed, and nothing too little. What the kit defines is not listed.
"""

import functools
import glob
import os
import re
import sys
import textwrap
from collections.abc import Iterator

CRATES = os.path.join(os.path.dirname(os.path.abspath(__file__)), "..", "crates")
CLAIM = "aces_cli/src/lib.rt", "aces"
BEYOND = "-- Beyond the program's claim: only laws, proofs and functions inside the tool cite this file.\n"
GHOST_USE = re.compile(r"^(?:ghost )?use Rattle\.(\w+)\.specs\.(declared\.)?([\w.]+?)(?:\.\{([^}]*)\}| as (\w+));?$", re.M)
RUST_USE = re.compile(r"^(?:pub )?use (\w+)::([^;]*);", re.M)
RUST_BLOCK = re.compile(r"^pub (?:struct|enum|trait) (\w+)(?:[^;{]*;|.*?^\})|^pub fn (aces)\b.*?^(?=\{)|^pub const (\w+):.*?;$", re.M | re.S)
HEAD = r"^ *(?:(?:abbrev|unfoldable) pub|infixr \d|pub record|pub (?=data)|(?:abbrev )?(?=mutual|module))\b"
BLOCK = re.compile(HEAD + r" ?(\S+)(?: (\S+))?")
INNER_NAME = re.compile(r"^ +(?:pub )?(?:data |record )?(\S+) :")


class Block:
    """A definition: its lines, the names of its variants, and the module around it, if it stands in one."""

    def __init__(self, lines: list[str], around: "Block | None" = None) -> None:
        self.lines, self.around = lines, around
        self.variants: set[str] = set()

    def words(self) -> list[list[str]]:
        """The words that stand in it and in the modules around it, each with the word behind its dot."""
        words = [(word.split(".") + [""])[:2] for word in re.findall(r"[^\s(){};,:\[\]<>&|]+", " ".join(self.lines))]
        return [pair for pair in words if pair[0] not in self.variants] + (self.around.words() if self.around else [])


# The definitions that are reached: by file, those of each by their names.
Found = dict[str, dict[str, Block]]


@functools.cache
def text_of(path: str) -> str:
    """A file without comments, attributes and blank lines."""
    with open(os.path.join(CRATES, path), encoding="utf-8") as file:
        lines = [re.sub(r"(--|//| *#!?\[).*", "", line).rstrip() for line in file]
    return "\n".join(filter(None, lines)) + "\n"


@functools.cache
def blocks(path: str) -> dict[str, Block]:
    """The definitions of a file by their names, and by those of their variants. Modules, which have no name, are left out."""
    if path.endswith(".rt"):
        return {match[1] or match[2] or match[3]: Block(match[0].splitlines()) for match in RUST_BLOCK.finditer(text_of(path))}
    found: dict[str, Block] = {}
    modules: list[tuple[int, Block]] = []
    block: Block | None = None
    many: int | None = None
    for line in text_of(path).splitlines():
        head, depth = BLOCK.match(line), len(line) - len(line.lstrip())
        if head and (many is None or depth <= many):
            modules = [module for module in modules if module[0] < depth]
            block = Block([line], modules[-1][1] if modules else None)
            many = depth if head[1] in ("data", "mutual") else None
            if head[1] == "module":
                modules.append((depth, block))
            elif head[1] != "mutual":
                found[head[2] if head[1] == "data" else head[1].replace("◌", "")] = block
        elif block and not line.startswith("use "):
            block.lines.append(line)
            for name in INNER_NAME.findall(line) if many is not None else []:
                found.setdefault(name, block)
                block.variants.add(name)
    return found


@functools.cache
def types(crate: str) -> dict[str, str]:
    """The file of each type and trait of a crate's Rust code."""
    paths = glob.glob(f"{crate}/src/**/*.rt", root_dir=CRATES, recursive=True)
    return {name: path for path in sorted(paths) for name in blocks(path)}


@functools.cache
def imports(path: str) -> dict[str, tuple[str, str | None]]:
    """The place of each imported name: a file and a name in it, or no name where that is the word behind the dot."""
    found: dict[str, tuple[str, str | None]] = {}
    for crate, declared, module, names, alias in GHOST_USE.findall(text_of(path)):
        kind = re.sub(r"\.(TheVariants|TheOpen)$", "", module).split(".")[-1] if declared else None
        file = types(crate).get(kind) if kind else f"{crate}/specs/{module}.antt"
        if kind == "TheConstants":
            kind, file = None, f"{crate}/src/{module.removesuffix('TheConstants').replace('.', '/').rstrip('/') or 'lib'}.rt"
        if file and os.path.exists(os.path.join(CRATES, file)):
            for name, _, other in [word.partition(" as ") for word in names.split(", ")] if names else [("", "", alias)]:
                found[(other or name).replace("◌", "")] = file, kind or name.replace("◌", "")
    for crate, names in RUST_USE.findall(text_of(path)) if path.endswith(".rt") else []:
        known = types(path.split("/")[0] if crate == "crate" else crate)
        found.update({name: (known[name], name) for name in re.findall(r"\w+", names) if name in known})
    return found


def reached(root: tuple[str, str]) -> Found:
    """The definitions that one reaches: by file, those of each by their names, in the order of the file."""
    seen: dict[str, set[str]] = {}
    todo = [root]
    while todo:
        path, name = todo.pop()
        if name in blocks(path) and name not in seen.setdefault(path, set()):
            seen[path].add(name)
            for word, behind in blocks(path)[name].words():
                file, other = imports(path).get(word, (path, word))
                todo.append((file, other or behind))
    return {path: {name: block for name, block in blocks(path).items() if name in seen[path]} for path in seen if seen[path]}


def leave_out(block: Block, fields: tuple[str, ...]) -> None:
    """Takes fields from a record, each with the lines by which it goes on."""
    kept: list[str] = []
    leaves = False
    for line in block.lines:
        field = re.match(r"  pub (\w+) :", line)
        leaves = field[1] in fields if field else leaves and line.startswith("    ")
        kept += [] if leaves else [line]
    block.lines = kept


def crates_in_order() -> list[str]:
    """The names of the crates, in the order of crates.txt, where each stands behind those that it uses."""
    with open(os.path.join(CRATES, "..", "crates.txt"), encoding="utf-8") as file:
        return re.findall(r"^(\w+):", file.read(), re.M)


def line_counts(found: Found) -> dict[str, int]:
    """How many lines the definitions of each file have."""
    return {path: sum(len(block.lines) for block in set(named.values())) for path, named in found.items()}


def table(found: Found, with_names: bool) -> Iterator[str]:
    """The lines of a list: the files of each crate, definitions first and Rust types last, with how many lines they have."""
    count = line_counts(found)
    for crate in crates_in_order():
        paths = sorted((path for path in found if path.startswith(crate + "/")), key=lambda path: (path.endswith(".rt"), path))
        names = {path: f" ({', '.join(found[path])})" if with_names else "" for path in paths}
        shown = ", ".join(f"{path.split('/', 2)[2].removesuffix('.antt')} {count[path]}{names[path]}" for path in paths)
        if paths:
            yield textwrap.fill(f"{crate} {sum(count[path] for path in paths)}: {shown}", 130, subsequent_indent="    ")
    rust = sum(count[path] for path in found if path.endswith(".rt"))
    yield f"all {sum(count.values())}: {sum(count.values()) - rust} of definitions, {rust} of Rust types, traits, constants and the call itself"


def beyond(found: Found) -> dict[str, int]:
    """The files of definitions of which nothing is reached, with their lines."""
    others = {path: blocks(path) for path in sorted(glob.glob("*/specs/*.antt", root_dir=CRATES)) if path not in found}
    return {path: count for path, count in line_counts(others).items() if count}


def mark(found: Found) -> None:
    """Writes the first line of each file of definitions of which nothing is reached, and takes it from every other."""
    others = beyond(found)
    for path in glob.glob("*/specs/*.antt", root_dir=CRATES):
        with open(os.path.join(CRATES, path), encoding="utf-8") as file:
            text = file.read()
        marked = BEYOND * (path in others) + text.removeprefix(BEYOND)
        if marked != text:
            with open(os.path.join(CRATES, path), "w", encoding="utf-8") as file:
                file.write(marked)


def main(mode: str = "files", path: str = CLAIM[0], name: str = CLAIM[1], *fields: str) -> None:
    """Prints what is asked for."""
    leave_out(blocks(path)[name], fields)
    found = reached((path, name))
    if mode == "beyond":
        print("\n".join(f"{path} {count}" for path, count in beyond(found).items()))
    elif mode == "mark":
        mark(found)
    else:
        print("\n".join(table(found, mode == "names")))


if __name__ == "__main__":
    main(*sys.argv[1:])
