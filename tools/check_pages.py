#!/usr/bin/env python3
"""What the pages name and the repository has not: a line a finding, and nothing where all is there.

    tools/check_pages.py

It looks at README.md, docs/*.md and the README.md of each crate. A finding is

- a path, quoted or not, a page, a function or a type that a page names and that is not there. A path without its crate is looked for in the crates
  that the same paragraph or row of a table names, in the crate whose page it is, and in those of which the page names the folder `specs/`;
- a quoted name, or a quoted word by itself, that stands nowhere in the repository's code;
- a name that a page says to be of a crate or of a file of definitions, which does not define it; and one with which a row of a table on a crate's
  page begins, that stands nowhere in the crate;
- a file of definitions that its crate's page does not name;
- a crate that one of the lists of crates leaves out, that stands elsewhere on the map of docs/ARCHITECTURE.md than in crates.txt, that uses one
  which does not stand before it, or whose name does not begin with its layer;
- a number of cases that is not the one that the program of the cases prints, or a number of crates that is not that of crates.txt;
- a list of definitions in docs/TRUST.md, a figure of what the claim does not reach, or one of what a definition reaches, that is not what
  claim_reach.py computes.
"""

import glob
import os
import re
import sys
from collections.abc import Iterable, Iterator
from typing import NamedTuple

sys.dont_write_bytecode = True
import claim_reach  # noqa: E402

TOP = os.path.join(os.path.dirname(os.path.abspath(__file__)), "..")
FOLDERS = ("crates", "docs", "tools", "examples")
CRATE_FOLDERS = ("src", "specs", "proofs", "must-fail", "data")
CODE = (".rt", ".antt", ".edit", ".py", ".sh", ".c", ".h", ".ir", ".toml", ".cases", "/run")
WORDS = bytes(code if code < 128 and (chr(code).isalnum() or code == ord("_")) else ord(" ") for code in range(256))
QUOTED = re.compile(r"`([^`\n]+)`")
PART = re.compile(r"\n\s*\n|\n(?=\|)")
# Paths and pages, quoted or not; a build's folder `out` is none of the repository.
PATH = re.compile(r"(?<![\w./-])(?:crates|docs|tools|examples)/(?!aces/out/)[\w./-]*\w")
PAGE = re.compile(r"(?<![\w/])[A-Z]+\.md\b")
# Names that are looked for in all code: with an underscore or a capital inside, as no other words look like them; and a quoted word by itself.
NAME = re.compile(r"\b(?=\w*(?:_|[a-z][A-Z]))[A-Za-z]\w*|\A[A-Za-z]\w+\Z")
# Words that pages quote and that stand in no file here: tools of the field and boards, and names that no definition has.
OUTSIDE = {"netduino2", "vmstat", "Holds", "Says"}
# Whose names are said to be: `a`, `b` of `crate`; `a` (`crate`); `a` of `crate/File`, `a` (`crate/File`); (`crate/File`, `a`, `b`); (`crate`: `a`, `b`).
OWNERS = (
    re.compile(r"(?P<names>(?:`\w+`(?:,| and) )*`\w\w+`) of `(?P<crate>\w+)`"),
    re.compile(r"(?P<names>`\w\w+`) \(`(?P<crate>\w+)`\)"),
    re.compile(r"(?P<names>`\w\w+`) (?:of |\()`(?P<crate>\w+)/(?P<file>\w+)`(?!, `)"),
    re.compile(r"\(`(?P<crate>\w+)/(?P<file>\w+)`(?P<names>(?:, `\w+`)+)"),
    re.compile(r"(?:\(|[;,] )`(?P<crate>\w+)`: (?P<names>(?:`[\w:]+`(?:, )?)+)"),
)
# The first cell of a row that has names alone; and a name, with its path before it or what it takes behind it.
ROW = re.compile(r"^\| ((?:`[^`]+`(?:, | and |; )?)+) \|", re.M)
CALL = re.compile(r"(\w+(?:::\w+)*)(?:\(.*\))?")
FUNCTION = re.compile(r"([A-Za-z]\w*)::(?:\w+::)*(\w+)")
LISTED = re.compile(r"^(?:# (?P<layer>.+)|(?P<crate>\w+):(?P<used>.*))$", re.M)
MAPPED = re.compile(r"^  (?:([a-z]\w+)  |(.+\.)$)", re.M)
# How the names of crates begin, layer by layer, and the names that are of another form.
LAYERS = ("base_", "machine_", "ir_", "plan_model", "need_", "code_", "plan_", "monitor_", "refine_", "image_", "aces_", "test_", "example_")
WHOLE = {"needs": "need_", "plan": "plan_", "refine": "refine_", "aces": "aces_"}
DECLARED = re.compile(r"\b(?:fn|struct|enum|trait|const|mod|type) (\w+)")
DEFINED = re.compile(r"^ *(?:(?:abbrev|unfoldable|pub) )*(?:(?:data|record) (\w+)|(\w+) :)", re.M)
# Tables of layers with their crates, before and now; and all crates, in words.
LAYER_TABLE = re.compile(r"^\| layer \| crates.*\n(?:\|.*\n)+", re.M)
LAYER_ROW = re.compile(r"^\| `?(\w+)`? \| (?:\d+, )?(\d+) \|", re.M)
ALL_CRATES = re.compile(r"\b[Aa]ll (\d+) crates\b")
# How many lines a definition reaches: `name` N, `File.antt name`) has N.
REACHED = re.compile(r"`(?:([\w/]+\.antt) )?(\w+)`\)?(?: has)? ([\d,]+\d)")
CASES = re.compile(r"`(test_\w+)`(?:: |[^`.]* by )([\d,]+) cases|([\d,]+) cases that are data \(`(test_\w+)`\)")


class Crate(NamedTuple):
    """The files of a crate, without their endings; what its code declares, variants left out; the words of its code; what each .antt file defines;
    and the words of all its files and of their paths."""

    files: set[str]
    names: set[str]
    words: set[str]
    defined: dict[str, set[str]]
    all_words: set[bytes]


class Part(NamedTuple):
    """What a paragraph or a row of a table quotes, and the crates that it may speak of."""

    quoted: list[str]
    near: set[str]


def text_of(path: str) -> str:
    with open(path, encoding="utf-8") as file:
        return file.read()


def words_in(paths: Iterable[str]) -> set[bytes]:
    """The words of files and of their paths."""
    words: set[bytes] = set()
    for path in paths:
        words.update(path.encode().translate(WORDS).split())
        if path.endswith(CODE) and os.path.isfile(path):
            with open(path, "rb") as file:
                words.update(file.read().translate(WORDS).split())
    return words


def read_crate(name: str) -> Crate:
    files = [path for folder in CRATE_FOLDERS for path in glob.glob(f"{folder}/**", root_dir=f"crates/{name}", recursive=True)]
    code = "".join(text_of(f"crates/{name}/{path}") for path in files if path.startswith("src/") and path.endswith(".rt"))
    defined = {
        path.removesuffix(".antt"): {one or other for one, other in DEFINED.findall(text_of(f"crates/{name}/{path}"))}
        for path in files if path.endswith(".antt")
    }
    all_words = words_in(f"crates/{name}/{path}" for path in files)
    return Crate({os.path.splitext(path)[0] for path in files}, set(DECLARED.findall(code)), set(re.findall(r"\w+", code)), defined, all_words)


def parts(page: str, crates: dict[str, Crate]) -> Iterator[Part]:
    text = text_of(page)
    near = set(re.findall(r"`crates/(\w+)/specs/`", text)) | ({page.split("/")[1]} if page.startswith("crates/") else set())
    for part in PART.split(text):
        quoted = QUOTED.findall(part)
        yield Part(quoted, near | {re.split("[/:]", word.removeprefix("crates/"))[0] for word in quoted} & crates.keys())


def is_there(word: str, near: set[str], crates: dict[str, Crate]) -> bool:
    """Whether a word that is a path leads to something; `crate/Name` is a file of definitions. Other words are taken to do so."""
    first, _, rest = word.partition("/")
    stem = os.path.splitext(word)[0]
    if not re.fullmatch(r"[\w./-]*\w", word):
        return True
    if rest and first in FOLDERS:
        return os.path.exists(word)
    if rest and first in crates:
        return os.path.exists(f"crates/{word}") or f"specs/{rest}" in crates[first].files
    if rest and first in CRATE_FOLDERS:
        return any(stem in crates[name].files for name in near)
    if re.fullmatch(r"\w+\.(antt|rt)", word):
        return any(file.endswith(f"/{stem}") for name in near for file in crates[name].files)
    return True


def is_declared(word: str, near: set[str], crates: dict[str, Crate]) -> bool:
    """Whether a word that is a path to a function or a type, `crate::name`, `module::name` or `Type::name`, leads to one."""
    found = FUNCTION.fullmatch(word)
    if not found:
        return True
    first, name = found.groups()
    if first[0].isupper():
        return any(first in crate.names and name in crate.words for crate in crates.values())
    return any(name in crates[own].names for own in near if own == first or f"src/{first}" in crates[own].files)


def owners(page: str, crates: dict[str, Crate]) -> Iterator[str]:
    """Names that a page says to be of a crate, or of a file of definitions, and that are none of it."""
    text = " ".join(text_of(page).split())
    for found in (found for form in OWNERS for found in form.finditer(text) if found["crate"] in crates):
        crate, file = crates[found["crate"]], found.groupdict().get("file")
        stems = {path.split("/")[-1] for path in crate.files}
        here = crate.defined.get(f"specs/{file}", set()) | (stems if found["names"].startswith(",") else set())
        there = here if file else crate.names.union(stems, *crate.defined.values())
        names = re.findall(r"`(\w+)`", found["names"])
        yield from (f"{page}: {name} is not in {found['crate']}{f'/{file}' if file else ''}" for name in names if name not in there)


def rows(name: str, crate: Crate) -> Iterator[str]:
    """Names with which a row of a table on a crate's page begins, and that stand nowhere in the crate."""
    page = f"crates/{name}/README.md"
    calls = (CALL.fullmatch(word) for row in ROW.findall(text_of(page)) for word in QUOTED.findall(row))
    for path in (call[1] for call in calls if call):
        yield from (f"{page}: {path} is in no file of the crate" for part in path.split("::") if part.encode() not in crate.all_words)


def cases(page: str) -> Iterator[str]:
    """Numbers of cases that are not those which the program prints."""
    for found in CASES.finditer(" ".join(text_of(page).split())):
        crate, number = (found[1], found[2]) if found[1] else (found[4], found[3])
        stdout = f"crates/{crate}/stdout"
        if os.path.exists(stdout) and number.replace(",", "") not in re.findall(r"\d+", text_of(stdout)):
            yield f"{page}: {crate} has not {number} cases"


def crate_counts(page: str) -> Iterator[str]:
    """Numbers of crates, of all or of a layer, that are not those of crates.txt."""
    sections = re.split(r"^# .*", text_of("crates.txt"), flags=re.M)[2:]
    there = {layer: section.count(":") for layer, section in zip(LAYERS, sections)}
    there["all"] = sum(there.values())
    text = text_of(page)
    stated = [row for table in LAYER_TABLE.findall(text) for row in LAYER_ROW.findall(table)] + [("all", number) for number in ALL_CRATES.findall(text)]
    yield from (f"{page}: {layer} has {there[layer]} crates, and not {number}" for layer, number in stated if int(number) != there.get(layer, int(number)))


def claim() -> Iterator[str]:
    """Where TRUST differs from what the claim reaches: its list, how much is beyond it, and how much some of its definitions reach."""
    text = text_of("docs/TRUST.md")
    found = claim_reach.reached(claim_reach.CLAIM)
    others = claim_reach.beyond(found)
    figure = f"the {len(others)} files ({sum(others.values()):,} lines)"
    if "```\n" + "\n".join(claim_reach.table(found, False)) + "\n```\n" not in text:
        yield "docs/TRUST.md: its list is another one than that of tools/claim_reach.py"
    if figure not in " ".join(text.split()):
        yield f"docs/TRUST.md: beyond the claim are {figure}"
    for path, name, lines in REACHED.findall(" ".join(text.partition("How much that is")[2].partition("\n\n")[0].split())):
        roots = [path] if path else [file for file in found if name in found[file]]
        counts = [sum(claim_reach.line_counts(claim_reach.reached((root, name))).values()) for root in roots]
        if int(lines.replace(",", "")) not in counts:
            yield f"docs/TRUST.md: {name} reaches not {lines} lines, but {counts}"


def specs(name: str, crate: Crate) -> Iterator[str]:
    """Files of definitions that the crate's page does not name."""
    page = f"crates/{name}/README.md"
    named = {os.path.basename(word).removesuffix(".antt") for word in QUOTED.findall(text_of(page))}
    for file in sorted(crate.files):
        if re.search(r"^specs/.*\b[A-Z]\w*$", file) and not file.endswith("/Lib") and os.path.basename(file) not in named:
            yield f"{page}: {file}.antt is not named"


def lists(crates: dict[str, Crate]) -> Iterator[str]:
    """Crates that PROVED, ARCHITECTURE's map or crates.txt leaves out."""
    listed = {
        "docs/PROVED.md": set(QUOTED.findall(text_of("docs/PROVED.md"))),
        "docs/ARCHITECTURE.md": set(mapped()),
        "crates.txt": set(crates),
    }
    folders = {path.split("/")[1] for path in glob.glob("crates/*/")}
    for page, names in listed.items():
        yield from (f"{page}: {name} is not named" for name in sorted(folders.union(crates) - names))


def mapped() -> list[str]:
    """The layers and crates on ARCHITECTURE's map, in its order."""
    return [crate or layer for crate, layer in MAPPED.findall(text_of("docs/ARCHITECTURE.md").split("```")[1])]


def order() -> Iterator[str]:
    """Where the map first differs from crates.txt; crates that use one which does not stand before them, or are not named by their layer."""
    lines = list(LISTED.finditer(text_of("crates.txt")))[1:]
    entries = [line["layer"] or line["crate"] for line in lines]
    apart = [f"{there} stands where crates.txt has {entry}" for entry, there in zip(entries, mapped()) if entry != there]
    yield from (f"docs/ARCHITECTURE.md: {line}" for line in apart[:1])
    names = {line["crate"] for line in lines}
    before: set[str] = set()
    layers = iter(LAYERS)
    prefix = ""
    for line in lines:
        crate = line["crate"]
        if not crate:
            prefix = next(layers, "")
            continue
        if not crate.startswith(prefix or "?") and WHOLE.get(crate) != prefix:
            yield f"crates.txt: {crate} does not begin with {prefix}"
        yield from (f"crates.txt: {crate} uses {used}, which does not stand before it" for used in line["used"].split() if used in names - before)
        before.add(crate)


def unknown(page: str, crates: dict[str, Crate], words: set[bytes]) -> Iterator[str]:
    """Paths, pages, functions, types and other names that lead to nothing."""
    text = text_of(page)
    yield from (f"{page}: no file {path}" for path in PATH.findall(text) if not os.path.exists(path))
    yield from (f"{page}: no page {name}" for name in PAGE.findall(text) if not (name == "README.md" or os.path.exists(f"docs/{name}")))
    for part in parts(page, crates):
        yield from (f"{page}: no file {word}" for word in part.quoted if not is_there(word, part.near, crates))
        yield from (f"{page}: {word} is not declared" for word in part.quoted if not is_declared(word, part.near, crates))
        names = {name for word in part.quoted if not word.startswith("Rattle.") for name in NAME.findall(word)} - OUTSIDE
        yield from (f"{page}: {name} is in no code" for name in sorted(names) if name.encode() not in words)


def findings() -> Iterator[str]:
    crates = {name: read_crate(name) for name in claim_reach.crates_in_order()}
    others = (path for folder in ("tools", "examples", ".ci") for path in glob.glob(f"{folder}/**", recursive=True))
    words = words_in(others).union(*(crate.all_words for crate in crates.values()))
    own_pages = {name: f"crates/{name}/README.md" for name in crates}
    yield from (f"{page}: not there" for page in own_pages.values() if not os.path.exists(page))
    for page in filter(os.path.exists, ["README.md", *sorted(glob.glob("docs/*.md")), *own_pages.values()]):
        yield from unknown(page, crates, words)
        yield from owners(page, crates)
        yield from cases(page)
        yield from crate_counts(page)
    for name, page in own_pages.items():
        if os.path.exists(page):
            yield from specs(name, crates[name])
            yield from rows(name, crates[name])
    yield from lists(crates)
    yield from order()
    yield from claim()


def main() -> int:
    os.chdir(TOP)
    found = list(findings())
    print("".join(f"{line}\n" for line in found), end="")
    return 1 if found else 0


sys.exit(main())
