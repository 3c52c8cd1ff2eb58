#!/usr/bin/env python3
"""What each crate costs the merge gate, in processor time.

    tools/gate_cost.py record FILE &    # samples the prover's processes once a second, until it is ended
    rt ci
    kill %1
    tools/gate_cost.py table FILE       # a table: each crate's own proof, and its must-fail edits
    tools/gate_cost.py chain FILE       # the chain of crates, each standing on the one before it, whose proofs take longest
    tools/gate_cost.py paths            # the ways from each crate down to all below it, which some kits go one by one
    tools/gate_cost.py functions CRATE  # seconds by function, dearest first, of `rt check --jobs 1` in its folder with nothing kept in out/

It counts the processes that run in this checkout, and those that try edits, whose folders do not tell of which checkout they are. A kit that
keeps what it proved has to be told to begin from nothing.
"""

import collections
import collections.abc
import itertools
import json
import os
import re
import sys
import time

TICKS = os.sysconf("SC_CLK_TCK")


def prover(pid):
    """The crate, the folder and the processor seconds of a process of the prover; None where it is another."""
    with open(f"/proc/{pid}/cmdline", "rb") as file:
        words = [word.decode(errors="replace") for word in file.read().split(b"\0")]
    if os.path.basename(words[0]) != "rattle" or "--crate-name" not in words:
        return None
    with open(f"/proc/{pid}/stat", encoding="utf-8", errors="replace") as file:
        fields = file.read().rsplit(")", 1)[1].split()
    seconds = (int(fields[11]) + int(fields[12])) / TICKS
    crate = words[words.index("--crate-name") + 1]
    return f"{pid}:{fields[19]}", (crate, os.readlink(f"/proc/{pid}/cwd"), seconds)


def record(path):
    """Writes what was seen of each process of the prover, again and again."""
    seen, here = {}, os.path.realpath(os.path.join(os.path.dirname(os.path.abspath(__file__)), ".."))
    while True:
        for pid in filter(str.isdigit, os.listdir("/proc")):
            try:
                found = prover(pid)
            except OSError:
                continue
            if found and (found[1][1].startswith(here + "/") or "/rt-edit-" in found[1][1]):
                seen[found[0]] = found[1]
        with open(path + ".new", "w", encoding="utf-8") as file:
            json.dump(list(seen.values()), file)
        os.replace(path + ".new", path)
        time.sleep(1)


def minutes_by_crate(path):
    """Processor minutes of proofs and of edits: the gate tries edits in folders of their own, and proves in the checkout."""
    minutes = collections.defaultdict(lambda: [0.0, 0.0])
    with open(path, encoding="utf-8") as file:
        for crate, folder, seconds in json.load(file):
            minutes[crate]["/rt-edit-" in folder] += seconds / 60
    return minutes


def table(path):
    """Prints processor minutes by crate."""
    minutes = minutes_by_crate(path)
    print("| crate | its proof | its edits |\n|---|---|---|")
    for crate, (proof, edits) in sorted(minutes.items(), key=lambda item: -sum(item[1])):
        print(f"| `{crate}` | {proof:.1f} | {edits:.1f} |")
    total = [sum(column) for column in zip(*minutes.values())]
    print(f"| all | {total[0]:.1f} | {total[1]:.1f} |")


def uses_by_crate():
    """The crates that each crate uses, by crates.txt in the folder above this one."""
    with open(os.path.join(os.path.dirname(__file__), "..", "crates.txt"), encoding="utf-8") as file:
        rows = [line.split(":") for line in file if line.strip() and not line.startswith("#")]
    return {name.strip(): uses.split() for name, uses in rows}


def paths():
    """Prints for each crate how many ways lead from it down to a crate, itself among them, most first."""
    below, ways = uses_by_crate(), {}

    def from_crate(crate):
        if crate not in ways:
            ways[crate] = 1 + sum(from_crate(use) for use in below[crate] if use in below)
        return ways[crate]

    for crate in sorted(below, key=from_crate, reverse=True):
        print(f"{ways[crate]:9} {crate}")
    print(f"{sum(ways.values()):9} all")


def chain(path):
    """Prints the longest chain of crates and its processor minutes, by crates.txt in the folder above this one."""
    minutes, below, longest = minutes_by_crate(path), uses_by_crate(), {}

    def ending_at(crate):
        if crate not in longest:
            best = max((ending_at(use) for use in below[crate] if use in below), default=(0.0, []))
            longest[crate] = (best[0] + minutes[crate][0], best[1] + [crate])
        return longest[crate]

    total, crates = max(ending_at(crate) for crate in below)
    print(f"{total:.1f}: {' '.join(crates)}")


def functions(crate):
    """Prints the seconds between the times at which a check wrote its files, by the function that they are of; what is of none by the file."""
    folder = os.path.join(os.path.dirname(__file__), "..", "crates", crate, "out", "incremental")
    names = [(os.stat(os.path.join(at, name)).st_mtime, name) for at, _, files in os.walk(folder) for name in files]
    seconds: collections.Counter[str] = collections.Counter()
    for (before, _), (written, name) in itertools.pairwise(sorted(names)):
        part = re.fullmatch(r"Rattle-\w+-proofs\.(.+)\.[A-Z][\w+-]*?(\.decls)?\.oantt", name)
        seconds[part[1] if part else name] += written - before
    for name, spent in seconds.most_common():
        print(f"{spent:8.1f} {name}")


COMMANDS: dict[str, collections.abc.Callable[..., None]] = {
    "record": record,
    "table": table,
    "chain": chain,
    "paths": paths,
    "functions": functions,
}

if __name__ == "__main__":
    COMMANDS[sys.argv[1]](*sys.argv[2:])
