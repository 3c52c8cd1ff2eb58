#!/usr/bin/env python3
"""Shows how far a run of the gate is: `rt ci 2>&1 | tools/progress.py`, or `rt ci aces 2>&1 | tools/progress.py` for the program alone.

Prints a line for each crate that is proved or kept, with how many of them are done and for how long the run has gone on, and a line
for each thing that is refused; the prover's log is left out. It ends with the gate's last line, and with status 0 where nothing failed.
"""

import os
import re
import sys
import time

TOP = os.path.join(os.path.dirname(os.path.abspath(__file__)), "..")
PROVED = re.compile(r"^(?:rt: )?(\w+) (proved|is kept)\b")
TESTS = re.compile(r"^(?:rt: )?(\w+): its tests (?:are )?(?:proved|NOT PROVED)")
FAILED = re.compile(r"NOT PROVED|NOT REFUSED|NOT TRIED|BAD EDIT|FAILED|^error")
LAST = re.compile(r"^\d+ passed, (\d+) failed")


def crates():
    """The names of the repository's crates."""
    with open(os.path.join(TOP, "crates.txt"), encoding="utf-8") as file:
        return {line.split(":")[0].strip() for line in file if ":" in line and not line.startswith("#")}


def main():
    """Reads the log to its end."""
    every, done, begin, failed = crates(), set(), time.time(), 1
    for line in sys.stdin:
        proved, last = PROVED.match(line), LAST.match(line)
        seconds = int(time.time() - begin)
        clock = f"{seconds // 60:3}:{seconds % 60:02}"
        if proved and proved[1] in every - done:
            done.add(proved[1])
            print(f"{clock}  {len(done):3} of {len(every)}  {proved[1]} {proved[2]}", flush=True)
        elif FAILED.search(line) or TESTS.match(line):
            print(f"{clock}  {line.rstrip()}", flush=True)
        elif last:
            failed = int(last[1])
            print(line.rstrip(), flush=True)
    return 1 if failed else 0


if __name__ == "__main__":
    sys.exit(main())
