#!/usr/bin/env python3
"""Compares what a map of tools/map.py has hatched with the numbers of a listing.

    hatched.py SVG LISTING

For each compartment, the bytes of globals that it may write without need are those of its line `exposed`, those that it may read without need those behind
`read`, and those of undeclared addresses those of its lines `undeclared`. Prints a line with the sums over all compartments. Status 1 where something differs.
"""
from __future__ import annotations

import re
import sys
from collections import Counter
from xml.etree import ElementTree

KINDS = ('global', 'read', 'undeclared')


def hatched(svg: str) -> Counter[tuple[int, str]]:
    """The bytes of each compartment and kind that the picture has hatched."""
    found: Counter[tuple[int, str]] = Counter()
    for box in ElementTree.parse(svg).iter('{http://www.w3.org/2000/svg}rect'):
        for kind in KINDS:
            if f'data-{kind}' in box.attrib:
                found[int(box.attrib['data-compartment']), kind] += int(box.attrib[f'data-{kind}'])
    return found


def listed(listing: str) -> Counter[tuple[int, str]]:
    """Those that the listing tells."""
    found: Counter[tuple[int, str]] = Counter()
    with open(listing, encoding='utf-8') as file:
        for part in file.read().split('\ncompartment ')[1:]:
            number = int(part.split()[0])
            for kind, pattern in zip(KINDS, (r'^exposed (\d+)', r'^exposed \d+ read (\d+)', r'^undeclared 0x[0-9a-f]+ (\d+)')):
                found[number, kind] = sum(map(int, re.findall(pattern, part, re.M)))
    return found


def main(words: list[str]) -> int:
    """The command; its status."""
    drawn, told = hatched(words[0]), listed(words[1])
    print(' '.join(f'{kind}={sum(size for (_, one), size in told.items() if one == kind)}' for kind in KINDS))
    differing = sorted(key for key in drawn | told if drawn[key] != told[key])
    for number, kind in differing:
        print(f'compartment {number}, {kind}: {drawn[number, kind]} bytes are hatched, and the listing has {told[number, kind]}')
    return 1 if differing else 0


if __name__ == '__main__':
    sys.exit(main(sys.argv[1:]))
