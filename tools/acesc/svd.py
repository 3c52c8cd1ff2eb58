"""Peripherals from a vendor's SVD file (CMSIS System View Description)."""
from __future__ import annotations

import re
import xml.etree.ElementTree as xml
from typing import Iterator, Optional

from .common import RESERVED, UsageFault
from .peripherals import HIGHEST, LOWEST, Peripheral

SMALLEST, LARGEST = 32, 65536


def read_svd(path: str) -> list[Peripheral]:
    """The peripherals of a file, each with the smallest window that holds its registers."""
    try:
        root = xml.parse(path).getroot()
    except OSError as fault:
        raise UsageFault(f'cannot read {path}') from fault
    except xml.ParseError as fault:
        raise UsageFault(f'{path}:{fault.position[0]}: no XML: {fault}') from fault
    elements = root.findall('./peripherals/peripheral')
    if not elements:
        raise UsageFault(f'{path}: no peripherals')
    by_name = {text(element, 'name'): element for element in elements}
    found: list[Peripheral] = []
    for element in elements:
        for name, base in instances(path, element):
            low, high = extent(path, element, by_name)
            window = smallest_window(name, base + low, base + high)
            if window is not None:
                found.append(window)
    return sorted(found, key=lambda p: (p.base, p.size, p.name))


def text(element: xml.Element, name: str) -> str:
    """The text of an element's child; nothing where there is none."""
    return (element.findtext(name) or '').strip()


def number(path: str, element: xml.Element, name: str, default: Optional[int] = None) -> int:
    """A number of SVD: decimal, 0x.., or #.. in binary."""
    told = text(element, name)
    if not told and default is not None:
        return default
    try:
        if told.startswith('#') or told.lower().startswith('0b'):
            return int(told.lstrip('#').lower().removeprefix('0b').replace('x', '0'), 2)
        return int(told, 16) if told.lower().startswith('0x') else int(told)
    except ValueError as fault:
        raise UsageFault(f'{path}: {text(element, "name") or element.tag}: {name} "{told}" is no number') from fault


def instances(path: str, element: xml.Element) -> Iterator[tuple[str, int]]:
    """Names and first addresses; an array of peripherals has several."""
    name, base = text(element, 'name'), number(path, element, 'baseAddress')
    if not text(element, 'dim'):
        yield plain_name(name), base
        return
    count, step = number(path, element, 'dim'), number(path, element, 'dimIncrement')
    for place, index in enumerate(indices(text(element, 'dimIndex'), count)):
        yield plain_name(name.replace('[%s]', index).replace('%s', index)), base + place * step


def indices(told: str, count: int) -> list[str]:
    """What stands for %s in the names of an array: `A,B,C`, `1-3`, or numbers from 0."""
    span = re.fullmatch(r'(\d+)-(\d+)', told)
    if span:
        return [str(k) for k in range(int(span.group(1)), int(span.group(2)) + 1)][:count]
    return [w.strip() for w in told.split(',')][:count] if told else [str(k) for k in range(count)]


def plain_name(name: str) -> str:
    """A name of the language."""
    name = re.sub(r'[^A-Za-z0-9_.]', '_', name)[:64]
    return name + '_' if name in RESERVED else name


def extent(path: str, element: xml.Element, by_name: dict[str, xml.Element]) -> tuple[int, int]:
    """The offsets between which the registers lie, by the address blocks of the element, or of the one that it is derived from."""
    seen: set[str] = set()
    while not element.findall('addressBlock'):
        parent = element.get('derivedFrom', '')
        if parent not in by_name or parent in seen:
            raise UsageFault(f'{path}: {text(element, "name")}: no addressBlock')
        seen.add(parent)
        element = by_name[parent]
    blocks = [(number(path, b, 'offset', 0), number(path, b, 'size')) for b in element.findall('addressBlock')
              if text(b, 'usage') in ('', 'registers')] or [(0, SMALLEST)]
    return min(o for o, _ in blocks), max(o + s for o, s in blocks)


def smallest_window(name: str, begin: int, end: int) -> Optional[Peripheral]:
    """The smallest window with these addresses; nothing where there is none, as for what belongs to the processor."""
    size = SMALLEST
    while begin // size * size + size < end:
        size *= 2
    base = begin // size * size
    if size > LARGEST or base < LOWEST or base + size > HIGHEST:
        return None
    return Peripheral(name, base, size)
