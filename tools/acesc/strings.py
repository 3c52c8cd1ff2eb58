"""Bytes of a string literal as clang's dump writes it: a C literal with prefix and quotes."""
from __future__ import annotations

ESCAPES = {'n': 10, 't': 9, 'r': 13, '0': 0, 'a': 7, 'b': 8, 'f': 12, 'v': 11, '\\': 92, '"': 34, "'": 39, '?': 63, 'e': 27}
WIDTHS = {'L': 4, 'u': 2, 'U': 4}


def literal_bytes(literal: str) -> bytes:
    """The units of a literal, each in its width, without the null at the end."""
    width = 1 if literal.startswith('u8') else WIDTHS.get(literal[0], 1)
    text = literal[literal.index('"') + 1:literal.rindex('"')]
    units: list[int] = []
    at = 0
    while at < len(text):
        found, at = one_unit(text, at, width)
        units += found
    return b''.join((v & ((1 << 8 * width) - 1)).to_bytes(width, 'little') for v in units)


def one_unit(text: str, at: int, width: int) -> tuple[list[int], int]:
    """The units that the letter or escape at `at` stands for, and where the next one begins."""
    letter = text[at]
    if letter == '"':
        return [], at + 1
    if letter != '\\':
        return encoded(letter, width), at + 1
    letter = text[at + 1]
    if letter == 'x':
        end = run_end(text, at + 2, '0123456789abcdefABCDEF', len(text))
        return [int(text[at + 2:end], 16)], end
    if letter in '01234567':
        end = run_end(text, at + 1, '01234567', 3)
        return [int(text[at + 1:end], 8)], end
    if letter in 'uU':
        end = at + 2 + (4 if letter == 'u' else 8)
        return encoded(chr(int(text[at + 2:end], 16)), width), end
    return [ESCAPES[letter]], at + 2


def encoded(letter: str, width: int) -> list[int]:
    """A letter in units of a width."""
    return list(letter.encode()) if width == 1 else [ord(letter)]


def run_end(text: str, at: int, letters: str, most: int) -> int:
    """The end of at most `most` of these letters from `at` on."""
    end = at
    while end < len(text) and end < at + most and text[end] in letters:
        end += 1
    return end
