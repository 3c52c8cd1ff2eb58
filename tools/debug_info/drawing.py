"""An SVG drawing: boxes, texts, and hatching."""
from __future__ import annotations

from html import escape

FONT = 'DejaVu Sans, Verdana, Helvetica, sans-serif'
HATCH = ('<defs><pattern id="hatch" width="7" height="7" patternUnits="userSpaceOnUse" patternTransform="rotate(45)">'
         '<rect width="7" height="7" fill="#fff" fill-opacity="0.35"/>'
         '<line x1="0" y1="0" x2="0" y2="7" stroke="#c0392b" stroke-width="3"/></pattern></defs>')


class Drawing:
    """What was drawn so far."""

    def __init__(self) -> None:
        self.parts: list[str] = []

    def box(self, x: float, y: float, width: float, height: float, fill: str, stroke: str = '#e3e3e3', tip: str = '', more: str = '') -> None:
        """A box, with what is shown when one points at it."""
        title = f'<title>{escape(tip)}</title>' if tip else ''
        self.parts.append(f'<rect x="{x:g}" y="{y:g}" width="{width:g}" height="{height:g}" fill="{fill}" stroke="{stroke}"{more}>{title}</rect>')

    def text(self, x: float, y: float, text: str, size: float = 12, anchor: str = 'start', fill: str = '#222', bold: bool = False, halo: bool = False) -> None:
        """A line of text; with `halo` it is read above hatching too."""
        weight = ' font-weight="bold"' if bold else ''
        around = ' stroke="#fff" stroke-width="3" paint-order="stroke" stroke-opacity="0.85"' if halo else ''
        self.parts.append(f'<text x="{x:g}" y="{y:g}" font-size="{size:g}" text-anchor="{anchor}" fill="{fill}"{weight}{around}>{escape(text)}</text>')

    def bracket(self, x: float, y: float, height: float) -> None:
        """A bracket that is open to the right."""
        self.parts.append(f'<path d="M {x + 5:g} {y:g} h -5 v {height:g} h 5" fill="none" stroke="#999"/>')

    def svg(self, width: float, height: float) -> str:
        """The file's text."""
        head = f'<svg xmlns="http://www.w3.org/2000/svg" width="{width:g}" height="{height:g}" viewBox="0 0 {width:g} {height:g}" font-family="{FONT}">'
        return f'{head}{HATCH}\n<rect width="{width:g}" height="{height:g}" fill="#fff"/>\n' + '\n'.join(self.parts) + '\n</svg>\n'
