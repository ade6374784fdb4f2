"""Writes SVG: elements one behind another, with every text and attribute escaped."""

from __future__ import annotations

import re
import unicodedata
from typing import List, Optional

# What XML does not allow or what would show a name other than it is: controls, halves of characters (bytes of a
# name that are not UTF-8), what turns the direction of writing, ends of lines, and what is no character.
UNSAFE = re.compile("[\x00-\x1f\x7f-\x9f\u061c\u200b-\u200f\u2028-\u202e\u2060-\u206f\ud800-\udfff\ufeff\ufffe\uffff]")
# How wide a character of a monospaced font is, in parts of the size of the font.
ADVANCE = 0.605


def safe(text: str) -> str:
    """The text with a visible character in place of each unsafe one: the picture of a control, or U+FFFD."""

    def visible(found: "re.Match[str]") -> str:
        code = ord(found[0])
        if code == 0x7F:
            return "\u2421"
        return chr(0x2400 + code) if code < 0x20 else "\ufffd"

    return UNSAFE.sub(visible, text)


def escaped(text: object) -> str:
    """A text as XML has it, also between quotes."""
    for plain, entity in (("&", "&amp;"), ("<", "&lt;"), (">", "&gt;"), ('"', "&quot;"), ("'", "&#39;")):
        text = str(text).replace(plain, entity)
    return safe(str(text))


def cells(text: str) -> int:
    """How many cells of a monospaced font a text takes: a wide character takes two, an accent none."""
    wide = sum(unicodedata.east_asian_width(it) in "WF" for it in text)
    return len(text) + wide - sum(bool(unicodedata.combining(it)) for it in text)


def width(text: str, size: int) -> float:
    """How wide a text is in pixels, in a font of this size."""
    return cells(text) * size * ADVANCE


def elided(text: str, size: int, room: float) -> str:
    """The text, without as much of its beginning as does not fit, with `…` in its place."""
    text = safe(text)
    if width(text, size) <= room:
        return text
    rest = text
    while rest and width(f"…{rest}", size) > room:
        rest = rest[1:]
    return f"…{rest}"


def number(value: float) -> str:
    """A coordinate, with at most one digit behind the point."""
    return f"{value:.1f}".rstrip("0").rstrip(".")


class Canvas:
    """Elements in the order in which they are drawn."""

    def __init__(self) -> None:
        self.lines: List[str] = []

    def add(self, name: str, text: Optional[str] = None, tip: Optional[str] = None, **attributes: object) -> None:
        """Adds an element with attributes, perhaps with a text, and with a tip that is shown at the pointer.

        `class_` is the attribute `class`; `_` in the name of another one is `-`.
        """
        words = {key.rstrip("_").replace("_", "-"): number(it) if isinstance(it, (int, float)) else it for key, it in attributes.items()}
        head = name + "".join(f' {key}="{escaped(value)}"' for key, value in words.items())
        body = (f"<title>{escaped(tip)}</title>" if tip else "") + escaped(text or "")
        self.lines.append(f"<{head}>{body}</{name}>" if body else f"<{head}/>")

    def text(self, x: float, y: float, text: str, class_: str, tip: Optional[str] = None) -> None:
        """Adds a text whose line begins at a point, or stands around it if its class says so."""
        self.add("text", text, tip, x=x, y=y, class_=class_)

    def rect(self, left: float, top: float, right: float, bottom: float, class_: str, **more: object) -> None:
        self.add("rect", x=left, y=top, width=right - left, height=bottom - top, class_=class_, **more)

    def path(self, d: str, class_: str, **more: object) -> None:
        self.add("path", d=d, class_=class_, **more)


def document(canvas: Canvas, wide: float, high: float, name: str, title: str, style: str) -> str:
    """The whole SVG of a canvas, whose root has a class NAME; the title is its text for those who do not see it."""
    size = f'width="{number(wide)}" height="{number(high)}" viewBox="0 0 {number(wide)} {number(high)}"'
    head = f'<svg xmlns="http://www.w3.org/2000/svg" class="{name}" {size} role="img" aria-label="{escaped(title)}">'
    return "\n".join([head, f"<title>{escaped(title)}</title>", f"<style>\n{style}</style>", *canvas.lines, "</svg>", ""])
