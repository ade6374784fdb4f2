"""How a picture looks: its sizes in pixels, and its colors, light and dark."""

from __future__ import annotations

NAME = "vmebus-picture"
MARGIN = 16
# The column of the names, and that of an edge, which is wider if there are few.
LABELS = 92
COLUMN, WIDEST_COLUMN = 22, 34
# A wire's row, and how far its levels are above and below the middle.
ROW = 30
SWING = 8
# How far the slope of an edge reaches to both sides.
SLOPE = 3
# The space between the wires of two drivers.
GAP = 8
# A row of bands, and the bands in it.
LANE = 27
BAND = 20
VERDICTS = 32
LEAST_WIDTH = 600

TITLE, TEXT, SMALL, TINY = 14, 12, 11, 9
LINE = 17

LIGHT = {
    "paper": "#ffffff", "ink": "#1f2328", "muted": "#57606a", "grid": "#eaeef2", "rule": "#c4ccd4",
    "red": "#b3261e", "red-wash": "#fdeceb", "green": "#176f3a", "green-wash": "#dcf3e3",
    "blue": "#2565ae", "blue-wash": "#deebfa", "blue-tint": "#f2f7fd", "violet": "#6b46b8", "violet-wash": "#eae3f9",
    "amber": "#a85400", "amber-wash": "#fcebd2",
}
DARK = {
    "paper": "#0d1117", "ink": "#e6edf3", "muted": "#9da7b3", "grid": "#1b222b", "rule": "#3d4650",
    "red": "#ff8079", "red-wash": "#32161a", "green": "#62d08c", "green-wash": "#10331f",
    "blue": "#74b3ff", "blue-wash": "#15345a", "blue-tint": "#101c2b", "violet": "#bd9ff7", "violet-wash": "#2d2150",
    "amber": "#f2ab50", "amber-wash": "#432c0b",
}
# The classes: what is painted of each, in which color.
PAINT = {
    "paper": ("fill", "paper"), "grid": ("stroke", "grid"), "rule": ("stroke", "rule"), "ink": ("fill", "ink"),
    "muted": ("fill", "muted"), "dot": ("fill", "muted"), "red": ("fill", "red"), "green": ("fill", "green"),
    "wave": ("stroke", "ink"), "unknown": ("stroke", "muted"), "refused": ("stroke", "red"), "column": ("fill", "red-wash"),
    "held": ("fill", "blue-tint"), "arrow": ("stroke", "amber"), "head": ("fill", "amber"),
    "grant": ("fill", "amber-wash"), "tenure": ("fill", "blue-wash"),
    "access": ("fill", "green-wash"), "acknowledge": ("fill", "violet-wash"),
    "grant-line": ("stroke", "amber"), "tenure-line": ("stroke", "blue"),
    "access-line": ("stroke", "green"), "acknowledge-line": ("stroke", "violet"),
}
FIXED = f"""text {{ font: {TEXT}px ui-monospace, SFMono-Regular, Menlo, Consolas, 'DejaVu Sans Mono', monospace; }}
.title {{ font-size: {TITLE}px; font-weight: bold; }}
.small {{ font-size: {SMALL}px; }}
.tiny {{ font-size: {TINY}px; }}
.strong {{ font-weight: bold; }}
.middle {{ text-anchor: middle; }}
.end {{ text-anchor: end; }}
.grid, .rule {{ stroke-width: 1; shape-rendering: crispEdges; }}
.wave {{ fill: none; stroke-width: 1.6; stroke-linejoin: round; }}
.unknown {{ fill: none; stroke-width: 1; stroke-dasharray: 2 3; }}
.refused {{ fill: none; stroke-width: 2; stroke-linecap: round; }}
.tried {{ stroke-width: 1.4; stroke-dasharray: 2 3; }}
.held, .column {{ shape-rendering: crispEdges; }}
.arrow {{ fill: none; stroke-width: 1.4; }}
.line {{ fill: none; stroke-width: 1.4; }}"""


def painted(colors: dict) -> str:
    """The rules of all classes in some colors."""
    return "".join(f".{NAME} .{name} {{ {how}: {colors[color]}; }}\n" for name, (how, color) in PAINT.items())


def style() -> str:
    """The style sheet: what does not depend on the colors, the light ones, and on a screen the dark ones for those who prefer them."""
    fixed = "".join(f".{NAME} {line.replace(', .', f', .{NAME} .')}\n" for line in FIXED.splitlines())
    return f"{fixed}{painted(LIGHT)}@media screen and (prefers-color-scheme: dark) {{\n{painted(DARK)}}}\n"
