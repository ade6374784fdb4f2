"""Draws a timing picture of what `vmebus` said about a stretch of a trace."""

from __future__ import annotations

import textwrap
from dataclasses import dataclass
from typing import Dict, Iterator, List, Optional, Sequence, Tuple

from . import reading
from .reading import Band, Failing, Refusal, Row, Shown
from .style import BAND, COLUMN, GAP, LABELS, LANE, LEAST_WIDTH, LINE, MARGIN, NAME, ROW, SLOPE, SMALL, SWING, TEXT, TITLE, VERDICTS, WIDEST_COLUMN, style
from .svg import ADVANCE, Canvas, document, elided, number, safe, width

CYCLE = "cycle"
LANES = (*reading.STATES[:-1], CYCLE, reading.STATES[-1])
# How many lines of readings a condition has at most.
READINGS = 3


@dataclass(frozen=True)
class Story:
    """What a picture shows: the names of its files, the rows of `show`, and what `cycles` and `explain` said of them.

    `explained` has the conditions that fail of a refused edge by its number; of some edges they may be missing.
    """

    scenario: str
    trace: str
    shown: Shown
    bands: Tuple[Band, ...]
    refusals: Tuple[Refusal, ...]
    explained: Dict[int, List[Failing]]
    rows: Optional[Tuple[str, ...]] = None


def picture(story: Story) -> str:
    """The picture as SVG."""
    return Drawing(story).drawn()


def names_of(shown: Shown) -> List[str]:
    """The names of all rows that a picture can have, in their order."""
    return [*(row.name for row in shown.wires), *LANES]


def place_of_line(mark: str, middle: float) -> float:
    """The height of a wire's level behind a column with this character."""
    return middle + (SWING if mark in "_\\" else -SWING)


def level_before(marks: str, refusal: Optional[Refusal]) -> Optional[str]:
    """The level of a wire before its first column, `-` or `_`; None if nothing says it.

    A refused edge tells it: E2 says that the wire was there already, and every later refusal that it was not.
    """
    first = marks.lstrip("x")[:1]
    if first:
        return {"\\": "-", "/": "_"}.get(first, first)
    if refusal is None or refusal.verdict == "E1":
        return None
    return "_" if refusal.is_fall == (refusal.verdict == "E2") else "-"


def fitting(texts: Sequence[str], size: int, room: float) -> str:
    """The first of some texts that fits, or none."""
    return next((text for text in texts if width(text, size) <= room), "")


def texts_of_band(band: Band) -> Tuple[str, ...]:
    """What may be written into a band, the longest text first."""
    words = band.about.split()
    if band.kind == "tenure":
        cycles = f"{words[3]} cycle{'' if words[3] == '1' else 's'}"
        return f"slot {band.slot}, asked at {words[1]}, {cycles}", f"slot {band.slot}, {cycles}", f"slot {band.slot}", band.slot
    if "bus error" in band.about:
        return f"{band.kind} {words[0]}: bus error", "bus error", "berr"
    if band.kind == "access":
        answer = f", answered at {words[3]}" if len(words) > 3 else ""
        return f"access to slot {words[0]}{answer}", f"access to slot {words[0]}", f"to slot {words[0]}", f"to {words[0]}"
    if len(words) > 4:
        return f"acknowledge {words[0]}: status {words[2]} from slot {words[4]}", f"status {words[2]} from {words[4]}", f"status {words[2]}", words[2]
    return f"acknowledge {words[0]}", f"ack {words[0]}"


def texts_of_value(mark: str) -> Tuple[str, ...]:
    """What may be written where an address group shows something, the longest text first."""
    value = reading.shown_value(mark)
    return (f"level {value[1:]}" if reading.is_acknowledge(mark) else f"slot {value[1:]}"), value


class Drawing:
    """A picture on its way: where everything is, and what is drawn so far."""

    def __init__(self, story: Story) -> None:
        self.story, self.shown, self.canvas = story, story.shown, Canvas()
        wanted = story.rows or tuple(names_of(self.shown))
        rows = {row.name: row for row in self.shown.wires}
        self.wires: List[Row] = [rows[name] for name in wanted if name in rows]
        self.lanes: List[str] = [name for name in wanted if name in LANES and (name != CYCLE or story.rows or self.cycles())]
        self.refused: Dict[int, Refusal] = {it.number - self.shown.first: it for it in story.refusals}
        self.left = MARGIN + LABELS
        self.column = min(WIDEST_COLUMN, max(COLUMN, (LEAST_WIDTH - MARGIN - self.left) // self.shown.edges))
        self.right = self.left + self.column * self.shown.edges
        self.wide = max(self.right + MARGIN, LEAST_WIDTH)
        self.top = MARGIN + 60
        self.middles = self.places_of_wires()
        self.bottoms = self.places_of_lanes()
        self.end = max([*self.bottoms.values(), self.top + 4, *(it + ROW / 2 for it in self.middles.values())])

    def cycles(self) -> List[Band]:
        return [it for it in self.story.bands if it.kind != "tenure" and self.reaches_in(it)]

    def reaches_in(self, band: Band) -> bool:
        """Whether some of a band is in the columns."""
        return band.first <= self.shown.last and (band.last is None or band.last >= self.shown.first)

    # Where things are.

    def places_of_wires(self) -> Dict[str, float]:
        """The middle of each wire's row; a new driver begins behind a gap."""
        places: Dict[str, float] = {}
        at, driver = float(self.top), None
        for row in self.wires:
            at += GAP if row.driver != driver else 0
            places[row.name], driver = at + ROW / 2, row.driver
            at += ROW
        self.lanes_from = at + GAP
        return places

    def places_of_lanes(self) -> Dict[str, float]:
        """The bottom of each lane."""
        places: Dict[str, float] = {}
        at = self.lanes_from + 2
        for name in self.lanes:
            at += VERDICTS if name == "verdict" else LANE
            places[name] = at
        return places

    def x(self, column: int) -> float:
        """The middle of a column."""
        return self.left + self.column * column + self.column / 2

    def x_of_edge(self, number: Optional[int]) -> float:
        """Where an edge is, which may be outside of the columns."""
        if number is None or number > self.shown.last:
            return self.right
        return self.left if number < self.shown.first else self.x(number - self.shown.first)

    # What is drawn, from the back to the front.

    def drawn(self) -> str:
        self.draw_tenures_behind()
        self.draw_refused_columns()
        self.draw_grid()
        self.draw_heading()
        self.draw_numbers()
        heads = self.draw_grants()
        self.draw_wires()
        self.draw_lanes()
        self.canvas.lines += heads.lines
        self.draw_refused_marks()
        high = self.draw_list(self.draw_legend(self.end + 4))
        back = Canvas()
        back.rect(0, 0, self.wide, high, "paper")
        self.canvas.lines[:0] = back.lines
        return document(self.canvas, self.wide, high, NAME, self.title(), style())

    def title(self) -> str:
        return f"{safe(self.story.trace)}: {self.what()}"

    def what(self) -> str:
        """Which edges are drawn, and how many of them are refused."""
        shown, refused = self.shown, self.shown.verdict.count("x")
        edges = f"edge {shown.first}" if shown.edges == 1 else f"edges {shown.first} to {shown.last}"
        return f"{edges}, {refused or 'none'} refused"

    def draw_heading(self) -> None:
        room = self.wide - 2 * MARGIN
        self.canvas.text(MARGIN, MARGIN + 12, elided(self.story.trace, TITLE, room), "title ink", self.story.trace)
        what = f"{self.what()}, on "
        scenario = elided(self.story.scenario, TEXT, room - width(what, TEXT))
        self.canvas.text(MARGIN, MARGIN + 31, what + scenario, "muted", self.story.scenario)

    def draw_tenures_behind(self) -> None:
        """Tints the rows of the board that has the bus."""
        tenures = [it for it in self.story.bands if it.kind == "tenure" and self.reaches_in(it)]
        pairs = [(band, row) for band in tenures for row in self.wires if row.driver == band.slot]
        for band, row in pairs:
            middle = self.middles[row.name]
            self.canvas.rect(self.x_of_edge(band.first), middle - ROW / 2, self.x_of_edge(band.last), middle + ROW / 2, "held")

    def draw_refused_columns(self) -> None:
        for column in self.refused:
            self.canvas.rect(self.x(column) - self.column / 2, self.top - 18, self.x(column) + self.column / 2, self.end, "column")

    def draw_grid(self) -> None:
        """A line for each edge, and one between the wires of two drivers, and above the lanes."""
        lines = "".join(f"M{self.x(column):g} {self.top - 2:g}V{self.end:g}" for column in range(self.shown.edges))
        self.canvas.path(lines, "grid")
        self.canvas.path("".join(f"M{MARGIN} {at:g}H{self.right:g}" for at in self.rules()), "rule")

    def rules(self) -> Iterator[float]:
        """The heights of the lines between the drivers, and above the lanes."""
        driver = None
        for row in self.wires:
            if driver not in (None, row.driver):
                yield self.middles[row.name] - ROW / 2 - GAP / 2
            driver = row.driver
        if self.wires and self.lanes:
            yield self.lanes_from - GAP / 2

    def draw_numbers(self) -> None:
        """The numbers of the edges, those of refused ones first, and of the others as many as there is room for."""
        half = width(str(self.shown.last), SMALL) / 2 + 2.5
        step = next(it for it in (1, 2, 5, 10, 20) if 2 * half <= it * self.column or it == 20)
        plain = [column for column in range(self.shown.edges) if (self.shown.first + column) % step == 0]
        taken: List[float] = []
        for column in [*self.refused, *plain]:
            if all(abs(self.x(column) - it) >= 2 * half for it in taken):
                taken.append(self.x(column))
                class_ = "small strong red middle" if column in self.refused else "small muted middle"
                self.canvas.text(self.x(column), self.top - 6, str(self.shown.first + column), class_)

    # Wires.

    def draw_wires(self) -> None:
        for row in self.wires:
            middle = self.middles[row.name]
            self.canvas.text(MARGIN, middle + 4, row.name, "ink")
            mine = [it for column, it in self.refused.items() if row.marks[column] == "x"]
            level = level_before(row.marks, mine[0] if mine else None)
            if level is None:
                self.canvas.path(f"M{self.left:g} {middle:g}H{self.right:g}", "unknown")
            elif row.wire == "addr":
                self.draw_group(row, level, middle)
            else:
                self.canvas.path(self.wave(row.marks, level, middle), "wave")

    def wave(self, marks: str, level: str, middle: float) -> str:
        """The line of a wire, with a slope at each accepted edge."""
        line = f"M{self.left:g} {place_of_line(level, middle):g}"
        for column, mark in enumerate(marks):
            if mark in "\\/":
                before, behind = place_of_line("-" if mark == "\\" else "_", middle), place_of_line(mark, middle)
                line += f"H{self.x(column) - SLOPE:g}L{self.x(column) + SLOPE:g} {behind:g}" if before != behind else ""
        return f"{line}H{self.right:g}"

    def draw_group(self, row: Row, level: str, middle: float) -> None:
        """An address group: a line in the middle while it is off, and a box with what it shows while it is on."""
        at = self.left
        for first, end, _ in reading.spans(self.states_of_group(row, level)):
            opens = (first == 0 and row.marks[0] != "\\", end == self.shown.edges)
            begin, stop = self.left if opens[0] else self.x(first), self.right if opens[1] else self.x(end)
            self.canvas.path(f"M{at:g} {middle:g}H{begin:g}", "wave")
            self.draw_box((begin, stop), opens, middle, self.shown.shown[first])
            at = stop
        if at < self.right:
            self.canvas.path(f"M{at:g} {middle:g}H{self.right:g}", "wave")

    @staticmethod
    def states_of_group(row: Row, level: str) -> str:
        """For each column `#` if the group is on behind it, else `.`; a refused edge leaves it as it was."""
        states = "#" if level == "_" else "."
        for mark in row.marks:
            states += states[-1] if mark == "x" else "#" if mark in "\\_" else "."
        return states[1:]

    def draw_box(self, edges: Tuple[float, float], opens: Tuple[bool, bool], middle: float, mark: str) -> None:
        """The box of an address group. It is open at a side at which the group goes on outside of the picture."""
        begin, stop = edges
        lines = ""
        for level in (middle - SWING, middle + SWING):
            left = f"M{begin:g} {level:g}" if opens[0] else f"M{begin:g} {middle:g}L{begin + SLOPE:g} {level:g}"
            lines += left + (f"H{stop:g}" if opens[1] else f"H{stop - SLOPE:g}L{stop:g} {middle:g}")
        self.canvas.path(lines, "wave")
        text = "" if mark == "." else fitting(texts_of_value(mark), SMALL, stop - begin - 2 * SLOPE - 2)
        if text:
            self.canvas.text((begin + stop) / 2, middle + 4, text, "small ink middle")

    # Lanes.

    def draw_lanes(self) -> None:
        draws = {"grant at": self.draw_grant_at, "holder": self.draw_holder, "shown": self.draw_shown, CYCLE: self.draw_cycles, "verdict": self.draw_verdicts}
        for name in self.lanes:
            bottom = self.bottoms[name]
            self.canvas.text(MARGIN, bottom - (VERDICTS if name == "verdict" else LANE) / 2 + 4, name, "muted")
            draws[name](bottom)

    def draw_grant_at(self, bottom: float) -> None:
        for first, end, mark in reading.spans(self.shown.grant_at):
            slot = reading.slot_of(mark)
            self.draw_span("grant", first, end, bottom, (f"slot {slot}", slot), f"a grant waits at slot {slot}")

    def draw_holder(self, bottom: float) -> None:
        tenures = [it for it in self.story.bands if it.kind == "tenure"]
        for first, end, mark in reading.spans(self.shown.holder):
            slot, edge = reading.slot_of(mark), self.shown.first + first
            of = [it for it in tenures if it.slot == slot and it.first <= edge and (it.last is None or it.last > edge)]
            texts = texts_of_band(of[0]) if of else (f"slot {slot}", slot)
            self.draw_span("tenure", first, end, bottom, texts, of[0].line if of else f"slot {slot} has the bus")

    def draw_shown(self, bottom: float) -> None:
        for first, end, mark in reading.spans(self.shown.shown):
            class_ = "acknowledge" if reading.is_acknowledge(mark) else "access"
            self.draw_span(class_, first, end, bottom, texts_of_value(mark), reading.shown_value(mark))

    def draw_cycles(self, bottom: float) -> None:
        for band in self.cycles():
            edges = (self.x_of_edge(band.first), self.x_of_edge(band.last))
            opens = (band.first < self.shown.first, band.last is None or band.last > self.shown.last)
            self.draw_band(band.kind, edges, opens, bottom, texts_of_band(band), band.line)

    def draw_verdicts(self, bottom: float) -> None:
        middle = bottom - VERDICTS / 2
        for column, mark in enumerate(self.shown.verdict):
            if column in self.refused:
                code, _, rule = self.refused[column].verdict.partition(" ")
                self.canvas.text(self.x(column), middle if rule else middle + 3, code, "tiny strong red middle")
                if rule:
                    self.canvas.text(self.x(column), middle + 10, rule, "tiny strong red middle")
            elif mark == "!":
                self.canvas.text(self.x(column), middle + 5, "!", "title green middle")
            else:
                self.canvas.add("circle", cx=self.x(column), cy=middle, r=1.3, class_="dot")

    def draw_span(self, class_: str, first: int, end: int, bottom: float, texts: Sequence[str], tip: str) -> None:
        """A band of a row of states: from the edge behind which the state begins to the one behind which it is over."""
        is_new = first > 0 or self.begins_at_first(class_)
        edges = (self.x(first) if is_new else self.left, self.x(end) if end < self.shown.edges else self.right)
        self.draw_band(class_, edges, (not is_new, end == self.shown.edges), bottom, texts, tip)

    def begins_at_first(self, class_: str) -> bool:
        """Whether the first edge of the picture is the one that makes a state of this class."""
        wires = {"grant": ("bg0", "bg1", "bg2", "bg3", "bgout"), "tenure": ("bbsy",)}.get(class_, ("addr",))
        return any(row.marks[0] == "\\" and row.wire in wires for row in self.shown.wires)

    def draw_band(self, class_: str, edges: Tuple[float, float], opens: Tuple[bool, bool], bottom: float, texts: Sequence[str], tip: str) -> None:
        """A band with a text. It has no line at a side at which it goes on outside of the picture."""
        (begin, stop), low, high = edges, bottom - (LANE - BAND) / 2, bottom - LANE + (LANE - BAND) / 2
        self.canvas.rect(begin, high, stop, low, class_, tip=tip)
        line = f"M{begin:g} {high:g}H{stop:g}" + (f"M{stop:g} {low:g}" if opens[1] else f"V{low:g}") + f"H{begin:g}" + ("" if opens[0] else f"V{high:g}")
        self.canvas.path(line, f"line {class_}-line")
        text = fitting(texts, SMALL, stop - begin - 4)
        if text:
            self.canvas.text((begin + stop) / 2, bottom - LANE / 2 + 4, text, "small ink middle", tip)

    # Grants along the chain, and refused edges.

    def passes(self) -> Iterator[Tuple[int, int]]:
        """The columns of two edges that follow one another on the way of a grant: it begins, is passed on, and is taken."""
        before, origin = ".", None
        for column, now in enumerate(self.shown.grant_at):
            if now != before and self.falling(column) is not None:
                if origin is not None:
                    yield origin, column
                origin = column
            before = now
            origin = None if now == "." else origin

    def falling(self, column: int) -> Optional[Row]:
        """The wire that falls in a column, if it is in the picture and belongs to a grant."""
        rows = (row for row in self.shown.wires if row.marks[column] == "\\")
        return next((row for row in rows if row.wire in ("bg0", "bg1", "bg2", "bg3", "bgout", "bbsy")), None)

    def draw_grants(self) -> Canvas:
        """Draws the way of each grant behind the wires, and returns the heads of the arrows, which belong before them."""
        heads = Canvas()
        for origin, column in self.passes():
            rows = [row.name for row in (self.falling(origin), self.falling(column)) if row and row.name in self.middles]
            if len(rows) == 2:
                self.draw_arrow(heads, self.x(origin), self.middles[rows[0]], self.x(column), self.middles[rows[1]])
        return heads

    def draw_arrow(self, heads: Canvas, x: float, y: float, to_x: float, to_y: float) -> None:
        """An arrow from one slope to another, which leaves to the right and comes from the left."""
        begin, tip = x + 1, to_x - 1
        bend = max((tip - begin) * 0.55, 12)
        self.canvas.path(f"M{begin:g} {y:g}C{number(begin + bend)} {y:g} {number(tip - 6 - bend)} {to_y:g} {tip - 6:g} {to_y:g}", "arrow")
        heads.add("circle", cx=x, cy=y, r=2.6, class_="head")
        heads.path(f"M{tip:g} {to_y:g}l-8 -4v8z", "head")

    def draw_refused_marks(self) -> None:
        """On the wire of each refused edge: the slope that it would have been, dashed, and a cross."""
        marks = [(row, column) for row in self.wires for column in self.refused if row.marks[column] == "x"]
        for row, column in marks:
            x, middle, refusal = self.x(column), self.middles[row.name], self.refused[column]
            self.canvas.path(f"M{x:g} {middle - SWING:g}V{middle + SWING:g}", "refused tried")
            cross = f"M{x - 5:g} {middle - 5:g}l10 10m0 -10l-10 10"
            self.canvas.path(cross, "refused", tip=f"{refusal.number} {refusal.edge} {refusal.verdict}")

    # What the marks mean, and the list of refused edges.

    def draw_legend(self, at: float) -> float:
        """Says below the picture what its marks mean, those that it has; returns the height at which that ends."""
        drawn = "".join(self.canvas.lines)
        says = {
            "arrow: grant": 'class="arrow"' in drawn,
            "tinted: has the bus": 'class="held"' in drawn,
            "!: status byte": ">!<" in drawn,
            "\u2715: refused, nothing moves": bool(self.refused),
        }
        cells = int((self.wide - 2 * MARGIN) / (SMALL * ADVANCE))
        for line in textwrap.wrap(" \u00b7 ".join(text for text, is_there in says.items() if is_there), cells):
            at += LINE
            self.canvas.text(MARGIN, at, line, "small muted")
        return at + 12

    def draw_list(self, at: float) -> float:
        """Below the picture, each refused edge with the conditions that fail; returns the height of all."""
        if self.refused:
            self.canvas.path(f"M{MARGIN} {at:g}H{self.wide - MARGIN:g}", "rule")
            at += 8
        for refusal in (it for it in self.refused.values() if it.number in self.story.explained):
            at = self.draw_refusal(refusal, at)
        return self.draw_rest(at) + MARGIN - 4

    def draw_rest(self, at: float) -> float:
        """The refused edges whose conditions were not asked for, one behind another; returns the height at which they end."""
        rest = [f"{it.number}\u00a0{it.edge}\u00a0{it.verdict}".replace(" ", "\u00a0") for it in self.refused.values() if it.number not in self.story.explained]
        cells = int((self.wide - 2 * MARGIN) / (TEXT * ADVANCE))
        for line in textwrap.wrap(f"also\u00a0refused: {', '.join(rest)}" if rest else "", cells, break_on_hyphens=False):
            at += LINE
            self.canvas.text(MARGIN, at - 3, line, "red")
        return at + (6 if rest else 0)

    def stops(self) -> Tuple[float, float, float, float]:
        """Where the number of a refused edge ends, and where its words, its verdict and its conditions begin."""
        words = max(width(it.edge, TEXT) for it in self.refused.values())
        verdicts = max(width(it.verdict, TEXT) for it in self.refused.values())
        end = MARGIN + 22 + width(str(max(self.refused) + self.shown.first), TEXT)
        return end, end + 14, end + 32 + words, end + 50 + words + verdicts

    def draw_refusal(self, refusal: Refusal, at: float) -> float:
        """A refused edge with the conditions that fail, from a height on; returns the height at which it ends."""
        line, (number_end, edge_at, verdict_at, why_at) = at + LINE - 3, self.stops()
        self.canvas.text(MARGIN, line, "\u2715", "red strong")
        self.canvas.text(number_end, line, str(refusal.number), "red strong end")
        self.canvas.text(edge_at, line, refusal.edge, "ink")
        self.canvas.text(verdict_at, line, refusal.verdict, "red strong")
        for text, class_ in self.lines_of(self.story.explained.get(refusal.number, []), self.wide - MARGIN - why_at):
            self.canvas.text(why_at, line, text, class_)
            line += LINE
        return max(line - LINE, at + LINE - 3) + 6

    @staticmethod
    def lines_of(failing: Sequence[Failing], room: float) -> Iterator[Tuple[str, str]]:
        """The lines of the conditions that fail, each with its readings below it, and how they are drawn."""
        cells = int(room / (TEXT * ADVANCE))
        for it in failing:
            yield from ((line, "ink") for line in textwrap.wrap(f"fails: {it.condition}", cells, subsequent_indent="    "))
            readings = textwrap.wrap("; ".join(it.readings), cells, max_lines=READINGS, placeholder=" \u2026")
            yield from ((line, "muted") for line in readings)
