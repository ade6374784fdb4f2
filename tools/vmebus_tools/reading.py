"""Reads what `vmebus show`, `cycles` and `explain` print, as docs/COMMANDS.md describes it."""

from __future__ import annotations

import re
from dataclasses import dataclass
from typing import Iterator, List, Optional, Tuple

# How wide the names of the rows of `show` are.
NAMES = 11
STATES = ("grant at", "holder", "shown", "verdict")
SLOTS = "123456789ABCDEFGHIJKL"
LEVELS = "abcdefg"
BAND = re.compile(r"(\d+)\.\.(\d*) (\d+) (tenure|access|acknowledge)\b ?(.*)")
REFUSED = re.compile(r"(\d+) refused (.*) (E\d(?: [GS]\d+)?)")


@dataclass(frozen=True)
class Row:
    """A row of `show`: its name, and one character for each edge."""

    name: str
    marks: str

    @property
    def driver(self) -> str:
        """The slot of the board that drives the wire, or `c`."""
        return self.name.partition(" ")[0]

    @property
    def wire(self) -> str:
        return self.name.partition(" ")[2]


@dataclass(frozen=True)
class Shown:
    """What `show` prints: the numbers of the first and the last edge, the rows of wires, and those of the state behind each edge."""

    first: int
    last: int
    wires: Tuple[Row, ...]
    grant_at: str
    holder: str
    shown: str
    verdict: str

    @property
    def edges(self) -> int:
        """How many edges there are, each of them a column."""
        return self.last - self.first + 1


@dataclass(frozen=True)
class Band:
    """A tenure or a cycle of `cycles`: its line, its first edge, its last one if it has ended, and what the line says of it."""

    line: str
    first: int
    last: Optional[int]
    slot: str
    kind: str
    about: str


@dataclass(frozen=True)
class Refusal:
    """A refused edge: its number, its words in the trace, and the verdict on it."""

    number: int
    edge: str
    verdict: str

    @property
    def is_fall(self) -> bool:
        return "-" in self.edge


@dataclass(frozen=True)
class Failing:
    """A condition that fails, and the readings on which that depends."""

    condition: str
    readings: Tuple[str, ...]


def shown(text: str) -> Shown:
    """The picture that `show` printed."""
    heading, _, _, *lines = text.splitlines()
    _, first, _, last = heading.split()
    rows = [Row(line[:NAMES].rstrip(), line[NAMES:]) for line in lines]
    wires, states = rows[: -len(STATES)], rows[-len(STATES) :]
    assert tuple(row.name for row in states) == STATES, text
    return Shown(int(first), int(last), tuple(wires), *(row.marks for row in states))


def bands(text: str) -> Iterator[Band]:
    """The tenures and cycles that `cycles` printed."""
    for line in text.splitlines():
        found = BAND.fullmatch(line)
        if found:
            first, last, slot, kind, about = found.groups()
            yield Band(line, int(first), int(last) if last else None, slot, kind, about)


def refusals(text: str) -> Iterator[Refusal]:
    """The refused edges that `cycles` printed."""
    for line in text.splitlines():
        found = REFUSED.fullmatch(line)
        if found:
            yield Refusal(int(found[1]), found[2], found[3])


def failing(text: str) -> List[Failing]:
    """The conditions that fail, in the order in which `explain` printed them."""
    found: List[Tuple[bool, str, List[str]]] = []
    for line in text.splitlines()[1:]:
        if line.startswith("    "):
            found[-1][2].append(line.strip())
        else:
            verb, _, condition = line.partition(" ")
            found.append((verb == "fails", condition, []))
    return [Failing(condition, tuple(readings)) for fails, condition, readings in found if fails]


def slot_of(mark: str) -> str:
    """The slot that a character of a row stands for, as a decimal number."""
    return str(SLOTS.index(mark) + 1)


def is_acknowledge(mark: str) -> bool:
    """Whether a character of the row `shown` is a level, and not a slot."""
    return mark in LEVELS


def shown_value(mark: str) -> str:
    """What a character of the row `shown` stands for, as a trace spells it: i4 or r2."""
    return f"i{LEVELS.index(mark) + 1}" if is_acknowledge(mark) else f"r{slot_of(mark)}"


def spans(marks: str) -> Iterator[Tuple[int, int, str]]:
    """The runs of one character other than `.`: the first column, the column behind the last one, and the character."""
    for run in re.finditer(r"([^.])\1*", marks):
        yield run.start(), run.end(), run[1]
