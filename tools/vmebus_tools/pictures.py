"""Asks the program what there is to draw of a trace, and draws it."""

from __future__ import annotations

import itertools
from dataclasses import dataclass
from typing import List, Optional, Sequence, Tuple

from . import reading
from .drawing import Story, names_of, picture
from .program import Fault, Ran, run

# As in `show`: the edges of a window that is given by one end or by none, and the most that there may be.
WINDOW = 60
MOST = 200
GREATEST = (1 << 64) - 1
# Of how many refused edges the conditions are asked for, each by a call of `explain`.
EXPLAINED = 20


@dataclass(frozen=True)
class Drawn:
    """A picture, or None if there is no edge to draw; the status of `show`; and its fault, if it had one."""

    svg: Optional[str]
    status: int
    fault: Optional[str]


def window(first: Optional[int], last: Optional[int]) -> Tuple[int, int]:
    """The first and the last edge to draw, of which one or both may be left out, as `show` fills them in."""
    if first is None:
        first = 1 if last is None else max(last - WINDOW + 1, 1)
    if last is None:
        last = min(first + WINDOW - 1, GREATEST)
    if not first <= last < first + MOST:
        raise Fault(f"edges {first} to {last}: a picture has 1 to {MOST} edges")
    return first, last


def head_of(trace: str, edges: int) -> List[bytes]:
    """The header of a trace and the lines of so many edges of it, or of all that it has."""
    try:
        with open(trace, "rb") as file:
            return list(itertools.islice(file, min(edges, GREATEST >> 1) + 1))
    except (OSError, ValueError) as fault:
        raise Fault(f"cannot read {trace}: {getattr(fault, 'strerror', None) or fault}")


def draw(scenario: str, trace: str, first: Optional[int] = None, last: Optional[int] = None, rows: Optional[Sequence[str]] = None) -> Drawn:
    """Draws edges of a trace: those that `show` draws, in the rows that are named, or in all."""
    begin, end = window(first, last)
    lines = head_of(trace, end)
    ran = ask(["show", "--from", str(begin), "--to", str(end)], scenario, lines)
    if not ran.out:
        return Drawn(None, 1, ran.fault or "show printed nothing")
    try:
        shown = reading.shown(ran.out)
        if rows is not None:
            check_names(rows, names_of(shown))
        return Drawn(picture(story_of(scenario, trace, shown, lines[: shown.last + 1], rows)), ran.status, ran.fault)
    except (AssertionError, LookupError, ValueError) as fault:
        raise Fault(f"the program printed something else than this tool reads: {fault!r}")


def story_of(scenario: str, trace: str, shown: reading.Shown, lines: Sequence[bytes], rows: Optional[Sequence[str]]) -> Story:
    """What the program says of the edges that it has shown, whose last line is that of the last one."""
    said = answer(["cycles"], scenario, lines)
    refusals = tuple(it for it in reading.refusals(said) if shown.first <= it.number <= shown.last)
    explained = {}
    for edge in (it.number for it in refusals[:EXPLAINED]):
        explained[edge] = reading.failing(answer(["explain", "--edge", str(edge)], scenario, lines[: edge + 1]))
    return Story(scenario, trace, shown, tuple(reading.bands(said)), refusals, explained, None if rows is None else tuple(rows))


def check_names(names: Sequence[str], known: Sequence[str]) -> None:
    """Refuses a name that no row has, and one that is there twice."""
    twice = [name for name in names if names.count(name) > 1]
    if twice:
        raise Fault(f"the row '{twice[0]}' is named twice")
    lost = [name for name in names if name not in known]
    if lost:
        raise Fault(f"no row is named '{lost[0]}' here; there are: {', '.join(known)}")


def answer(words: Sequence[str], scenario: str, lines: Sequence[bytes]) -> str:
    """What the program prints of lines that it has read before."""
    ran = ask(words, scenario, lines)
    if ran.fault:
        raise Fault(ran.fault)
    return ran.out


def ask(words: Sequence[str], scenario: str, lines: Sequence[bytes]) -> Ran:
    """Asks the program about a scenario and the lines of a trace, which it reads from its standard input."""
    return run([*words, "--", scenario, "/dev/stdin"], b"".join(lines))
