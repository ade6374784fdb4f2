"""`same`: whether two traces are one up to orders that do not matter."""

from collections import deque
from itertools import islice
from typing import NamedTuple, Optional, Tuple

from .bus import Bus
from .faults import Fault, escaped, of_file
from .swaps import MOST_PASSED, way_back
from .traces import Edge, Trace
from .verdicts import is_ok, step


class Judged(NamedTuple):
    """A trace that was read to its end: its version, its edges, and the number and the verdict of the first that is refused."""

    version: int
    edges: Tuple[Edge, ...]
    refused: Optional[str]


def judged(plan, trace):
    bus, edges, refused = Bus(plan, trace.version), [], None
    for number, edge in enumerate(trace, 1):
        said = step(bus, edge, number)
        refused = refused if refused or is_ok(said) else f"{number} {said}"
        edges.append(edge)
    return Judged(trace.version, tuple(edges), refused)


def same(plan, reads, names, console):
    """Prints whether two traces are the same; a fault of the first comes before one of the second, which names its file."""
    first = judged(plan, Trace(reads[0]))
    try:
        second = judged(plan, Trace(reads[1]))
    except Fault as fault:
        raise of_file(names[1], fault) from None
    found = refused(names, (first, second)) or difference(plan, first, second)
    console.write(f"{found or f'same {len(second.edges)}'}\n")
    return 2 if found else 0


def refused(names, traces):
    """The first refused edge of the first trace that has one."""
    for name, trace in zip(names, traces):
        if trace.refused:
            return f"refused {escaped(name)} {trace.refused}"
    return None


def difference(plan, first, second):
    """What differs between two traces without refused edges, None if nothing that matters."""
    if first.version != second.version:
        return "differ version"
    bus, left = Bus(plan, first.version), deque(enumerate(first.edges, 1))
    for number, edge in enumerate(second.edges, 1):
        place = next((place for place, (_, it) in enumerate(left) if it == edge), None)
        stop = "missing" if place is None else what_stops_at(bus, left, place)
        if stop:
            return f"differ {number} {edge} {stop}\n    {first_of(left, edge.driver)}"
        del left[place]
        bus.accept(edge, number)
    return f"differ {left[0][0]} {left[0][1]} left" if left else None


def first_of(left, driver):
    """The first edge of a driver of those that are left, with its number; `none` if none is left."""
    return next((f"{number} {it}" for number, it in left if it.driver == driver), "none")


def what_stops_at(bus, left, place):
    """What keeps the edge at this place of those that are left from coming to the front; None if nothing does."""
    if place > MOST_PASSED:
        return "far"
    kept, edge = len(bus.past), left[place][1]
    for number, (_, it) in enumerate(islice(left, place), kept + 1):
        bus.accept(it, number)
    way = way_back(bus, edge, kept)
    for _ in range(place):
        bus.take_back()
    if way.stop == "begins":
        return None
    number, in_front = left[place - way.passed - 1]
    return f"{way.stop} {number} {in_front} {way.outcome}"
