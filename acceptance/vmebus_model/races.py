"""`races`: the edges that could have come before another one, and what would have come of that order."""

from collections import Counter

from .bus import Bus
from .faults import Fault
from .judging import beyond
from .swaps import way_back
from .traces import text_of
from .verdicts import is_ok, step, verdict_of


def races(plan, trace, options, console):
    """Prints the races of all edges, or how far one of them goes back, or its other order; nothing after that edge is judged."""
    wanted = options.get("--edge", options.get("--other"))
    if wanted is None:
        return all_races(plan, trace, console)
    bus, number = Bus(plan, trace.version), 0
    for number, edge in enumerate(trace, 1):
        if number == wanted:
            return (one_edge if "--edge" in options else other_order)(bus, number, edge, console)
        step(bus, edge, number)
    raise beyond(number)


def ways_of(bus, trace):
    """The number, the edge and the way back of each edge, while the bus is as it was before that edge; the way is None if the
    edge is refused."""
    for number, edge in enumerate(trace, 1):
        is_accepted = is_ok(verdict_of(bus, edge))
        yield number, edge, way_back(bus, edge) if is_accepted else None
        step(bus, edge, number)


def all_races(plan, trace, console):
    """A line for each race, and the counts; the lines before a fault are written first."""
    bus, lines, counts = Bus(plan, trace.version), [], Counter()
    try:
        for number, edge, way in ways_of(bus, trace):
            if way is None:
                counts["refused"] += 1
                continue
            counts.update([way.stop, "free" if way.passed else "not free"])
            if way.stop == "races":
                lines.append(f"{number} {edge} {stop_of(bus, way)}\n")
        found = f"races {counts['races']} waits {counts['waits for']} free {counts['free']}"
        lines.append(f"accepted {bus.accepted} {found}\n")
    finally:
        console.write("".join(lines))
    return 2 if counts["refused"] else 0


def stop_of(bus, way):
    """What stops an edge on its way back, as a line has it."""
    if not way.outcome:
        return way.stop
    in_front = bus.past[-1 - way.passed]
    return f"{way.stop} {in_front.number} {in_front.edge} {way.outcome}"


def one_edge(bus, number, edge, console):
    """Prints how far an edge goes back, and what stops it."""
    said = verdict_of(bus, edge)
    if not is_ok(said):
        console.write(f"{number} {edge} {said}\n")
        return 2
    way = way_back(bus, edge)
    free = f" free since {bus.past[-way.passed].number}" if way.passed else ""
    console.write(f"{number} {edge}{free} {stop_of(bus, way)}\n")
    return 0


def other_order(bus, number, edge, console):
    """Prints the other order of a race: the edges before both, then the edge, and then the one with which it races."""
    way = way_back(bus, edge) if is_ok(verdict_of(bus, edge)) else None
    if way is None or way.stop != "races":
        raise Fault(f"X11 edge {number} races with none")
    edges = [it.edge for it in bus.past[: len(bus.past) - way.passed]]
    console.write(text_of(bus.version, [*edges[:-1], edge, edges[-1]]))
    return 0
