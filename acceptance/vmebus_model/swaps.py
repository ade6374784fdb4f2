"""Free swaps: neighbours that can change places without any difference; and how far back they bring an edge, by which `races`
and `same` judge."""

from typing import NamedTuple

from .verdicts import is_ok, verdict_of

MOST_PASSED = 200


class Way(NamedTuple):
    """How an edge goes back: how many edges it passes, and what stops it then: `waits for` or `races` with the edge just before
    it, and the outcome of that; or `begins` or `far`."""

    passed: int
    stop: str
    outcome: str = ""


def played(bus, edges):
    """The verdicts of edges one after another, up to the first refusal, and how the bus stands after them, None if one is
    refused; the bus stays as it was."""
    verdicts, last = [], bus.past[-1].number if bus.past else 0
    for edge in edges:
        verdicts.append(verdict_of(bus, edge))
        if not is_ok(verdicts[-1]):
            break
        bus.accept(edge, last + len(verdicts))
    stands = bus.stand() if is_ok(verdicts[-1]) else None
    for it in verdicts:
        if is_ok(it):
            bus.take_back()
    return verdicts, stands


def is_free(bus, first, second):
    """Whether two edges that are legal in this order are legal in the other one, with the same verdicts and the bus in the same
    state after them."""
    return what_stops(bus, first, second) is None


def what_stops(bus, first, second):
    """Why two edges that are legal in this order cannot change places: what stops the second, and the outcome; None if the swap
    is free."""
    verdicts, stands = played(bus, [second, first])
    if not is_ok(verdicts[0]):
        return "waits for", verdicts[0]
    if not is_ok(verdicts[1]):
        return "races", verdicts[1]
    return None if played(bus, [first, second]) == (verdicts[::-1], stands) else ("races", "other")


def way_back(bus, edge, kept=0):
    """How an edge that would be accepted now goes back in the history, whose first `kept` edges are not passed."""
    passed, found = [], None
    while len(bus.past) > kept and len(passed) < MOST_PASSED:
        front = bus.take_back()
        found = what_stops(bus, front[0], edge)
        if found:
            bus.accept(*front)
            break
        passed.append(front)
    stop, outcome = found or ("far" if len(bus.past) > kept else "begins", "")
    for it in reversed(passed):
        bus.accept(*it)
    return Way(len(passed), stop, outcome)
