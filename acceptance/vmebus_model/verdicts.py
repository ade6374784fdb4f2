"""Verdicts: the first refusal E1 to E5 that applies to an edge, or that it is accepted, and what it delivers."""

from .bus import MOST_EDGES
from .rules import GUARDS, SETTLING, name_of_rule
from .traces import EDGES


def is_already_there(bus, edge):
    """Whether the wire is in the state to which the edge would bring it."""
    return (edge.driver in bus.low[edge.wire]) == edge.falls


def guard(bus, edge):
    """The conditions of the edge's rule."""
    return GUARDS[edge.wire, edge.falls](bus, edge)


def settling(bus, edge):
    """The condition of the edge's settling rule, if it has one."""
    rule = SETTLING.get((edge.wire, edge.falls))
    return rule(bus, edge) if rule else ()


def hold(conditions):
    """Whether each of some conditions holds."""
    for _, holds, _ in conditions:
        if not holds:
            return False
    return True


def refusal(bus, edge):
    """The first refusal that applies, None if the edge is accepted."""
    if bus.plan.missing(edge.driver, edge.wire):
        return "E1"
    if is_already_there(bus, edge):
        return "E2"
    if not hold(guard(bus, edge)):
        return "E3 " + name_of_rule(GUARDS[edge.wire, edge.falls])
    if not hold(settling(bus, edge)):
        return "E4 " + name_of_rule(SETTLING[edge.wire, edge.falls])
    return "E5" if bus.accepted == MOST_EDGES else None


def delivers(bus, edge):
    """Whether the edge, if it is accepted, delivers a status byte."""
    return edge.wire == "dtack" and edge.falls and bus.acknowledge() is not None


def verdict_of(bus, edge):
    """The verdict of an edge: the first refusal, or that it is accepted, and what it delivers."""
    refused = refusal(bus, edge)
    if refused or not delivers(bus, edge):
        return refused or "ok"
    status = bus.plan.interrupters[edge.driver].status
    return f"ok irq {bus.acknowledge()} to {bus.owner_of_cycle()} from {edge.driver} status {status}"


def step(bus, edge, number):
    """The verdict of an edge, which is added to the history if it is accepted."""
    verdict = verdict_of(bus, edge)
    if is_ok(verdict):
        bus.accept(edge, number)
    return verdict


def is_ok(verdict):
    return verdict.startswith("ok")


def next_edges(bus, driver, ways):
    """The edges of a driver that bring a wire to its other state, of these wires and directions, in the order of its wires."""
    for wire in bus.plan.wires[driver]:
        falls = driver not in bus.low[wire]
        if (wire, falls) in ways:
            yield from EDGES[driver, wire, falls]


def is_open(bus, edge):
    """Whether an edge that brings a wire to its other state would be accepted now."""
    return hold(guard(bus, edge)) and hold(settling(bus, edge)) and bus.accepted < MOST_EDGES


def open_edges(bus, driver):
    """All edges of a driver that would be accepted now."""
    for wire in bus.plan.wires[driver]:
        edges = EDGES[driver, wire, driver not in bus.low[wire]]
        # Accesses are all open or none, and an acknowledge asks for what an access asks for, and more.
        if is_open(bus, edges[-1]):
            yield from (edge for edge in edges if edge == edges[-1] or is_access(edge) or is_open(bus, edge))


def is_access(edge):
    return edge.cycle is not None and not edge.cycle.is_acknowledge
