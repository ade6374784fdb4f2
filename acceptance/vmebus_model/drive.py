"""`drive` without a seed, and `run` in one of the orders in which its threads may come."""

import random

from .bus import Bus
from .traces import EDGES, Cycle, Edge, text_of
from .verdicts import is_open


def offers(bus, driver):
    """The edges that a driver could make now, in the order of its wires."""
    return [edge for wire in bus.plan.wires[driver] for edge in edges_offered(bus, driver, wire) if is_open(bus, edge)]


def edges_offered(bus, driver, wire):
    """What a wire gives: the edge to its other state, and of an address group that is off two at most."""
    falls = driver not in bus.low[wire]
    if wire == "addr" and falls:
        return [Edge(driver, wire, falls, cycle) for cycle in cycles_offered(bus, driver)]
    return EDGES[driver, wire, falls]


def cycles_offered(bus, slot):
    """An acknowledge of the highest level that the board handles and whose line is low, and an access to the next board."""
    levels = [level for level in bus.plan.boards[slot].handler if bus.irq(level)]
    if levels:
        yield Cycle(True, max(levels))
    above = [it for it in bus.plan.boards if it > slot]
    yield Cycle(False, min(above or bus.plan.boards))


def make(bus, edges, offered, turn):
    """Makes the offer at the place of the turn."""
    edges.append(offered[turn % len(offered)])
    bus.accept(edges[-1], len(edges))


def rounds(bus, most):
    """The edges of rounds: the controller and then the boards by slot, until a round without any."""
    edges, number, goes_on = [], 0, True
    while goes_on:
        before = len(edges)
        for driver in bus.plan.drivers:
            offered = offers(bus, driver)
            if offered:
                make(bus, edges, offered, number)
            if len(edges) == most:
                return edges
        number, goes_on = number + 1, len(edges) > before
    return edges


def written(version, edges, most, console):
    """Writes the trace of these edges, and returns the status."""
    console.write(text_of(version, edges))
    return 3 if len(edges) == most else 0


def drive(plan, options, console):
    version, most = options["--version"], options["--edges"]
    return written(version, rounds(Bus(plan, version), most), most, console)


def run(plan, options, console):
    """One of the orders in which threads may come: whose turn is next is drawn, until all turns are over or nobody can move."""
    version, most = options["--version"], options["--edges"]
    bus, edges, draw, taken = Bus(plan, version), [], random.Random(0), dict.fromkeys(plan.drivers, 0)
    while taken and len(edges) < most:
        driver = draw.choice(list(taken))
        offered = offers(bus, driver)
        if offered:
            make(bus, edges, offered, taken[driver])
        elif not any(offers(bus, it) for it in taken):
            break
        taken[driver] += 1
        if taken[driver] == options["--turns"]:
            del taken[driver]
    return written(version, edges, most, console)
