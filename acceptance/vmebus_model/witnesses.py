"""Witnesses: every way in which the bus can stand after a legal list of edges that shows what was captured.

This is `possible` word by word, by sets of states of the exact bus, and so it is for backplanes of few boards alone.  How the
bus stands is kept without its history: what the rules read of that is told by `Bus.stand`.
"""

from .bus import Bus
from .captures import ACCESS, INTERRUPTS, REQUESTS, Kind, Wire
from .rules import s2, s3
from .traces import ACKNOWLEDGES, EDGES, GRANTS, SPELLED, Cycle, name_of
from .verdicts import is_open

NOW = 1_000  # the number of an edge that is behind all others
STROBED = 500  # that of a `ds-` behind each `as-` of the history below


def bus_that_stands(plan, version, stand):
    """A bus with a history of which the rules read just that."""
    low, shown, last, served, unstrobed, cycles = stand
    bus = Bus(plan, version)
    bus.low = dict(zip(bus.low, low))
    bus.last_grant = last, None
    bus.on = {owner: shown for owner in bus.low["addr"]}
    for slot, is_served in zip(plan.interrupters, served):
        bus.falls[slot, "irq"] = [1]
        bus.answers[slot, plan.interrupters[slot].is_roak] = [2] if is_served else []
    for slot, is_unstrobed, count in zip(plan.requesters, unstrobed, cycles):
        bus.falls[slot, "bbsy"] = [1]
        bus.falls[slot, "as"] = list(range(2, 2 + (count or 0)))
        bus.falls[slot, "ds"] = [] if is_unstrobed else [STROBED]
    return bus


def place_of(plan, edge):
    """The line of an edge, or its wire on a chain; None for an address group."""
    driver, wire = edge.driver, edge.wire
    if wire in GRANTS or wire == "iack":
        return Wire(wire, 0)
    if wire in ("bgout", "iackout"):
        chain = "iack" if wire == "iackout" else GRANTS[plan.requesters[driver].level]
        return Wire(chain, sum(board.works(chain) for slot, board in plan.boards.items() if slot <= driver))
    if wire == "br":
        return REQUESTS[plan.requesters[driver].level]
    if wire == "irq":
        return INTERRUPTS[plan.interrupters[driver].level - 1]
    return None if wire == "addr" else wire.upper()


def is_line_low(bus, edge):
    """Whether another driver than that of an edge holds its line low."""
    others = bus.low[edge.wire] - {edge.driver}
    plan = bus.plan
    if edge.wire == "br":
        return any(plan.requesters[it].level == plan.requesters[edge.driver].level for it in others)
    if edge.wire == "irq":
        return any(plan.interrupters[it].level == plan.interrupters[edge.driver].level for it in others)
    return bool(others) and edge.wire not in ("bgout", "iackout")


def seen(bus, wires, edge):
    """The change that an edge makes, just before it; None if no probe sees it."""
    of = place_of(bus.plan, edge)
    if of is None or (isinstance(of, Wire) and of not in wires) or is_line_low(bus, edge):
        return None
    if of == "AS" and edge.falls:
        return Kind(of, True, bus.shown() or ACCESS)
    interrupter = bus.plan.interrupters.get(edge.driver)
    is_answer = of == "DTACK" and edge.falls and bus.acknowledge() is not None and interrupter
    return Kind(of, edge.falls, None, interrupter.status if is_answer else None)


def agrees(change, kind):
    """Whether a captured change is what an edge shows."""
    if (change.of, change.falls) != (kind.of, kind.falls):
        return False
    is_access = change.cycle == ACCESS and kind.cycle and not kind.cycle.is_acknowledge
    return (is_access or change.cycle == kind.cycle) and change.byte in (None, kind.byte)


def low_of(bus, wires):
    """The lines and the probed wires that are low."""
    low = [(driver, wire) for wire, drivers in bus.low.items() for driver in drivers if wire != "addr"]
    places = {place_of(bus.plan, SPELLED[f"{name_of(driver)} {wire}+".encode()]) for driver, wire in low}
    return frozenset(it for it in places if not isinstance(it, Wire) or it in wires)


class Space:
    """A backplane and the ways in which its bus can stand, found as they are asked for."""

    def __init__(self, plan, version):
        self.plan, self.version = plan, version
        self.start = Bus(plan, version).stand()
        self.found = {}  # for each stand the edges that are legal there, and how the bus stands behind each
        empty = next((slot for slot in range(1, 22) if slot not in plan.boards), None)
        self.cycles = {*ACKNOWLEDGES, *(Cycle(False, slot) for slot in (*plan.boards, empty) if slot)}

    def bus(self, stand):
        return bus_that_stands(self.plan, self.version, stand)

    def edges(self, bus):
        """The legal edges; of the slots without a board one is shown for all."""
        for driver in self.plan.drivers:
            for wire in self.plan.wires[driver]:
                edges = EDGES[driver, wire, driver not in bus.low[wire]]
                yield from (it for it in edges if (it.cycle is None or it.cycle in self.cycles) and is_open(bus, it))

    def behind(self, stand):
        """The edges that are legal, and how the bus stands behind each."""
        if stand not in self.found:
            bus, found = self.bus(stand), []
            for edge in list(self.edges(bus)):
                bus.accept(edge, NOW)
                found.append((edge, bus.stand()))
                bus.take_back()
            self.found[stand] = found
        return self.found[stand]

    def reachable(self, most):
        """The ways in which the bus can stand behind any legal list, up to so many."""
        found, waiting = {self.start}, [self.start]
        for stand in waiting:
            new = {it for _, it in self.behind(stand)} - found
            found |= new
            waiting += new
            if len(found) >= most:
                break
        return found


class Witnesses:
    """What a probe sees on a backplane, and the sets of states that show it."""

    def __init__(self, space, wires):
        self.space, self.wires, self.kept = space, frozenset(wires), {}

    def steps(self, stand):
        """The legal edges, what each shows, and how the bus stands behind it."""
        if stand not in self.kept:
            bus = self.space.bus(stand)
            self.kept[stand] = [(edge, seen(bus, self.wires, edge), after) for edge, after in self.space.behind(stand)]
        return self.kept[stand]

    def with_hidden(self, stands, most):
        """All that is behind these by edges that no probe sees; None if these are too many."""
        found, waiting = set(stands), list(stands)
        while waiting:
            new = {after for _, kind, after in self.steps(waiting.pop()) if kind is None} - found
            found |= new
            waiting += new
            if len(found) > most:
                return None
        return found

    def behind(self, stands, change):
        """Who may have made a change, and how the bus may stand behind it."""
        found = [
            (edge.driver, after) for stand in stands for edge, kind, after in self.steps(stand) if kind and agrees(change, kind)
        ]
        return {driver for driver, _ in found}, {after for _, after in found}

    def offers(self, stands):
        """What may be seen next, each with who may make it."""
        return {(kind, edge.driver) for stand in stands for edge, kind, _ in self.steps(stand) if kind}


# What the conditions of an answer say of the exact bus, by their texts without numbers: of the bus, the driver and the change.

HOLDS = {
    "own bbsy is high": lambda bus, own, _: own not in bus.low["bbsy"],
    "own bbsy is low": lambda bus, own, _: own in bus.low["bbsy"],
    "bbsy is low": lambda bus, own, _: own in bus.low["bbsy"],
    "irq is low": lambda bus, own, _: own in bus.low["irq"],
    "the request was served by an acknowledge": lambda bus, own, _: bus.is_served(own),
    "the request was served by an access": lambda bus, own, _: bus.is_served(own),
    "no other irq is low": lambda bus, own, _: bus.irq(bus.plan.interrupters[own].level) <= {own},
    "own grant-in is low": lambda bus, own, _: bus.grant_in(own),
    "own grant-in is high": lambda bus, own, _: not bus.grant_in(own),
    "own bgout is high": lambda bus, own, _: own not in bus.low["bgout"],
    "own br is low": lambda bus, own, _: own in bus.low["br"],
    "own br is high": lambda bus, own, _: own not in bus.low["br"],
    "some BR line is low": lambda bus, own, _: bus.low["br"],
    "the board handles level N": lambda bus, own, change: change.cycle.number in bus.plan.boards[own].handler,
    "iack and every iackout are high": lambda bus, own, _: not bus.low["iack"] | bus.low["iackout"],
    "as is low": lambda bus, own, _: own in bus.low["as"],
    "own as is low": lambda bus, own, _: own in bus.low["as"],
    "ds is low": lambda bus, own, _: own in bus.low["ds"],
    "own ds is high": lambda bus, own, _: own not in bus.low["ds"],
    "an own ds- in this cycle": lambda bus, own, _: bus.strobe(own) is not None,
    "no own ds- in this cycle": lambda bus, own, _: bus.strobe(own) is None,
    "DTACK* is high": lambda bus, own, _: not bus.low["dtack"],
    "BERR* is high": lambda bus, own, _: not bus.low["berr"],
    "DTACK* or BERR* is low": lambda bus, own, _: bus.low["dtack"] | bus.low["berr"],
    "DS0* is low": lambda bus, own, _: bus.low["ds"],
    "DS0* is high": lambda bus, own, _: not bus.low["ds"],
    "the own slot is shown": lambda bus, own, _: bus.access() == own,
    "an acknowledge is shown": lambda bus, own, _: bus.acknowledge() is not None,
    "own iackin is low": lambda bus, own, _: bus.iackin(own),
    "own iackout is high": lambda bus, own, _: own not in bus.low["iackout"],
    "pending at level N": lambda bus, own, _: bus.is_pending(own, bus.acknowledge()),
    "not pending at level N": lambda bus, own, _: not bus.is_pending(own, bus.acknowledge()),
    "its byte is N": lambda bus, own, change: bus.plan.interrupters[own].status == change.byte,
    "dtack is low": lambda bus, own, _: own in bus.low["dtack"],
    "own dtack is high": lambda bus, own, _: own not in bus.low["dtack"],
    "nobody can answer": lambda bus, own, _: all(holds for _, holds, _ in s2(bus, None)),
    "BBSY* is low": lambda bus, own, _: bus.low["bbsy"],
    "BBSY* is high": lambda bus, own, _: not bus.low["bbsy"],
    "a request above the level last granted is low": lambda bus, own, _: bus.is_asked_above(),
    "the arbiter is PRI": lambda bus, own, _: bus.plan.arbiter == "pri",
    "all four grants are high": lambda bus, own, _: not bus.grants(),
    "bus clear is not due": lambda bus, own, _: not bus.is_clear_due(),
    "the arbiter picks level N": lambda bus, own, change: bus.pick() == GRANTS.index(change.of.chain),
    "every bgout is high": lambda bus, own, _: not bus.low["bgout"],
    "the grant has passed the last board": lambda bus, own, change: all(holds for _, holds, _ in s3(bus, grant_up(change))),
    "AS* is low": lambda bus, own, _: bus.low["as"],
    "AS* is high": lambda bus, own, _: not bus.low["as"],
}


def grant_up(change):
    """The rise of a grant."""
    return SPELLED[f"c {change.of.chain}+".encode()]


def without_numbers(text):
    """The text of a condition without its driver, and with N in the place of a level or of a byte."""
    words = text.split()
    words = words[1:] if words[0].isdigit() else words
    return " ".join("N" if it.isdigit() else it for it in words)


def holds(bus, own, change, condition):
    """Whether a condition of a change holds of a driver on an exact bus."""
    return bool(HOLDS[without_numbers(condition.text)](bus, own, change))
