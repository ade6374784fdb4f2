"""The readings of `explain`: what each condition rests on, just before the edge."""

from .traces import GRANTS, name_of


def readings(bus, edge, rests):
    """The lines below a condition, without their blanks."""
    kind, *names = rests
    return READINGS[kind](bus, edge, *names)


def since(number):
    return f" since {number}" if number else ""


def of_wire(bus, segment):
    """A wire, its state, and since when it has that."""
    driver, wire = segment
    low = bus.is_low(segment)
    state = (f"on {bus.on[driver]}" if low else "off") if wire == "addr" else "low" if low else "high"
    return f"{name_of(driver)} {wire} {state}{since(bus.moved.get(segment))}"


def own(bus, edge, *wires):
    """The own wires of these names; one that the board does not have is not told."""
    return [of_wire(bus, (edge.driver, wire)) for wire in wires if not bus.plan.missing(edge.driver, wire)]


def input_of_chain(bus, edge, chain):
    """The output that feeds the own input."""
    feeder = bus.plan.feeders.get((edge.driver, chain))
    return [of_wire(bus, feeder)] if feeder else []


def lines(bus, edge, *wires):
    """Each driver that holds one of these lines low."""
    held = sorted((driver, place) for place, wire in enumerate(wires) for driver in bus.low[wire])
    return [of_wire(bus, (driver, wires[place])) for driver, place in held]


def interrupt_line(bus, edge):
    return [of_wire(bus, (slot, "irq")) for slot in sorted(bus.irq(edge.cycle.number))]


def shown(bus, edge, chain=None):
    """The address group that is on, and the last segment of a chain if it matters."""
    owner = bus.owner_of_cycle()
    groups = [] if owner is None else [of_wire(bus, (owner, "addr"))]
    return groups + ([of_wire(bus, bus.plan.last_segments[chain])] if chain else [])


def last_segment(bus, edge):
    return [of_wire(bus, bus.plan.last_segments[edge.wire])]


def requests(bus, edge):
    """Each board that asks, and the level last granted."""
    levels, (last, granted) = bus.plan.requesters, bus.last_grant
    asking = [f"{slot} br low level {levels[slot].level} since {bus.moved[slot, 'br']}" for slot in sorted(bus.low["br"])]
    return asking + [f"level last granted {last}{since(granted)}"]


def bus_clear(bus, edge):
    return lines(bus, edge, "bbsy") + lines(bus, edge, *GRANTS) + requests(bus, edge)


def pick(bus, edge):
    picked = bus.pick()
    return requests(bus, edge) + [f"pick {'none' if picked is None else picked}"]


def cycles(bus, edge):
    return [f"{edge.driver} cycles {bus.cycles(edge.driver)} of {bus.plan.requesters[edge.driver].burst}"]


def strobe(bus, edge):
    number = bus.strobe(edge.driver)
    return [f"{edge.driver} ds- at {number}"] if number else []


def pending(bus, edge):
    """The own interrupt request with its level, and what has served it."""
    interrupter = bus.plan.interrupters.get(edge.driver)
    return interrupt(bus, edge, f" level {interrupter.level}") if interrupter else []


def interrupt(bus, edge, level=""):
    slot = edge.driver
    is_low, served = slot in bus.low["irq"], bus.served(slot)
    request = f"{slot} irq {'low' if is_low else 'high'}{level}{since(bus.moved.get((slot, 'irq')))}"
    return [request] + ([f"{slot} served since {served}"] if is_low and served else [])


def nothing(bus, edge):
    return []


READINGS = {
    "own": own,
    "input": input_of_chain,
    "lines": lines,
    "interrupt line": interrupt_line,
    "shown": shown,
    "last segment": last_segment,
    "requests": requests,
    "bus clear": bus_clear,
    "pick": pick,
    "cycles": cycles,
    "strobe": strobe,
    "pending": pending,
    "service": interrupt,
    "nothing": nothing,
}
