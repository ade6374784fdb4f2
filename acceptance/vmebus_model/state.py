"""`state`: where the bus stands after some edges."""

from .bus import Bus
from .judging import beyond, first
from .traces import ACCESSES, name_of
from .verdicts import open_edges, step


def state(plan, trace, options, console):
    """Tells how it is after the first N edges, or after all."""
    bus, wanted, number = Bus(plan, trace.version), options.get("--after"), 0
    for number, edge in enumerate(trace if wanted is None else first(trace, wanted), 1):
        step(bus, edge, number)
    if wanted is not None and number < wanted:
        raise beyond(number)
    console.write("".join(f"{line}\n" for line in lines(bus, number)))
    return 0


def lines(bus, number):
    yield f"after {number} accepted {bus.accepted}"
    owner, grant, master = bus.holder(), bus.board_at_grant(), bus.owner_of_cycle()
    yield f"holder {owner} since {bus.moved[owner, 'bbsy']}" if owner else "holder none"
    yield f"grant bg{bus.plan.requesters[grant].level} at {grant}" if grant else "grant none"
    yield f"shown {bus.shown()} by {master} since {bus.moved[master, 'addr']}" if master else "shown none"
    for slot in sorted(bus.low["br"]):
        yield f"asks {slot} level {bus.plan.requesters[slot].level} since {bus.moved[slot, 'br']}"
    for slot, interrupter in bus.plan.interrupters.items():
        if bus.is_pending(slot, interrupter.level):
            yield f"pending {slot} level {interrupter.level} since {bus.moved[slot, 'irq']}"
    yield from wires_that_are_low(bus)
    yield from open_lines(bus)


def wires_that_are_low(bus):
    """A line for each driver that holds some wire low, its address group left out."""
    for driver in bus.plan.drivers:
        low = [wire for wire in bus.plan.wires[driver] if wire != "addr" and bus.is_low((driver, wire))]
        if low:
            yield f"low {name_of(driver)} {', '.join(low)}"


def open_lines(bus):
    """A line for each driver with open edges; accesses, which are all open or none, are one of them."""
    for driver in bus.plan.drivers:
        edges = [edge for edge in open_edges(bus, driver) if edge.cycle not in ACCESSES[1:]]
        if edges:
            yield f"open {name_of(driver)} " + ", ".join(map(briefly, edges))


def briefly(edge):
    """An edge without its driver; the first access stands for all."""
    text = str(edge).partition(" ")[2]
    return text.replace("addr- r1", "addr- r1..r21")
