"""`explain`: how each condition of an edge's rule stands, and what it rests on."""

from .bus import Bus
from .judging import beyond
from .readings import of_wire, readings
from .rules import GUARDS, SETTLING, name_of_rule
from .sources import marked
from .traces import GRANTS, name_of
from .verdicts import guard, hold, is_ok, refusal, settling, step, verdict_of


def explain(plan, trace, options, console):
    """Tells of edge N, or of the first that is refused; what stands after it is not judged."""
    bus = Bus(plan, trace.version)
    number, edge = asked_edge(bus, trace, options.get("--edge"))
    if edge is None:
        console.write(f"legal {number}\n")
        return 0
    verdict = verdict_of(bus, edge)
    console.write("\n".join([f"{number} {edge} {verdict}", *conditions(bus, edge), ""]))
    return 0 if is_ok(verdict) else 2


def asked_edge(bus, trace, wanted):
    """The edge of the number that is wanted, or the first that is refused, after its number; the bus is brought to just
    before it. If no edge is refused, the number of all edges, and None."""
    number = 0
    for number, edge in enumerate(trace, 1):
        if number == wanted or wanted is None and refusal(bus, edge):
            return number, edge
        step(bus, edge, number)
    if wanted is not None:
        raise beyond(number)
    return number, None


def fails(bus, edge):
    """The conditions of an edge that fail, as `explain` prints them."""
    return [it for it in conditions(bus, edge) if it.startswith("fails ")]


def conditions(bus, edge):
    """The lines of the conditions: that of E1 or E2 alone, those of the guard, and then those of what comes after it."""
    absent, verdict = bus.plan.missing(edge.driver, edge.wire), refusal(bus, edge)
    if absent:
        yield f"fails {absent}"
    elif verdict == "E2":
        yield f"fails {name_of(edge.driver)} {edge.wire} is {state_before(edge)}"
        yield "    " + of_wire(bus, (edge.driver, edge.wire))
    else:
        yield from told(bus, edge, GUARDS, guard(bus, edge))
        if hold(guard(bus, edge)):
            yield from told(bus, edge, SETTLING, settling(bus, edge))
        if verdict == "E5":
            yield "fails the trace has room"


def state_before(edge):
    """The state from which an edge has to come."""
    if edge.wire == "addr":
        return "off" if edge.falls else "on"
    return "high" if edge.falls else "low"


def told(bus, edge, rules, some):
    """Each of some conditions of the edge's rule, and below it what it rests on."""
    for name, holds, rests in some:
        mark = marked(name_of_rule(rules[edge.wire, edge.falls]), name)
        yield ("holds " if holds else "fails ") + with_level(name, bus, edge) + mark
        yield from ("    " + it for it in readings(bus, edge, rests))


def with_level(name, bus, edge):
    """A condition's name with the level in the place of N: that of the edge, or of what is shown."""
    level = GRANTS.index(edge.wire) if edge.wire in GRANTS else edge.cycle.number if edge.cycle else bus.acknowledge()
    return name.replace("level N", f"level {level}").replace("IRQN*", f"IRQ{level}*")
