"""The events that `summary` counts and `drive --until` waits for: accepted edges in a certain situation."""

EVENTS = (
    "grant-passed", "late-request", "overtaken", "early-release", "overlap", "full-burst", "bus-clear", "rivals", "delivery",
    "iack-passed", "answered-again", "spurious", "bus-error", "withdrawn", "grant-timeout",
)
OF_VERSION_2 = ("withdrawn", "grant-timeout")


def events_of(bus, edge):
    """The events that an edge brings; the bus is as it is just before the edge, which is accepted."""
    situations = SITUATIONS.get((edge.wire.rstrip("0123"), edge.falls))
    return [name for name, comes in situations(bus, edge.driver) if comes] if situations else []


def passes_grant(bus, own):
    yield "grant-passed", True


def asks(bus, own):
    yield "late-request", own in bus.low["bgout"] and not bus.low["bbsy"]


def takes(bus, own):
    asked = bus.last_fall(own, "br")
    yield "overtaken", any(bus.last_fall(slot, "br") < asked for slot in bus.low["br"])
    yield "overlap", bool(bus.low["as"])


def releases(bus, own):
    yield "early-release", own in bus.low["as"]


def begins_cycle(bus, own):
    requester = bus.plan.requesters[own]
    yield "full-burst", not requester.is_ror and 1 < requester.burst == bus.cycles(own) + 1


def clears(bus, own):
    yield "bus-clear", True


def interrupts(bus, own):
    level = bus.plan.interrupters[own].level
    yield "rivals", any(bus.is_pending(slot, level) for slot in bus.plan.interrupters if slot != own)


def answers(bus, own):
    delivers = bus.acknowledge() is not None
    yield "delivery", delivers
    yield "answered-again", delivers and any(it > bus.last_fall(own, "irq") for it in bus.answers[own, True][-1:])


def passes_acknowledge(bus, own):
    yield "iack-passed", True


def times_out(bus, own):
    yield "spurious", bus.acknowledge() is not None
    yield "bus-error", bus.access() is not None


def withdraws(bus, own):
    yield "withdrawn", own not in bus.low["bbsy"]


def ends_grant(bus, own):
    yield "grant-timeout", not bus.low["bbsy"]


SITUATIONS = {
    ("bgout", True): passes_grant, ("br", True): asks, ("bbsy", True): takes, ("bbsy", False): releases,
    ("as", True): begins_cycle, ("bclr", True): clears, ("irq", True): interrupts, ("dtack", True): answers,
    ("iackout", True): passes_acknowledge, ("berr", True): times_out, ("br", False): withdraws, ("bg", False): ends_grant,
}
