"""The rules: G1 to G26 and S1 to S4 in the order of docs/RULES.md, each the conditions that it asks for.

A condition is its name, whether it holds, and what it rests on (the readings of `explain`, see readings.py).  In a name N
stands for the level of the edge or of what is shown.  `own` is the driver of the edge.
"""

from .traces import GRANTS

# Arbiter and bus timer


def g1(bus, edge):
    """c bgN-: one grant at a time, to nobody while the bus has an owner."""
    yield "all four grants are high", not bus.grants(), ("lines", *GRANTS)
    yield "BBSY* is high", not bus.low["bbsy"], ("lines", "bbsy")
    yield "the arbiter picks level N", bus.pick() == level_of(edge), ("pick",)


def g2(bus, edge):
    """c bgN+: a grant stands until somebody has taken it; in version 2 see S3."""
    if bus.version == 1:
        yield "BBSY* is low", bool(bus.low["bbsy"]), ("lines", "bbsy")


def g3(bus, edge):
    """c bclr-: bus clear is due."""
    yield "the arbiter is PRI", bus.plan.arbiter == "pri", ("nothing",)
    yield "BBSY* is low", bool(bus.low["bbsy"]), ("lines", "bbsy")
    yield "all four grants are high", not bus.grants(), ("lines", *GRANTS)
    yield "a request above the level last granted is low", bus.is_asked_above(), ("requests",)


def g4(bus, edge):
    """c bclr+: bus clear is not due."""
    yield "bus clear is not due", not bus.is_clear_due(), ("bus clear",)


def g5(bus, edge):
    """c iack-: starts the IACK chain of this acknowledge."""
    yield "AS* is low", bool(bus.low["as"]), ("lines", "as")
    yield "DS0* is low", bool(bus.low["ds"]), ("lines", "ds")
    yield "an acknowledge is shown", bus.acknowledge() is not None, ("shown",)


def g6(bus, edge):
    """c iack+: the chain stays low as long as the cycle."""
    yield "AS* is high", not bus.low["as"], ("lines", "as")


def g7(bus, edge):
    """c berr-: ends a cycle that nobody answers; then S2."""
    yield "DS0* is low", bool(bus.low["ds"]), ("lines", "ds")
    yield "DTACK* is high", not bus.low["dtack"], ("lines", "dtack")


def g8(bus, edge):
    """c berr+: the error stands until the master has seen it."""
    yield "DS0* is high", not bus.low["ds"], ("lines", "ds")


# Requester


def g9(bus, edge):
    """br-: the owner asks for nothing it has."""
    yield "own bbsy is high", edge.driver not in bus.low["bbsy"], ("own", "bbsy")


def g10(bus, edge):
    """br+: a request stays until it is met; in version 2 it may be withdrawn."""
    if bus.version == 1:
        yield "own bbsy is low", edge.driver in bus.low["bbsy"], ("own", "bbsy")


def g11(bus, edge):
    """bgout-: a board that does not want the grant hands it on."""
    yield "own grant-in is low", bus.grant_in(edge.driver), ("input", "bg")
    yield "own br is high", edge.driver not in bus.low["br"], ("own", "br")
    yield "own bbsy is high", edge.driver not in bus.low["bbsy"], ("own", "bbsy")


def g12(bus, edge):
    """bgout+: the chain rises from its beginning on."""
    yield "own grant-in is high", not bus.grant_in(edge.driver), ("input", "bg")


def g13(bus, edge):
    """bbsy-: the first board that asks and is reached takes the bus."""
    yield "own grant-in is low", bus.grant_in(edge.driver), ("input", "bg")
    yield "own bgout is high", edge.driver not in bus.low["bgout"], ("own", "bgout")
    yield "own br is low", edge.driver in bus.low["br"], ("own", "br")


def g14(bus, edge):
    """bbsy+: no old grant is left over, the last transfer has begun; ROR waits until somebody asks."""
    own = edge.driver
    yield "own br is high", own not in bus.low["br"], ("own", "br")
    yield "own grant-in is high", not bus.grant_in(own), ("input", "bg")
    yield "own addr is off or own as is low", own not in bus.low["addr"] or own in bus.low["as"], ("own", "addr", "as")
    if bus.plan.requesters[own].is_ror:
        yield "some BR line is low", bool(bus.low["br"]), ("lines", "br")


# Master


def g15(bus, edge):
    """addr- v: the owner begins a cycle; RWD within its burst, and an acknowledge only of what is asked of it."""
    own = edge.driver
    requester = bus.plan.requesters[own]
    yield "own bbsy is low", own in bus.low["bbsy"], ("own", "bbsy")
    yield "AS* is high", not bus.low["as"], ("lines", "as")
    if not requester.is_ror:
        yield "fewer cycles than the burst", bus.cycles(own) < requester.burst, ("cycles",)
    if edge.cycle.is_acknowledge:
        yield "the board handles level N", edge.cycle.number in bus.plan.boards[own].handler, ("nothing",)
        yield "IRQN* is low", bool(bus.irq(edge.cycle.number)), ("interrupt line",)


def g16(bus, edge):
    """as-: a strobe says that the address is good; then S1."""
    yield "own addr is on", edge.driver in bus.low["addr"], ("own", "addr")
    yield "AS* is high", not bus.low["as"], ("lines", "as")


def g17(bus, edge):
    """ds-: no strobe while the last answer is still there, and one a cycle."""
    yield "own as is low", edge.driver in bus.low["as"], ("own", "as")
    yield "own addr is on", edge.driver in bus.low["addr"], ("own", "addr")
    yield "DTACK* is high", not bus.low["dtack"], ("lines", "dtack")
    yield "BERR* is high", not bus.low["berr"], ("lines", "berr")
    yield "no own ds- in this cycle", bus.strobe(edge.driver) is None, ("strobe",)


def g18(bus, edge):
    """ds+: the strobe stands until it is answered."""
    yield "DTACK* or BERR* is low", bool(bus.low["dtack"] or bus.low["berr"]), ("lines", "berr", "dtack")


def g19(bus, edge):
    """addr+: the address leaves once its one transfer is over."""
    yield "own as is low", edge.driver in bus.low["as"], ("own", "as")
    yield "own ds is high", edge.driver not in bus.low["ds"], ("own", "ds")
    yield "an own ds- in this cycle", bus.strobe(edge.driver) is not None, ("strobe",)


def g20(bus, edge):
    """as+: the address is gone before others may drive theirs."""
    yield "own addr is off", edge.driver not in bus.low["addr"], ("own", "addr")


# Interrupter and answers


def g21(bus, edge):
    """irq-: an interrupt may come at any time."""
    return ()


def g22(bus, edge):
    """irq+: the request stands until it was served in its own way."""
    way = "an acknowledge" if bus.plan.interrupters[edge.driver].is_roak else "an access"
    yield f"the request was served by {way}", bus.served(edge.driver) is not None, ("service",)


def g23(bus, edge):
    """iackout-: a board with nothing to say at this level hands the acknowledge on."""
    level = bus.acknowledge()
    yield "own iackin is low", bus.iackin(edge.driver), ("input", "iack")
    yield "own dtack is high", edge.driver not in bus.low["dtack"], ("own", "dtack")
    yield "DS0* is low", bool(bus.low["ds"]), ("lines", "ds")
    if level is None:
        yield "an acknowledge is shown", False, ("shown",)
    else:
        yield "not pending at level N", not bus.is_pending(edge.driver, level), ("pending",)


def g24(bus, edge):
    """iackout+: the chain stays low as long as the cycle."""
    yield "AS* is high", not bus.low["as"], ("lines", "as")


def g25(bus, edge):
    """dtack-: the first pending board that is reached answers an acknowledge, a register an access to its slot."""
    own, level = edge.driver, bus.acknowledge()
    yield "DS0* is low", bool(bus.low["ds"]), ("lines", "ds")
    yield "AS* is low", bool(bus.low["as"]), ("lines", "as")
    if level is not None:
        yield "own iackin is low", bus.iackin(own), ("input", "iack")
        yield "own iackout is high", own not in bus.low["iackout"], ("own", "iackout")
        yield "pending at level N", bus.is_pending(own, level), ("pending",)
    elif bus.access() is not None:
        yield "the own slot is shown", bus.access() == own, ("shown",)
    else:
        yield "a cycle is shown", False, ("shown",)


def g26(bus, edge):
    """dtack+: the answer stands until the master has seen it."""
    yield "DS0* is high", not bus.low["ds"], ("lines", "ds")


# Settling rules


def s1(bus, edge):
    """as-: no cycle begins before the IACK chain of the last one is high again."""
    yield "iack and every iackout are high", not bus.low["iack"] and not bus.low["iackout"], ("lines", "iack", "iackout")


def s2(bus, edge):
    """c berr-: the bus timer is longer than any board is slow."""
    if bus.acknowledge() is not None:
        yield "nobody can answer", bus.is_low(bus.plan.last_segments["iack"]), ("shown", "iack")
    else:
        yield "nobody can answer", bus.access() is not None and bus.access() not in bus.plan.boards, ("shown",)


def s3(bus, edge):
    """c bgN+ with BBSY* high, version 2: a grant times out only when every board has passed it."""
    if bus.version == 2 and not bus.low["bbsy"]:
        yield "the grant has passed the last board", bus.is_low(bus.plan.last_segments[edge.wire]), ("last segment",)


def s4(bus, edge):
    """c bgN-, version 2: a new grant does not follow an old one that is still rising."""
    if bus.version == 2:
        yield "every bgout is high", not bus.low["bgout"], ("lines", "bgout")


# Which rule an edge has, by its wire and its direction

GUARDS = {
    ("bg", True): g1, ("bg", False): g2, ("bclr", True): g3, ("bclr", False): g4, ("iack", True): g5, ("iack", False): g6,
    ("berr", True): g7, ("berr", False): g8, ("br", True): g9, ("br", False): g10, ("bgout", True): g11, ("bgout", False): g12,
    ("bbsy", True): g13, ("bbsy", False): g14, ("addr", True): g15, ("as", True): g16, ("ds", True): g17, ("ds", False): g18,
    ("addr", False): g19, ("as", False): g20, ("irq", True): g21, ("irq", False): g22, ("iackout", True): g23,
    ("iackout", False): g24, ("dtack", True): g25, ("dtack", False): g26,
}
GUARDS.update({(wire, falls): GUARDS["bg", falls] for wire in GRANTS for falls in (True, False)})
SETTLING = {("as", True): s1, ("berr", True): s2, **{(it, False): s3 for it in GRANTS}, **{(it, True): s4 for it in GRANTS}}


def level_of(edge):
    """The N of a grant `bgN`."""
    return GRANTS.index(edge.wire)


def name_of_rule(rule):
    """A rule as verdicts have it, as G13."""
    return rule.__name__.upper()
