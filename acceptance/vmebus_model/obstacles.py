"""Obstacles: what stands in the way of each driver of a change that nobody may have made.

Each kind of change has its conditions, those of the standard first and the profile's behind them.  A condition cuts the record:
what is left are the standings in which it holds, too.  The first that leaves none is the one that is told.
"""

from typing import NamedTuple

from .captures import LINES, Wire
from .standings import HIGH, IACK, PENDING, SERVED, kind_of, may_show
from .traces import GRANTS, name_of


PICK = "the arbiter picks level {}"
PICKS = frozenset(map(PICK.format, range(4)))


class Condition(NamedTuple):
    """A condition: its rule, its text, whether it is the profile's, and the record in which it holds, None if there is none."""

    rule: str
    text: str
    is_profile: bool
    record: object


def standard(rule, text, record, holds=True):
    return Condition(rule, text, False, record if holds else None)


def profile(rule, text, record, holds=True):
    return Condition(rule, text, True, record if holds else None)


def in_phases(record, holds):
    """The record with those of its phases of which something holds, None if there are none."""
    record = record.in_phases(holds)
    return record if record.phases else None


def at_fronts(record, holds):
    """The record with those of its fronts of which something holds, None if there are none."""
    record = record._replace(fronts=frozenset(filter(holds, record.fronts)))
    return record if record.fronts else None


# Each takes the record with its hidden moves made, the change, and the driver.  A condition is taken only if those before hold.


def br_falls(probed, record, change, own):
    yield profile("G9", "own bbsy is high", in_phases(record, lambda it: probed.holder(it) != own))


def br_rises(probed, record, change, own):
    if probed.version == 1:
        yield profile("G10", "own bbsy is low", in_phases(record, lambda it: probed.holder(it) == own))


def irq_falls(probed, record, change, own):
    return ()


def irq_rises(probed, record, change, own):
    place = probed.interrupters.index(own)
    record = probed.narrowed(record, place, {PENDING, SERVED})
    yield standard("E2", f"{own} irq is low", record)
    record = probed.narrowed(record, place, {SERVED})
    way = "an acknowledge" if probed.plan.interrupters[own].is_roak else "an access"
    yield standard("G22", f"the request was served by {way}", record)
    for other in probed.places_of(change.of):
        record = record if other == place else record and probed.narrowed(record, other, {HIGH})
    yield standard("line", "no other irq is low", record)


def bbsy_falls(probed, record, change, own):
    own_in, own_out = around(probed, own)
    record = in_phases(record, lambda it: it.is_low(own_in))
    yield standard("G13", "own grant-in is low", record)
    record = in_phases(record, lambda it: not it.is_low(own_out))
    yield profile("G13", "own bgout is high", record)
    yield profile("G13", "own br is low", record, probed.plan.requesters[own].level in probed.requested(record))


def bbsy_rises(probed, record, change, own):
    record = in_phases(record, lambda it: probed.holder(it) == own)
    yield standard("E2", f"{own} bbsy is low", record)
    if probed.plan.requesters[own].is_ror:
        yield standard("G14", "some BR line is low", record, probed.requested(record))
    own_in, _ = around(probed, own)
    yield profile("G14", "own grant-in is high", in_phases(record, lambda it: not it.is_low(own_in)))


def around(probed, own):
    """The wires of the own grant-in and of the own bgout."""
    chain = GRANTS[probed.plan.requesters[own].level]
    place = probed.workers[chain].index(own)
    return Wire(chain, place), Wire(chain, place + 1)


def as_falls(probed, record, change, own):
    record = in_phases(record, lambda it: probed.holder(it) == own)
    yield standard("G15", "own bbsy is low", record)
    if change.cycle.is_acknowledge:
        yield standard("G15", f"the board handles level {change.cycle.number}", record, may_show(probed, own, change.cycle))
    is_high = not any(it.chain == IACK and it in record.low for it in probed.wires)
    yield standard("S1", "iack and every iackout are high", record, is_high)


def as_rises(probed, record, change, own):
    yield standard("E2", f"{own} as is low", record, own in record.addressers)
    yield profile("G19", "own ds is high", record, not record.is_low("DS"))
    yield profile("G19", "an own ds- in this cycle", record, record.is_strobed)


def ds_falls(probed, record, change, own):
    yield standard("G17", "own as is low", record, own in record.addressers)
    yield standard("G17", "DTACK* is high", record, not record.is_low("DTACK"))
    yield standard("G17", "BERR* is high", record, not record.is_low("BERR"))
    yield profile("G17", "no own ds- in this cycle", record, not record.is_strobed)


def ds_rises(probed, record, change, own):
    yield standard("E2", f"{own} ds is low", record, own in record.addressers)
    yield standard("G18", "DTACK* or BERR* is low", record, record.is_low("DTACK", "BERR"))


def dtack_falls(probed, record, change, own):
    yield standard("G25", "DS0* is low", record, record.is_low("DS"))
    if record.acknowledge() is not None:
        yield from acknowledge_answered(probed, record, change, own)
        return
    target = record.shown.number
    yield standard("G25", "the own slot is shown", record, target == own if target else not record.is_low("BERR"))
    if change.byte is not None:
        yield standard("status", "an acknowledge is shown", record, False)


def acknowledge_answered(probed, record, change, own):
    interrupter = probed.plan.interrupters.get(own)
    place = probed.interrupters.index(own) if interrupter else None
    record = at_fronts(record, lambda it: interrupter and it >= place)
    yield standard("G25", "own iackin is low", record)
    level = record.acknowledge()
    record = probed.narrowed(record, place, {PENDING}) if interrupter.level == level else None
    yield standard("G25", f"pending at level {level}", record)
    if change.byte is not None:
        yield standard("status", f"its byte is {change.byte}", record, interrupter.status == change.byte)
    yield profile("G25", "own iackout is high", at_fronts(record, lambda it: it == place))


def dtack_rises(probed, record, change, own):
    yield standard("E2", f"{own} dtack is low", record, own in record.answerers)
    yield standard("G26", "DS0* is high", record, not record.is_low("DS"))


def berr_falls(probed, record, change, own):
    yield standard("G7", "DS0* is low", record, record.is_low("DS"))
    yield standard("G7", "DTACK* is high", record, not record.is_low("DTACK"))
    yield standard("S2", "nobody can answer", nobody_answers(probed, record))


def nobody_answers(probed, record):
    if record.acknowledge() is not None:
        return at_fronts(record, lambda it: it == len(probed.interrupters))
    boards, target = probed.plan.boards, record.shown.number
    return record if (target not in boards if target else len(boards) < 21) else None


def berr_rises(probed, record, change, own):
    yield standard("G8", "DS0* is high", record, not record.is_low("DS"))


def bclr_falls(probed, record, change, own):
    yield standard("G3", "BBSY* is low", record, record.is_low("BBSY"))
    record = in_phases(record, lambda it: probed.is_asked_above(record, it))
    yield standard("G3", "a request above the level last granted is low", record)
    yield profile("G3", "the arbiter is PRI", record, probed.plan.arbiter == "pri")
    yield profile("G3", "all four grants are high", in_phases(record, are_grants_high))


def are_grants_high(phase):
    return phase.first > 0 or phase.first > phase.last


def bclr_rises(probed, record, change, own):
    yield profile("G4", "bus clear is not due", in_phases(record, lambda it: not probed.is_clear_due(record, it)))


def grant_falls(probed, record, change, own):
    level = GRANTS.index(change.of.chain)
    yield standard("G1", "BBSY* is high", record, not record.is_low("BBSY"))
    record = in_phases(record, lambda it: probed.picks(record, it) == level)
    yield profile("G1", PICK.format(level), record)
    record = in_phases(record, are_grants_high)
    yield profile("G1", "all four grants are high", record)
    if probed.version == 2:
        yield profile("S4", "every bgout is high", in_phases(record, lambda it: it.first > it.last))


def bgout_falls(probed, record, change, own):
    own_in, own_out = around(probed, own)
    record = in_phases(record, lambda it: it.is_low(own_in))
    yield standard("G11", "own grant-in is low", record)
    record = in_phases(record, lambda it: probed.holder(it) != own)
    yield standard("G11", "own bbsy is high", record)
    is_last = own_out.segment == len(probed.workers[own_out.chain])
    yield standard("G11", "own br is high", record, probed.version == 2 or not is_last)


def grant_rises(probed, record, change, own):
    if probed.version == 1:
        yield standard("G2", "BBSY* is low", record, record.is_low("BBSY"))
        return
    last = Wire(change.of.chain, len(probed.workers[change.of.chain]))
    passed = in_phases(record, lambda it: it.kind == "held" or it.is_low(last))
    yield profile("S3", "the grant has passed the last board", passed)


def bgout_rises(probed, record, change, own):
    own_in, _ = around(probed, own)
    yield standard("G12", "own grant-in is high", in_phases(record, lambda it: not it.is_low(own_in)))


def iack_falls(probed, record, change, own):
    yield standard("G5", "AS* is low", record, record.shown)
    yield standard("G5", "DS0* is low", record, record.is_low("DS"))
    yield standard("G5", "an acknowledge is shown", record, record.acknowledge() is not None)


def iackout_falls(probed, record, change, own):
    level, place = record.acknowledge(), change.of.segment - 1
    yield standard("G23", "DS0* is low", record, record.is_low("DS"))
    yield standard("G23", "an acknowledge is shown", record, level is not None)
    record = at_fronts(record, lambda it: it >= place)
    yield standard("G23", "own iackin is low", record)
    yield standard("G23", "own dtack is high", record, not record.is_low("DTACK"))
    yield standard("G23", f"not pending at level {level}", probed.passes(record, place))


def iack_rises(probed, record, change, own):
    yield standard("G24" if change.of.segment else "G6", "AS* is high", record, not record.shown)


CONDITIONS = {
    ("BR", True): br_falls, ("BR", False): br_rises, ("IRQ", True): irq_falls, ("IRQ", False): irq_rises,
    ("BBSY", True): bbsy_falls, ("BBSY", False): bbsy_rises, ("AS", True): as_falls, ("AS", False): as_rises,
    ("DS", True): ds_falls, ("DS", False): ds_rises, ("DTACK", True): dtack_falls, ("DTACK", False): dtack_rises,
    ("BERR", True): berr_falls, ("BERR", False): berr_rises, ("BCLR", True): bclr_falls, ("BCLR", False): bclr_rises,
    ("bg", True): grant_falls, ("bg", False): grant_rises, ("bgout", True): bgout_falls, ("bgout", False): bgout_rises,
    ("iack", True): iack_falls, ("iack", False): iack_rises, ("iackout", True): iackout_falls, ("iackout", False): iack_rises,
}


def conditions(probed, record, change, own):
    """The conditions of a change for one driver, up to the first that fails."""
    kind, falls = kind_of(change)
    is_output = change.of not in LINES and change.of.segment > 0
    for condition in CONDITIONS[kind + "out" if is_output else kind, falls](probed, record, change, own):
        yield condition
        if condition.record is None:
            return


def obstacle(probed, record, change, own):
    """The condition that stands in the way of a driver, None if none does."""
    return next((it for it in conditions(probed, record, change, own) if it.record is None), None)


def obstacles(probed, record, change):
    """The lines of what stands in the way of each driver of a change, and whether one breaks our rules alone."""
    lines, is_ours = [], False
    for own in probed.drivers_of(change.of):
        found = obstacle(probed, record, change, own)
        is_ours = is_ours or (found.is_profile and found.text not in PICKS)
        lines.append(f"    {name_of(own)} {found.rule} {found.text}" + (" (profile)" if found.is_profile else ""))
    return lines or ["    E1 no board has this line"], is_ours
