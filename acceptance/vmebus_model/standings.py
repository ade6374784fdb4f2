"""Standings: what can be known of the bus by the changes of a capture.

A *standing* is one way in which the bus can stand.  A record holds a set of standings by parts: each part is a set of its own,
and all combinations count.  So it may hold a standing too many, and never one too few.
"""

from typing import FrozenSet, NamedTuple, Optional, Tuple

from .backplane import CHAINS
from .bus import picked
from .captures import LINES, REQUESTS, Wire, workers
from .traces import CONTROLLER, GRANTS, Cycle

HIGH, PENDING, SERVED = "H", "P", "S"
IACK = "iack"


class Phase(NamedTuple):
    """How the grants and BBSY* stand: the level last granted, which of its chain's segments are low, and who holds the bus.

    The low segments are `first` to `last`; there are none if `first` is above `last`.
    """

    kind: str
    level: int
    first: int = 0
    last: int = -1

    def is_low(self, wire):
        return wire.chain == GRANTS[self.level] and self.first <= wire.segment <= self.last


def idle(level):
    """No grant, and nobody holds the bus."""
    return Phase("idle", level)


def granting(level, passed):
    """A grant that so many boards have passed."""
    return Phase("granting", level, 0, passed)


def held(level, board, first):
    """A board of the chain, counted from 0, holds the bus; the segments from the first to the one before the board are low."""
    return Phase("held", level, first, board)


def expired(level, first, count):
    """Version 2: nobody took the grant, and it goes up again; behind its last segment the bus is idle."""
    return Phase("expired", level, first, count) if first <= count else idle(level)


class Record(NamedTuple):
    """What can be known of the bus: each part is a set, but for what a probe sees."""

    low: FrozenSet  # the lines and the probed wires that are low
    shown: Optional[Cycle]  # what AS* fell with, None while it is high
    is_strobed: bool  # whether DS* has fallen since AS* fell
    phases: FrozenSet[Phase]
    addressers: FrozenSet[int]  # who may drive AS* and DS*
    answerers: FrozenSet[int]  # who may drive DTACK*
    fronts: FrozenSet[int]  # how many interrupters may have passed the acknowledge, -1 while it has not begun
    requests: Tuple[FrozenSet[str], ...]  # how the interrupt request of each interrupter may stand

    def is_low(self, *of):
        return any(it in self.low for it in of)

    def in_phases(self, holds):
        """The standings of those phases of which something holds."""
        return self._replace(phases=frozenset(filter(holds, self.phases)))

    def with_request(self, place, states):
        """The same with another set of states for one interrupter."""
        return self._replace(requests=self.requests[:place] + (frozenset(states),) + self.requests[place + 1 :])

    def acknowledge(self):
        """The level of the acknowledge that is shown, None while none is."""
        return self.shown.number if self.shown and self.shown.is_acknowledge else None


class Probed:
    """A backplane, the version of its rules, and which wires of its chains a probe sees."""

    def __init__(self, plan, version, wires):
        self.plan, self.version, self.wires = plan, version, frozenset(wires)
        self.workers = {chain: workers(plan, chain) for chain in CHAINS}
        self.interrupters = self.workers[IACK]
        self.levels = [plan.interrupters[slot].level for slot in self.interrupters]
        self.chains = [(level, self.workers[chain]) for level, chain in enumerate(GRANTS) if self.workers[chain]]

    # Boards

    def boards_of(self, line):
        """The boards that have a request line or an interrupt request line."""
        if line in REQUESTS:
            return self.workers[GRANTS[REQUESTS.index(line)]]
        return [slot for slot, level in zip(self.interrupters, self.levels) if line == f"IRQ{level}"]

    def drivers_of(self, of):
        """The boards that have a line, or the driver of a wire."""
        if isinstance(of, Wire):
            return [self.workers[of.chain][of.segment - 1] if of.segment else CONTROLLER]
        if of in ("BERR", "BCLR"):
            return [CONTROLLER]
        if of in ("BBSY", "AS", "DS"):
            return list(self.plan.requesters)
        return list(self.plan.boards) if of == "DTACK" else self.boards_of(of)

    def places_of(self, line):
        """The places of the interrupters of a line, among all interrupters."""
        return [place for place, level in enumerate(self.levels) if line == f"IRQ{level}"]

    def holder(self, phase):
        """The board that holds the bus, None if none does."""
        return self.workers[GRANTS[phase.level]][phase.last] if phase.kind == "held" else None

    def holders(self, record):
        return frozenset(self.holder(it) for it in record.phases) - {None}

    def board_at(self, phase):
        """The board at which a grant stands, None if none stands at a board."""
        chain = self.workers[GRANTS[phase.level]]
        return chain[phase.last] if phase.kind == "granting" and phase.last < len(chain) else None

    def requested(self, record):
        """The levels of the request lines that are low."""
        return {level for level, line in enumerate(REQUESTS) if line in record.low}

    def picks(self, record, phase):
        """The level that the arbiter picks in a phase."""
        return picked(self.plan.arbiter, self.requested(record), phase.level)

    def is_asked_above(self, record, phase):
        """Whether a request above the level last granted is low."""
        return max(self.requested(record), default=0) > phase.level

    def is_clear_due(self, record, phase):
        is_taken = phase.kind == "held" and phase.first > 0
        return self.plan.arbiter == "pri" and is_taken and self.is_asked_above(record, phase)

    # Interrupt requests

    def narrowed(self, record, place, states):
        """The record in which the request of an interrupter is in one of some states, None if it holds no such standing."""
        narrow = record.with_request(place, record.requests[place] & set(states))
        line = f"IRQ{self.levels[place]}"
        is_pulled = any(narrow.requests[it] & {PENDING, SERVED} for it in self.places_of(line))
        return narrow if narrow.requests[place] and (is_pulled or line not in record.low) else None

    def passes(self, record, place):
        """The record in which an interrupter passes the acknowledge on that is shown, None if it may not."""
        is_asked = self.levels[place] == record.acknowledge()
        return self.narrowed(record, place, {HIGH, SERVED}) if is_asked else record

    def answering(self, record, byte):
        """The places of the interrupters that may answer the acknowledge that is shown."""
        return [place for place in sorted(record.fronts) if self.may_answer(record, place, byte)]

    def may_answer(self, record, place, byte):
        if not 0 <= place < len(self.interrupters):
            return False
        is_asked = self.levels[place] == record.acknowledge() and PENDING in record.requests[place]
        return is_asked and byte in (None, self.plan.interrupters[self.interrupters[place]].status)

    # The beginning

    def phases(self):
        """All phases there are."""
        yield from map(idle, range(4))
        for level, chain in self.chains:
            count = len(chain)
            yield from (granting(level, passed) for passed in range(count + self.version - 1))
            yield from (held(level, board, first) for board in range(count) for first in range(board + 2))
            yield from (expired(level, first, count) for first in range(1, count + 1) if self.version == 2)

    def at_power_up(self):
        requests = (frozenset({HIGH}),) * len(self.interrupters)
        nobody = frozenset()
        return Record(nobody, None, False, frozenset({idle(0)}), nobody, nobody, nobody, requests)

    def running(self, low):
        """The record of a bus that is running while these lines and wires are low, None if no legal bus has these levels."""
        record = self.at_power_up()._replace(low=frozenset(low), phases=frozenset(self.phases()))
        record = record.in_phases(lambda phase: self.can_be(record, phase))
        is_driven = all(self.drivers_of(it) for it in record.low)
        is_answered_twice = {"DTACK", "BERR"} <= record.low
        if not record.phases or is_answered_twice or not is_driven or (record.is_low("BCLR") and self.plan.arbiter != "pri"):
            return None
        answerers = frozenset(self.plan.boards) if record.is_low("DTACK") else frozenset()
        return record._replace(answerers=answerers, requests=tuple(map(self.request_of(record), range(len(self.levels)))))

    def can_be(self, record, phase):
        """Whether a phase shows the levels of BBSY* and of the probed wires, and a grant of version 1 its request."""
        is_requested = phase.kind != "granting" or self.version == 2 or phase.level in self.requested(record)
        is_as_seen = all(phase.is_low(it) == (it in record.low) for it in self.wires if it.chain != IACK)
        return (phase.kind == "held") == record.is_low("BBSY") and is_as_seen and is_requested

    def request_of(self, record):
        """How the interrupt request of an interrupter may stand, by its place, on a bus that is running."""

        def states(place):
            line = f"IRQ{self.levels[place]}"
            if line not in record.low:
                return frozenset({HIGH})
            is_alone = len(self.places_of(line)) == 1
            return frozenset({PENDING, SERVED} if is_alone else {HIGH, PENDING, SERVED})

        return states

    # Edges that no probe sees

    def with_hidden(self, record):
        """The record behind any edges that no probe sees."""
        record = record._replace(requests=tuple(self.requests_behind(record)))
        record = record._replace(phases=closed(record.phases, lambda it: self.phases_behind(record, it)))
        return record._replace(fronts=closed(record.fronts, lambda it: self.fronts_behind(record, it)))

    def requests_behind(self, record):
        """How the requests may stand: one that is served may rise under another of its line, and fall again."""
        for place, states in enumerate(record.requests):
            line = f"IRQ{self.levels[place]}"
            if line in record.low:
                has_others = len(self.places_of(line)) > 1
                states = states | ({HIGH} if SERVED in states and has_others else set())
                states = states | ({PENDING} if HIGH in states else set())
            yield states

    def is_unseen(self, chain, segment):
        return Wire(chain, segment) not in self.wires

    def phases_behind(self, record, phase):
        """The phases to which one edge of a grant's chain leads that no probe sees."""
        if phase.kind == "idle":
            level = self.picks(record, phase)
            if level is not None and self.is_unseen(GRANTS[level], 0):
                yield granting(level, 0)
            return
        chain, count = GRANTS[phase.level], len(self.workers[GRANTS[phase.level]])
        if phase.kind == "granting":
            if phase.last + 1 < count + self.version - 1 and self.is_unseen(chain, phase.last + 1):
                yield granting(phase.level, phase.last + 1)
            if phase.last == count and self.is_unseen(chain, 0):
                yield expired(phase.level, 1, count)
        elif phase.first <= phase.last and self.is_unseen(chain, phase.first):
            yield risen(phase)

    def fronts_behind(self, record, front):
        """How far the acknowledge comes by one edge of its chain that no probe sees."""
        is_under_way = record.acknowledge() is not None and record.is_low("DS") and not record.is_low("DTACK")
        if not is_under_way or front == len(self.interrupters) or not self.is_unseen(IACK, front + 1):
            return
        if front == -1 or self.passes(record, front):
            yield front + 1


def risen(phase):
    """A phase in which the first of its low segments has risen."""
    if phase.kind == "expired":
        return expired(phase.level, phase.first + 1, phase.last)
    return phase._replace(first=phase.first + 1)


def closed(begin, behind):
    """A set with all that is behind one of its members."""
    found, waiting = set(begin), list(begin)
    while waiting:
        new = set(behind(waiting.pop())) - found
        found |= new
        waiting += new
    return frozenset(found)


# How the record goes on by each kind of change: who may have made it, and the record behind it, levels aside.  The record has
# its hidden moves made.  Where nobody may have made it, what is behind it counts for nothing.


def br_falls(probed, record, change):
    able = {slot for slot in probed.boards_of(change.of) if any(probed.holder(it) != slot for it in record.phases)}
    return able, record.in_phases(lambda it: len(able) > 1 or probed.holder(it) not in able)


def br_rises(probed, record, change):
    boards = set(probed.boards_of(change.of))
    if probed.version == 2:
        return boards, record
    record = record.in_phases(lambda it: probed.holder(it) in boards)
    return probed.holders(record), record


def irq_falls(probed, record, change):
    places = probed.places_of(change.of)
    states = {PENDING} if len(places) == 1 else {HIGH, PENDING}
    for place in places:
        record = record.with_request(place, states)
    return set(probed.boards_of(change.of)), record


def irq_rises(probed, record, change):
    places = probed.places_of(change.of)
    others_high = {place: all(HIGH in record.requests[it] for it in places if it != place) for place in places}
    able = {probed.interrupters[it] for it in places if SERVED in record.requests[it] and others_high[it]}
    for place in places:
        record = record.with_request(place, {HIGH})
    return able, record


def bbsy_falls(probed, record, change):
    asked = probed.requested(record)
    record = record.in_phases(lambda it: probed.board_at(it) is not None and it.level in asked)
    takers = {probed.board_at(it) for it in record.phases}
    return takers, record._replace(phases=frozenset(held(it.level, it.last, 0) for it in record.phases))


def bbsy_rises(probed, record, change):
    def may_end(phase):
        requester = probed.plan.requesters.get(probed.holder(phase))
        return phase.first > phase.last and requester and (not requester.is_ror or probed.requested(record))

    record = record.in_phases(may_end)
    return probed.holders(record), record._replace(phases=frozenset(idle(it.level) for it in record.phases))


def as_falls(probed, record, change):
    if any(it.chain == IACK and it in record.low for it in probed.wires):
        return set(), record
    able = {slot for slot in probed.holders(record) if may_show(probed, slot, change.cycle)}
    record = record.in_phases(lambda it: probed.holder(it) in able)
    return able, record._replace(shown=change.cycle, is_strobed=False, addressers=frozenset(able), fronts=frozenset({-1}))


def may_show(probed, slot, cycle):
    """Whether a board can show a cycle: an acknowledge if it handles that level."""
    return not cycle.is_acknowledge or cycle.number in probed.plan.boards[slot].handler


def as_rises(probed, record, change):
    able = record.addressers if record.is_strobed and not record.is_low("DS") else ()
    return set(able), record._replace(shown=None, addressers=frozenset(), fronts=frozenset())


def ds_falls(probed, record, change):
    may = record.shown and not record.is_low("DTACK", "BERR") and not record.is_strobed
    return set(record.addressers if may else ()), record._replace(is_strobed=True)


def ds_rises(probed, record, change):
    return set(record.addressers if record.is_low("DTACK", "BERR") else ()), record


def dtack_falls(probed, record, change):
    if not record.is_low("DS"):
        return set(), record
    if record.acknowledge() is not None:
        return acknowledge_answered(probed, record, change)
    if change.byte is not None:
        return set(), record
    if record.shown.number is None and len(probed.plan.boards) > 1:
        return any_access_answered(probed, record)
    return access_answered(probed, record)


def access_answered(probed, record):
    """The board whose slot is shown has answered; if there is one board alone and the slot is not known, that board."""
    [target] = [record.shown.number] if record.shown.number else probed.plan.boards
    is_there = target in probed.plan.boards and (record.shown.number or not record.is_low("BERR"))
    interrupter = probed.plan.interrupters.get(target)
    if interrupter and not interrupter.is_roak:
        place = probed.interrupters.index(target)
        record = record.with_request(place, {SERVED if it == PENDING else it for it in record.requests[place]})
    return {target} if is_there else set(), record._replace(answerers=frozenset({target}))


def any_access_answered(probed, record):
    """Some board has answered an access, of a slot that is not known."""
    able = set() if record.is_low("BERR") else set(probed.plan.boards)
    return able, with_served(probed, record, range(len(probed.levels)), False)._replace(answerers=frozenset(able))


def with_served(probed, record, places, is_roak):
    """The record in which each of these interrupters may have been served, if it is of this kind."""
    for place in places:
        is_meant = probed.plan.interrupters[probed.interrupters[place]].is_roak == is_roak
        if is_meant and PENDING in record.requests[place]:
            record = record.with_request(place, record.requests[place] | {SERVED})
    return record


def acknowledge_answered(probed, record, change):
    """An interrupter at the front of the acknowledge has answered."""
    places = probed.answering(record, change.byte)
    able = frozenset(probed.interrupters[it] for it in places)
    record = record._replace(answerers=able, fronts=frozenset(places))
    if len(places) == 1:
        [place] = places
        is_roak = probed.plan.interrupters[probed.interrupters[place]].is_roak
        return able, record.with_request(place, {SERVED if is_roak else PENDING})
    return able, with_served(probed, record, places, True)


def dtack_rises(probed, record, change):
    return set(() if record.is_low("DS") else record.answerers), record._replace(answerers=frozenset())


def berr_falls(probed, record, change):
    last, shown = len(probed.interrupters), record.shown
    if not record.is_low("DS") or record.is_low("DTACK"):
        return set(), record
    if shown.is_acknowledge:
        record = record._replace(fronts=record.fronts & {last})
        return {CONTROLLER} if record.fronts else set(), record
    is_nobody = shown.number not in probed.plan.boards if shown.number else len(probed.plan.boards) < 21
    return {CONTROLLER} if is_nobody else set(), record


def berr_rises(probed, record, change):
    return set() if record.is_low("DS") else {CONTROLLER}, record


def bclr_moves(probed, record, change):
    record = record.in_phases(lambda it: probed.is_clear_due(record, it) == change.falls)
    return {CONTROLLER} if record.phases else set(), record


def grant_falls(probed, record, change):
    """A segment of a grant's chain falls."""
    chain, segment = change.of
    level, count = GRANTS.index(chain), len(probed.workers[chain])
    if segment == 0:
        record = record.in_phases(lambda it: it.kind == "idle" and probed.picks(record, it) == level)
    elif segment == count and probed.version == 1:
        record = record.in_phases(lambda it: False)
    else:
        record = record.in_phases(lambda it: it == granting(level, segment - 1))
    behind = record.phases and {granting(level, segment)}
    return set(probed.drivers_of(change.of) if behind else ()), record._replace(phases=frozenset(behind))


def grant_rises(probed, record, change):
    """A segment of a grant's chain rises."""
    chain, segment = change.of
    level, count = GRANTS.index(chain), len(probed.workers[chain])

    def may_rise(phase):
        is_timed_out = segment == 0 and phase == granting(level, count) and probed.version == 2
        return phase.level == level and (is_timed_out or begins_with(phase, segment))

    record = record.in_phases(may_rise)
    behind = {expired(level, 1, count) if it.kind == "granting" else risen(it) for it in record.phases}
    return set(probed.drivers_of(change.of) if behind else ()), record._replace(phases=frozenset(behind))


def begins_with(phase, segment):
    """Whether the low segments of a grant that was taken, or that nobody took, begin with this one."""
    return phase.kind in ("held", "expired") and phase.first == segment <= phase.last


def iack_falls(probed, record, change):
    segment, drivers = change.of.segment, set(probed.drivers_of(change.of))
    is_under_way = record.acknowledge() is not None and record.is_low("DS") and segment - 1 in record.fronts
    if not is_under_way or (segment and record.is_low("DTACK")):
        return set(), record
    passed = probed.passes(record, segment - 1) if segment else record
    return (drivers, passed._replace(fronts=frozenset({segment}))) if passed else (set(), record)


def iack_rises(probed, record, change):
    return set(() if record.shown else probed.drivers_of(change.of)), record


ROWS = {
    ("BR", True): br_falls, ("BR", False): br_rises, ("IRQ", True): irq_falls, ("IRQ", False): irq_rises,
    ("BBSY", True): bbsy_falls, ("BBSY", False): bbsy_rises, ("AS", True): as_falls, ("AS", False): as_rises,
    ("DS", True): ds_falls, ("DS", False): ds_rises, ("DTACK", True): dtack_falls, ("DTACK", False): dtack_rises,
    ("BERR", True): berr_falls, ("BERR", False): berr_rises, ("BCLR", True): bclr_moves, ("BCLR", False): bclr_moves,
    ("bg", True): grant_falls, ("bg", False): grant_rises, ("iack", True): iack_falls, ("iack", False): iack_rises,
}


def kind_of(change):
    """The kind of a change, as the tables of changes have it: the line or the chain without its number, and the direction."""
    of = change.of if change.of in LINES else change.of.chain
    return of.rstrip("01234567"), change.falls


def behind(probed, record, change):
    """Who may have made a change, and the record behind it; nobody, if it is impossible.  Hidden moves are made."""
    able, record = ROWS[kind_of(change)](probed, record, change)
    return able, record._replace(low=record.low ^ {change.of})
