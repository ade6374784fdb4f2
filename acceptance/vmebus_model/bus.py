"""The bus: the history of accepted edges, and the words in which the rules speak of it.

An edge has the number that it has in its trace, refused edges counted; `since` and `last` go by these numbers.
"""

from bisect import bisect_right
from collections import defaultdict
from copy import copy
from typing import NamedTuple, Optional, Tuple

from .traces import BOARD_WIRES, CONTROLLER_WIRES, GRANTS, Cycle, Edge

MOST_EDGES = 1_048_576


class Made(NamedTuple):
    """An accepted edge with its number, and what it replaced, so that it can be taken back."""

    edge: Edge
    number: int
    moved: Optional[int]
    on: Optional[Cycle]
    last_grant: Tuple[int, Optional[int]]


def picked(arbiter, requests, last):
    """The level that a policy picks of some that are requested, None if it picks none; `last` is the level last granted."""
    if arbiter == "sgl":
        return 3 if 3 in requests else None
    if arbiter == "pri":
        return max(requests, default=None)
    return min(requests, key=lambda level: (last + 3 - level) % 4, default=None)


class Bus:
    """A backplane, the version of the rules, and what has happened on it since power-up."""

    def __init__(self, plan, version):
        self.plan, self.version = plan, version
        self.accepted = 0
        self.low = {wire: frozenset() for wire in CONTROLLER_WIRES + BOARD_WIRES}  # the drivers that hold a wire low, or on
        self.falls = defaultdict(list)  # the numbers of the falls of a driver's wire
        self.moved = {}  # the number of the last edge of a driver's wire
        self.answers = defaultdict(list)  # the numbers of a board's answers, by whether an acknowledge was shown
        self.on = {}  # what each address group showed last
        self.last_grant = (0, None)  # the level last granted, and the number of that grant
        self.past = []  # the accepted edges

    def accept(self, edge, number):
        """Adds an edge to the history."""
        driver, wire, falls, cycle = edge
        moved, on = self.moved.get((driver, wire)), self.on.get(driver)
        self.past.append(Made(edge, number, moved, on, self.last_grant))
        if wire == "dtack" and falls:
            self.answers[driver, self.shown().is_acknowledge].append(number)
        if wire in GRANTS and falls:
            self.last_grant = GRANTS.index(wire), number
        if cycle:
            self.on[driver] = cycle
        if falls:
            self.low[wire] |= {driver}
            self.falls[driver, wire].append(number)
        else:
            self.low[wire] -= {driver}
        self.moved[driver, wire] = number
        self.accepted += 1

    def take_back(self):
        """Takes the last edge out of the history, and returns it with its number."""
        made = self.past.pop()
        driver, wire, falls, _ = made.edge
        self.accepted -= 1
        self.moved[driver, wire], self.on[driver] = made.moved, made.on
        self.last_grant = made.last_grant
        if falls:
            self.low[wire] -= {driver}
            self.falls[driver, wire].pop()
        else:
            self.low[wire] |= {driver}
        if wire == "dtack" and falls:
            self.answers[driver, self.shown().is_acknowledge].pop()
        return made.edge, made.number

    def with_edge(self, edge, number):
        """Another bus of this history with an edge added; this one stays as it is."""
        other = copy(self)
        other.low, other.moved, other.on = dict(self.low), dict(self.moved), dict(self.on)
        other.past = list(self.past)
        for name in ("falls", "answers"):
            setattr(other, name, defaultdict(list, {key: list(them) for key, them in getattr(self, name).items()}))
        other.accept(edge, number)
        return other

    # Lines and daisy chains

    def is_low(self, segment):
        """Whether a wire, of a driver and with a name, is low."""
        driver, wire = segment
        return driver in self.low[wire]

    def requests(self):
        """The levels of BR0* to BR3* that are low."""
        return {self.plan.requesters[slot].level for slot in self.low["br"]}

    def irq(self, level):
        """The boards that hold an interrupt request line low."""
        return {slot for slot in self.low["irq"] if self.plan.interrupters[slot].level == level}

    def grants(self):
        """The levels whose grants are low."""
        return [level for level, wire in enumerate(GRANTS) if self.low[wire]]

    def grant_in(self, slot):
        """Whether the board's grant-in is low; it counts as high on a board without one."""
        feeder = self.plan.feeders.get((slot, "bg"))
        return feeder is not None and self.is_low(feeder)

    def iackin(self, slot):
        """Whether the board's iackin is low."""
        feeder = self.plan.feeders.get((slot, "iack"))
        return feeder is not None and self.is_low(feeder)

    def holder(self):
        """The board that drives BBSY*, None if none does."""
        return next(iter(self.low["bbsy"]), None)

    def board_at_grant(self):
        """The board at which a grant waits to be taken or passed on, None if no grant waits."""
        waiting = (slot for slot in self.plan.requesters if self.grant_in(slot) and slot not in self.low["bgout"])
        return None if self.low["bbsy"] else next(waiting, None)

    # What is shown

    def owner_of_cycle(self):
        """The board whose address group is on, None while every group is off."""
        return next(iter(self.low["addr"]), None)

    def shown(self):
        """What the address group that is on says."""
        owner = self.owner_of_cycle()
        return None if owner is None else self.on[owner]

    def acknowledge(self):
        """The level of the acknowledge that is shown, None while none is."""
        cycle = self.shown()
        return cycle.number if cycle and cycle.is_acknowledge else None

    def access(self):
        """The slot of the access that is shown, None while none is."""
        cycle = self.shown()
        return None if cycle is None or cycle.is_acknowledge else cycle.number

    # The arbiter

    def level_last_granted(self):
        """The level of the last grant, 0 before the first."""
        return self.last_grant[0]

    def pick(self):
        """The level that the arbiter's policy picks, None if it picks none."""
        return picked(self.plan.arbiter, self.requests(), self.level_last_granted())

    def is_asked_above(self):
        """Whether some request above the level last granted is low."""
        return max(self.requests(), default=0) > self.level_last_granted()

    def is_clear_due(self):
        """Whether bus clear is due."""
        return self.plan.arbiter == "pri" and bool(self.low["bbsy"]) and not self.grants() and self.is_asked_above()

    # Since an edge

    def last_fall(self, driver, wire):
        """The number of the last fall of a wire, 0 before the first."""
        falls = self.falls.get((driver, wire))
        return falls[-1] if falls else 0

    def cycles(self, slot):
        """How many own `as-` came since the last own `bbsy-`."""
        strobes = self.falls[slot, "as"]
        return len(strobes) - bisect_right(strobes, self.last_fall(slot, "bbsy"))

    def strobe(self, slot):
        """The number of the own `ds-` since the last own `as-`, None if there was none."""
        strobed = self.last_fall(slot, "ds")
        return strobed if strobed > self.last_fall(slot, "as") else None

    def served(self, slot):
        """The number of the first answer since the board's last `irq-` that served it, None before that."""
        answers = self.answers[slot, self.plan.interrupters[slot].is_roak]
        place = bisect_right(answers, self.last_fall(slot, "irq"))
        return answers[place] if place < len(answers) else None

    def is_served(self, slot):
        """Whether an answer since the board's last `irq-` served it: the last answer did if any did."""
        answers = self.answers.get((slot, self.plan.interrupters[slot].is_roak))
        return bool(answers) and answers[-1] > self.last_fall(slot, "irq")

    def is_pending(self, slot, level):
        """Whether a board holds an interrupt request of a level low and has not been served since."""
        interrupter = self.plan.interrupters.get(slot)
        return interrupter is not None and interrupter.level == level and slot in self.low["irq"] and not self.is_served(slot)

    # How it stands

    def stand(self):
        """All that a rule can read: after two histories that stand the same, each edge has the same verdict."""
        plan = self.plan
        return (
            tuple(self.low.values()), self.shown(), self.level_last_granted(),
            tuple([self.is_served(slot) for slot in plan.interrupters]),
            tuple([self.strobe(slot) is None for slot in plan.requesters]),
            tuple([None if it.is_ror else self.cycles(slot) for slot, it in plan.requesters.items()]),
        )
