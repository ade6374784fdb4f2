"""`summary`: what one trace exercises, or several together."""

from collections import Counter, defaultdict

from .bus import Bus
from .events import EVENTS, events_of
from .faults import Fault, escaped
from .rules import GUARDS, name_of_rule
from .traces import Trace
from .verdicts import refusal, step

RULES = [f"G{number}" for number in range(1, 27)]
REFUSALS = ["S1", "S2", "S3", "S4", "E1", "E2", "E5"]


class Board:
    """What a board did: counts by name, which can be added, and its waits and holds that have ended."""

    def __init__(self):
        self.counts, self.waits, self.holds = Counter(), [], []

    def add(self, bus, edge, number):
        """Counts an edge that is accepted; the bus is as it is just before it."""
        own = edge.driver
        if edge.falls:
            self.counts[edge.wire] += 1
        if edge.wire == "bbsy":
            ended, began = (self.waits, "br") if edge.falls else (self.holds, "bbsy")
            ended.append(number - bus.last_fall(own, began))
        if edge.wire == "dtack" and edge.falls and bus.acknowledge() is not None:
            self.counts["delivered"] += 1

    def asked(self, slot):
        counts, waits, holds = self.counts, self.waits, self.holds
        return (
            f"board {slot} asked {counts['br']} waited {sum(waits)} longest-wait {max(waits, default=0)}"
            f" tenures {counts['bbsy']} held {sum(holds)} longest-hold {max(holds, default=0)} cycles {counts['as']}"
        )

    def answered(self, slot):
        return f"board {slot} answered {self.counts['dtack']} delivered {self.counts['delivered']}"


class Sums:
    """The counts of all traces, and the last bus."""

    def __init__(self, plan):
        self.plan, self.bus, self.traces, self.edges = plan, None, 0, 0
        self.accepted, self.refused, self.met = Counter(), Counter(), Counter()
        self.first = {}
        self.boards = defaultdict(Board)

    def add(self, version, edges):
        """Judges the edges of a trace."""
        self.traces += 1
        self.bus = Bus(self.plan, version)
        for number, edge in enumerate(edges, 1):
            self.edges += 1
            refused = refusal(self.bus, edge)
            if refused:
                self.refused[refused.split()[-1]] += 1
            else:
                self.add_accepted(edge, number)

    def add_accepted(self, edge, number):
        self.accepted[name_of_rule(GUARDS[edge.wire, edge.falls])] += 1
        for event in events_of(self.bus, edge):
            self.met[event] += 1
            self.first.setdefault(event, number)
        if edge.driver:
            self.boards[edge.driver].add(self.bus, edge, number)
        step(self.bus, edge, number)

    def lines(self, is_alone):
        """The lines of the summary; those of one trace alone name edges, too."""
        accepted = sum(self.accepted.values())
        yield f"edges {self.edges} accepted {accepted} refused {self.edges - accepted}"
        for rule in RULES:
            if self.accepted[rule] or self.refused[rule]:
                yield f"{rule} accepted {self.accepted[rule]} refused {self.refused[rule]}"
        for refusal_ in REFUSALS:
            if self.refused[refusal_]:
                yield f"{refusal_} refused {self.refused[refusal_]}"
        yield "never accepted " + (" ".join(it for it in RULES if not self.accepted[it]) or "none")
        for event in EVENTS:
            if self.met[event]:
                yield f"met {event} {self.met[event]}" + (f" first {self.first[event]}" if is_alone else "")
        yield "never met " + (" ".join(it for it in EVENTS if not self.met[it]) or "none")
        for slot in self.plan.requesters:
            yield self.boards[slot].asked(slot) + (self.going_on(slot) if is_alone else "")
        for slot in self.plan.boards:
            if self.boards[slot].counts["dtack"]:
                yield self.boards[slot].answered(slot)

    def write(self, is_alone, console):
        """Writes the lines."""
        console.write("".join(f"{line}\n" for line in self.lines(is_alone)))

    def going_on(self, slot):
        """A hold or a wait that goes on at the end."""
        low = self.bus.low
        if slot in low["bbsy"]:
            return f" holds since {self.bus.moved[slot, 'bbsy']}"
        return f" asks since {self.bus.moved[slot, 'br']}" if slot in low["br"] else ""


def summary(plan, trace, console):
    """Counts what a trace exercised."""
    sums = Sums(plan)
    sums.add(trace.version, trace)
    sums.write(True, console)
    return 2 if sums.refused else 0


def summary_of_all(plan, names, console):
    """Adds up what several traces exercised, but for those with a fault."""
    sums = Sums(plan)
    statuses = [add_one(sums, it, console) for it in names]
    if sums.traces:
        console.write(f"traces {sums.traces}\n")
        sums.write(False, console)
    return 1 if 1 in statuses else max(statuses)


def add_one(sums, name, console):
    """Adds one of several traces if it has no fault, and says whether an edge of it was refused."""
    try:
        read = console.open(name)
    except Fault as fault:
        console.tell(f"vmebus: {fault}")
        return 1
    try:
        trace = Trace(read)
        edges = list(trace)
    except Fault as fault:
        console.tell(f"vmebus: {escaped(name)}: {fault}")
        return 1
    before = sum(sums.refused.values())
    sums.add(trace.version, edges)
    if sum(sums.refused.values()) == before:
        return 0
    console.write(f"{escaped(name)}: illegal\n")
    return 2
