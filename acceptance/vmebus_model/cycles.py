"""`cycles`: a line for each cycle, each tenure and each refused edge of a trace."""

from collections import Counter

from .bus import Bus
from .verdicts import delivers, is_ok, step


class Cycle:
    """A cycle from the `as-` of a board on: what it showed, and how it was answered; nothing of that before it was."""

    def __init__(self, number, slot, shown):
        self.number, self.slot = number, slot
        self.words = ["acknowledge" if shown.is_acknowledge else "access", str(shown.number)]

    def line(self, end):
        return " ".join([f"{self.number}..{end}", str(self.slot), *self.words])


class Tenure:
    """A tenure from the `bbsy-` of a board on: its request, and how many cycles it has had."""

    def __init__(self, number, slot, asked):
        self.number, self.slot, self.asked, self.cycles = number, slot, asked, 0

    def line(self, end):
        return f"{self.number}..{end} {self.slot} tenure asked {self.asked} cycles {self.cycles}"


class Transactions:
    """What is under way on a bus, the lines of what has ended, and how many there are of each kind."""

    def __init__(self, bus):
        self.bus, self.lines, self.counts = bus, [], Counter()
        self.cycle = self.tenure = None

    def add(self, edge, number):
        """Judges an edge, and follows it."""
        answer = self.answer(edge, number) if edge.falls and edge.wire in ("dtack", "berr") else None
        verdict = step(self.bus, edge, number)
        if not is_ok(verdict):
            self.end("refused", f"{number} refused {edge} {verdict}")
        elif answer:
            self.cycle.words.append(answer)
        else:
            self.follow(edge, number)

    def answer(self, edge, number):
        """What the line of the cycle has of this edge, if it is accepted."""
        if edge.wire == "berr":
            return "bus error"
        if not delivers(self.bus, edge):
            return f"answered at {number}"
        interrupter = self.bus.plan.interrupters.get(edge.driver)
        asked = self.bus.last_fall(edge.driver, "irq")
        return interrupter and f"status {interrupter.status} from {edge.driver} asked {asked}"

    def follow(self, edge, number):
        """Begins or ends a cycle or a tenure."""
        slot, way = edge.driver, (edge.wire, edge.falls)
        if way == ("as", True):
            self.cycle = Cycle(number, slot, self.bus.shown())
            self.tenure.cycles += 1
        elif way == ("as", False):
            self.end("cycles", self.cycle.line(number))
            self.cycle = None
        elif way == ("bbsy", True):
            self.tenure = Tenure(number, slot, self.bus.last_fall(slot, "br"))
        elif way == ("bbsy", False):
            self.end("tenures", self.tenure.line(number))
            self.tenure = None

    def end(self, kind, line):
        self.counts[kind] += 1
        self.lines.append(line)

    def under_way(self):
        """The lines of what has not ended, and the last line."""
        going_on = sorted((it for it in (self.cycle, self.tenure) if it), key=lambda it: it.number)
        yield from (it.line("") for it in going_on)
        yield " ".join(f"{kind} {self.counts[kind]}" for kind in ("cycles", "tenures", "refused"))


def cycles(plan, trace, console):
    """The transactions of a trace; the lines of what ended before a fault are written first."""
    transactions = Transactions(Bus(plan, trace.version))
    try:
        for number, edge in enumerate(trace, 1):
            transactions.add(edge, number)
        transactions.lines += transactions.under_way()
    finally:
        console.write("".join(f"{it}\n" for it in transactions.lines))
    return 2 if transactions.counts["refused"] else 0
