"""`show`: edges of a trace as a picture, a column each."""

from .bus import Bus
from .judging import beyond, first
from .traces import name_of
from .verdicts import delivers, is_ok, step

SLOTS = ".123456789ABCDEFGHIJKL"
LEVELS = ".abcdefg"
RED, GREEN, PLAIN = "\x1b[31m", "\x1b[32m", "\x1b[0m"
LABEL = 11


class Column:
    """One edge of the picture, and how it is just after it."""

    def __init__(self, bus, edge, number):
        self.number = number
        delivery = delivers(bus, edge)
        verdict = step(bus, edge, number)
        self.is_accepted = is_ok(verdict)
        self.segment = None if bus.plan.missing(edge.driver, edge.wire) else (edge.driver, edge.wire)
        self.mark = ("\\" if edge.falls else "/") if self.is_accepted else "x"
        self.low = {wire: set(drivers) for wire, drivers in bus.low.items()}
        cycle = bus.shown()
        self.below = {
            "grant at": SLOTS[bus.board_at_grant() or 0],
            "holder": SLOTS[bus.holder() or 0],
            "shown": "." if not cycle else (LEVELS if cycle.is_acknowledge else SLOTS)[cycle.number],
            "verdict": "x" if not self.is_accepted else "!" if delivery else ".",
        }

    def character(self, segment):
        """What stands in the row of a wire."""
        if self.segment == segment:
            return self.mark
        driver, wire = segment
        return "_" if driver in self.low[wire] else "-"


def show(plan, trace, options, console):
    """Draws the edges of the window; those before a fault are drawn first."""
    begin, end = options["--from"], options["--to"]
    bus, columns, number, refused = Bus(plan, trace.version), [], 0, 0
    try:
        for number, edge in enumerate(first(trace, end), 1):
            if number < begin:
                refused += not is_ok(step(bus, edge, number))
            else:
                columns.append(Column(bus, edge, number))
        if number < begin:
            raise beyond(number)
    finally:
        if columns:
            console.write("".join(f"{line}\n" for line in picture(plan, columns, "--color" in options)))
    return 2 if refused or not all(it.is_accepted for it in columns) else 0


def picture(plan, columns, has_color):
    """The lines of a picture."""
    numbers = [str(it.number) for it in columns]
    yield f"edges {numbers[0]} to {numbers[-1]}"
    yield (" " * LABEL + "".join(it[-2:-1] if it[-1] == "0" else " " for it in numbers)).rstrip()
    yield " " * LABEL + "".join(it[-1] for it in numbers)
    moved = {it.segment for it in columns}
    for driver in plan.drivers:
        for wire in plan.wires[driver]:
            if (driver, wire) in moved:
                yield row(f"{name_of(driver)} {wire}", [it.character((driver, wire)) for it in columns], has_color)
    for name in ("grant at", "holder", "shown", "verdict"):
        yield row(name, [it.below[name] for it in columns], has_color)


def row(name, characters, has_color):
    return name.ljust(LABEL) + "".join(map(colored, characters) if has_color else characters)


def colored(character):
    """A character of a refused edge in red, and of a delivery in green."""
    color = {"x": RED, "!": GREEN}.get(character)
    return color + character + PLAIN if color else character
