"""What a program in C sees of a bus: what acceptance/header_names.c has to print of a trace."""

import re
from pathlib import Path

from . import backplane
from .bus import Bus
from .explain import conditions
from .faults import Fault
from .program import MOST_BYTES
from .traces import CONTROLLER, Trace, name_of
from .verdicts import guard, hold, open_edges, refusal, settling, step

# Where the program's version is written down, which the library's has to be.
VERSION = Path(__file__).resolve().parents[2] / "crates" / "vme_command_line" / "src" / "lib.rt"

# The slots of a backplane, and one that none has, which reads what the controller does.
SLOTS = range(1, backplane.MOST_SLOTS + 2)

# All drivers, and how a line names each.
DRIVERS = (CONTROLLER, *SLOTS)
NAMES = {it: name_of(it) for it in DRIVERS}

# The lines but for the requests, each with the wire by which it is pulled.
LINES = {"BBSY*": "bbsy", "BCLR*": "bclr", "AS*": "as", "DS0*": "ds", "DTACK*": "dtack",
         "BERR*": "berr"}

# The most numbers or bytes that a call writes, as docs/EMBEDDING.md has them.
MOST = "most fault 1024 verdict 37 failing 5 why 58 line 12 open 36 build 4 masks 22"

# The numbers of faults, as docs/EMBEDDING.md has them.
FAULTS = ("faults P1 1 P2 2 P3 3 P4 4 P5 5 P6 6 P7 7 P8 8 P9 9 Q1 11 Q2 12 Q3 13 Q4 14 Q6 16 F2 20 X1 31 "
          "SIZE 32")

# How a bus and draws of another size are answered.
SIZES = ("SIZE", "SIZE")

# How no edge is answered: on words that are no bus, by a line that spells none, by a driver that
# there is not, and by a draw on no wires. In front stands what the library writes of the answer.
NO_EDGE = (": no bus", ": no edge", "E1: E1", "none open")


def seen(scenario, trace):
    """What is printed of a scenario and a trace, in bytes: a fault, or each answer and the bus."""
    edges, fault = edges_of(trace), None
    if edges is None:
        fault = "X1 the version of the rules is neither 1 nor 2"
    elif len(scenario) > MOST_BYTES:
        fault = "F2 the scenario is too long"
    else:
        try:
            plan = backplane.read(scenario)
        except Fault as found:
            fault = str(found)
    if fault:
        return [fault.partition(" ")[0], fault]
    bus = Bus(plan, edges.version)
    first = [version_line(), MOST, FAULTS, *SIZES, *NO_EDGE, *bus_lines(bus), *drivers_lines(bus)]
    return [*first, *step_lines(bus, edges), *drivers_lines(bus)]


def version_line():
    """The program's version."""
    return "version " + re.search(r'VERSION: &str = "vmebus ([0-9.]+)', VERSION.read_text())[1]


def edges_of(text):
    """The edges of a trace's bytes, None if its first line is no header."""
    pieces = [text]
    try:
        return Trace(lambda _: pieces.pop() if pieces else b"")
    except Fault:
        return None


def step_lines(bus, edges):
    """Each edge, the conditions that it fails, its answer, and the bus behind it, up to the first
    line that is no edge."""
    number = 0
    try:
        for number, edge in enumerate(edges, 1):
            yield f"{number} {edge}"
            yield from failing_lines(bus, edge)
            verdict = step(bus, edge, number)
            yield f"{verdict}: {verdict}"
            yield from bus_lines(bus)
            yield from driver_lines(bus, edge.driver)
    except Fault:
        yield f"{number + 1} : no edge"


def failing_lines(bus, edge):
    """The conditions that an edge fails, by their names and as `explain` writes them."""
    names, fails = failing(bus, edge), "fails "
    if names:
        texts = [it[len(fails) :] for it in conditions(bus, edge) if it.startswith(fails)]
        yield from (f"{fails}{name}: {text}" for name, text in zip(names, texts))


def failing(bus, edge):
    """The names of the conditions that an edge fails, with N for a level."""
    refused = refusal(bus, edge)
    if refused in ("E1", "E2"):
        return ["there is the driver" if refused == "E1" else "the other state"]
    some = settling(bus, edge) if hold(guard(bus, edge)) else guard(bus, edge)
    return [name.partition(" by an")[0] for name, holds, _ in some if not holds]


def driver_lines(bus, driver):
    """What a driver could make next, which of its wires are low, and which it has."""
    wires = bus.plan.wires[driver] if driver in bus.plan.drivers else ()
    edges = open_edges(bus, driver) if wires else ()
    yield f"open {', '.join(map(str, edges))}".rstrip()
    yield " ".join(["low", *(it for it in wires if bus.is_low((driver, it)))])
    yield " ".join(["has", *wires])


def drivers_lines(bus):
    """The same of all drivers, and of one that there is not."""
    for driver in DRIVERS:
        yield from driver_lines(bus, driver)


def bus_lines(bus):
    """Who holds the bus and where a grant travels, 0 for none; then what each driver reads."""
    yield f"holder {bus.holder() or 0} grant {bus.board_at_grant() or 0}"
    before, behind = low_for_all(bus)
    without_inputs = "".join([*before, *behind])
    for driver in DRIVERS:
        inputs = inputs_of(bus, driver)
        yield NAMES[driver] + ("".join([*before, *inputs, *behind]) if inputs else without_inputs)


def inputs_of(bus, driver):
    """The inputs of the daisy chains that a driver reads low, each after a space."""
    grant = [" BGIN*"] if bus.grant_in(driver) else []
    return [*grant, " IACKIN*"] if bus.iackin(driver) else grant


def low_for_all(bus):
    """The lines that all drivers read low, each after a space: those before the inputs of the daisy
    chains, and those behind them, with what the address group says."""
    before = [f" BR{level}*" for level in sorted(bus.requests())]
    before += [f" {name}" for name, wire in LINES.items() if bus.low[wire]]
    behind = [f" IRQ{level}*" for level in range(1, 8) if bus.irq(level)]
    shown = bus.shown()
    return before, [*behind, f" {shown}"] if shown else behind
