"""`replay`, `check`, and the program without words."""

from itertools import islice

from .bus import Bus
from .faults import Fault, escaped
from .traces import Trace
from .verdicts import is_ok, step


def replay(plan, trace, console, is_full=False):
    """A verdict for each edge, in full after the edge, and how many were accepted and refused; the lines before a fault are
    written first."""
    bus, lines, number = Bus(plan, trace.version), [], 0
    try:
        for number, edge in enumerate(trace, 1):
            named = f"{edge} " if is_full else ""
            lines.append(f"{number} {named}{step(bus, edge, number)}\n")
        refused = number - bus.accepted
        lines.append(f"accepted {bus.accepted} refused {refused}\n")
    finally:
        console.write("".join(lines))
    return 2 if refused else 0


def checked(plan, trace):
    """The status, and one line: the number of the edges, or the first that is refused, after which nothing is judged."""
    bus, number = Bus(plan, trace.version), 0
    for number, edge in enumerate(trace, 1):
        verdict = step(bus, edge, number)
        if not is_ok(verdict):
            return 2, f"illegal {number} {verdict}\n"
    return 0, f"legal {number}\n"


def check(plan, trace, console):
    """The line of a trace."""
    status, line = checked(plan, trace)
    console.write(line)
    return status


def check_all(plan, names, console):
    """The lines of several traces; after a fault of one the others are still checked."""
    statuses = [check_one(plan, it, console) for it in names]
    return 1 if 1 in statuses else max(statuses)


def check_one(plan, name, console):
    """The line of one of several traces, or of its fault."""
    try:
        read = console.open(name)
    except Fault as fault:
        console.tell(f"vmebus: {fault}")
        return 1
    try:
        status, line = checked(plan, Trace(read))
    except Fault as fault:
        console.tell(f"vmebus: {escaped(name)}: {fault}")
        return 1
    console.write(f"{escaped(name)}: {line}")
    return status


def first(trace, count):
    """The first edges of a trace; what comes after them is not read."""
    return islice(trace, count) if count < 2**63 else trace


def beyond(number):
    """The fault of a trace that is shorter than what was asked for."""
    return Fault(f"X9 the trace has {number} edges")
