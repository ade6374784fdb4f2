"""Traces: the edges, the one way in which each is spelled, and the faults of a text of lines."""

from typing import NamedTuple, Optional

from .faults import Fault

CONTROLLER = 0
CONTROLLER_WIRES = ("bg0", "bg1", "bg2", "bg3", "bclr", "iack", "berr")
BOARD_WIRES = ("br", "bgout", "bbsy", "addr", "as", "ds", "irq", "iackout", "dtack")
GRANTS = CONTROLLER_WIRES[:4]
HEADERS = {b"vme 1": 1, b"vme 2": 2}
PIECE = 65536


class Cycle(NamedTuple):
    """What an address group shows: an acknowledge of a level, or an access to a slot."""

    is_acknowledge: bool
    number: int

    def __str__(self):
        return ("i" if self.is_acknowledge else "r") + str(self.number)


class Edge(NamedTuple):
    """One driver's wire that falls (an address group: goes on, with a cycle) or rises; slots are drivers from 1 on."""

    driver: int
    wire: str
    falls: bool
    cycle: Optional[Cycle] = None

    def __str__(self):
        shown = f" {self.cycle}" if self.cycle else ""
        return f"{name_of(self.driver)} {self.wire}{'-' if self.falls else '+'}{shown}"


def name_of(driver):
    return "c" if driver == CONTROLLER else str(driver)


ACKNOWLEDGES = [Cycle(True, level) for level in range(1, 8)]
ACCESSES = [Cycle(False, slot) for slot in range(1, 22)]


def edges_of_wire(driver, wire, falls):
    """The edges of a wire in one direction, one but for an address group that goes on."""
    cycles = ACKNOWLEDGES + ACCESSES if wire == "addr" and falls else [None]
    return [Edge(driver, wire, falls, cycle) for cycle in cycles]


def wires_of(driver):
    return CONTROLLER_WIRES if driver == CONTROLLER else BOARD_WIRES


EDGES = {
    (driver, wire, falls): edges_of_wire(driver, wire, falls)
    for driver in range(22)
    for wire in wires_of(driver)
    for falls in (True, False)
}
SPELLED = {str(edge).encode(): edge for edges in EDGES.values() for edge in edges}


def lines_of(read):
    """The lines of a text, which `read` gives piece by piece, without their line feeds."""
    number, rest = 1, b""
    while True:
        try:
            piece = read(PIECE)
        except OSError:
            raise Fault("X5 the trace cannot be read") from None
        *lines, rest = (rest + piece).split(b"\n")
        for line in lines:
            yield short(line, number)
            number += 1
        short(rest, number)
        if not piece:
            break
    if rest:
        raise Fault("X4 the trace is cut off")


def short(line, number):
    """A line, or the beginning of one, that has to be of 64 bytes at most."""
    if len(line) > 64:
        raise Fault(f"X3 line {number} is over 64 bytes")
    return line


def version_of(lines):
    """The version that the first line names."""
    header = next(lines, None)
    if header not in HEADERS:
        raise Fault("X1 the trace does not begin with vme 1 or vme 2")
    return HEADERS[header]


class Trace:
    """The text of a trace: its version at once, and its edges one after the other until its end or its fault."""

    def __init__(self, read):
        self.lines = lines_of(read)
        self.version = version_of(self.lines)

    def __iter__(self):
        for number, line in enumerate(self.lines, 2):
            edge = SPELLED.get(line)
            if edge is None:
                raise Fault(f"X2 line {number} is no edge")
            yield edge


def text_of(version, edges):
    """The text of a trace."""
    return "".join([f"vme {version}\n", *(f"{edge}\n" for edge in edges)])
