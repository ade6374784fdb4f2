"""Captures: what an analyser saw of the shared lines and of some pins, and the faults of a text of that.

A *change* is the fall or the rise of a line or of a pin.  It has no driver: that is what `probe` asks for.
"""

from typing import Dict, List, NamedTuple, Optional, Union

from .backplane import CHAINS
from .faults import Fault
from .moments import moment_of
from .traces import CONTROLLER, Cycle, lines_of, version_of

REQUESTS = tuple(f"BR{level}" for level in range(4))
INTERRUPTS = tuple(f"IRQ{level}" for level in range(1, 8))
LINES = (*REQUESTS, *INTERRUPTS, "BBSY", "AS", "DS", "DTACK", "BERR", "BCLR")
MAY_BE_LOW = tuple(it for it in LINES if it not in ("AS", "DS"))
SLOTS = range(1, 22)
ACCESS = Cycle(False, None)  # an access, of a slot that is not known
MOST_IN_A_SAMPLE = 12


class Wire(NamedTuple):
    """A segment of a daisy chain: 0 is the controller's output, J that of the J-th board that works the chain."""

    chain: str
    segment: int


class Pin(NamedTuple):
    """A pin of a slot: the input of a chain, or its output."""

    slot: int
    chain: str
    is_output: bool

    def __str__(self):
        return f"{self.slot} {self.chain.upper()}{'OUT' if self.is_output else 'IN'}"


class Kind(NamedTuple):
    """A change as it is spelled: of a line or a pin, what AS* fell with, and the byte with which DTACK* fell."""

    of: Union[str, Pin]
    falls: bool
    cycle: Optional[Cycle] = None
    byte: Optional[int] = None

    def __str__(self):
        value = "" if self.cycle is None else f" {name_of_cycle(self.cycle)}"
        return f"{self.of}{'-' if self.falls else '+'}{value}" + ("" if self.byte is None else f" {self.byte}")


class Change(NamedTuple):
    """A change of a line or a wire, when it was seen, and how it is spelled."""

    of: Union[str, Wire]
    falls: bool
    cycle: Optional[Cycle]
    byte: Optional[int]
    moment: int
    text: str


def name_of_cycle(cycle):
    """What is shown, with nothing for a slot that is not known."""
    return str(cycle) if cycle.number else "r"


CYCLES = [ACCESS, *(Cycle(False, slot) for slot in SLOTS), *(Cycle(True, level) for level in range(1, 8))]
PINS = [Pin(slot, chain, is_output) for slot in SLOTS for chain in CHAINS for is_output in (False, True)]
KINDS = [
    *(Kind(of, falls) for of in (*LINES, *PINS) for falls in (True, False) if (of, falls) != ("AS", True)),
    *(Kind("AS", True, cycle) for cycle in CYCLES),
    *(Kind("DTACK", True, None, byte) for byte in range(256)),
]

# The one way in which each line of a capture is spelled.
SPELLED = {str(kind).encode(): kind for kind in KINDS}
PIN_LINES = {f"pin {pin}".encode(): pin for pin in PINS}
LOW_LINES = {f"low {it}".encode(): it for it in (*MAY_BE_LOW, *PINS)}


def workers(plan, chain):
    """The boards that work a chain, from the controller's end."""
    return [slot for slot, board in plan.boards.items() if board.works(chain)]


def wire_of(plan, pin):
    """The wire on which a pin is, None if the backplane has no such pin."""
    below = [slot for slot in range(1, pin.slot) if slot not in plan.boards]
    if pin.slot not in plan.boards or any(pin.chain not in plan.jumpers.get(slot, ()) for slot in below):
        return None
    last = pin.slot if pin.is_output else pin.slot - 1
    return Wire(pin.chain, sum(slot <= last for slot in workers(plan, pin.chain)))


def driver_of(plan, wire):
    """Who drives a wire."""
    return workers(plan, wire.chain)[wire.segment - 1] if wire.segment else CONTROLLER


class Capture:
    """The text of a capture: its head at once, and then one change after the other until its end or its fault."""

    def __init__(self, plan, read):
        lines = lines_of(read)
        self.version = version_of(lines)
        self.plan, self.lines, self.moment = plan, enumerate(lines, 2), None
        self.wires: Dict[Pin, Wire] = {}  # of each pin that is probed
        self.is_running = False
        self.low = set()  # the lines and wires that are low
        self.read_head()

    def read_head(self):
        """Reads what stands above the first moment, and that."""
        for number, line in self.lines:
            self.moment = moment_of(line)
            if self.moment is not None:
                return
            if line == b"running" and not self.is_running:
                self.is_running = True
            elif line in PIN_LINES and not self.is_running:
                self.declare(PIN_LINES[line], number)
            elif line in LOW_LINES and self.is_running:
                self.move(LOW_LINES[line], True, number)
            else:
                raise no_line(number)

    def declare(self, pin, number):
        """A pin is probed."""
        wire = wire_of(self.plan, pin)
        if wire is None:
            raise Fault(f"X12 line {number} is no pin of this backplane")
        if wire in self.wires.values():
            raise Fault(f"X13 line {number} is a wire that has a pin already")
        self.wires[pin] = wire

    def move(self, of, falls, number):
        """A line or a pin is low from now on, or high; which wire or line that is."""
        if isinstance(of, Pin) and of not in self.wires:
            raise Fault(f"X14 line {number} names a pin that is not probed")
        moved = self.wires[of] if isinstance(of, Pin) else of
        if (moved in self.low) == falls:
            raise Fault(f"X15 line {number} changes nothing")
        self.low ^= {moved}
        return moved

    def __iter__(self):
        for number, line in self.lines:
            kind, named = SPELLED.get(line), moment_of(line)
            if kind is not None:
                yield Change(self.move(kind.of, kind.falls, number), *kind[1:], self.moment, line.decode())
            elif named is None:
                raise no_line(number)
            elif named < self.moment:
                raise Fault(f"X10 line {number} is of an earlier moment")
            else:
                self.moment = named

    def samples(self, skew):
        """The changes by samples, each of which is there once a change behind it has been read; without a skew, one by one."""
        sample = []
        for change in self:
            if skew is None:
                yield [change]
                continue
            if sample and change.moment - sample[-1].moment > skew:
                yield sample
                sample = []
            if len(sample) == MOST_IN_A_SAMPLE:
                raise Fault("F5 too many orders")
            sample.append(change)
        if sample:
            yield sample


def no_line(number):
    return Fault(f"X16 line {number} is no line of a capture")


def text_of(version, pins, low, seen):
    """The text of a capture; `low` is None at power-up, and `seen` has what was seen, with the moments."""
    lines: List[str] = [f"vme {version}", *(f"pin {pin}" for pin in pins)]
    if low is not None:
        lines += ["running", *(f"low {it}" for it in low)]
    moment = None
    for kind, come in seen:
        lines += [f"@{come}"] if come != moment else []
        lines.append(str(kind))
        moment = come
    return "".join(f"{line}\n" for line in lines)
