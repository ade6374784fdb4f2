"""Which goals no edge of a backplane reaches: what each edge that reaches a goal needs of its board, and who has it."""

from typing import Callable, NamedTuple

from .backplane import OF_INTERRUPTER, OF_REQUESTER
from .draw import ways_of
from .faults import Fault
from .traces import CONTROLLER, CONTROLLER_WIRES

# The wire of the edges that bring each event.
WIRES = {
    "grant-passed": "bgout", "late-request": "br", "overtaken": "bbsy", "early-release": "bbsy", "overlap": "bbsy",
    "full-burst": "as", "bus-clear": "bclr", "rivals": "irq", "delivery": "dtack", "iack-passed": "iackout",
    "answered-again": "dtack", "spurious": "berr", "bus-error": "berr", "withdrawn": "br", "grant-timeout": "bg0",
}


class Need(NamedTuple):
    """What a board has to have, and how it is told that one board has it not, or that none has it."""

    is_met: Callable
    of_one: str
    of_all: str


BOARD = Need(lambda it: True, "slot {} has no board", "no slot has a board")
REQUESTER = Need(lambda it: it.requester, "board {} has no requester", "no board has a requester")
INTERRUPTER = Need(lambda it: it.interrupter, "board {} has no interrupter", "no board has an interrupter")
SPECIAL = {
    "G14 some BR line is low": Need(lambda it: it.requester.is_ror, "the requester of board {} is RWD", "no requester is ROR"),
    "G22 the request was served by an acknowledge":
        Need(lambda it: it.interrupter.is_roak, "the interrupter of board {} is RORA", "no interrupter is ROAK"),
    "G22 the request was served by an access":
        Need(lambda it: not it.interrupter.is_roak, "the interrupter of board {} is ROAK", "no interrupter is RORA"),
}


def wire_of(name):
    """A wire of the edges that reach a goal of that name; all of them are of one part."""
    if name in WIRES:
        return WIRES[name]
    return max(ways_of(name.partition(" ")[0]))[0]


def needs(name):
    """What a board needs whose edge reaches a goal, the more special later; of several boards each is looked for among those
    that have the ones before it."""
    wire = wire_of(name)
    parts = [REQUESTER] if wire in OF_REQUESTER else [INTERRUPTER] if wire in OF_INTERRUPTER else []
    return [BOARD, *parts, *([SPECIAL[name]] if name in SPECIAL else [])]


def lack(plan, goal):
    """Why no edge of the backplane reaches a goal; None if it is not known never to come."""
    if wire_of(goal.name) in CONTROLLER_WIRES:
        return None if goal.driver in (None, CONTROLLER) else "only the controller makes such an edge"
    if goal.driver == CONTROLLER:
        return "the controller is no board"
    boards = [it for slot, it in plan.boards.items() if goal.driver in (None, slot)]
    for need in needs(goal.name):
        boards = [it for it in boards if need.is_met(it)]
        if not boards:
            return need.of_all if goal.driver is None else need.of_one.format(goal.driver)
    return None


def refuse(plan, goal):
    """Refuses a goal that never comes."""
    why = goal and lack(plan, goal)
    if why:
        raise Fault(f"'{goal.name}' never comes: {why}")
