"""The backplane: what a scenario says of it, and the faults Q and P in the order in which they are looked for."""

from collections import Counter
from dataclasses import dataclass
from functools import lru_cache
from typing import FrozenSet, List, Optional

from . import toml
from .faults import Fault, told
from .traces import CONTROLLER, wires_of

CHAINS = ("bg0", "bg1", "bg2", "bg3", "iack")
MOST_SLOTS = 21
OF_REQUESTER = ("br", "bgout", "bbsy", "addr", "as", "ds")
OF_INTERRUPTER = ("irq", "iackout")


@dataclass(frozen=True)
class Requester:
    level: int
    is_ror: bool
    burst: Optional[int]


@dataclass(frozen=True)
class Interrupter:
    level: int
    is_roak: bool
    status: int


@dataclass(frozen=True)
class Board:
    slot: int
    requester: Optional[Requester]
    interrupter: Optional[Interrupter]
    handler: FrozenSet[int]

    def works(self, chain):
        """Whether the board works a daisy chain; if not, it joins the chain's input to its output."""
        if chain == "iack":
            return self.interrupter is not None
        return self.requester is not None and chain == f"bg{self.requester.level}"


@dataclass(frozen=True)
class Jumper:
    slot: int
    chains: FrozenSet[str]


@dataclass(frozen=True)
class Rows:
    """What a scenario says, boards and jumpers in the order of the file."""

    slots: int
    arbiter: str
    boards: List[Board]
    jumpers: List[Jumper]


class Keys:
    """A table of the scenario, and the path that a fault puts before the names of its keys."""

    def __init__(self, table, path=""):
        self.table, self.path = table, path

    def bad(self, name):
        raise Fault(f"Q4 bad value of {told(self.path + name)}")

    def know(self, *names):
        """Refuses all other keys; of several the least by bytes is named."""
        unknown = [name for name in self.table if name not in names]
        if unknown:
            raise Fault("Q2 unknown key " + told(self.path + min(unknown, key=str.encode)))

    def value(self, name, is_good):
        """The value of a key that is needed."""
        if name not in self.table:
            raise Fault(f"Q3 missing key {self.path}{name}")
        return self.table[name] if is_good(self.table[name]) else self.bad(name)

    def number(self, name):
        return self.value(name, lambda it: is_number(it, 0, 255))

    def word(self, name, *words):
        return self.value(name, lambda it: type(it) is str and it in words)

    def items(self, name, is_good):
        return self.value(name, lambda it: isinstance(it, list) and all(map(is_good, it)))

    def tables(self, name):
        """The tables of an array, their paths numbered from 1."""
        tables = self.items(name, lambda it: isinstance(it, dict))
        return [Keys(table, f"{self.path}{name}.{number}.") for number, table in enumerate(tables, 1)]

    def part(self, name):
        """The table of a part of a board, None if the board has no such part."""
        if name not in self.table:
            return None
        return Keys(self.value(name, lambda it: isinstance(it, dict)), f"{self.path}{name}.")


def is_number(value, least, most):
    return type(value) is int and least <= value <= most


def rows_of(top):
    """The rows of a scenario; keys and values are tested in the order of the page."""
    top.know("slots", "arbiter", "board", "jumper")
    slots, arbiter = top.number("slots"), top.word("arbiter", "sgl", "pri", "rrs")
    boards = top.tables("board")
    jumpers = top.tables("jumper") if "jumper" in top.table else []
    return Rows(slots, arbiter, [board_of(it) for it in boards], [jumper_of(it) for it in jumpers])


def board_of(keys):
    keys.know("slot", "requester", "interrupter", "handler")
    slot = keys.number("slot")
    requester, interrupter = requester_of(keys.part("requester")), interrupter_of(keys.part("interrupter"))
    levels = keys.items("handler", lambda it: is_number(it, 1, 7)) if "handler" in keys.table else []
    return Board(slot, requester, interrupter, frozenset(levels))


def requester_of(keys):
    if keys is None:
        return None
    is_ror = keys.word("release", "rwd", "ror") == "ror"
    keys.know("level", "release", *([] if is_ror else ["burst"]))
    return Requester(keys.number("level"), is_ror, None if is_ror else keys.number("burst"))


def interrupter_of(keys):
    if keys is None:
        return None
    keys.know("level", "kind", "status")
    return Interrupter(keys.number("level"), keys.word("kind", "roak", "rora") == "roak", keys.number("status"))


def jumper_of(keys):
    keys.know("slot", "chains")
    return Jumper(keys.number("slot"), frozenset(keys.items("chains", lambda it: type(it) is str and it in CHAINS)))


def ranges(rows):
    """The numbers of a scenario in the order in which P8 looks at them, each with its least and its greatest value."""
    yield "slots", rows.slots, 1, MOST_SLOTS
    for board in rows.boards:
        yield "slot", board.slot, 1, rows.slots
        if board.requester:
            yield "requester.level", board.requester.level, 0, 3
            yield "requester.burst", board.requester.burst or int(board.requester.is_ror), 1, 255
        if board.interrupter:
            yield "interrupter.level", board.interrupter.level, 1, 7
    for jumper in rows.jumpers:
        yield "jumper.slot", jumper.slot, 1, rows.slots


def broken_chains(rows):
    """Each empty slot, and each chain that it does not join though a board in a higher slot works it."""
    joined = {it.slot: it.chains for it in rows.jumpers}
    boards = {it.slot for it in rows.boards}
    for slot in range(1, rows.slots + 1):
        for chain in CHAINS if slot not in boards else ():
            if chain not in joined.get(slot, ()) and any(it.works(chain) for it in rows.boards if it.slot > slot):
                yield slot, chain


def faults_of(rows):
    """The faults of a backplane, in the order of the page; it is refused by the first."""
    if rows.slots > MOST_SLOTS:
        yield f"P2 {rows.slots} slots, at most {MOST_SLOTS}"
    for field, number, least, most in ranges(rows):
        if not least <= number <= most:
            yield f"P8 {field} is out of range"
    if all(it.slot != 1 for it in rows.boards):
        yield "P1 slot 1 is empty"
    named = Counter(it.slot for it in rows.boards + rows.jumpers)
    for slot in sorted(it for it in named if named[it] > 1):
        yield f"P3 slot {slot} is named twice"
    for slot, chain in broken_chains(rows):
        yield f"P4 slot {slot} breaks chain {chain}"
    for board in rows.boards:
        if rows.arbiter == "sgl" and board.requester and board.requester.level != 3:
            yield f"P5 slot {board.slot} requests a level that SGL does not serve"
    for level in range(1, 8):
        if sum(level in it.handler for it in rows.boards) > 1:
            yield f"P6 interrupt level {level} has two handlers"
    for board in rows.boards:
        if board.handler and not board.requester:
            yield f"P7 the handler in slot {board.slot} has no requester"


class Backplane:
    """A backplane without fault: its drivers by slot, the wires that each has, its jumpers, and its daisy chains."""

    def __init__(self, rows):
        self.arbiter = rows.arbiter
        self.boards = {it.slot: it for it in sorted(rows.boards, key=lambda it: it.slot)}
        self.jumpers = {it.slot: it.chains for it in rows.jumpers}
        self.requesters = {slot: it.requester for slot, it in self.boards.items() if it.requester}
        self.interrupters = {slot: it.interrupter for slot, it in self.boards.items() if it.interrupter}
        self.drivers = [CONTROLLER, *self.boards]
        self.wires = {driver: [it for it in wires_of(driver) if not self.missing(driver, it)] for driver in self.drivers}
        self.feeders, self.last_segments = {}, {}
        for chain in CHAINS:
            self.lay(chain)

    def missing(self, driver, wire):
        """What the backplane lacks for a wire of a driver, None if the wire is there."""
        if driver == CONTROLLER:
            return None
        if driver not in self.boards:
            return "the slot has a board"
        if wire in OF_REQUESTER and driver not in self.requesters:
            return "the board has a requester"
        if wire in OF_INTERRUPTER and driver not in self.interrupters:
            return "the board has an interrupter"
        return None

    def lay(self, chain):
        """Finds the wire that feeds each board of a chain, and the chain's last segment."""
        segment = (CONTROLLER, chain)
        for slot, board in self.boards.items():
            if board.works(chain):
                self.feeders[slot, "iack" if chain == "iack" else "bg"] = segment
                segment = (slot, "iackout" if chain == "iack" else "bgout")
        self.last_segments[chain] = segment


@lru_cache(maxsize=1)
def read(text):
    """The backplane of a scenario's bytes; the last one is kept, since runs in a row mostly have the same scenario."""
    rows = rows_of(Keys(toml.read(text)))
    for fault in faults_of(rows):
        raise Fault(fault)
    return Backplane(rows)
