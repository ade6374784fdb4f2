"""A VMEbus backplane that judges signal edges one at a time, for benches in Python.

    from pathlib import Path
    from vmebus import Bus

    bus = Bus(Path("scenario.toml"))
    verdict = bus.step("2 bbsy-")
    if not verdict:
        print(verdict, *verdict.failing, sep="\\n")

An edge is a line of a trace, such as "2 br-" or "c bg3-". A driver is the number of a slot, or "c"
for the controller. The module calls libvmebus.so, which `crates/vmebus_c/shared` makes: it looks
for the file in $VMEBUS_LIBRARY, beside itself, and in its repository. docs/EMBEDDING.md says what
is promised of each call.
"""

from __future__ import annotations

import ctypes
import os
from ctypes import POINTER, c_size_t, c_uint32, c_uint64
from dataclasses import dataclass
from pathlib import Path
from typing import Dict, FrozenSet, Iterable, List, Mapping, Optional, Tuple, Union

VERSION, WORDS, DRAWS_WORDS = 0x10000, 165, 37
WIRES = "bg0 bg1 bg2 bg3 bclr iack berr br bgout bbsy addr as ds irq iackout dtack".split()
PINS = ("BR0* BR1* BR2* BR3* BBSY* BCLR* AS* DS0* DTACK* BERR* BGIN* IACKIN* "
        "IRQ1* IRQ2* IRQ3* IRQ4* IRQ5* IRQ6* IRQ7*").split()
MOST_SLOTS, MOST_OPEN, MOST_BYTES = 21, 36, 64
NO_EDGE, NO_BUS = 0x500, 0xFFFFFFFF

Driver = Union[int, str]


class LibraryError(ImportError):
    """The shared library is not there, or is of another build than this module."""


class ScenarioRefused(ValueError):
    """No bus is opened. `code` is the fault, such as Q4, as docs/FAULTS.md lists it."""

    def __init__(self, fault: int):
        names = {20: "F2", 31: "X1"}
        self.code = names.get(fault) or (f"P{fault}" if fault < 10 else f"Q{fault - 10}")
        version = "there is no such version of the rules"
        words = "see docs/FAULTS.md; `vmebus replay SCENARIO TRACE` prints it in words"
        super().__init__(f"{self.code}: {version if fault == 31 else words}")


class NoEdge(ValueError):
    """A text is not the line of an edge, such as "2 br-"."""


def _load() -> ctypes.CDLL:
    """Loads the library, and compares its build with this module's numbers."""
    here = Path(__file__).resolve().parent
    places = [here / "libvmebus.so", here / "../../crates/vmebus_c/out/libvmebus.so"]
    given = os.environ.get("VMEBUS_LIBRARY")
    found = Path(given) if given else next(filter(Path.is_file, places), places[0])
    try:
        library = ctypes.CDLL(str(found.resolve()))
    except OSError as why:
        made = "(cd crates/vmebus_c && rt lib && ./shared) makes crates/vmebus_c/out/libvmebus.so"
        raise LibraryError(f"{why}: {made}") from None
    words, size, texts = POINTER(c_uint32), c_size_t, ctypes.c_char_p
    edge = [words, c_uint32, c_uint32, c_uint32, c_uint32]
    for name, arguments in {
        "build": [words, size], "open": [words, c_uint32, texts, size],
        "line": [words, texts, size, words], "holder": [words], "grant_at": [words],
        "pins": [words, c_uint32], "failing": [*edge, words, size],
        "why": [*edge, c_uint32, texts, size], "spell": [*edge[1:], texts, size],
        "open_edges": [words, c_uint32, words, size], "low": [words, c_uint32, c_uint32],
        "has": [words, c_uint32, c_uint32], "draws": [words, c_uint64],
        "draw": [words, words, words, size, words],
    }.items():
        function = getattr(library, f"vmebus_{name}")
        function.argtypes = arguments
        function.restype = None if name == "draws" else c_uint32
    build = (c_uint32 * 3)()
    library.vmebus_build(build, 3)
    if list(build) != [VERSION, WORDS, DRAWS_WORDS]:
        raise LibraryError(f"{found} and vmebus.py are of different builds: {list(build)} and "
                           f"{[VERSION, WORDS, DRAWS_WORDS]} (version, words of a bus, of draws)")
    return library


_library = _load()


def _number(driver: Driver) -> int:
    """The number of a driver: 0 for the controller, or its slot."""
    if driver == "c":
        return 0
    if not 1 <= int(driver) <= MOST_SLOTS:
        raise ValueError(f"{driver!r} is no driver: a driver is a slot, 1 to 21, or 'c'")
    return int(driver)


def _wire(name: str) -> int:
    """The number of a wire."""
    if name not in WIRES:
        raise ValueError(f"{name!r} is no wire: a wire is one of {', '.join(WIRES)}")
    return WIRES.index(name)


def _numbers(line: str) -> Tuple[int, int, int, int]:
    """The numbers of an edge whose line the library has read."""
    driver, wire, *shown = line.split(" ")
    value = int(shown[0][1:]) + (32 if shown[0][0] == "r" else 0) if shown else 0
    return _number(driver), _wire(wire[:-1]), int(wire[-1] == "-"), value


def _spelled(driver: int, wire: int, fall: int, value: int) -> str:
    """The line of an edge."""
    text = ctypes.create_string_buffer(MOST_BYTES)
    return text[: _library.vmebus_spell(driver, wire, fall, value, text, MOST_BYTES)].decode()


def _line_of(edge: int) -> str:
    """The line of an edge in one word."""
    return _spelled(edge >> 24, edge >> 16 & 0xFF, edge >> 8 & 0xFF, edge & 0xFF)


def _shown(value: int) -> Optional[str]:
    """What the address lines show: an acknowledge "i4", an access "r3", or None."""
    if value == 0:
        return None
    return f"r{value - 32}" if value > 32 else f"i{value}"


@dataclass(frozen=True)
class Delivery:
    """The status byte that went from an interrupter to a handler."""

    level: int
    handler: int
    answered_by: int
    status: int

    def __str__(self) -> str:
        return f"irq {self.level} to {self.handler} from {self.answered_by} status {self.status}"


@dataclass(frozen=True)
class Verdict:
    """The verdict on an edge. It is true if the edge was accepted, and `str` is as in `replay`."""

    code: str  #: "ok", or "E1" to "E4"
    rule: Optional[str] = None  #: the rule that refuses the edge, "G1" to "G26" or "S1" to "S4"
    delivery: Optional[Delivery] = None  #: what is delivered by the edge
    failing: Tuple[str, ...] = ()  #: the conditions that the edge fails, as `explain` prints them

    @property
    def ok(self) -> bool:
        """Whether the edge was accepted."""
        return self.code == "ok"

    def __bool__(self) -> bool:
        return self.ok

    def __str__(self) -> str:
        return " ".join(str(it) for it in (self.code, self.rule, self.delivery) if it)


ACCEPTED = Verdict("ok")


@dataclass(frozen=True)
class Pins:
    """What a driver sees at its inputs: the lines that are low, and what the address lines show."""

    low: FrozenSet[str]  #: names of PINS
    shows: Optional[str]  #: an acknowledge of a level, such as "i4", an access, "r3", or None


class Bus:
    """A backplane and all edges that it has accepted."""

    def __init__(self, scenario: Union[str, bytes, os.PathLike], version: int = 1):
        """Opens a bus at power-up.

        `scenario` is the text of a scenario, or the `Path` of its file; `version` is 1 or 2, the
        version of the rules. Raises ScenarioRefused if the scenario or the version has a fault.
        """
        text = Path(scenario).read_bytes() if isinstance(scenario, os.PathLike) else scenario
        text = text.encode() if isinstance(text, str) else text
        self._words, self._delivered = (c_uint32 * WORDS)(), c_uint32()
        fault = _library.vmebus_open(self._words, version, text, len(text))
        if fault:
            raise ScenarioRefused(fault)

    def step(self, edge: str) -> Verdict:
        """Judges an edge, and makes it if it is accepted. Raises NoEdge if the line spells none."""
        line = edge.encode(errors="replace")
        answer = _library.vmebus_line(self._words, line, len(line), self._delivered)
        if answer == 0:
            number = self._delivered.value
            return Verdict("ok", None, _delivery(number)) if number else ACCEPTED
        if answer == NO_EDGE:
            raise NoEdge(f"{edge!r} is not the line of an edge, such as '2 br-'")
        error, rule = answer >> 8, answer & 0xFF
        letter = {3: "G", 4: "S"}.get(error)
        return Verdict(f"E{error}", letter and f"{letter}{rule}", None, self._why(edge))

    def failing(self, edge: str) -> Tuple[str, ...]:
        """The conditions that an edge would fail now, as `explain` prints them. The bus stays."""
        return self.copy().step(edge).failing

    def _why(self, edge: str) -> Tuple[str, ...]:
        """The conditions that a refused edge fails."""
        numbers, text = _numbers(edge), ctypes.create_string_buffer(MOST_BYTES)
        count = _library.vmebus_failing(self._words, *numbers, (c_uint32 * 1)(), 1)
        lengths = (_library.vmebus_why(self._words, *numbers, place, text, MOST_BYTES)
                   for place in range(count))
        return tuple(text[:length].decode() for length in lengths)

    @property
    def holder(self) -> Optional[int]:
        """The slot that holds the bus, or None."""
        return _library.vmebus_holder(self._words) or None

    @property
    def grant_at(self) -> Optional[int]:
        """The slot at which a grant travels, or None."""
        return _library.vmebus_grant_at(self._words) or None

    def open(self, driver: Driver) -> List[str]:
        """All edges that a driver could make now, in the order of `state`."""
        edges = (c_uint32 * MOST_OPEN)()
        count = _library.vmebus_open_edges(self._words, _number(driver), edges, MOST_OPEN)
        return [_line_of(edge) for edge in edges[:count]]

    def pins(self, driver: Driver) -> Pins:
        """What a driver sees at its inputs."""
        bits = _library.vmebus_pins(self._words, _number(driver))
        low = frozenset(pin for at, pin in enumerate(PINS) if bits >> at & 1)
        return Pins(low, _shown(bits >> 24))

    def low(self, driver: Driver, wire: str) -> bool:
        """Whether a driver holds a wire low, or has its address group on."""
        return bool(_library.vmebus_low(self._words, _number(driver), _wire(wire)))

    def has(self, driver: Driver, wire: str) -> bool:
        """Whether the backplane has the driver with such a wire."""
        return bool(_library.vmebus_has(self._words, _number(driver), _wire(wire)))

    def copy(self) -> Bus:
        """A second bus in the same state: a snapshot, a bus to try an edge on, or to go back to."""
        other = Bus.__new__(Bus)
        other._words, other._delivered = type(self._words).from_buffer_copy(self._words), c_uint32()
        return other

    __copy__ = copy

    def __deepcopy__(self, _: Dict[int, object]) -> Bus:
        return self.copy()

    def __eq__(self, other: object) -> bool:
        return isinstance(other, Bus) and bytes(self._words) == bytes(other._words)


def _delivery(number: int) -> Delivery:
    return Delivery(number >> 24 & 0x7F, number >> 16 & 0xFF, number >> 8 & 0xFF, number & 0xFF)


class Wires:
    """The wires that the library plays: all but those of the drivers in `only`, and of these the
    wires that are named. `Wires({2: ["dtack"]})` leaves slot 2 to the bench, but for its dtack."""

    def __init__(self, only: Optional[Mapping[Driver, Iterable[str]]] = None):
        masks = [0xFFFF] * (MOST_SLOTS + 1)
        for driver, wires in (only or {}).items():
            masks[_number(driver)] = sum(1 << _wire(it) for it in set(wires))
        self._masks = (c_uint32 * len(masks))(*masks)


ALL_WIRES = Wires()


class Draws:
    """The draws of a seed, as `drive --seed` has them. Each thread has its own."""

    def __init__(self, seed: int):
        """Makes the draws of a seed, 0 to 2^64 - 1."""
        if not 0 <= seed < 1 << 64:
            raise ValueError(f"{seed} is no seed: a seed is a number from 0 to 2^64 - 1")
        self._words, self._edge = (c_uint32 * DRAWS_WORDS)(), c_uint32()
        _library.vmebus_draws(self._words, seed)

    def next(self, bus: Bus, wires: Wires = ALL_WIRES) -> Optional[str]:
        """Draws the next edge of these wires among those that are open now, or None if none is.

        The bus is not stepped: make the edge in the design, and step it as any other.
        """
        masks = wires._masks
        answer = _library.vmebus_draw(bus._words, self._words, masks, len(masks), self._edge)
        return None if answer else _line_of(self._edge.value)
