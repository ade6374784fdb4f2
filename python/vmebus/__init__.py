"""A VMEbus backplane that judges signal edges one at a time, for benches in Python.

    from pathlib import Path
    from vmebus import Bus

    bus = Bus(Path("scenario.toml"))
    verdict = bus.step("2 bbsy-")
    if not verdict:
        print(verdict, *verdict.failing, sep="; ")

An edge is a line of a trace, such as "2 br-" or "c bg3-". A driver is the number of a slot, or "c"
for the controller. The package calls libvmebus.so: it looks for the file in $VMEBUS_LIBRARY, in its
own folder, beside that, and in its repository. docs/EMBEDDING.md says what is promised of each
call. `vmebus.cocotb` has a monitor for cocotb.
"""

from __future__ import annotations

import ctypes
import os
from ctypes import c_uint32
from dataclasses import dataclass
from pathlib import Path
from typing import Callable, Dict, FrozenSet, Iterable, List, Mapping, Optional, Tuple, Union

from ._library import (DRAWS_WORDS, LIBRARY, MOST_BYTES, MOST_FAILING, MOST_FAULT, MOST_OPEN, MOST_SLOTS, NO_EDGE, VERSION,
                       WORDS, BusWords, DrawsWords, LibraryError, Masks, is_proved)
from ._names import PINS, WIRES, Driver, driver_number, edge_numbers, is_number, line_of, shown, wire_number, wrong_type

__version__ = ".".join(str(VERSION >> shift & 0xFF) for shift in (16, 8, 0))
__all__ = ["ALL_WIRES", "Bus", "Condition", "Delivery", "Draws", "Driver", "LibraryError", "MOST_SLOTS", "NoEdge", "PINS",
           "PROVED", "Pins", "ScenarioRefused", "Verdict", "WIRES", "Wires"]

#: Whether the library was proved. One of ./try --library was not.
PROVED = is_proved(LIBRARY)


class ScenarioRefused(ValueError):
    """No bus is opened. `line` is what the program prints of the fault, such as "Q3 missing key slots",
    and `code` is Q3. docs/FAULTS.md lists them."""

    def __init__(self, line: str, hint: str = ""):
        super().__init__(line, hint)
        self.line, self.hint = line, hint

    @property
    def code(self) -> str:
        """The code of the fault."""
        return self.line.split(" ")[0]

    def __str__(self) -> str:
        return f"{self.line}: {self.hint}" if self.hint else self.line


class NoEdge(ValueError):
    """A text is not the line of an edge, such as "2 br-"."""


@dataclass(frozen=True)
class Delivery:
    """The status byte that went from an interrupter to a handler."""

    level: int
    handler: int
    answered_by: int
    status: int

    def __str__(self) -> str:
        return f"irq {self.level} to {self.handler} from {self.answered_by} status {self.status}"


@dataclass(frozen=True)
class Condition:
    """A condition that a refused edge fails. `str` is its text, as `explain` prints it."""

    text: str  #: without the mark of the profile, such as "own bbsy is high"
    number: int  #: that of vmebus.h
    profile: bool  #: whether the condition is this project's own, and stricter than the standard

    def __str__(self) -> str:
        return f"{self.text} (profile)" if self.profile else self.text


@dataclass(frozen=True)
class Verdict:
    """The verdict on an edge. It is true if the edge was accepted, and `str` is as in `replay`."""

    code: str  #: "ok", or "E1" to "E4"
    rule: Optional[str] = None  #: the rule that refuses the edge, "G1" to "G26" or "S1" to "S4"
    delivery: Optional[Delivery] = None  #: what is delivered by the edge
    failing: Tuple[Condition, ...] = ()  #: the conditions that the edge fails

    @property
    def ok(self) -> bool:
        """Whether the edge was accepted."""
        return self.code == "ok"

    def __bool__(self) -> bool:
        return self.ok

    def __str__(self) -> str:
        return " ".join(str(it) for it in (self.code, self.rule, self.delivery) if it)


ACCEPTED = Verdict("ok")


@dataclass(frozen=True)
class Pins:
    """What a driver sees at its inputs: the lines that are low, and what the address lines show."""

    low: FrozenSet[str]  #: names of PINS
    shows: Optional[str]  #: an acknowledge of a level, such as "i4", an access, "r3", or None


def _scenario_bytes(scenario: Union[str, bytes, os.PathLike]) -> bytes:
    """The text of a scenario, which may lie in a file."""
    if isinstance(scenario, os.PathLike):
        return Path(scenario).read_bytes()
    if isinstance(scenario, str):
        return scenario.encode(errors="replace")
    if not isinstance(scenario, (bytes, bytearray)):
        raise wrong_type("scenario", "the Path of a file, or the text of a scenario,", scenario)
    return bytes(scenario)


def _refused(version: int, text: bytes) -> ScenarioRefused:
    """The error of a scenario or version that has a fault."""
    room = ctypes.create_string_buffer(MOST_FAULT)
    length = LIBRARY.vmebus_fault_text(version, text, len(text), room, MOST_FAULT)
    line = room[:length].decode(errors="replace")
    if b"=" in text:
        return ScenarioRefused(line)
    return ScenarioRefused(line, f"{_begins(text)!r} is taken as the text of a scenario; for a file pass a Path")


def _begins(text: bytes) -> str:
    """What a text begins with."""
    return text[:40].decode(errors="replace")


class Bus:
    """A backplane and all edges that it has accepted."""

    def __init__(self, scenario: Union[str, bytes, os.PathLike], version: int = 1):
        """Opens a bus at power-up.

        `scenario` is the text of a scenario, or the `Path` of its file; `version` is 1 or 2, the
        version of the rules. Raises ScenarioRefused if the scenario or the version has a fault.
        """
        if not is_number(version):
            raise wrong_type("version", "1 or 2", version)
        text = _scenario_bytes(scenario)
        self._words, self._delivered = BusWords(), c_uint32()
        self._version, self._accepted = version, 0
        known = version if version in (1, 2) else 0  # a longer number would lose its upper bits
        size = ctypes.sizeof(BusWords)
        if LIBRARY.vmebus_open_sized(self._words, size, known, text, len(text)):
            raise _refused(known, text)

    @property
    def version(self) -> int:
        """The version of the rules, 1 or 2."""
        return self._version

    @property
    def accepted(self) -> int:
        """How many edges the bus has accepted since power-up."""
        return self._accepted

    def step(self, edge: str) -> Verdict:
        """Judges an edge, and makes it if it is accepted. Raises NoEdge if the line spells none."""
        if not isinstance(edge, str):
            raise wrong_type("edge", "the line of an edge, such as '2 br-',", edge)
        line = edge.encode(errors="replace")
        answer = LIBRARY.vmebus_line(self._words, line, len(line), self._delivered)
        if answer == 0:
            self._accepted += 1
            number = self._delivered.value
            return Verdict("ok", None, _delivery(number)) if number else ACCEPTED
        if answer == NO_EDGE:
            raise NoEdge(f"edge: {edge!r} is not the line of an edge, such as '2 br-'")
        error, rule = answer >> 8, answer & 0xFF
        letter = {3: "G", 4: "S"}.get(error)
        return Verdict(f"E{error}", letter and f"{letter}{rule}", None, self._why(edge))

    def failing(self, edge: str) -> Tuple[Condition, ...]:
        """The conditions that an edge would fail now. The bus stays."""
        return self.copy().step(edge).failing

    def _why(self, edge: str) -> Tuple[Condition, ...]:
        """The conditions that a refused edge fails."""
        numbers, text = edge_numbers(edge), ctypes.create_string_buffer(MOST_BYTES)
        found = (c_uint32 * MOST_FAILING)()
        count = LIBRARY.vmebus_failing(self._words, *numbers, found, MOST_FAILING)
        return tuple(_condition(self._text(numbers, place, text), found[place]) for place in range(count))

    def _text(self, numbers: Tuple[int, int, int, int], place: int, room: ctypes.Array) -> str:
        """The text of a condition at a place of those that an edge fails."""
        return room[: LIBRARY.vmebus_why(self._words, *numbers, place, room, MOST_BYTES)].decode()

    @property
    def holder(self) -> Optional[int]:
        """The slot that holds the bus, or None."""
        return LIBRARY.vmebus_holder(self._words) or None

    @property
    def grant_at(self) -> Optional[int]:
        """The slot at which a grant travels, or None."""
        return LIBRARY.vmebus_grant_at(self._words) or None

    def open(self, driver: Driver) -> List[str]:
        """All edges that a driver could make now, in the order of `state`."""
        edges = (c_uint32 * MOST_OPEN)()
        count = LIBRARY.vmebus_open_edges(self._words, driver_number(driver), edges, MOST_OPEN)
        return [line_of(edge) for edge in edges[:count]]

    def pins(self, driver: Driver) -> Pins:
        """What a driver sees at its inputs."""
        bits = LIBRARY.vmebus_pins(self._words, driver_number(driver))
        low = frozenset(pin for at, pin in enumerate(PINS) if bits >> at & 1)
        return Pins(low, shown(bits >> 24))

    def low(self, driver: Driver, wire: str) -> bool:
        """Whether a driver holds a wire low, or has its address group on."""
        return bool(LIBRARY.vmebus_low(self._words, driver_number(driver), wire_number(wire)))

    def has(self, driver: Driver, wire: str) -> bool:
        """Whether the backplane has the driver with such a wire."""
        return bool(LIBRARY.vmebus_has(self._words, driver_number(driver), wire_number(wire)))

    def copy(self) -> Bus:
        """A second bus in the same state: a snapshot, a bus to try an edge on, or to go back to."""
        return _kept_bus(VERSION, bytes(self._words), self._version, self._accepted)

    __copy__ = copy

    def __deepcopy__(self, _: Dict[int, object]) -> Bus:
        return self.copy()

    def __reduce__(self) -> Tuple[Callable[..., Bus], Tuple[object, ...]]:
        return _kept_bus, (VERSION, bytes(self._words), self._version, self._accepted)

    def __eq__(self, other: object) -> bool:
        return isinstance(other, Bus) and bytes(self._words) == bytes(other._words)

    def __repr__(self) -> str:
        holder = f"slot {self.holder}" if self.holder else "nobody"
        return f"<vmebus.Bus version {self._version}, {self._accepted} edges accepted, held by {holder}>"


def _kept_bus(build: int, words: bytes, version: int, accepted: int) -> Bus:
    """The bus whose words were kept by a library of the same build."""
    bus = Bus.__new__(Bus)
    bus._words, bus._delivered = _words_of(BusWords, build, words), c_uint32()
    bus._version, bus._accepted = version, accepted
    return bus


def _words_of(kind: type, build: int, words: bytes) -> ctypes.Array:
    """Words that were kept by a library of the same build, as the library takes them."""
    if build != VERSION or len(words) != ctypes.sizeof(kind):
        raise ValueError("these words were kept by another version of the library")
    return kind.from_buffer_copy(words)


def _condition(text: str, number: int) -> Condition:
    """A condition of the library: what `explain` prints, and its number."""
    mark = " (profile)"
    is_ours = text.endswith(mark)
    return Condition(text[: -len(mark)] if is_ours else text, number, is_ours)


def _delivery(number: int) -> Delivery:
    return Delivery(number >> 24 & 0x7F, number >> 16 & 0xFF, number >> 8 & 0xFF, number & 0xFF)


def _wires_mask(wires: Iterable[str]) -> int:
    """The mask of some wires of a driver."""
    if isinstance(wires, (str, bytes)) or not isinstance(wires, Iterable):
        raise wrong_type("only", "a list of wires, such as ['dtack'], for each driver", wires)
    return sum(1 << at for at in {wire_number(it) for it in wires})


class Wires:
    """The wires that the library plays: all but those of the drivers in `only`, and of these the
    wires that are named. `Wires({2: ["dtack"]})` leaves slot 2 to the bench, but for its dtack."""

    def __init__(self, only: Optional[Mapping[Driver, Iterable[str]]] = None):
        if only is not None and not isinstance(only, Mapping):
            raise wrong_type("only", "a dict of drivers and their wires, such as {2: ['dtack']},", only)
        masks = [0xFFFF] * (MOST_SLOTS + 1)
        for driver, wires in (only or {}).items():
            masks[driver_number(driver)] = _wires_mask(wires)
        self._masks = Masks(*masks)


ALL_WIRES = Wires()


class Draws:
    """The draws of a seed, as `drive --seed` has them. Each thread has its own."""

    def __init__(self, seed: int):
        """Makes the draws of a seed, 0 to 2^64 - 1."""
        if not is_number(seed):
            raise wrong_type("seed", "a whole number", seed)
        if not 0 <= seed < 1 << 64:
            raise ValueError(f"seed: {seed} is no seed: a seed is a number from 0 to 2^64 - 1")
        self._words, self._edge = DrawsWords(), c_uint32()
        LIBRARY.vmebus_seed_sized(self._words, ctypes.sizeof(DrawsWords), seed)

    def next(self, bus: Bus, wires: Wires = ALL_WIRES) -> Optional[str]:
        """Draws the next edge of these wires among those that are open now, or None if none is.

        The bus is not stepped: make the edge in the design, and step it as any other.
        """
        if not isinstance(bus, Bus):
            raise wrong_type("bus", "a Bus", bus)
        if not isinstance(wires, Wires):
            raise wrong_type("wires", "Wires, such as Wires({2: ['dtack']}),", wires)
        masks = wires._masks
        answer = LIBRARY.vmebus_draw(bus._words, self._words, masks, len(masks), self._edge)
        return None if answer else line_of(self._edge.value)

    def copy(self) -> Draws:
        """Second draws that go on alike."""
        return _kept_draws(VERSION, bytes(self._words))

    __copy__ = copy

    def __deepcopy__(self, _: Dict[int, object]) -> Draws:
        return self.copy()

    def __reduce__(self) -> Tuple[Callable[..., Draws], Tuple[object, ...]]:
        return _kept_draws, (VERSION, bytes(self._words))

    def __eq__(self, other: object) -> bool:
        return isinstance(other, Draws) and bytes(self._words) == bytes(other._words)


def _kept_draws(build: int, words: bytes) -> Draws:
    """The draws whose words were kept by a library of the same build."""
    draws = Draws.__new__(Draws)
    draws._words, draws._edge = _words_of(DrawsWords, build, words), c_uint32()
    return draws
