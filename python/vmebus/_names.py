"""Drivers, wires and edges: their names in Python, and their numbers in the library."""

from __future__ import annotations

import ctypes
from typing import Optional, Tuple, Union

from ._library import LIBRARY, MOST_BYTES, MOST_SLOTS

WIRES = "bg0 bg1 bg2 bg3 bclr iack berr br bgout bbsy addr as ds irq iackout dtack".split()
PINS = ("BR0* BR1* BR2* BR3* BBSY* BCLR* AS* DS0* DTACK* BERR* BGIN* IACKIN* "
        "IRQ1* IRQ2* IRQ3* IRQ4* IRQ5* IRQ6* IRQ7*").split()

#: The number of a slot, 1 to 21, or "c" for the controller.
Driver = Union[int, str]


def wrong_type(argument: str, wanted: str, given: object) -> TypeError:
    """The error of an argument of a type that a call does not take."""
    return TypeError(f"{argument}: {wanted} is wanted, not {given!r} ({type(given).__name__})")


def is_number(it: object) -> bool:
    """Whether it is a whole number, and no truth value."""
    return isinstance(it, int) and not isinstance(it, bool)


def driver_number(driver: Driver) -> int:
    """The number of a driver: 0 for the controller, or its slot."""
    if isinstance(driver, str) and driver == "c":
        return 0
    if not is_number(driver) and not isinstance(driver, str):
        raise wrong_type("driver", "the number of a slot, or 'c'", driver)
    if isinstance(driver, str) or not 1 <= driver <= MOST_SLOTS:
        raise ValueError(f"driver: {driver!r} is no driver: a driver is a slot, 1 to 21, or 'c'")
    return driver


def wire_number(wire: str) -> int:
    """The number of a wire."""
    if not isinstance(wire, str):
        raise wrong_type("wire", "a name such as 'br'", wire)
    if wire not in WIRES:
        raise ValueError(f"wire: {wire!r} is no wire: a wire is one of {', '.join(WIRES)}")
    return WIRES.index(wire)


def edge_numbers(line: str) -> Tuple[int, int, int, int]:
    """The driver, wire, fall and value of an edge whose line the library has read."""
    driver, wire, *shown = line.split(" ")
    value = int(shown[0][1:]) + (32 if shown[0][0] == "r" else 0) if shown else 0
    number = 0 if driver == "c" else int(driver)
    return number, wire_number(wire[:-1]), int(wire[-1] == "-"), value


def line_of(edge: int) -> str:
    """The line of an edge that the library gives in one word."""
    text = ctypes.create_string_buffer(MOST_BYTES)
    numbers = edge >> 24, edge >> 16 & 0xFF, edge >> 8 & 0xFF, edge & 0xFF
    return text[: LIBRARY.vmebus_spell(*numbers, text, MOST_BYTES)].decode()


def shown(value: int) -> Optional[str]:
    """What the address lines show: an acknowledge "i4", an access "r3", or None."""
    if value == 0:
        return None
    return f"r{value - 32}" if value > 32 else f"i{value}"
