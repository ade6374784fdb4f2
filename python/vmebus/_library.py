"""The shared library: where it lies, and its calls with the types of their arguments."""

from __future__ import annotations

import ctypes
import os
from ctypes import POINTER, c_size_t, c_uint32, c_uint64
from pathlib import Path

VERSION, WORDS, DRAWS_WORDS = 0x20000, 165, 37
MOST_SLOTS, MOST_OPEN, MOST_FAILING, MOST_BYTES, MOST_FAULT = 21, 36, 5, 64, 1024
NO_EDGE, NO_BUS = 0x500, 0xFFFFFFFF

BusWords, DrawsWords = c_uint32 * WORDS, c_uint32 * DRAWS_WORDS
Masks, Numbers = c_uint32 * (MOST_SLOTS + 1), POINTER(c_uint32)

HERE = Path(__file__).resolve().parent

# Where the library lies if VMEBUS_LIBRARY does not say so: in the package, beside it, or in its repository.
PLACES = [HERE / "libvmebus.so", HERE.parent / "libvmebus.so",
          HERE.parent.parent / "crates/vmebus_c/out/libvmebus.so"]


class LibraryError(ImportError):
    """The shared library is not there, or is of another build than this package."""


def found() -> Path:
    """The file of the library. VMEBUS_LIBRARY may name its folder."""
    given = os.environ.get("VMEBUS_LIBRARY")
    if given:
        return Path(given, "libvmebus.so") if Path(given).is_dir() else Path(given)
    return next(filter(Path.is_file, PLACES), PLACES[0])


def opened(file: Path) -> ctypes.CDLL:
    try:
        return ctypes.CDLL(str(file.resolve()))
    except OSError as why:
        made = ("./try --library FOLDER makes one in two minutes without proof, and "
                "(cd crates/vmebus_c && rt lib && ./shared) the proved one")
        raise LibraryError(f"{why}: {made}") from None


def load() -> ctypes.CDLL:
    """Loads the library, and compares its build with this package's numbers."""
    file = found()
    library = opened(file)
    text, edge = ctypes.c_char_p, [BusWords, c_uint32, c_uint32, c_uint32, c_uint32]
    for name, arguments in {
        "build": [Numbers, c_size_t], "open_sized": [BusWords, c_size_t, c_uint32, text, c_size_t],
        "fault_text": [c_uint32, text, c_size_t, text, c_size_t],
        "line": [BusWords, text, c_size_t, Numbers], "holder": [BusWords], "grant_at": [BusWords],
        "pins": [BusWords, c_uint32], "failing": [*edge, Numbers, c_size_t],
        "why": [*edge, c_uint32, text, c_size_t], "spell": [*edge[1:], text, c_size_t],
        "open_edges": [BusWords, c_uint32, Numbers, c_size_t], "low": [BusWords, c_uint32, c_uint32],
        "has": [BusWords, c_uint32, c_uint32], "seed_sized": [DrawsWords, c_size_t, c_uint64],
        "draw": [BusWords, DrawsWords, Masks, c_size_t, Numbers],
    }.items():
        function = getattr(library, f"vmebus_{name}", None)
        if function is None:
            raise LibraryError(f"{file} and this package are of different builds: it has no vmebus_{name}")
        function.argtypes = arguments
        function.restype = c_uint32
    build = (c_uint32 * 4)()
    library.vmebus_build(build, 4)
    if list(build)[:3] != [VERSION, WORDS, DRAWS_WORDS]:
        raise LibraryError(f"{file} and this package are of different builds: {list(build)[:3]} and "
                           f"{[VERSION, WORDS, DRAWS_WORDS]} (version, words of a bus, of draws)")
    return library


def is_proved(library: ctypes.CDLL) -> bool:
    """Whether the library was proved. One of ./try --library was not."""
    build = (c_uint32 * 4)()
    library.vmebus_build(build, 4)
    return bool(build[3])


LIBRARY = load()
