"""Tests of gate/store.py and gate/library: what is made once is kept for the same texts, and a broken record counts for nothing."""

from __future__ import annotations

import importlib.machinery
import importlib.util
import os
from typing import Tuple

from tests import kits
from tests.small import GATE, Case, read, write
import store
from commands import Ended
from store import Store

LOADER = importlib.machinery.SourceFileLoader("library", os.path.join(GATE, "library"))
LIBRARY = importlib.util.module_from_spec(importlib.util.spec_from_loader("library", LOADER))
LOADER.exec_module(LIBRARY)


class ByHand:
    """A prover that builds a library of a tree, which says how many were built, or refuses it."""

    def __init__(self, tree: str) -> None:
        self.built, self.count, self.refuses = tree, 0, False

    def build_static(self, crate: str) -> Ended:
        self.count += 1
        write(f"{self.built}/crates/{crate}/out/lib{crate}.a", f"{self.count}\n")
        return Ended(int(self.refuses), "logic=not-proved\n" if self.refuses else "logic=proved\n", 1.0)


class Stores(Case):
    """Records in a cache of the tests' own."""

    def setUp(self) -> None:
        super().setUp()
        os.environ["XDG_CACHE_HOME"] = f"{self.room}/cache"

    def test_records(self) -> None:
        """A record is read back, unless all is done anew, it is another's, or it is broken; the next replaces it."""
        kept = Store("edits")
        kept.keep("one", b"a\nb\0")
        self.same("what is found", [kept.find("one"), kept.find("other"), Store("edits", is_anew=True).find("one")], [b"a\nb\0", None, None])
        with open(f"{kept.at}/one", "rb") as record:
            whole = record.read()
        for text in (b"", b"\n", whole[:-1], whole + b"c", b"\xff" + whole, whole.replace(b"a", b"c")):
            with open(f"{kept.at}/one", "wb") as record:
                record.write(text)
            self.same(repr(text), kept.find("one"), None)
        kept.keep("one", b"c")
        self.same("what replaces it", (kept.find("one"), os.listdir(kept.at)), (b"c", ["one"]))
        os.mkdir(f"{kept.at}/two")
        kept.keep("two", b"d")
        self.same("a folder in its place", (kept.find("two"), sorted(os.listdir(kept.at))), (None, ["one", "two"]))

    def test_bounds(self) -> None:
        """No more records stay than there may be: those that were used last."""
        kept = Store("libraries")
        for number in range(store.MOST["libraries"] + 2):
            kept.keep(str(number), b"")
            os.utime(f"{kept.at}/{number}", (number, number))
        kept.find("0")
        kept.shrink()
        self.same("what stays", sorted(os.listdir(kept.at)), ["0", *map(str, range(3, store.MOST["libraries"] + 2))])

    def test_places(self) -> None:
        """Nothing is kept in what is no folder, or where others may write; a relative place is none."""
        write(f"{self.room}/file", "")
        os.makedirs(f"{self.room}/open/vmebus/edits")
        os.chmod(f"{self.room}/open/vmebus/edits", 0o777)
        for cache in ("file", "open"):
            os.environ["XDG_CACHE_HOME"] = f"{self.room}/{cache}"
            kept = Store("edits")
            kept.keep("one", b"a")
            self.same(cache, (kept.is_ours, kept.find("one")), (False, None))
        os.environ["XDG_CACHE_HOME"] = "relative"
        self.same("a relative cache", store.place("edits"), os.path.expanduser("~/.cache/vmebus/edits"))

    def test_library(self) -> None:
        """A library of the same texts is built once. Each text of its crate and of those below counts, and one that is refused is not kept."""
        os.environ.update(kits.lay_out(f"{self.room}/kit"))
        tree = f"{self.room}/tree"
        texts = {"crates.txt": "low:\nhigh staticlib: low\n", "crates/low/src/lib.rt": "// Low.\n", "crates/high/specs/Lib.antt": "-- High.\n"}
        for file, text in texts.items():
            write(f"{tree}/{file}", text)
        maker = ByHand(tree)
        self.same("once", [self.built(maker), self.built(maker)], [(0, True, "1\n"), (0, False, "1\n")])
        os.remove(f"{tree}/crates/high/out/libhigh.a")
        self.same("where it was not", [self.built(maker), self.built(maker, is_anew=True)], [(0, False, "1\n"), (0, True, "2\n")])
        for file, text in texts.items():
            write(f"{tree}/{file}", text + ("high staticlib: low \n" if file == "crates.txt" else "// More.\n"))
            self.same(f"a change of {file}", self.built(maker)[:2], (0, True))
        write(f"{tree}/crates/low/src/lib.rt", "// Wrong.\n")
        maker.refuses = True
        self.same("what is refused", [self.built(maker)[:2], self.built(maker)[:2]], [(1, True), (1, True)])

    def built(self, maker: ByHand, is_anew: bool = False) -> Tuple[int, bool, str]:
        """Asks for the library, and returns the status, whether it was built now, and what it is."""
        before = maker.count
        status = LIBRARY.build(maker, "high", is_anew)
        return status, maker.count > before, read(f"{maker.built}/crates/high/out/libhigh.a")
