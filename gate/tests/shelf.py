"""Tests of gate/library and gate/shelf.py: a library is built once for the same texts, and a broken one that is kept counts for nothing."""

import glob
import importlib.machinery
import importlib.util
import os

import shelf
from commands import Ended
from tests.small import GATE, write

LOADER = importlib.machinery.SourceFileLoader("library", os.path.join(GATE, "library"))
LIBRARY = importlib.util.module_from_spec(importlib.util.spec_from_loader("library", LOADER))
LOADER.exec_module(LIBRARY)


class ByHand:
    """A prover that builds a library of a tree, which says how many were built, or refuses it."""

    def __init__(self, tree):
        self.tree, self.built, self.refuses = tree, 0, False

    def build_static(self, crate):
        self.built += 1
        write(f"{self.tree}/crates/{crate}/out/lib{crate}.a", f"{self.built}\n")
        return Ended(int(self.refuses), "logic=not-proved\n" if self.refuses else "logic=proved\n", 1.0, ())


def test_all(count, room):
    """Runs all tests of this file."""
    os.environ["XDG_CACHE_HOME"] = f"{room}/cache"
    maker = ByHand(lay(f"{room}/tree"))
    test_same(count, maker)
    test_changes(count, maker)
    test_broken(count, maker)
    test_bounds(count, maker)
    test_places(count, maker, room)


def lay(tree):
    """Makes a tree of two crates, of which the upper one is a static library."""
    for file, text in {"crates.txt": "low:\nhigh staticlib: low\n", "crates/low/src/lib.rt": "// Low.\n", "crates/high/src/lib.rt": "// High.\n"}.items():
        write(f"{tree}/{file}", text)
    return tree


def built(maker, is_anew=False):
    """Asks for the library, and returns the status, whether it was built now, and what it is."""
    before = maker.built
    status = LIBRARY.build(maker, maker.tree, "high", is_anew)
    with open(f"{maker.tree}/crates/high/out/libhigh.a", encoding="utf-8") as text:
        return status, maker.built > before, text.read()


def test_same(count, maker):
    """The library of the same texts is built once, and with --anew again."""
    found = built(maker), built(maker)
    count.tell("a library is built once", found == ((0, True, "1\n"), (0, False, "1\n")), str(found))
    os.remove(f"{maker.tree}/crates/high/out/libhigh.a")
    found = built(maker)
    count.tell("it is put where it was not", found == (0, False, "1\n"), str(found))
    found = built(maker, is_anew=True)
    count.tell("--anew builds it again", found == (0, True, "2\n"), str(found))


def test_changes(count, maker):
    """Each text of the crate and of those below counts, and a library that is refused is not kept."""
    write(f"{maker.tree}/crates/high/specs/Lib.antt", "-- High.\n")
    for file in ("crates/low/src/lib.rt", "crates/high/specs/Lib.antt", "crates.txt"):
        with open(f"{maker.tree}/{file}", "a", encoding="utf-8") as text:
            text.write("high staticlib: low \n" if file == "crates.txt" else "// More.\n")
        found = built(maker)
        count.tell(f"a change of {file}", found[:2] == (0, True), str(found))
    write(f"{maker.tree}/crates/low/src/lib.rt", "// Wrong.\n")
    maker.refuses = True
    found = built(maker), built(maker)
    maker.refuses = False
    count.tell("what is refused is not kept", all(it[:2] == (1, True) for it in found), str(found))
    found = built(maker)
    count.tell("what is mended is built", found[:2] == (0, True), str(found))


def test_broken(count, maker):
    """A library that was cut short or changed is built again, and one that is no file is passed over."""
    for text in ("", "other\n"):
        for it in kept(maker):
            write(it, text)
        found = built(maker)
        count.tell(f"a library that is {text!r}", found[:2] == (0, True) and built(maker)[1] is False, str(found))
    for it in kept(maker):
        os.remove(it)
        os.mkdir(it)
    found = built(maker)
    count.tell("a folder in its place", found[:2] == (0, True), str(found))
    for it in kept(maker):
        if os.path.isdir(it):
            os.rmdir(it)


def kept(maker):
    """The files that are kept of the tree as it is."""
    return glob.glob(f"{shelf.outcomes.place('libraries')}/{LIBRARY.sum_of(maker.tree, 'high')}-*")


def test_bounds(count, maker):
    """The newest libraries are kept, and no more than there is to be."""
    for at in range(shelf.MOST["libraries"] + 2):
        write(f"{maker.tree}/crates/low/src/lib.rt", f"// {at}\n")
        built(maker)
    files = os.listdir(shelf.outcomes.place("libraries"))
    count.tell("no more are kept", len(files) == shelf.MOST["libraries"], str(files))
    count.tell("the newest is", built(maker)[1] is False, str(files))


def test_places(count, maker, room):
    """Where nothing can be kept, the library is built each time. So it is where others may write."""
    for name, mode in (("is_a_file", None), ("is_open", 0o777)):
        os.environ["XDG_CACHE_HOME"] = f"{room}/{name}"
        write(f"{room}/{name}", "") if mode is None else os.makedirs(f"{room}/{name}/vmebus/libraries")
        if mode:
            os.chmod(f"{room}/{name}/vmebus/libraries", mode)
        found = built(maker), built(maker)
        count.tell(f"a cache that {name}", all(it[:2] == (0, True) for it in found), str(found))
