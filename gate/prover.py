"""Calls of the kit's prover on single functions of a crate, over libraries that are built already.

`rt check` in a copy of the tree would do, but would prove each library once more: what `rt ci` built of them it does not
take. So the prover is called as `rt ci` calls it for an edit, but for what it does after it has judged: it searches once more
for the proof texts that it offers for what it refused, which costs a batch 4 s and more. So it gets no folder to print them in,
says so in a note, and offers none. What it says of each function stays the same.
"""

from __future__ import annotations

import contextlib
import glob
import os
import shutil
import threading
import time

import trees
from commands import Commands, Ended
from trees import Misuse

# What a check may want of memory, in KiB.
ROOM = 4_000_000
# Checks begin at least so many seconds apart, since a process that has just begun is not counted yet.
PAUSE = 3
# Where the prover makes temporary folders: it makes none but for the texts that it offers, and none here.
NO_FOLDER = "/dev/null"
# The folder beside a crate in which the prover keeps its work.
KEPT = "kept"
# How the names end of the folders, beside the kept work, in which it keeps what it offered.
OFFERS = "-offers"
EACH = (OFFERS, f"-with-holes{OFFERS}")


def kit() -> str:
    """The folder of the kit whose `rt` is on the PATH."""
    command = shutil.which("rt")
    if not command:
        raise FileNotFoundError("there is no rt on the PATH")
    return os.path.dirname(os.path.dirname(os.path.realpath(command)))


class Prover:
    """The kit's prover over a tree in which each library was built."""

    def __init__(self, commands: Commands, built: str) -> None:
        self.commands, self.built, self.kit = commands, os.path.abspath(built), kit()
        self.uses = trees.read_crates(built)[1]
        self.turn, self.at_work, self.begun = threading.Lock(), 0, 0

    def check(self, crate: str, uses: list[str], folder: str, functions: set[str], is_whole: bool = True) -> Ended:
        """Checks these functions of the crate that lies in a folder, over the work that is kept beside it, and returns how that ended.

        In a crate that is not whole, proofs rest on holes."""
        kept = f"{folder}/{KEPT}"
        words = [*self.words("check", crate, uses, folder), "--progress", "--incremental", kept]
        words += [] if is_whole else ["--allow-holes"]
        for function in sorted(functions) or [""]:
            words += ["--only", function]
        self.begin()
        try:
            remove_offers(kept)
            environment = {**os.environ, "TMPDIR": NO_FOLDER}
            return self.commands.call(words, folder, environment, lambda _: close_offers(kept))
        finally:
            with self.turn:
                self.at_work -= 1

    def begin(self) -> None:
        """Waits until there is memory for a check and a processor that has no work, or no other check of this runner runs.

        With more processes than processors each spends more processor time: a fifth more, where that was measured (docs/TESTING.md)."""
        while True:
            with self.turn:
                is_settled = time.monotonic() - self.begun > PAUSE
                if not self.at_work or is_settled and free_memory() > ROOM and busy_processes() < len(os.sched_getaffinity(0)):
                    self.at_work, self.begun = self.at_work + 1, time.monotonic()
                    return
            time.sleep(1)

    def prove(self, crate: str, uses: list[str], folder: str) -> Ended:
        """Proves a library that lies in a folder, and returns how that ended."""
        return self.commands.call(self.words("check", crate, uses, folder), folder)

    def build_program(self, crate: str, uses: list[str], folder: str) -> Ended:
        """Proves a program that lies in a folder, and builds it there as out/CRATE, and returns how that ended."""
        made = f"out/{crate}"
        ended = self.build(crate, uses, folder, f"{made}.o")
        if ended.status:
            return ended
        words = [f"{self.kit}/bin/rattle-link", "--target", "x86_64-unknown-linux-gnu", "--toolchain", f"{self.kit}/toolchain", "-o", made]
        return self.commands.call([*words, f"{made}.o", f"{self.kit}/c/libos_c.a", f"{self.kit}/c/liblibc_c.a"], folder)

    def build_static(self, crate: str) -> Ended:
        """Proves a static library of the tree and builds its archive, and returns how that ended."""
        return self.build(crate, self.uses[crate], f"{self.built}/crates/{crate}", f"out/lib{crate}.a", "--crate-type", "staticlib")

    def build(self, crate: str, uses: list[str], folder: str, to: str, *more: str) -> Ended:
        """Proves a crate and compiles it by LLVM, and returns how that ended."""
        os.makedirs(f"{folder}/out", exist_ok=True)
        words = [*self.words("build", crate, uses, folder), *more, "--toolchain", f"{self.kit}/toolchain", "--backend", "llvm", "-o", to]
        return self.commands.call(words, folder)

    def words(self, verb: str, crate: str, uses: list[str], folder: str) -> list[str]:
        """The words that call the prover on a crate that lies in a folder, in one job: two would take a fifth more processor time."""
        root = "src/main.rt" if os.path.isfile(f"{folder}/src/main.rt") else "src/lib.rt"
        words = [f"{self.kit}/bin/rattle", verb, "--crate-name", crate, root, *self.libraries(uses)]
        words += ["--antt-project", f"{self.kit}/rattle/logic/antt-project.json", "--logic-built", f"{self.kit}/logic_built"]
        return [*words, "--jobs", "1", "--links", f"{crate}="]

    def libraries(self, uses: list[str]) -> list[str]:
        """The words that name the libraries that a crate uses, and where those below them lie."""
        words = ["-L", f"dependency={self.kit}/rlibs"]
        for name in ["std", *uses]:
            words += ["--extern", f"{name}={self.rlib(name) if name in self.uses else f'{self.kit}/rlibs/{name}.rlib'}"]
        own = {crate: None for name in uses if name in self.uses for crate in [*trees.below(self.uses, name), name]}
        for crate in own:
            words += ["-L", f"dependency={os.path.dirname(self.rlib(crate))}"]
        return words

    def hold(self, uses: list[str]) -> None:
        """Stops if one of these libraries is not built."""
        for name in uses:
            if not os.path.isdir(self.rlib(name)):
                raise Misuse(f"no library {name} is built in {self.built}")

    def rlib(self, name: str) -> str:
        return f"{self.built}/crates/{name}/out/rlib/{name}.rlib"


def remove_offers(kept: str) -> None:
    """Removes what the prover kept of offers, and closes its place."""
    for folder in glob.glob(f"{kept}/*{OFFERS}"):
        shutil.rmtree(folder, ignore_errors=True)
    close_offers(kept)


def close_offers(kept: str) -> None:
    """Puts an empty file in place of each folder in which the prover would keep what it offers: it has one beside each of kept work."""
    for name in os.listdir(kept) if os.path.isdir(kept) else []:
        for file in (f"{kept}/{name}{end}" for end in EACH if not name.endswith(OFFERS)):
            with contextlib.suppress(FileExistsError), open(file, "x", encoding="utf-8"):
                pass


def busy_processes() -> int:
    """How many processes of the machine run or wait for a processor, but for the one that asks."""
    with open("/proc/loadavg", encoding="utf-8") as text:
        return int(text.read().split()[3].partition("/")[0]) - 1


def free_memory() -> int:
    """The memory that is free or can be freed, in KiB."""
    with open("/proc/meminfo", encoding="utf-8") as text:
        return next(int(line.split()[1]) for line in text if line.startswith("MemAvailable:"))
