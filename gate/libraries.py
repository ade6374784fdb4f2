"""The libraries that crates stand on: built in a copy, or in a tree in which `rt ci` builds them meanwhile."""

from __future__ import annotations

import os
import re

import trees
from commands import Commands
from trees import Misuse, Repository

BUILT = re.compile(r"rt: (\S+) (proved|is kept\b.*|NOT PROVED\b.*)")
# The line that ends the log of `rt ci`.
ENDED = "rt ci ended"


def build(commands: Commands, repository: Repository, names: list[str], room: str, jobs: int) -> str:
    """Builds the libraries that these crates stand on, in a copy, over what `rt check` kept, and returns the copy."""
    built = f"{room}/built"
    for crate in trees.copy_below(repository.root, built, names):
        print(f"edits: building {crate}, for the crates above it", flush=True)
        ended = commands.call(["rt", "lib", "--jobs", str(jobs)], f"{built}/crates/{crate}")
        if ended.status:
            raise Misuse(f"{crate} is not proved, so that no edit can be tried above it: {first_fault(ended.said)}")
    return built


def hold(repository: Repository, built: str, names: list[str]) -> None:
    """Holds a tree to have the same crates as the repository below these."""
    theirs = Repository(built)
    for crate in {below for name in names for below in trees.below(repository.uses, name)}:
        if crate not in theirs.lines or theirs.texts(crate) != repository.texts(crate):
            raise Misuse(f"--built: {crate} in {built} is not the repository's")


class Libraries:
    """The libraries of a tree in which all are built."""

    def __init__(self, repository: Repository, built: str) -> None:
        self.repository, self.built = repository, built

    def are_below(self, name: str) -> bool:
        """Whether the libraries below a crate are built; stops if they will not be."""
        for crate in trees.below(self.repository.uses, name):
            if not os.path.isdir(f"{self.built}/crates/{crate}/out/rlib/{crate}.rlib"):
                raise Misuse(f"--built: no library {crate} is built in {self.built}")
        return True


class Followed(Libraries):
    """The libraries that `rt ci` builds meanwhile, by the log that it writes."""

    def __init__(self, repository: Repository, log: str) -> None:
        self.repository, self.log = repository, log
        self.size, self.last = 0, ({}, False)

    def are_below(self, name: str) -> bool:
        """Whether the libraries below a crate are built; stops if they will not be."""
        built, has_ended = self.now()
        wanted = trees.below(self.repository.uses, name)
        failed = [crate for crate in wanted if not built.get(crate, not has_ended)]
        if failed:
            raise Misuse(f"rt ci did not prove {failed[0]}, so that no edit can be tried above it")
        return all(crate in built for crate in wanted)

    def now(self) -> tuple[dict[str, bool], bool]:
        """What the log says now: whether each crate that it names was built, and whether it has ended. It is read again once it has grown."""
        size = os.path.getsize(self.log) if os.path.isfile(self.log) else 0
        if size != self.size:
            with open(self.log, encoding="utf-8", errors="replace") as text:
                lines = text.read().split("\n")
            matches = [match for match in map(BUILT.fullmatch, lines) if match]
            self.size, self.last = size, ({match[1]: not match[2].startswith("NOT") for match in matches}, ENDED in lines)
        return self.last


def first_fault(said: str) -> str:
    """The first thing that the prover found wrong, or else the last that it said."""
    told = re.findall(r"(?m)^(?:error.*|.*: error.*|fn .*: no(?:t proved| proof).*)$", said)
    return (told or said.rstrip("\n").split("\n")[-1:])[0][:300]
