"""A small repository for the tests of the gate, calls of gate/edits on it, and what all tests have in common."""

from __future__ import annotations

import os
import re
import shutil
import subprocess
import tempfile
import unittest
from typing import Dict, List, Optional, Tuple

from trees import read_text as read
from trees import write

GATE = os.path.dirname(os.path.dirname(os.path.realpath(__file__)))
EDITS = os.path.join(GATE, "edits")

SOURCE = """//! Numbers that follow one another, for the tests of gate/edits.
#![tactic(auto)]

ghost use Rattle.std.specs.Prelude.{◌≡◌, ◌+◌, ◌<◌, ◌≤◌};

/// The number after this one.
pub fn next(number: u8) -> u8
    requires { number < 255 }
    ensures { result ≡ number + 1 }
{
    number + 1
}

/// The number after the next one.
pub fn after_next(number: u8) -> u8
    requires { number < 254 }
    ensures { result ≡ number + 2 }
{
    next(next(number))
}

/// The lesser of two numbers.
pub fn lesser(one: u8, other: u8) -> u8
    ensures at_most_one { result ≤ one }
    ensures at_most_other { result ≤ other }
{
    if one < other {
        one
    } else {
        other
    }
}
"""
# The old and the new text of an edit of the source.
Pair = Tuple[str, str]


class Case(unittest.TestCase):
    """Tests with a folder of their own, and with an environment that they may change."""

    def setUp(self) -> None:
        self.room, before = tempfile.mkdtemp(), dict(os.environ)
        self.addCleanup(shutil.rmtree, self.room, ignore_errors=True)
        self.addCleanup(restore, before)

    def tell(self, name: str, is_well: object, said: object = "") -> None:
        """Counts a case of several in one test."""
        with self.subTest(name):
            self.assertTrue(is_well, str(said)[-1500:])

    def on_small_disk(self, folder: str, size: str, command: str, **more: str) -> Tuple[int, str]:
        """Runs a command beside a disk of this size at a folder, if one can be made here, and returns its status and what it printed."""
        os.makedirs(folder, exist_ok=True)
        inside, mount = ["unshare", "-rm", "bash", "-c"], f"mount -t tmpfs -o size={size} small '{folder}'"
        if call([*inside, mount])[0]:
            self.skipTest("no small disk can be made here")
        return call([*inside, f"{mount} && {{ {command}; }}"], {**os.environ, **more})

    def same(self, name: str, found: object, wanted: object) -> None:
        """Counts a case in which something has to be as it is wanted."""
        with self.subTest(name):
            self.assertEqual(found, wanted)


def restore(environment: Dict[str, str]) -> None:
    """Gives back the environment."""
    os.environ.clear()
    os.environ.update(environment)


def folder_of(link: str) -> str:
    """The folder in which a process runs, or nothing if it has ended."""
    try:
        return os.readlink(link)
    except OSError:
        return ""


def call(words: List[str], environment: Optional[Dict[str, str]] = None) -> Tuple[int, str]:
    """Runs a command, and returns its status and what it printed."""
    ran = subprocess.run(words, env=environment, text=True, stdout=subprocess.PIPE, stderr=subprocess.STDOUT)
    return ran.returncode, ran.stdout


def lay_out(root: str, edits: Dict[str, Pair], source: str = SOURCE) -> None:
    """Makes a small repository of one crate, with edits by name."""
    for file, text in {"crates.txt": "numbers:\n", "HANDLES": "Handles allowed: none.\n", "crates/numbers/src/lib.rt": source}.items():
        write(f"{root}/{file}", text)
    for name, pair in edits.items():
        write_edit(root, name, pair)


def write_edit(root: str, name: str, pair: Pair, more: str = "", crate: str = "numbers", file: str = "src/lib.rt") -> None:
    """Writes an edit of a file, with other lines behind it. One whose texts have the same number of lines is one for each of them."""
    lines = "".join(f"old: {old}\nnew: {new}\n" for old, new in zip(*(text.split("\n") for text in pair)) if old)
    write(f"{root}/crates/{crate}/must-fail/{name}.edit", f"file: {file}\n{lines}{more}\n")


def run(root: str, *words: str, edits: str = EDITS, cache: str = "", environment: Optional[Dict[str, str]] = None) -> Tuple[int, str]:
    """Runs gate/edits on a small repository, with a cache of its own, and returns its status and what it printed."""
    own = {**os.environ, **(environment or {}), "XDG_CACHE_HOME": cache or f"{root}.cache"}
    return call([edits, "--root", root, "--jobs", "1", *words], own)


def told_of(said: str, name: str, crate: str = "numbers") -> str:
    """The line at the end of a run of gate/edits that says what came of an edit, if there is one alone."""
    lines = [line for line in said.split("\n") if line.startswith(f"{crate}/{name}: ")]
    return lines[0] if len(lines) == 1 else f"{len(lines)} lines of {name} in {said}"


def tried(said: str) -> Optional[int]:
    """How many edits a run of gate/edits tried, by what it printed."""
    count = re.search(r"(?m)^edits tried in this run: (\d+) of ", said)
    return int(count[1]) if count else None
