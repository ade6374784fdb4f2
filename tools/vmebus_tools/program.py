"""Finds the program `vmebus`, and runs it.

The program is the first of these that is there: the file that the environment variable VMEBUS_PROGRAM
names, `vmebus` on the PATH, crates/vmebus/out/vmebus (which ./build makes), and ./try, which builds
the program without proofs at its first call.
"""

from __future__ import annotations

import filecmp
import fnmatch
import functools
import glob
import os
import shutil
import subprocess
from dataclasses import dataclass
from typing import Optional, Sequence

TOP = os.path.dirname(os.path.dirname(os.path.dirname(os.path.realpath(__file__))))
BUILT = os.path.join(TOP, "crates", "vmebus", "out", "vmebus")
UNPROVED = os.path.join(TOP, "try")
# The folder in which ./try keeps the one program that it has built last.
KEPT = os.path.join(TOP, "crates", "vmebus", "out", "try")
# How the path of a program ends that ./try of any folder keeps.
OF_KEPT = "*/crates/vmebus/out/try/vmebus-*"
# How the lines of ./try begin, which are not the program's.
OF_TRY = "try: "


class Fault(Exception):
    """Why a tool cannot go on, as one line for standard error."""


@dataclass(frozen=True)
class Ran:
    """How a call of the program ended: its status, and what it wrote. Bytes that are not UTF-8 are surrogates."""

    status: int
    out: str
    err: str

    @property
    def fault(self) -> Optional[str]:
        """The line that the program ended with if its status says that it failed, without `vmebus: `."""
        if self.status in (0, 2, 3):
            return None
        lines = self.err.splitlines() or [f"vmebus ended with status {self.status} and said nothing"]
        return lines[-1][len("vmebus: ") :] if lines[-1].startswith("vmebus: ") else lines[-1]


def run(arguments: Sequence[str], input: Optional[bytes] = None) -> Ran:
    """Runs the program with arguments and with bytes as its standard input, which is empty if there are none."""
    words = [program(), *arguments]
    try:
        ended = subprocess.run(words, input=input or b"", stdout=subprocess.PIPE, stderr=subprocess.PIPE)
    except (OSError, ValueError) as fault:
        raise Fault(f"{words[0]} cannot be run: {fault}")
    out, err = (text.decode("utf-8", "surrogateescape") for text in (ended.stdout, ended.stderr))
    lines = err.splitlines(keepends=True)
    own = [line for line in lines if not line.startswith(OF_TRY)]
    return Ran(ended.returncode, out, "".join(own or lines))


@functools.lru_cache(maxsize=None)
def program() -> str:
    """The path of the program. In place of ./try it is what that has built, now or before, so that calls begin at once."""
    found = find()
    if found != UNPROVED:
        return found
    build = subprocess.run([found, "--version"], stdin=subprocess.DEVNULL, stdout=subprocess.DEVNULL)
    if build.returncode:
        raise Fault("./try cannot build the program, and there is no other")
    kept = kept_by_try()
    return kept[0] if len(kept) == 1 else found


def kept_by_try() -> Sequence[str]:
    """The programs that ./try of this folder keeps."""
    return glob.glob(os.path.join(glob.escape(KEPT), "vmebus-*"))


def is_unproved() -> bool:
    """Whether the program is ./try, what that keeps, or a copy of it. Of another program nobody can tell."""
    path = os.path.realpath(program())
    if os.path.basename(path) == "try" or fnmatch.fnmatch(path, OF_KEPT):
        return True
    return any(is_same_file(path, it) for it in kept_by_try())


def is_same_file(one: str, other: str) -> bool:
    """Whether two files have the same bytes; one that is gone by now has none."""
    try:
        return filecmp.cmp(one, other, shallow=False)
    except OSError:
        return False


def find() -> str:
    """The path of the program, by the order that the head of this file names."""
    named = os.environ.get("VMEBUS_PROGRAM")
    if named:
        if not os.access(named, os.X_OK) or os.path.isdir(named):
            raise Fault(f"VMEBUS_PROGRAM names {named}, which is no program")
        return os.path.abspath(named)
    on_path = shutil.which("vmebus")
    if on_path:
        return on_path
    return BUILT if os.access(BUILT, os.X_OK) else UNPROVED
