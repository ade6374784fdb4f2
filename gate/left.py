#!/usr/bin/env python3
"""Ends what a tool that was stopped has left: all that still runs of its temporary folder.

    gate/left.py FOLDER [PROCESS]..    ends these processes, too

A command of the kit that is stopped while it starts another one may leave that one behind, in a
session of its own. A process is of the folder if its words or its environment name the folder, as
they do if the folder is its TMPDIR. Each is ended by its own id: by SIGTERM, and by SIGKILL if it
still runs after some seconds.
"""

from __future__ import annotations

import os
import sys

sys.dont_write_bytecode = True
import ending


def end(folder: str, others: frozenset[int] = frozenset()) -> None:
    """Ends all that runs of a folder, with these other processes."""
    ending.end_all(lambda: running(folder, others))


def running(folder: str, others: frozenset[int]) -> set[int]:
    """The processes of a folder that run, but for this one, and which of the others do.

    A process that begins during a look may stand among those that were passed already. So none is
    there only if a second look finds none."""
    mark = os.fsencode(folder)
    for _ in range(2):
        there = {process for process, _ in ending.processes()}
        found = {it for it in there if it in others or names(it, mark) and may_end(it)}
        if found:
            return found
    return set()


def may_end(process: int) -> bool:
    """Whether a process is another one than this, and one that its user may end."""
    try:
        os.kill(process, 0)
    except OSError:
        return False
    return process != os.getpid()


def names(process: int, mark: bytes) -> bool:
    """Whether a process has these bytes in its words or its environment."""
    for file in ("cmdline", "environ"):
        try:
            with open(f"/proc/{process}/{file}", "rb") as text:
                if mark in text.read():
                    return True
        except OSError:
            pass
    return False


def main(words: list[str]) -> int:
    if not words or not os.path.isabs(words[0]) or not all(map(str.isdigit, words[1:])):
        print(__doc__.strip())
        return 1
    end(words[0], frozenset(map(int, words[1:])))
    return 0


if __name__ == "__main__":
    sys.exit(main(sys.argv[1:]))
