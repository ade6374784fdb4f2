"""What earlier runs on this machine came to: refused edits, static libraries, and totals of the tests of the gate.

A record lies in the user's cache under the sum of all that it was made of, so that it never goes stale. Its first line is the sum of
what stands below: one that was cut short or changed counts for nothing. Whatever goes wrong costs time and nothing else.
"""

from __future__ import annotations

import contextlib
import hashlib
import os
import tempfile

# At most so many records of each kind are kept: those that were used last.
MOST = {"edits": 10_000, "libraries": 4, "gate-tests": 100}


def place(kind: str) -> str:
    """The folder of what is kept of a kind: below `XDG_CACHE_HOME` if that is an absolute path, otherwise below ~/.cache."""
    cache = os.environ.get("XDG_CACHE_HOME", "")
    return f"{cache if os.path.isabs(cache) else os.path.expanduser('~/.cache')}/vmebus/{kind}"


def is_ours(folder: str) -> bool:
    """Whether a folder, which is made if it is not there, is the user's own, and nobody else can write there."""
    try:
        os.makedirs(folder, 0o700, exist_ok=True)
        status = os.stat(folder)
        return status.st_uid == os.geteuid() and not status.st_mode & 0o022
    except OSError:
        return False


class Store:
    """The records of a kind."""

    def __init__(self, kind: str, is_anew: bool = False) -> None:
        self.kind, self.is_anew, self.at = kind, is_anew, place(kind)
        self.is_ours = is_ours(self.at)

    def find(self, key: str) -> bytes | None:
        """What an earlier run kept under a sum, unless all is done anew."""
        if self.is_anew or not self.is_ours:
            return None
        try:
            with open(f"{self.at}/{key}", "rb") as record:
                own, _, content = record.read().partition(b"\n")
            if own.decode() != hashlib.sha256(content).hexdigest():
                return None
            os.utime(f"{self.at}/{key}")
        except (OSError, ValueError):
            return None
        return content

    def keep(self, key: str, content: bytes) -> None:
        """Keeps what was made, under the sum of all that it was made of."""
        made = None
        try:
            if self.is_ours:
                with tempfile.NamedTemporaryFile("wb", prefix="new-", dir=self.at, delete=False) as record:
                    made = record.name
                    record.write(hashlib.sha256(content).hexdigest().encode() + b"\n" + content)
                os.replace(made, f"{self.at}/{key}")
        except OSError:
            remove(made)

    def shrink(self) -> None:
        """Removes the records that were not used for the longest time, beyond the most that are kept."""
        with contextlib.suppress(OSError):
            records = sorted(os.scandir(self.at), key=lambda record: record.stat().st_mtime, reverse=True)
            for record in records[MOST[self.kind] :] if self.is_ours else ():
                remove(record.path)


def remove(file: str | None) -> None:
    """Removes a file, if it is there."""
    with contextlib.suppress(OSError):
        os.remove(file or "")
