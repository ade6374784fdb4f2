#!/usr/bin/env python3
"""Sees to the end of a test tool: whatever ends it, nothing is left behind, and a total is the last line.

    gate/ending.py NAME COMMAND [WORD]..            a tool that is a command, such as a script of bash
    sys.exit(ending.guard(NAME, work))              a tool in Python, whose work a function does

The work is done in a process of its own, which leads a session, with a new folder as TMPDIR. What it
prints is handed on. Once it has ended, or on SIGINT, SIGTERM or SIGHUP, all that still runs of that
session is ended, with what it began in sessions of their own, and the folder is removed. SIGINT and
SIGTERM end it even if they were ignored when it began, as SIGINT is behind `&` in a script. SIGHUP
stays ignored if it was, since that is what `nohup` asks for.

The last line is 'N passed, M failed', and the status is 0 only if M is 0 and N is above 0. Work fails
if it ends without a total, by a signal, at a status other than 0 without a failure, or with nothing
passed and nothing failed. Then a line says why, and the total counts it. The status is 1, too, if
what is printed cannot be written.
"""

from __future__ import annotations

import os
import re
import select
import shutil
import signal
import sys
import tempfile
import time
from typing import Callable, Iterator, NoReturn, Optional

SIGNALS = (signal.SIGINT, signal.SIGTERM, signal.SIGHUP)
TOTAL = re.compile(rb"(\d+) passed, (\d+) failed\n?")

# How many seconds the work may take to end by SIGTERM, before SIGKILL ends it.
GRACE = 5

# Names the tool in the environment of its work, so that a script sees that it is guarded.
GUARDED = "VMEBUS_GUARDED"


class Caught:
    """The signal that came first, if any."""

    def __init__(self) -> None:
        self.number: Optional[int] = None
        for number in SIGNALS:
            if number != signal.SIGHUP or signal.getsignal(number) != signal.SIG_IGN:
                signal.signal(number, self.note)

    def note(self, number: int, _: object) -> None:
        self.number = self.number or number


class Relay:
    """Hands on what the work prints, but for a total at its end, which is kept until the work has ended."""

    def __init__(self, reader: Optional[int]) -> None:
        self.reader, self.kept, self.is_open, self.is_heard = reader, b"", True, True

    def hear(self, seconds: float) -> bool:
        """Hands on what comes within so many seconds, and returns whether anything came."""
        if not self.is_open or not select.select([self.reader], [], [], seconds)[0]:
            return False
        more = os.read(self.reader, 1 << 16)
        self.is_open = bool(more)
        lines = (self.kept + more).splitlines(keepends=True)
        keeps = lines and (not lines[-1].endswith(b"\n") or TOTAL.fullmatch(lines[-1]))
        self.kept = lines.pop() if keeps else b""
        self.say(b"".join(lines))
        return self.is_open

    def hear_rest(self) -> None:
        """Hands on what is there by now."""
        while self.is_heard and self.hear(0):
            pass

    def say(self, text: bytes) -> None:
        """Prints, for as long as there is a reader."""
        try:
            while text:
                text = text[os.write(sys.stdout.fileno(), text) :]
        except OSError:
            self.is_heard = False
            os.dup2(os.open(os.devnull, os.O_WRONLY), sys.stdout.fileno())

    def total(self) -> Optional[tuple[int, int]]:
        """Takes the total that was kept, if any. A last line that is none is handed on."""
        last, self.kept = self.kept, b""
        found = TOTAL.fullmatch(last)
        if last and not found:
            self.say(last.rstrip(b"\n") + b"\n")
        return (int(found[1]), int(found[2])) if found else None


def guard(name: str, work: Callable[[], int]) -> int:
    """Does a tool's work, and returns its status; `--help` is no work."""
    if {"-h", "--help"} & set(sys.argv[1:]):
        return work()
    sys.stdout.flush()
    signal.pthread_sigmask(signal.SIG_BLOCK, SIGNALS)
    try:
        room = tempfile.mkdtemp(prefix=f"{name}-")
        # The kit runs what it built as nobody, who has to come to it.
        os.chmod(room, 0o711)
        reader, writer = os.pipe()
        child = os.fork()
    except OSError as fault:
        return closed(name, Relay(None), None, f"its work cannot begin: {fault}")
    if not child:
        enter(name, room, writer)
        return work()
    os.close(writer)
    caught, relay = Caught(), Relay(reader)
    signal.pthread_sigmask(signal.SIG_UNBLOCK, SIGNALS)
    status = follow(child, caught, relay)
    relay.hear_rest()
    total = relay.total()
    end_session(child, status)
    # What is ended there may have last words, such as a shell's report of what was ended; they take no total's place.
    relay.hear_rest()
    relay.total()
    shutil.rmtree(room, ignore_errors=True)
    return closed(name, relay, *judged(total, status, caught, relay))


def enter(name: str, room: str, writer: int) -> None:
    """Makes this new process the leader of the work's session, with its own folder, and without a reader at its input."""
    os.setsid()
    os.dup2(os.open(os.devnull, os.O_RDONLY), 0)
    os.dup2(writer, 1)
    os.environ[GUARDED] = name
    os.environ["TMPDIR"] = tempfile.tempdir = room
    for number in (signal.SIGINT, signal.SIGTERM):
        signal.signal(number, signal.SIG_DFL)
    signal.pthread_sigmask(signal.SIG_UNBLOCK, SIGNALS)
    sys.stdout.reconfigure(line_buffering=True)


def follow(child: int, caught: Caught, relay: Relay) -> Optional[int]:
    """Hands on what the work prints until it has ended, and returns its status, None if it is to be ended before."""
    status = None
    while status is None and caught.number is None and relay.is_heard:
        if not relay.hear(0.1):
            time.sleep(0.01)
        status = ended(child)
    return status


def ended(child: int) -> Optional[int]:
    """The status of a process that has ended, below 0 by a signal; None while it runs."""
    found, status = os.waitpid(child, os.WNOHANG)
    if not found:
        return None
    return os.WEXITSTATUS(status) if os.WIFEXITED(status) else -os.WTERMSIG(status)


def end_session(leader: int, status: Optional[int]) -> None:
    """Ends what runs in a session, and waits for its leader, unless that has a status, since it has ended."""
    sessions = {leader}
    end_all(lambda: members(sessions))
    if status is None:
        os.waitpid(leader, 0)


def end_all(running: Callable[[], set[int]]) -> None:
    """Ends the processes that run by this, each once by SIGTERM, and by SIGKILL if it still runs after some seconds."""
    for number in (signal.SIGTERM, signal.SIGKILL):
        sent: set[int] = set()
        end = time.monotonic() + GRACE
        there = running()
        while there and time.monotonic() < end:
            for process in there - sent:
                send(process, number)
            sent |= there
            time.sleep(0.01)
            there = running()


def members(sessions: set[int]) -> set[int]:
    """The processes of these sessions, with what they began in other sessions, which are then added."""
    there, found = dict(processes()), set()
    while True:
        more = {it for it, (parent, session) in there.items() if session in sessions or parent in found} - found
        if not more:
            return found
        found |= more
        sessions |= {there[process][1] for process in more}


def processes() -> Iterator[tuple[int, tuple[int, int]]]:
    """All processes that run, each with its parent and its session."""
    for name in filter(str.isdigit, os.listdir("/proc")):
        try:
            with open(f"/proc/{name}/stat", "rb") as text:
                state, parent, _, session = text.read().rpartition(b")")[2].split()[:4]
        except (OSError, ValueError):
            continue
        if state not in b"ZX":
            yield int(name), (int(parent), int(session))


def send(process: int, number: int) -> None:
    """Sends a signal to a process that may have ended."""
    try:
        os.kill(process, number)
    except ProcessLookupError:
        pass


def judged(total: Optional[tuple[int, int]], status: Optional[int], caught: Caught, relay: Relay) -> tuple[Optional[tuple[int, int]], str]:
    """The total of work that ended so, or None, and what is wrong with its end, or nothing."""
    if caught.number is not None:
        return None, f"interrupted by {signal.Signals(caught.number).name}"
    if not relay.is_heard:
        return None, "nobody reads what it prints"
    if total is None or status < 0:
        how = f"by {signal.Signals(-status).name}" if status < 0 else f"with status {status} and without a total"
        return None, f"ended {how}"
    if total == (0, 0):
        return None, "nothing was run"
    if status != 0 and total[1] == 0:
        return (total[0], 1), f"ended with status {status}"
    return total, ""


def closed(name: str, relay: Relay, total: Optional[tuple[int, int]], why: str) -> int:
    """Prints the last lines, and returns the status."""
    passed, failed = total or (0, 1)
    said = f"{name}: {why}\n" if why else ""
    relay.say(f"{said}{passed} passed, {failed} failed\n".encode())
    return 0 if passed and not failed and relay.is_heard else 1


def refuse(name: str, why: str) -> NoReturn:
    """Ends a tool that cannot do its work: a line says why, and the total counts it."""
    print(f"{name}: {why}\n0 passed, 1 failed")
    sys.exit(1)


def become(words: list[str]) -> int:
    """Becomes a command, which handles signals as a command does that nobody guards."""
    for number in (signal.SIGPIPE, signal.SIGXFSZ):
        signal.signal(number, signal.SIG_DFL)
    try:
        os.execvp(words[0], words)
    except OSError as fault:
        print(f"{words[0]} cannot be run: {fault}")
    return 1


def main() -> int:
    if len(sys.argv) < 3:
        print(__doc__)
        return 1
    return guard(sys.argv[1], lambda: become(sys.argv[2:]))


if __name__ == "__main__":
    sys.exit(main())
