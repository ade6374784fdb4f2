"""Commands that run side by side, and end together when the runner is stopped."""

from __future__ import annotations

import os
import signal
import subprocess
import threading
from concurrent.futures import ThreadPoolExecutor, as_completed
from dataclasses import dataclass
from typing import Callable, Iterable, Iterator, TypeVar


# What one of the tasks of a lane makes.
Made = TypeVar("Made")


class Stopped(Exception):
    """No command is begun any more."""


@dataclass(frozen=True)
class Ended:
    """How a command ended: its status, what it printed, and its seconds of processor time."""

    status: int
    said: str
    seconds: float


class Commands:
    """The commands that run now, and the seconds of processor time of those that have ended."""

    def __init__(self) -> None:
        self.running, self.lock, self.is_stopped, self.seconds = set(), threading.Lock(), False, 0.0

    def call(self, words: list[str], folder: str, environment: dict[str, str] | None = None, at_line: Callable[[str], bool | None] = lambda _: None) -> Ended:
        """Runs a command in a folder, and returns how it ended. What is done at each line that it prints may ask it to end."""
        with self.lock:
            if self.is_stopped:
                raise Stopped
            how = {"cwd": folder, "env": environment, "stdin": subprocess.DEVNULL, "stdout": subprocess.PIPE, "stderr": subprocess.STDOUT}
            command = subprocess.Popen(words, start_new_session=True, text=True, errors="replace", **how)
            self.running.add(command)
        be_as_nice(command.pid)
        lines, seconds = [], 0.0
        try:
            for line in command.stdout:
                lines.append(line)
                if at_line(line):
                    command.terminate()
            status, seconds = reaped(command)
        except BaseException:
            end(command)
            raise
        finally:
            with self.lock:
                self.running.discard(command)
                self.seconds += seconds
        if self.is_stopped:
            raise Stopped
        return Ended(status, "".join(lines), seconds)

    def stop(self) -> None:
        """Ends all that run, with what they started."""
        with self.lock:
            self.is_stopped = True
            for command in self.running:
                end(command)


def in_lanes(commands: Commands, tasks: Iterable[Callable[[], Made]], jobs: int) -> Iterator[Made]:
    """Does tasks in so many lanes side by side, and yields what each made. One that fails ends the others."""
    with ThreadPoolExecutor(jobs) as pool:
        try:
            for lane in as_completed([pool.submit(task) for task in tasks]):
                yield lane.result()
        except BaseException:
            commands.stop()
            pool.shutdown(cancel_futures=True)
            raise


def be_as_nice(process: int) -> None:
    """Makes a session as nice as this process is: where the kernel shares the processors by sessions, it asks no process of one."""
    try:
        with open(f"/proc/{process}/autogroup", "w", encoding="utf-8") as group:
            group.write(str(os.nice(0)))
    except OSError:
        pass


def reaped(command: subprocess.Popen) -> tuple[int, float]:
    """Waits for a command's end, and returns its status and its seconds of processor time, with those of what it started."""
    _, status, used = os.wait4(command.pid, 0)
    command.returncode = -os.WTERMSIG(status) if os.WIFSIGNALED(status) else os.WEXITSTATUS(status)
    command.stdout.close()
    return command.returncode, used.ru_utime + used.ru_stime


def end(command: subprocess.Popen) -> None:
    """Ends a command, with what it started."""
    try:
        os.killpg(command.pid, signal.SIGKILL)
    except ProcessLookupError:
        pass
