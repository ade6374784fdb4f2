"""`--cases` and `--write`: what the acceptance cases and examples expect, beside what the model gives."""

import re
import tempfile
from pathlib import Path

from .case_files import all_cases
from .faults import Fault
from .program import Console, main


# The status of a program that ends by the signal SIGXFSZ, as a shell gives it.
BY_SIGNAL = 153


class EndedBySignal(Exception):
    """The system ends a program that writes past a limit of the size of files."""


class Kept(Console):
    """A console in memory: a folder, the bytes of standard input, and how many bytes standard output takes, past which a write fails
    or a signal ends the program."""

    def __init__(self, folder, given=b"", fails=False, room=None, is_deadly=False):
        self.folder, self.given, self.fails, self.room, self.is_deadly = folder, given, fails, room, is_deadly
        self.output, self.told = b"", b""

    def open(self, name):
        return self.read if name == "/dev/stdin" else super().open(name)

    def read(self, size):
        if self.fails and not self.given:
            raise OSError
        piece, self.given = self.given[:size], self.given[size:]
        return piece

    def write(self, text):
        self.output += text.encode()
        if self.room is not None and len(self.output) > self.room:
            self.output = self.output[: self.room]
            if self.is_deadly:
                raise EndedBySignal
            raise Fault("X8 the output cannot be written")

    def tell(self, line):
        self.told += line.encode() + b"\n"


def console_of(run, folder):
    """The console in which a run is made: its input, which may fail behind its bytes, and the room of its output."""
    case = run.case
    input_, output = case.text("input").split(), case.text("output").split()
    names = ["scenario.toml", "trace.vme"] if run.is_joined else ["stdin"] if Path(folder, "stdin").is_file() else []
    given = b"" if input_ == [b"folder"] else b"".join(Path(folder, it).read_bytes() for it in names)
    room = None if not output else int(output[1]) if output[0] == b"at-most" else 0
    return Kept(folder, given, input_ in ([b"folder"], [b"breaks"]), room, output[2:] == [b"by-signal"])


def done(run):
    """The model's status for a run, its console, and what is wrong with a trace that it wrote."""
    with tempfile.TemporaryDirectory(prefix="model-") as folder:
        run.case.lay_out(folder)
        console = console_of(run, folder)
        try:
            status = main(run.words, console)
        except EndedBySignal:
            status = BY_SIGNAL
        Path(folder, "written.vme").write_bytes(console.output)
        return status, console, fault_in_trace(run.case, folder, status, console.output)


def fault_in_trace(case, folder, status, written):
    """What is wrong with a trace, if the case says that it is legal, or which condition its last edge fails."""
    if case.has("fails"):
        lines = said_of_trace(folder, "explain").splitlines(True)
        fails = b"".join(it for it in lines if it.startswith(b"fails "))
        return None if fails == case.text("fails") else first_difference("explain", case.text("fails"), fails)
    if case.has("legal"):
        least, most, *limit = map(int, case.text("legal").split())
        edges, checked = written.count(b"\n") - 1, said_of_trace(folder, "check")
        is_right = written.startswith(case.text("header", b"vme 1\n")) and least <= edges <= most
        if not is_right or checked != b"legal %d\n" % edges or (status == 3) != (edges == (limit or [most])[0]):
            return f"status {status} with {edges} edges, and check says {checked[:90]!r}"
    if case.has("replay-has"):
        replayed = said_of_trace(folder, "replay")
        return None if all(it in replayed for it in case.text("replay-has").splitlines()) else "replay lacks a part"
    return None


def said_of_trace(folder, command):
    """What a command says of the trace that was written."""
    asked = Kept(folder)
    main([command.encode(), b"scenario.toml", b"written.vme"], asked)
    return asked.output


def fault_in(run):
    """What differs between the model and what a run has to give, None where nothing does."""
    case, wanted = run.case, run.wanted
    status, console, fault = done(run)
    if status not in wanted.statuses:
        return f"status {wanted.statuses} is expected, and the model has {status}; it says {console.told[:200]!r}"
    if wanted.output is not None and console.output not in (wanted.output, case.text("stdout-or", wanted.output)):
        return first_difference("standard output", wanted.output, console.output)
    if not console.output.startswith(case.text("stdout-begins")) or not console.output.endswith(case.text("stdout-ends")):
        return "standard output begins or ends otherwise"
    if not all(part in console.output for part in case.text("stdout-has").splitlines()):
        return "standard output lacks a part"
    if wanted.told is not None and console.told != wanted.told:
        return first_difference("standard error", wanted.told, console.told)
    if case.has("usage") and not console.told or case.has("one-line") and not re.fullmatch(rb"[^\x00-\x1f\x7f]+\n", console.told):
        return "standard error is none, or not one line"
    return fault


def first_difference(name, wanted, got):
    """The first line in which two outputs differ."""
    lines, others = wanted.split(b"\n"), got.split(b"\n")
    at = next((at for at, (line, other) in enumerate(zip(lines, others)) if line != other), min(len(lines), len(others)))
    line, other = ([*it[at : at + 1], None][0] for it in (lines, others))
    return f"{name}, line {at + 1}: {line!r} is expected, and it is {other!r}"


def compare(only, has_large, is_verbose):
    """Compares all cases whose names begin so with the model, and returns the status."""
    passed = failed = in_little_room = 0
    for case in all_cases():
        if only and not case.name.startswith(tuple(only)) or case.has("large") and not has_large:
            continue
        in_little_room += case.has("room")
        for run in case.runs:
            fault = fault_in(run)
            passed, failed = passed + (fault is None), failed + (fault is not None)
            if fault or is_verbose:
                print(f"{'FAILED' if fault else 'ok'} {run.name()}{': ' + fault if fault else ''}", flush=True)
    if not passed + failed:
        print("model: no case is named so")
    print(f"skipped: little stack and memory, in which {in_little_room} of these cases run, too")
    print(f"{passed} passed, {failed} failed")
    return 1 if failed or not passed else 0


def write(name):
    """Makes the expected files of a case anew."""
    case = next((it for it in all_cases() if it.name == name.strip("/")), None)
    if case is None:
        print(f"model: no case is named {name}; a name is SUBJECT/CASE, and its folder has a file `status`")
        return 1
    status, console, _ = done(case.runs[0])
    if name.startswith("examples/"):
        (case.path / "expected").write_bytes(console.output)
        return 0
    if status not in case.runs[0].wanted.statuses:
        (case.path / "status").write_text(f"{status}\n")
    if case.has("stdout") or not case.has("stdout-begins", "stdout-ends", "stdout-has", "legal", "output"):
        (case.path / "stdout").write_bytes(console.output)
    if not case.has("usage", "one-line"):
        (case.path / "stderr").write_bytes(console.told)
    return 0
