"""One run of the program: from its words, files and standard input to what it writes and its status."""

import os
import re
from pathlib import Path

from . import backplane, reach
from .cycles import cycles
from .draw import drive_drawn, drive_seeds, goal_of
from .drive import drive, run
from .explain import explain
from .faults import Fault, WrongWords, escaped
from .judging import check, check_all, replay
from .order import order
from .probe import probe
from .races import races
from .same import same
from .show import show
from .shrink import shrink
from .sources import rule
from .state import state
from .summary import summary, summary_of_all
from .traces import Trace
from .words import job_of

MOST_BYTES = 1_048_576

# Where the program's version stands, and nowhere else.
WORDS = Path(__file__).resolve().parents[2] / "crates/vme_command_line/src/lib.rt"
HEADER = re.compile(rb"^vme [12]\n", re.M)


class File:
    """A file that is read piece by piece; a folder opens, too, and then a read of it fails."""

    def __init__(self, number):
        self.number = number

    def read(self, size):
        return os.read(self.number, size)

    def __del__(self):
        os.close(self.number)


class Console:
    """Where the program runs: its folder, standard input, standard output and standard error."""

    folder = ""

    def open(self, name):
        """A function that reads a file piece by piece."""
        try:
            return File(os.open(os.path.join(self.folder, name), os.O_RDONLY)).read
        except (OSError, ValueError):
            raise Fault(f"F1 cannot read {escaped(name)}") from None

    def read(self, size):
        return os.read(0, size)

    def write(self, text):
        """Writes to standard output."""
        rest = text.encode()
        try:
            while rest:
                rest = rest[os.write(1, rest) :]
        except OSError:
            raise Fault("X8 the output cannot be written") from None

    def tell(self, line):
        """Writes a line to standard error."""
        os.write(2, line.encode() + b"\n")


def scenario_of(read, name):
    """The bytes of a scenario file."""
    text = b""
    while len(text) <= MOST_BYTES:
        try:
            piece = read(MOST_BYTES + 1)
        except OSError:
            raise Fault(f"F1 cannot read {escaped(name)}") from None
        if not piece:
            return text
        text += piece
    raise Fault(f"F2 {escaped(name)} is too long")


def parted(read):
    """Standard input without words: the scenario before the header line, and a reader of the trace that begins there."""
    text, fails = b"", False
    try:
        while True:
            piece = read(MOST_BYTES)
            text += piece
            if not piece:
                break
    except OSError:
        fails = True
    header = HEADER.search(text)
    if not header:
        raise Fault("F1 cannot read -" if fails else "X1 the trace does not begin with vme 1 or vme 2")
    if header.start() > MOST_BYTES:
        raise Fault("F2 - is too long")
    return text[: header.start()], rest_of(text[header.start() :], fails)


def rest_of(text, fails):
    """A reader of a text, which fails behind it where reading failed there."""
    pieces = [text]

    def read(size):
        if not pieces and fails:
            raise OSError
        return pieces.pop() if pieces else b""

    return read


def without_words(console):
    scenario, read = parted(console.read)
    return replay(backplane.read(scenario), Trace(read), console)


def tell_version(console):
    """Writes the name of the program and its version, which its source alone has."""
    console.write(re.search(r'VERSION: &str = "(.*)\\n";', WORDS.read_text(encoding="utf-8"))[1] + "\n")
    return 0


def done(job, console):
    """Does a job, and returns its status; files come first, then the scenario's text."""
    if job.command == "--version":
        return tell_version(console)
    if job.command == "rule":
        return rule(job.files, console)
    scenario_name, *trace_names = job.files
    scenario = scenario_of(console.open(scenario_name), scenario_name)
    if job.command in ("check", "summary") and len(trace_names) > 1:
        return (check_all if job.command == "check" else summary_of_all)(backplane.read(scenario), trace_names, console)
    first = console.open(trace_names[0]) if trace_names else None
    other = console.open(trace_names[1]) if job.command == "same" else None
    options = job.options
    plan = backplane.read(scenario)
    reach.refuse(plan, goal_of(options))
    if "--seeds" in options and "--progress" in options:
        console.tell(f"trying seed {options['--seeds'][0]}")
    if job.command == "run":
        return run(plan, options, console)
    if job.command == "drive":
        return (drive_seeds if "--seeds" in options else drive_drawn if "--seed" in options else drive)(plan, options, console)
    if job.command == "order":
        return order(plan, first, options, console)
    if job.command == "probe":
        return probe(plan, first, options, console)
    if job.command == "same":
        return same(plan, (first, other), trace_names, console)
    trace = Trace(first)
    if job.command == "replay":
        return replay(plan, trace, console, "--full" in options)
    alone = {"check": check, "cycles": cycles, "summary": summary}
    if job.command in alone:
        return alone[job.command](plan, trace, console)
    with_options = {"explain": explain, "shrink": shrink, "state": state, "show": show, "races": races}
    return with_options[job.command](plan, trace, options, console)


def main(words, console):
    """Runs the program with these words, and returns its status."""
    try:
        job = job_of(words)
        return done(job, console) if job else without_words(console)
    except Fault as fault:
        console.tell(f"vmebus: {fault}")
    except WrongWords as wrong:
        console.tell(f"vmebus: wrong words: {wrong}")
    return 1
