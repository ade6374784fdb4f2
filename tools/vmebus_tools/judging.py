"""Asks the program about many traces: the verdict on each, why its first refused edge is refused, and what all of them exercised.

Each trace is handed to the program under the name of a link, a number. So the program's answers can be told apart
whatever the names of the files are, also if one is given twice, and a pipe is read once and kept.
"""

from __future__ import annotations

import os
import re
import resource
import shutil
import stat
import subprocess
import tempfile
from concurrent.futures import ThreadPoolExecutor
from contextlib import contextmanager
from dataclasses import dataclass
from typing import Dict, Iterator, Optional, Sequence, Tuple, Union

from . import reading
from .drawing import Story, picture
from .pictures import answer, ask, head_of
from .program import Fault, Ran, is_unproved, program, run
from .sums import Sums, sums

# How many edges the picture of a refused edge has before it and behind it.
BEFORE, BEHIND = 24, 6
# How many seconds of a processor `shrink` may take for one trace.
SECONDS = 10
# How many characters of a line with a fault are quoted, and how many bytes of it are read.
MOST_QUOTED, LONGEST = 80, 4 << 10

SCENARIO = "scenario"
VERDICT = re.compile(r"(?:.*/(\d+): )?(legal|illegal) (\d+)(?: (.*))?")
FAULT = re.compile(r"vmebus: (?:.*/(\d+): )?([A-Z]\d+ .*)")
UNREADABLE = re.compile(r"F1 cannot read .*/(\d+)")
LINE = re.compile(r"X\d+ line (\d+) ")
CODED = re.compile(r"([A-Z]\d+) (.*)", re.DOTALL)
RULE = re.compile(r"(\w+) (any|(?:c )?\w+[-+](?: v)?) (.*)")


@dataclass(frozen=True)
class Legal:
    """All edges of a trace are accepted."""

    edges: int


@dataclass(frozen=True)
class Faulty:
    """A trace cannot be judged; the fault begins with its code if the program has one for it.

    `line` is the line of the trace that the fault names, if it names one.
    """

    fault: str
    line: Optional[str] = None

    @property
    def code(self) -> str:
        """The code, which is empty if there is none."""
        return parted(self.fault)[0]

    @property
    def help(self) -> str:
        """The command that says more about the fault, if it has a code."""
        return f"vmebus rule {self.code}" if self.code else ""


@dataclass(frozen=True)
class Refused:
    """A trace with a refused edge, of which this is the first.

    `explained` is what `explain` prints, and `history` what `shrink` prints, or None if that takes too long. `fault` is
    one of the trace behind the edge.
    """

    number: int
    edge: str
    verdict: str
    explained: str
    history: Optional[Tuple[str, ...]]
    picture: str
    fault: Optional[Faulty]

    @property
    def failing(self) -> Tuple[str, ...]:
        """The conditions that fail."""
        return tuple(it.condition for it in reading.failing(self.explained))

    @property
    def rule(self) -> str:
        """The rule, or the code of a refusal that is no rule's."""
        return self.verdict.split()[-1]


@dataclass(frozen=True)
class Trace:
    """A trace by the name that was given, and what came of it."""

    name: str
    outcome: Union[Legal, Refused, Faulty]


@dataclass(frozen=True)
class Rule:
    """A rule as `vmebus rule` prints it."""

    name: str
    edge: str
    sentence: str


@dataclass(frozen=True)
class Judged:
    """What the program said about a scenario and all traces. There is no summary, and no sums of it, if every trace has a fault.

    `is_unproved` says that ./try built the program.
    """

    scenario: str
    traces: Tuple[Trace, ...]
    summary: Tuple[str, ...]
    sums: Optional[Sums]
    rules: Tuple[Rule, ...]
    version: str
    is_unproved: bool

    @property
    def program(self) -> str:
        """What judged the traces: the program's version, and whether it is known to be unproved."""
        return f"{self.version}, unproved" if self.is_unproved else self.version

    def refused(self) -> Sequence[Tuple[Trace, Refused]]:
        """The traces with a refused edge."""
        return [(it, it.outcome) for it in self.traces if isinstance(it.outcome, Refused)]

    def faults(self) -> Sequence[Tuple[str, Faulty]]:
        """The name of each trace with a fault, also behind a refused edge, and the fault."""
        found = [(it.name, it.outcome.fault if isinstance(it.outcome, Refused) else it.outcome) for it in self.traces]
        return [(name, fault) for name, fault in found if isinstance(fault, Faulty)]

    def legal(self) -> Sequence[Tuple[Trace, Legal]]:
        """The traces whose edges are all accepted."""
        return [(it, it.outcome) for it in self.traces if isinstance(it.outcome, Legal)]

    @property
    def status(self) -> int:
        """The exit status: as that of `vmebus summary`."""
        return 1 if self.faults() else 2 if self.refused() else 0


def judge(scenario: str, names: Sequence[str]) -> Judged:
    """Asks about all traces; a fault that is not of one trace is raised."""
    program()
    with tempfile.TemporaryDirectory(prefix="vmebus-report-") as folder:
        place(folder, SCENARIO, scenario)
        for number, name in enumerate(names):
            place(folder, str(number), name)
        return Judging(folder, scenario, names).judged()


def place(folder: str, link: str, name: str) -> None:
    """Makes a file known by a link in a folder. What can be read only once, such as a pipe, is copied."""
    path, link = os.path.join(os.getcwd(), name), os.path.join(folder, link)
    try:
        if stat.S_ISREG(os.stat(path).st_mode):
            os.symlink(path, link)
        else:
            with open(path, "rb") as file, open(link, "wb") as copy:
                shutil.copyfileobj(file, copy)
    except (OSError, ValueError):
        # The program finds no such file, and says so.
        return


class Judging:
    """Calls of the program about the files in a folder of links, of which some run side by side."""

    def __init__(self, folder: str, scenario: str, names: Sequence[str]) -> None:
        self.folder, self.scenario, self.names = folder, scenario, names
        self.links = [os.path.join(folder, str(number)) for number in range(len(names))]
        self.of_scenario = os.path.join(folder, SCENARIO)

    def judged(self) -> Judged:
        with ThreadPoolExecutor(len(os.sched_getaffinity(0))) as pool:
            checked = pool.submit(run, ["check", self.of_scenario, *self.links])
            summed = pool.submit(run, ["summary", self.of_scenario, *self.links])
            texts = [pool.submit(run, [word]) for word in ("rule", "--version")]
            faults = self.faults(summed.result())
            verdicts = self.verdicts(checked.result())
            outcomes = pool.map(lambda number: self.outcome(number, verdicts, faults), range(len(self.names)))
            traces = tuple(Trace(name, outcome) for name, outcome in zip(self.names, outcomes))
        summary = tuple(line for line in summed.result().out.splitlines() if not line.endswith(": illegal"))
        with reading_program(summed.result()):
            found = sums(summary) if summary else None
        rules, version = (it.result().out for it in texts)
        return Judged(self.scenario, traces, summary, found, rules_of(rules), version.strip(), is_unproved())

    def faults(self, ran: Ran) -> Dict[int, Faulty]:
        """The fault of each trace that has one; a fault of the scenario or of the call is raised."""
        faults: Dict[int, Faulty] = {}
        for line in ran.err.splitlines():
            number, text = self.fault(line)
            faults[number] = Faulty(text, quoted(self.links[number], text))
        if ran.status not in (0, 2) and not faults:
            raise Fault(ran.fault or "the program failed")
        return faults

    def fault(self, line: str) -> Tuple[int, str]:
        """The number of the trace that a line is about, and its fault under the name that was given."""
        found = FAULT.fullmatch(line)
        if not found:
            raise Fault(f"the program said: {line}")
        number, text = found.groups()
        unreadable = UNREADABLE.fullmatch(text)
        if unreadable:
            number, text = unreadable[1], f"F1 cannot read {self.names[int(unreadable[1])]}"
        if number is None and text[0] == "X" and text[:3] != "X8 ":
            number = "0"
        if number is None:
            raise Fault(text.replace(self.of_scenario, self.scenario))
        return int(number), text

    def verdicts(self, ran: Ran) -> Dict[int, Tuple[bool, int, str]]:
        """Of each trace that `check` judged: whether it is legal, the number that `check` prints, and the verdict."""
        verdicts = {}
        for line in ran.out.splitlines():
            found = VERDICT.fullmatch(line)
            if not found:
                raise Fault(f"the program said: {line}")
            verdicts[int(found[1] or 0)] = (found[2] == "legal", int(found[3]), found[4] or "")
        return verdicts

    def outcome(self, number: int, verdicts: Dict[int, Tuple[bool, int, str]], faults: Dict[int, Faulty]) -> Union[Legal, Refused, Faulty]:
        is_legal, edge, verdict = verdicts.get(number, (True, 0, ""))
        if not is_legal:
            try:
                return self.refused(number, edge, verdict, faults.get(number))
            except Fault as fault:
                return Faulty(str(fault))
        if number in faults:
            return faults[number]
        if number not in verdicts:
            raise Fault(f"the program said nothing about {self.names[number]}")
        return Legal(edge)

    def refused(self, number: int, edge: int, verdict: str, fault: Optional[Faulty]) -> Union[Refused, Faulty]:
        """All that is told of a refused edge, if the file is still what `check` read."""
        ran = run(["explain", self.of_scenario, self.links[number]])
        head = ran.out.partition("\n")[0]
        if ran.status != 2 or not (head.startswith(f"{edge} ") and head.endswith(f" {verdict}")):
            return Faulty("the file changed while it was read")
        words = head[len(str(edge)) + 1 : -len(verdict) - 1]
        return Refused(edge, words, verdict, ran.out, self.history(number), self.picture(number, edge, ran.out), fault)

    def history(self, number: int) -> Optional[Tuple[str, ...]]:
        """The lines of the short trace that ends with the refused edge, if it is found soon."""
        words = [program(), "shrink", self.of_scenario, self.links[number]]
        try:
            call = subprocess.Popen(words, stdin=subprocess.DEVNULL, stdout=subprocess.PIPE, stderr=subprocess.DEVNULL)
        except OSError as fault:
            raise Fault(f"{program()} cannot be run: {fault}")
        with call:
            limit(call.pid)
            out, _ = call.communicate()
        return tuple(out.decode("utf-8", "replace").splitlines()) if call.returncode == 2 else None

    def picture(self, number: int, edge: int, explained: str) -> str:
        """The picture of the edges around a refused one, which has its reasons."""
        first, last = max(edge - BEFORE, 1), edge + BEHIND
        lines = head_of(self.links[number], last)
        ran = ask(["show", "--from", str(first), "--to", str(last)], self.of_scenario, lines)
        with reading_program(ran):
            shown = reading.shown(ran.out)
            said = answer(["cycles"], self.of_scenario, lines[: shown.last + 1])
            refusals = tuple(it for it in reading.refusals(said) if shown.first <= it.number <= shown.last)
            return picture(Story(self.scenario, self.names[number], shown, tuple(reading.bands(said)), refusals, {edge: reading.failing(explained)}))


@contextmanager
def reading_program(ran: Ran) -> Iterator[None]:
    """Has a fault if the program printed something else than is read here, such as nothing."""
    try:
        yield
    except (AssertionError, LookupError, ValueError) as fault:
        raise Fault(ran.fault or f"the program printed something else than this tool reads: {fault!r}")


def limit(process: int) -> None:
    """Ends a process once it has used its seconds of a processor: how busy the machine is makes no difference."""
    try:
        resource.prlimit(process, resource.RLIMIT_CPU, (SECONDS, SECONDS))
    except ProcessLookupError:
        # It has ended.
        return


def quoted(trace: str, fault: str) -> Optional[str]:
    """The line of a trace that a fault names, of which so much is told; None if it names none, or the file is gone."""
    found = LINE.match(fault)
    if not found:
        return None
    try:
        with open(trace, "rb") as file:
            # No line before the fault's is long, or it had a fault itself.
            for _ in range(int(found[1]) - 1):
                file.readline(LONGEST)
            text = file.readline(LONGEST).rstrip(b"\n").decode("utf-8", "replace")
    except OSError:
        return None
    return text if len(text) <= MOST_QUOTED else f"{text[:MOST_QUOTED]}.."


def parted(fault: str) -> Tuple[str, str]:
    """The code of a fault, which is empty if the program has none for it, and its text."""
    found = CODED.fullmatch(fault)
    return (found[1], found[2]) if found else ("", fault)


def rules_of(text: str) -> Tuple[Rule, ...]:
    """The rules that `vmebus rule` printed."""
    return tuple(Rule(*found.groups()) for found in map(RULE.fullmatch, text.splitlines()) if found)
