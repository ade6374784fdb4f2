"""The folders of acceptance/cases and examples, as acceptance/README.md tells: the runs of each, and what they have to give."""

import json
import re
import shutil
from dataclasses import dataclass, field
from pathlib import Path
from typing import List, Optional

ACCEPTANCE = Path(__file__).resolve().parent.parent
CASES = ACCEPTANCE / "cases"
EXAMPLES = ACCEPTANCE.parent / "examples"
REPLAY = ["replay", "scenario.toml", "trace.vme"]


def repeated(count, text):
    """A text so many times; in it `#N` is the number of its repetition, from 0."""
    if "#N" not in text:
        return count * text.encode()
    return b"".join(text.replace("#N", str(number)).encode() for number in range(count))


@dataclass
class Wanted:
    """What a run has to give; None is not compared."""

    statuses: List[int]
    output: Optional[bytes]
    told: Optional[bytes] = b""


@dataclass
class Run:
    """One run of a folder: its words, whether both files make one standard input, and what it has to give."""

    case: "Folder"
    words: List[bytes]
    wanted: Wanted
    is_joined: bool = False

    def name(self):
        return f"{self.case.name} ({b' '.join(self.words).decode(errors='replace') or 'no words'})"


@dataclass
class Folder:
    """A folder of files, named SUBJECT/CASE or examples/NAME."""

    name: str
    path: Path
    runs: List[Run] = field(default_factory=list)

    def has(self, *names):
        return any((self.path / it).is_file() for it in names)

    def text(self, name, default=b""):
        return (self.path / name).read_bytes() if self.has(name) else default

    def lay_out(self, folder):
        """Copies the files, and builds those that are too large to keep."""
        shutil.copytree(self.path, folder, dirs_exist_ok=True)
        for name, parts in json.loads(self.text("built.json", b"{}")).items():
            Path(folder, name).write_bytes(b"".join(repeated(count, text) for count, text in parts))

    def words(self, name="args"):
        """The words of the case, one a line, or each ended by a zero byte."""
        if self.has("args-by-zeros"):
            return self.text("args-by-zeros").split(b"\0")[:-1]
        return self.text(name).split(b"\n")[:-1]


def wanted_of_check(wanted):
    """What `check` has to say of a trace, by what `replay` has to say."""
    lines = [it for it in wanted.output.splitlines() if not it.startswith(b"accepted ")]
    for line in lines:
        number, _, verdict = line.partition(b" ")
        if not verdict.startswith(b"ok"):
            return Wanted([2], b"illegal %s %s\n" % (number, verdict))
    return Wanted([1], b"", wanted.told) if wanted.told else Wanted([0], b"legal %d\n" % len(lines))


def begins_with_header(case):
    """Whether both files of a folder can be one standard input."""
    built = json.loads(case.text("built.json", b"{}"))
    scenario, trace = case.text("scenario.toml", None), case.text("trace.vme")
    begin = built["trace.vme"][0][1].encode() if "trace.vme" in built else trace
    return scenario is not None and scenario[-1:] in (b"", b"\n") and re.match(rb"vme [12]\n", begin)


def runs_of_replay(case, wanted):
    """A trace that is replayed is also checked, once its output is known, and judged without words."""
    words = [it.encode() for it in REPLAY]
    yield Run(case, words, wanted)
    if wanted.output is not None:
        yield Run(case, [b"check", *words[1:]], wanted_of_check(wanted))
    if begins_with_header(case):
        yield Run(case, [], wanted, True)


def case_at(path):
    """A folder of acceptance/cases."""
    case = Folder(str(path.relative_to(CASES)), path)
    wanted = Wanted([int(it) for it in case.text("status").split()], case.text("stdout", None), case.text("stderr", None))
    is_replayed = case.words() == [it.encode() for it in REPLAY] and not case.has("output")
    case.runs = list(runs_of_replay(case, wanted)) if is_replayed else [Run(case, case.words(), wanted)]
    return case


def example_at(path):
    """A folder of examples."""
    case = Folder(f"examples/{path.name}", path)
    expected = case.text("expected")
    is_refused = not re.search(rb"^accepted \d+ refused 0\n\Z", expected, re.M)
    case.runs = list(runs_of_replay(case, Wanted([2 if is_refused else 0], expected)))
    if case.has("drawn"):
        case.runs.append(Run(case, case.words("drawn"), Wanted([0], case.text("trace.vme"))))
    return case


def all_cases():
    """All cases and examples, by name."""
    yield from (case_at(it.parent) for it in sorted(CASES.glob("*/*/status")))
    yield from (example_at(it.parent) for it in sorted(EXAMPLES.glob("*/expected")))
