"""What the prover said of each function of an edited crate."""

from __future__ import annotations

import re
from dataclasses import dataclass, field, replace
from enum import Enum
from types import MappingProxyType
from typing import Callable, Mapping

from edit_files import NO_CLAUSE

FUNCTION = re.compile(r"^fn (\S+): (.*)")
# what is said of a function because another, which it calls, was refused
FOR_A_CALLEE = re.compile(r"(?:; )?(?:in \S+, of this cycle of calls: )?it calls .*?, which (?:is|are) not proved")
# what stands before the names of the goals that were left open
OPEN = "`search` did not prove "
# the functions or goals that are named there
NAMED = re.compile(r"`([^`]+)`")
# what is said of a function that is proved but for holes
HOLED = ("depends on a hole in ", "no holes")
PLACE = re.compile(r"^(?:note: )?(?:\./)?((?:src|specs|proofs)/\S+?:\d+):\d+: (.*)")
PLACED = re.compile(r"\S+:\d+")
# a goal of a function, of which a note says that it is not proved
GOAL = re.compile(r"^note: (?:\./)?(src/\S+?:\d+):\d+: .*\(`([^`]+)`\)(.*)")
# an error, the declarations on which a function stands that has one, and what is said of a declaration that stands on another
ERROR = re.compile(r"^(?:\./)?((?:src|specs|proofs)/\S+?):(\d+):\d+: error: (?:`([^`]+)`: )?(.*)", re.S)
STANDS_ON = re.compile(r"it stands on ((?:`[^`]+`(?:, | and )?)+), which antt refuses")
WAITS = re.compile(r"\d+ declarations? that depends? on `([^`]+)`, which was not admitted")
# the name of a goal of an arm that is not the first of its constructor there
NUMBERED = re.compile(r"(\S*-in[-_]\S*?)-\d+(-\S*)?")
LAST = re.compile(r"^only=(\d+) (?:proved|holes)=(\d+)$")
COUNTEREXAMPLE = "allow values at which this goal is false"
UNSTATED, UNCOVERED = "did not admit its contract", "the borrow checker does not cover this function yet"
# what is said of a name that is not there
GONE = re.compile(r"has no (?:field|constructor|child|module|`)|is not in scope|is not a constructor|names no constructor|exports no|no module is found|is no module")


class Kind(Enum):
    """Why the prover refused a function, the best reason first. Those behind a written proof say nothing of its contract."""

    COUNTEREXAMPLE = "it found values at which a goal is false"
    SEARCH = "its search left a goal open"
    PROOF = "a written proof no longer fits"
    NAME = "a name is gone that its written proof or its contract says"
    MOVED = "the written answer of an arm is another arm's now"
    UNSTATED = "its contract cannot be read"
    UNCOVERED = "the kit does not cover its text"
    UNTOLD = "the prover does not say why"

    @property
    def is_of_contract(self) -> bool:
        """Whether it tells that the contract excludes a body: a written proof may be one of a text's words alone."""
        return self in (Kind.COUNTEREXAMPLE, Kind.SEARCH)

    @property
    def is_refusal(self) -> bool:
        return self.is_of_contract or self is Kind.PROOF


ORDER = [*Kind]
# Why an edit that is tried without written answers is not refused, and what can be done about one that a written proof alone refuses.
AS_OPEN = "without the written answers the search leaves as many goals open in the right body"
DO = "turn its meaning in other words, add '# answers: none', or '# by proof: REASON' if it cannot be otherwise"


@dataclass(frozen=True)
class Error:
    """An error in a text: its file, its line, the declaration that it stands in, and what it says."""

    file: str
    line: str
    name: str
    text: str

    @property
    def place(self) -> str:
        return f"{self.file}:{self.line}"

    @property
    def awaited(self) -> str:
        """The declaration that was not admitted, for which this one was not checked."""
        match = WAITS.match(self.text)
        return match[1] if match else ""


@dataclass(frozen=True)
class Refusal:
    """Where a function was refused, and why."""

    function: str
    place: str
    kind: Kind

    def __str__(self) -> str:
        return f"refused at {self.function}, {self.place}: {self.kind.value}"


@dataclass(frozen=True)
class Verdict:
    """What a check came to: whether the prover judged the functions, those that it refused, the first error, the goals that were left
    open, by function, those of them that some values make false, all places in files of which it printed something, and all errors."""

    is_judged: bool
    refused: dict[str, Refusal]
    error: str
    goals: dict[str, list[str]] = field(default_factory=dict)
    false: dict[str, list[str]] = field(default_factory=dict)
    places: tuple[str, ...] = ()
    errors: tuple[Error, ...] = ()

    def at(self, function: str) -> Refusal | None:
        """The refusal of the function whose name ends so, if it was refused."""
        return next((refusal for path, refusal in self.refused.items() if is_at_end(path, function)), None)

    def in_repository(self, refusal: Refusal, end: str, there: Callable[[str], str]) -> Refusal:
        """A refusal in a copy, whose names end so, in the names of what was copied, at the first place in the copy, as it stands there."""
        own = [place for place in self.places if f"{end}." in place or f"{end}/" in place]
        place = own[0] if own and not PLACED.fullmatch(refusal.place) else refusal.place
        place = there(place) if PLACED.fullmatch(place) else place.replace(end, "")
        return replace(refusal, function=refusal.function.replace(end, ""), place=place)

    def fault_in(self, files: set[str]) -> str:
        """The first error of one of these files of definitions, or nothing: what rests on it was not judged then."""
        return next((f"{error.place}: {error.text[:200]}" for error in self.errors if error.file in files), "")

    def misses(self, function: str, clause: str) -> bool:
        """Whether a function that was refused has open goals, and none where its edit says that it has to be refused."""
        goals = self.goals.get(function, ())
        return bool(clause and goals) and not any(is_of_clause(goal, clause) for goal in goals)

    def is_more_open(self, function: str, control: str) -> bool:
        """Whether more goals of a function are left open than of its control, or more are false for some values."""
        counts = lambda goals, end: sum(len(names) for path, names in goals.items() if is_at_end(path, end))
        return any(counts(goals, function) > counts(goals, control) for goals in (self.goals, self.false))


def is_at_end(path: str, end: str) -> bool:
    """Whether the path of a function ends so."""
    return f"::{path}".endswith(f"::{end}")


def is_of_clause(goal: str, clause: str) -> bool:
    """Whether a goal is one of a clause, or of none of them."""
    is_of_return = goal.startswith("returns")
    return not is_of_return if clause == NO_CLAUSE else is_of_return and goal.endswith(f"-clause-{clause}")


def read(said: str, answered: Mapping[str, frozenset[str]] = MappingProxyType({})) -> Verdict:
    """Reads what a check printed, of functions with these goals that have a written answer."""
    lines = said.rstrip("\n").split("\n")
    errors = errors_of(lines)
    refused, goals, false, notes = {}, {}, {}, []
    holed = {match[1] for match in map(FUNCTION.match, lines) if match and match[2].startswith(HOLED)}
    for line in lines:
        match = FUNCTION.match(line)
        if not match:
            notes.append(line)
            continue
        if is_refused_itself(match[2], holed):
            path, told = outer(match[1]), [goal for goal in map(GOAL.match, notes) if goal]
            of_search = NAMED.findall(match[2].rpartition(OPEN)[2].partition(";")[0]) if OPEN in match[2] else []
            left = [*of_search, *(goal[2] for goal in told)]
            goals[path] = [*dict.fromkeys([*goals.get(path, []), *left])]
            false[path] = [*dict.fromkeys([*false.get(path, []), *(goal[2] for goal in told if COUNTEREXAMPLE in goal[3])])]
            names = next((answers for end, answers in answered.items() if is_at_end(path, end)), frozenset())
            is_moved = bool(left) and all(is_of_moved(goal, names) for goal in left)
            now = refusal(path, told, is_moved, match[2], errors)
            refused[path] = min(refused.get(path, now), now, key=rank)
        notes = []
    first = [line for line in lines if line.startswith("error") or ": error" in line]
    places = tuple(match[1] for match in map(PLACE.match, lines) if match)
    return Verdict(bool(LAST.match(lines[-1])), refused, (first or lines[-1:])[0], goals, false, places, tuple(errors))


def errors_of(lines: list[str]) -> list[Error]:
    """The errors that a check printed, each with the line below it if that goes on with it."""
    texts = [f"{line} {below.strip()}" if below.startswith("  ") else line for line, below in zip(lines, [*lines[1:], ""])]
    return [Error(*(part or "" for part in match.groups())) for match in map(ERROR.match, texts) if match]


def is_refused_itself(status: str, holed: set[str]) -> bool:
    """Whether a function's own proof was refused, and not only that of one that it calls.

    A proof over one that rests on a hole is checked to its end, so that such a callee is no reason."""
    match = re.match(r"(?:no proof|not proved)\b[:;]?(.*)", status)
    if not match:
        return False
    callees = {name for part in FOR_A_CALLEE.findall(match[1]) for name in NAMED.findall(part)}
    return not match[1] or bool(FOR_A_CALLEE.sub("", match[1]).strip(" ;")) or bool(callees) and callees <= holed


def outer(path: str) -> str:
    """The function in whose body a closure stands, or the function itself."""
    return re.sub(r"::fn::((?:[A-Z]\w*::)?\w+)::.*", r"::\1", path)


def rank(refused: Refusal) -> int:
    """The place of a refusal among better and worse ones."""
    return ORDER.index(refused.kind)


def unfit(refused: Refusal) -> str:
    """Why an edit fails whose function is refused for what says nothing of its contract."""
    return f"BAD EDIT: {refused.function} is refused since {refused.kind.value} ({refused.place}), which says nothing of its contract: {DO}"


def stale(refused: Refusal, reason: str) -> str:
    """Why an edit fails that is refused otherwise than its file says, or nothing."""
    if reason and refused.kind.is_of_contract:
        return f"its reason is stale: {refused}, and not by a written proof alone ('# by proof: {reason}')"
    if refused.kind is Kind.PROOF and not reason:
        return f"a written proof alone refuses it, at {refused.function}, {refused.place}: {DO}"
    return ""


def is_of_moved(goal: str, answered: frozenset[str]) -> bool:
    """Whether a goal is that of an arm which has its number only since another arm stands before it, and so has the name that is answered."""
    match = NUMBERED.fullmatch(goal)
    return bool(match) and goal not in answered and f"{match[1]}{match[2] or ''}" in answered


def refusal(path: str, goals: list[re.Match], is_moved: bool, status: str, errors: list[Error]) -> Refusal:
    """The place and the kind of a function's refusal: the best of what was said of it. The goals that are open may be of moved arms alone."""
    false = [goal[1] for goal in goals if COUNTEREXAMPLE in goal[3]]
    own = [error for error in errors if is_own(error, path, status)]
    kinds = [kind_of(error, errors) for error in own]
    if false:
        return Refusal(path, false[0], Kind.COUNTEREXAMPLE)
    # What a name that is gone would have proved may be left open for that alone.
    if Kind.NAME in kinds and (goals or OPEN in status):
        return Refusal(path, own[kinds.index(Kind.NAME)].place, Kind.NAME)
    if (goals or OPEN in status) and not (is_moved and kinds):
        place = goals[0][1] if goals else status.rpartition(OPEN)[2][:80]
        return Refusal(path, place, Kind.MOVED if is_moved else Kind.SEARCH)
    if kinds:
        best = min(kinds, key=ORDER.index)
        return Refusal(path, own[kinds.index(best)].place, best)
    return Refusal(path, status[:80], kind_of_status(status))


def is_own(error: Error, path: str, status: str) -> bool:
    """Whether an error is one of a function's: in the folder of its proof, or of its cycle of calls, or of what it stands on."""
    above, _, names = error.file.rpartition("/")[0].rpartition("/")
    part, *modules = above.split("/")
    if part == "proofs" and any(is_at_end(path, "::".join([*modules, name])) for name in names.lstrip("+").split("+")):
        return True
    declaration = f"{error.file.rpartition('.')[0].replace('/', '.')}.{error.name}"
    stood_on = [name for names in STANDS_ON.findall(status) for name in NAMED.findall(names)]
    return any(name.split(".", 2)[-1] == declaration for name in stood_on)


def kind_of(error: Error, errors: list[Error]) -> Kind:
    """What an error says, or what is said of the declaration for which this one was not checked."""
    if error.awaited:
        others = [other for other in errors if other.name == error.awaited and not other.awaited]
        return min((kind_of(other, errors) for other in others), key=ORDER.index, default=Kind.UNSTATED)
    # What stands in no declaration is an import, or text that cannot be read.
    return Kind.NAME if not error.name or GONE.search(error.text) else Kind.PROOF


def kind_of_status(status: str) -> Kind:
    """What is said of a function for which there is no error and no open goal."""
    if UNSTATED in status:
        return Kind.UNSTATED
    if UNCOVERED in status:
        return Kind.UNCOVERED
    return Kind.PROOF if STANDS_ON.search(status) else Kind.UNTOLD
