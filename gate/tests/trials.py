"""Tests of gate/trials.py: batches, in which order edits are tried again, the queue of crates, and where the time goes."""

from __future__ import annotations

import subprocess
import threading
import time
from typing import Dict, List, Tuple

from tests import kits
from tests.small import Case, lay_out, run
import prover
from choices import choose
from commands import Commands, Ended
from outcomes import Outcome
from trees import Misuse, Repository
from trials import Edits, Queue, Trial

SOURCE = kits.SOURCE.replace("    2", "    one() + 1")
# A constant that two functions name.
NAMED = kits.SOURCE.replace("/// One.", "const ONE: u8 = 1;\n\n/// One.").replace("    1", "    ONE").replace("    2", "    ONE + 1")
ONE = {f"one_is_wrong_{at}": ("    1", f"    {at} + wrong_one()") for at in range(2)}
TWO = {"two_is_wrong": ("    one() + 1", "    one()"), "two_is_one": ("    one() + 1", "    1 + 0")}
BY_HAND, OPEN = "not proved; it stands on `Rattle.numbers.proofs.two.Proof.two_spec`, which antt refuses", "no proof: `search` did not prove `returns`"
WAITS = "not proved; it calls `numbers::one`, which is not proved"


class Stub:
    """A prover that notes what it is asked."""

    def __init__(self) -> None:
        self.asked: List[Tuple[List[str], bool]] = []

    def check(self, _: str, uses: List[str], folder: str, functions: set, is_whole: bool) -> Ended:
        self.asked.append((sorted(functions), is_whole))
        said = "".join(f"fn {function}: {self.status(function, functions)}\n" for function in sorted(functions))
        return Ended(1, f"{said}only={len(functions)} proved=0\n", 1.0)


class ByHand(Stub):
    """One that refuses two, whose proof is by hand, only if one is not refused beside it."""

    def __init__(self, refuses_two: bool = True) -> None:
        super().__init__()
        self.refuses_two = refuses_two

    def status(self, function: str, functions: set) -> str:
        if function == "numbers::one":
            return OPEN
        if "numbers::one" in functions:
            return WAITS
        return BY_HAND if self.refuses_two else "proved"


class OfOne(Stub):
    """One that refuses one function."""

    def __init__(self, refused: str) -> None:
        super().__init__()
        self.refused = refused

    def status(self, function: str, _: set) -> str:
        return OPEN if function == self.refused else "proved"


class Built:
    """Libraries that are there, or not yet, or never will be, by the crate above them."""

    def __init__(self, **states: object) -> None:
        self.states = states

    def are_below(self, name: str) -> bool:
        if self.states[name] is None:
            raise Misuse(f"{name} will not be built")
        return bool(self.states[name])


class Trials(Case):
    """Trials of a small crate by provers of the tests' own."""

    def edits(self, edits: Dict[str, Tuple[str, str]], source: str = SOURCE, folder: str = "repository") -> Edits:
        """The edits of a small repository."""
        self.root = f"{self.room}/{folder}"
        lay_out(self.root, edits, source)
        repository = Repository(self.root)
        return Edits(repository, "numbers", choose(repository, [])[0]["numbers"])

    def tried(self, edits: Edits, stub: Stub) -> Dict[str, Outcome]:
        """Tries all edits, and returns what came of each, by name: each comes to one outcome."""
        made = list(Trial(edits, f"{self.room}/edited", None).outcomes(stub))
        self.same("each edit comes to one outcome", sorted(edit.name for edit, _ in made), sorted(edit.name for edit in edits.edits))
        return {edit.name: outcome for edit, outcome in made}

    def test_again(self) -> None:
        """What one batch does not refuse, since a callee was refused in it, is tried without that one, and then in the whole crate."""
        edits, both = self.edits({**ONE, "two_is_wrong": TWO["two_is_wrong"]}), ["numbers::one", "numbers::two"]
        for refuses, last in ((True, []), (False, [(["numbers::two"], True)])):
            stub = ByHand(refuses)
            outcomes = self.tried(edits, stub)
            self.same("what is asked", stub.asked, [(both, False), (["numbers::two"], False), *last, (["numbers::one"], False)])
            self.same("what is refused", [name for name, outcome in sorted(outcomes.items()) if outcome.refusal], [*ONE, *(["two_is_wrong"] if refuses else [])])

    def test_cycles(self) -> None:
        """An edit that calls another edited function shares no batch with its edit. Edits that call nothing more do, but of one function."""
        calls = {"one_of_two": ("    1", "    two() - 1"), "two_is_wrong": ("    one() + 1", "    one() + 2")}
        none = {**calls, "one_of_two": ("    1", "    2")}
        for name, pairs, count in (("cycle", calls, 2), ("none", none, 1), ("both", {**TWO, "one_of_two": none["one_of_two"]}, 2)):
            edits = self.edits(pairs, folder=name)
            self.same(name, len(edits.batches(edits.edits)), count)

    def test_items(self) -> None:
        """An edit of a constant may be refused at any function that names it."""
        edits = self.edits({"one_is_two": ("const ONE: u8 = 1;", "const ONE: u8 = 2;")}, NAMED)
        for refused in ("one", "two"):
            stub = OfOne(f"numbers::{refused}")
            self.tell(f"refused by {refused}", not self.tried(edits, stub)["one_is_two"].why)
            self.same("what is asked", stub.asked, [(["numbers::one", "numbers::two"], False)])

    def test_queue(self) -> None:
        """The crate with the most edits that can begin is taken first, and what can never begin stops the runner once nothing else can."""
        few, many = self.edits(TWO), self.edits({**ONE, **TWO}, folder="many")
        few.name, many.name = "few", "many"
        trials = [Trial(edits, self.room, None) for edits in (few, many)]
        queue = Queue(trials, Built(few=True, many=True))
        self.same("the order", [queue.take(Commands()) for _ in range(3)], [trials[1], trials[0], None])
        queue = Queue(trials, Built(few=True, many=None))
        self.same("what can begin", queue.take(Commands()), trials[0])
        self.assertRaises(Misuse, queue.take, Commands())

    def test_begin(self) -> None:
        """One check always begins. Another waits until a processor has no work."""
        tool, before = object.__new__(prover.Prover), (prover.busy_processes, prover.PAUSE)
        self.addCleanup(lambda: (setattr(prover, "busy_processes", before[0]), setattr(prover, "PAUSE", before[1])))
        tool.turn, tool.at_work, tool.begun = threading.Lock(), 0, 0
        prover.busy_processes, prover.PAUSE = lambda: 1_000, 0
        tool.begin()
        other = threading.Thread(target=tool.begin)
        other.start()
        time.sleep(1.5)
        self.tell("one begins on a busy machine, and another waits", tool.at_work == 1 and other.is_alive(), vars(tool))
        prover.busy_processes = lambda: 0
        other.join(5)
        self.tell("it begins once a processor is free", tool.at_work == 2 and not other.is_alive(), vars(tool))
        busy = subprocess.Popen(["sh", "-c", "while :; do :; done"])
        time.sleep(0.3)
        count = before[0]()
        busy.kill()
        busy.wait()
        self.tell("a process at work is counted", count >= 1, count)

    def test_offers(self) -> None:
        """The prover has no folder for the texts that it offers, so that it does not search for them. The first check names that folder."""
        pairs = {**kits.GOOD, "one_is_wrong_again": ("    1", "    1 + wrong_one()")}
        self.edits(pairs, kits.SOURCE)
        status, said = run(self.root, "--logs", f"{self.room}/logs", environment=kits.lay_out(f"{self.room}/kit"))
        with open(f"{self.room}/logs/numbers-1.log", encoding="utf-8") as log:
            second = log.read()
        self.tell("no proof is offered", status == 0 and said.endswith("\n3 passed, 0 failed\n") and "help:" not in second, said + second)
        self.tell("what was spent is printed", "\nedits took " in said, said)
