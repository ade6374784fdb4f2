"""Tests of the lanes of gate/edits: batches of one crate are tried side by side, none twice, with the same answers as in one lane."""

import json
import os
import subprocess
import threading
import time

import prover
from choices import choose
from commands import Ended
from spent import Spent
from tests import kits
from tests.small import lay_out, run
from trees import Repository
from trials import Edits, Queue, Trial

# Five edits of one function make five batches. That of another stands in the first.
EDITS_OF_ONE = {f"one_is_wrong_{at}": ("    1", f"    {at} + wrong_one()") for at in range(5)}
EDITS = {**EDITS_OF_ONE, "two_is_wrong": kits.GOOD["two_is_wrong"]}


def test_all(count, room):
    """Runs all tests of this file, with a kit of their own."""
    os.environ.update(kits.lay_out(f"{room}/kit"))
    root = f"{room}/lanes"
    lay_out(root, EDITS, kits.SOURCE)
    side_by_side, calls = run_noted(root, "3")
    in_turn, _ = run_noted(root, "1")
    count.tell("lanes say the same as one", answers(side_by_side) == answers(in_turn), side_by_side)
    count.tell("all are refused", in_turn.endswith("\n6 passed, 0 failed\n"), in_turn)
    test_batches(count, calls)
    test_copies(count, calls)
    test_queue(count, Repository(root))
    test_begin(count)
    test_spent(count)
    count.tell("what was spent is printed", "\nedits took " in in_turn and "dearest" not in in_turn, in_turn)
    is_begun = "numbers: a check of 2 edits begins\n" in in_turn and in_turn.count(": a check of 1 edit begins\n") == 4
    count.tell("each check is printed as it begins", is_begun, in_turn)


def run_noted(root, jobs):
    """Runs all edits in so many lanes, and returns what was said and the calls of the prover."""
    notes = f"{root}.{jobs}.calls"
    said = run(root, "--anew", "--jobs", jobs, environment={"VMEBUS_TEST_CALLS": notes})[1]
    with open(notes, encoding="utf-8") as text:
        return said, sorted(map(json.loads, text), key=lambda it: it["began"])


def answers(said):
    """What a run says of each edit in the end."""
    return sorted(it for it in said.split("\n") if it.startswith("numbers/"))


def test_batches(count, calls):
    """Each batch is tried once, the first alone, and the others in no more lanes than there are."""
    wrong = sorted(it["one"] for it in calls)
    count.tell("each batch is tried once", wrong == [f"{at} + wrong_one()" for at in range(5)], str(wrong))
    first, others = calls[0], calls[1:]
    count.tell("the first batch is tried alone", all(it["began"] >= first["ended"] for it in others), str(calls))
    most = max(sum(other["began"] <= it["began"] < other["ended"] for other in calls) for it in calls)
    count.tell("no more are tried at a time than there are lanes", most <= 3, f"{most} at a time: {calls}")


def test_copies(count, calls):
    """No two batches are tried in one copy at a time, and each finds what the first has kept."""
    pairs = [(one, other) for one in calls for other in calls if one is not other and one["folder"] == other["folder"]]
    count.tell("a copy is of one batch", all(one["ended"] <= other["began"] or other["ended"] <= one["began"] for one, other in pairs), str(calls))
    count.tell("a copy has what the first kept", all(calls[0]["keeps"] in it["found"] for it in calls[1:]), str(calls))


class AllBuilt:
    """Libraries that are all built."""

    def are_below(self, _):
        return True


def test_queue(count, repository):
    """While the first batch of a crate is tried, no other begins. Then each lane has one, in a copy of its own, which is used again."""
    edits = choose(repository, [])[0]["numbers"]
    queue = Queue([Trial(Edits(repository, "numbers", edits), "/nowhere", None, None)], AllBuilt())
    first, beside = queue.find(), queue.find()
    count.tell("the first batch is taken alone", len(first.batch) == 2 and beside is None, str(vars(first)))
    queue.end(first)
    others = [queue.find() for _ in range(3)]
    copies = [it.copy for it in others]
    count.tell("the others are taken side by side", copies == [f"/nowhere/numbers/{at}" for at in range(3)], str(copies))
    queue.end(others[1])
    last = queue.find()
    count.tell("a copy is used again", last.copy == others[1].copy and not queue.trials and not queue.find(), str(vars(last)))


def test_begin(count):
    """One check always begins. Another waits until a processor has no work."""
    made, before = object.__new__(prover.Prover), (prover.busy_processes, prover.PAUSE)
    made.turn, made.at_work, made.begun = threading.Lock(), 0, 0
    prover.busy_processes, prover.PAUSE = lambda: 1_000, 0
    made.begin()
    count.tell("one check begins on a busy machine", made.at_work == 1, str(vars(made)))
    other = threading.Thread(target=made.begin)
    other.start()
    time.sleep(1.5)
    count.tell("another waits", made.at_work == 1 and other.is_alive(), str(vars(made)))
    prover.busy_processes = lambda: 0
    other.join(5)
    count.tell("it begins once a processor is free", made.at_work == 2 and not other.is_alive(), str(vars(made)))
    prover.busy_processes, prover.PAUSE = before
    busy = subprocess.Popen(["sh", "-c", "while :; do :; done"])
    time.sleep(0.3)
    found = prover.busy_processes()
    busy.kill()
    busy.wait()
    count.tell("a process at work is counted", found >= 1, str(found))


def test_spent(count):
    """The time of a check is parted by what was checked: the functions that were edited, with their closures, and others."""
    spent = Spent()
    names = ("first", "called", "Kind::edited", "fn::dear::fold+FnMut::call_mut", "dear")
    said = "".join(f"checked numbers::{name}, {at} of 5\n" for at, name in enumerate(names, 1))
    spent.add(Ended(1, f"{said}fn numbers::dear: no proof\n", 20.0, (7.0, 8.0, 10.0, 11.5, 16.0, 16.5)), {"Kind::edited", "numbers::dear"})
    took, dearest = spent.lines()
    parts = "20 s of processor time: 7 until the first function of each batch, 1 for functions that were called and not edited, 8 for edited ones, 4 after them"
    is_well = took == f"edits took {parts}" and dearest == "the dearest edited functions, in seconds: numbers::dear 6.0, numbers::Kind::edited 2.0"
    count.tell("what was spent is parted", is_well, f"{took}\n{dearest}")
