"""Tests of batches: what one does not refuse, since a callee was refused in it, goes into the next, and none has edits that make a cycle of calls."""

from choices import choose
from commands import Ended
from spent import Spent
from tests.small import lay_out
from trees import Repository
from trials import Edits, Queue, Trial

# No copy is made of a constant function.
SOURCE = """//! Numbers, for the tests of what is put off.

/// One.
pub const fn one() -> u8 {
    1
}

/// Two.
pub const fn two() -> u8 {
    one() + 1
}
"""
# A constant that two functions name.
NAMED = """//! Numbers, for the tests of what is tried first.

const ONE: u8 = 1;

/// Two.
pub const fn two() -> u8 {
    let one = ONE;
    one + 1
}

/// One.
pub const fn one() -> u8 {
    ONE
}
"""
ONE = {f"one_is_wrong_{at}": ("    1", f"    {at} + wrong_one()") for at in range(2)}


class ByHand:
    """A prover that refuses two, whose proof is by hand, only if one is not refused beside it, and notes what it is asked."""

    def __init__(self, refuses_two=True):
        self.asked, self.refuses_two = [], refuses_two

    def check(self, _, uses, folder, functions, is_whole):
        self.asked.append((sorted(functions), is_whole))
        is_one = "numbers::one" in functions
        said = "fn numbers::one: no proof: `search` did not prove `returns`\n" if is_one else ""
        if "numbers::two" in functions:
            is_refused = self.refuses_two and not is_one
            said += f"fn numbers::two: {'not proved' if is_refused else 'not proved; it calls `numbers::one`, which is not proved' if is_one else 'proved'}\n"
        return Ended(1, f"{said}only={len(functions)} proved=0\n", 1.0, ())


class OfOne:
    """A prover that refuses one function, and notes what it is asked."""

    def __init__(self, refused):
        self.asked, self.refused = [], refused

    def check(self, _, uses, folder, functions, is_whole):
        self.asked.append((sorted(functions), is_whole))
        said = "".join(f"fn {it}: {'no proof' if it == self.refused else 'proved'}\n" for it in sorted(functions))
        return Ended(1, f"{said}only={len(functions)} proved=0\n", 1.0, ())


class AllBuilt:
    """Libraries that are all built."""

    def are_below(self, _):
        return True


def tried(root, prover):
    """Tries all edits of a repository in one lane, and returns what came of each, by name."""
    repository = Repository(root)
    edits = choose(repository, [])[0]["numbers"]
    queue, made = Queue([Trial(Edits(repository, "numbers", edits), f"{root}.room", None, Spent())], AllBuilt()), []
    while queue.trials:
        batch = queue.find()
        made += batch.outcomes(prover)
        queue.end(batch)
    return {edit.name: outcome for edit, outcome in made}, len(made)


def test_all(count, room):
    """Runs all tests of this file."""
    root = f"{room}/later"
    two = {"two_is_wrong": ("    one() + 1", "    one()"), "two_is_one": ("    one() + 1", "    1 + 0")}
    lay_out(root, {**ONE, "two_is_wrong": two["two_is_wrong"]}, SOURCE)
    prover = ByHand()
    found, times = tried(root, prover)
    count.tell("each edit comes to one outcome", times == 3 and len(found) == 3 and not any(it.why for it in found.values()), str(found))
    wanted = [(["numbers::one", "numbers::two"], False), (["numbers::one", "numbers::two"], False), (["numbers::two"], False)]
    count.tell("what is put off goes into the next batch", prover.asked == wanted, str(prover.asked))
    prover = ByHand(refuses_two=False)
    found, times = tried(root, prover)
    is_told = "NOT REFUSED" in found["two_is_wrong"].why and times == 3
    count.tell("the whole crate has the last word", is_told and prover.asked[-1] == (["numbers::two"], True), f"{found} {prover.asked}")
    other = f"{room}/both"
    lay_out(other, {"one_is_wrong_0": ONE["one_is_wrong_0"], **two}, SOURCE)
    prover = ByHand()
    found, times = tried(other, prover)
    count.tell("edits of one function stay apart", times == 3 and not any(it.why for it in found.values()), f"{found} {prover.asked}")

    test_cycles(count, f"{room}/cycle")
    test_items(count, f"{room}/item")


def test_items(count, root):
    """An edit of a constant is tried at the shortest function that names it, and at the others if that does not refuse it."""
    lay_out(root, {"one_is_two": ("const ONE: u8 = 1;", "const ONE: u8 = 2;")}, NAMED)
    first, both = (["numbers::one"], False), (["numbers::one", "numbers::two"], True)
    for refused, wanted in (("one", [first]), ("two", [first, both])):
        prover = OfOne(f"numbers::{refused}")
        found, times = tried(root, prover)
        count.tell(f"a constant that {refused} refuses", prover.asked == wanted and times == 1 and not found["one_is_two"].why, f"{found} {prover.asked}")


def test_cycles(count, root):
    """An edit that calls another edited function shares no batch with its edit. Edits that call nothing more do."""
    lay_out(root, {"one_of_two": ("    1", "    two() - 1"), "two_is_wrong": ("    one() + 1", "    one() + 2")}, SOURCE)
    edits = Edits(Repository(root), "numbers", choose(Repository(root), [])[0]["numbers"])
    count.tell("a cycle of calls is in no batch", len(edits.batches(edits.edits)) == 2, str(edits.reach))
    lay_out(f"{root}/none", {"one_is_two": ("    1", "    2"), "two_is_wrong": ("    one() + 1", "    one() + 2")}, SOURCE)
    edits = Edits(Repository(f"{root}/none"), "numbers", choose(Repository(f"{root}/none"), [])[0]["numbers"])
    count.tell("edits that make none share one", len(edits.batches(edits.edits)) == 1, str(edits.reach))
