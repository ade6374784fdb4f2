"""Tests of gate/copies.py: which edits are made in a copy of their function, what stands in it, and that copies do not touch one another."""

import glob
import os

from tests.small import Case, lay_out, run, told_of, write
from tests.stubs import SOURCE
import copies
import edit_files
import stubs
from choices import choose
from trees import Repository
from trials import Edits

ANSWERS = """use Rattle.numbers.proofs.after_next.Goals as goal
use Rattle.numbers.specs.contracts.after_next.{clause}
use Rattle.numbers.proofs.after_next_one.{lemma}
use Rattle.others.proofs.after_next.Met

pub returns : goal.returns
"""
MOVED = """use Rattle.numbers.proofs.after_next_with_one_step.Goals as goal
use Rattle.numbers.specs.contracts.after_next_with_one_step.{clause}
use Rattle.numbers.proofs.after_next_one.{lemma}
use Rattle.others.proofs.after_next.Met

pub returns : goal.returns
"""

# Each edit, and the function in whose copy it is made, if it is made in one.
MADE = {
    "one_step": ("next(next(number))", "next(number)", "numbers::after_next"),
    "two_more": ("result ≡ number + 2", "result ≡ number + 3", "numbers::after_next"),
    "one_more_value": ("        self.value", "        self.value + 1", "Number::value"),
    "a_constant_one": ("        Number { value }", "        Number { value: 0 }", None),
    "one_that_calls_itself": ("self.end()", "1", None),
    "one_that_would_call_itself": ("        self.value", "        self.value()", None),
    "one_of_a_trait": ("Number { value: 0 }", "Number { value: 1 }", None),
    "a_field": ("    pub value: u8,", "    pub value: u16,", None),
}

# A function that C calls.
FOR_C = """/// The same number.
#[unsafe(no_mangle)]
pub extern "C" fn same(number: u8) -> u8
    ensures { result ≡ number }
{
    number
}
"""

# Edits of two functions, and what has to be told of them.
TOLD = {
    "one_step": (("next(next(number))", "next(number)"), "refused at numbers::after_next, src/lib.rt:"),
    "three_steps": (("next(next(number))", "next(next(next(number)))"), "refused at numbers::after_next, src/lib.rt:"),
    "two_more": (("result ≡ number + 2", "result ≡ number + 3"), "refused at numbers::after_next, src/lib.rt:"),
    "the_same_by_a_sum": (("next(next(number))", "next(number) + 1"), "NOT REFUSED: numbers::after_next, which it edits, is proved with it"),
    "more_is_allowed": (("number < 254", "number < 255"), "refused at numbers::after_next, src/lib.rt:"),
    "by_one_less": (("after_next(after_next(number))", "after_next(next(number))"), "refused at numbers::fourth, src/lib.rt:"),
    "four_by_four": (("after_next(after_next(number))", "next(next(after_next(number)))"), "NOT REFUSED: numbers::fourth, which it edits, is proved with it"),
}


class Copies(Case):
    """What stands in copies, and what is told of the edits in them."""

    def setUp(self) -> None:
        super().setUp()
        self.root = f"{self.room}/repository"

    def test_texts(self) -> None:
        """A copy has its function's text and proof under another name, with the edit, and is made if nothing else can matter."""
        lay_out(self.root, {name: (old, new) for name, (old, new, _) in MADE.items()}, SOURCE)
        write(f"{self.root}/crates/numbers/proofs/after_next/Answers.antt", ANSWERS)
        edits = Edits(Repository(self.root), "numbers", choose(Repository(self.root), [])[0]["numbers"])
        wanted = {name: path for name, (_, _, path) in MADE.items() if path}
        self.same("where edits are made", {edit.name: copy.path for edit, copy in edits.copies.items()}, wanted)
        batch = [edit for edit in edits.edits if edit.name in wanted]
        made = edits.prepared(batch)
        source = made["src/lib.rt"]
        self.tell("one copy has one edit", source.count("next(next(number))") == 1 and source.count("    next(number)\n") == 1, source)
        heads = [f"pub fn {name}(" for name in ("after_next", "after_next_with_one_step", "after_next_with_two_more", "value_with_one_more_value")]
        self.tell("each has a name of its own", all(source.count(head) == 1 for head in heads), source)
        self.tell("the function has no body", "{\n    unreachable!()\n}\n\n/// The number after the next one.\npub fn after_next_with_" in source, source)
        self.tell("its clauses go with it", source.count("result ≡ number + 2 }") == 2 and source.count("result ≡ number + 3 }") == 1, source)
        self.same("its proof is that of the copy", made["proofs/after_next_with_one_step/Answers.antt"], MOVED)
        one_step = next(edit for edit in batch if edit.name == "one_step")
        self.same("the copy has to refuse it", edits.functions_of(one_step), {"numbers::after_next_with_one_step"})

    def test_for_c(self) -> None:
        """An edit of a function that C calls is made in a copy, which is for C too, and the function itself keeps its body."""
        texts = {"src/lib.rt": FOR_C}
        edit = edit_files.read("numbers", "one_less", "file: src/lib.rt\nold:     number\nnew:     number - 1\n")
        copy = copies.made_for(edit, edit_files.reach(edit, texts), texts)
        wanted = FOR_C.replace("fn same(", "fn same_with_one_less(").replace("    number\n", "    number - 1\n").rstrip().split("\n")
        self.same("a copy for C", copy and copy.lines, wanted)
        self.same("the body of what C calls", stubs.stubbed("numbers", texts, set()), texts)
        by_hand = {**texts, "proofs/same/Proof.antt": "-- By hand.\n"}
        self.same("a proof by hand stays where it is", copies.made_for(edit, edit_files.reach(edit, by_hand), by_hand), None)

    def test_verdicts(self) -> None:
        """Edits of one function are tried in one check, each over functions without bodies, and each has its own answer."""
        lay_out(self.root, {name: pair for name, (pair, _) in TOLD.items()}, SOURCE.partition("/// A number that")[0])
        status, said = run(self.root, "--logs", f"{self.root}.logs")
        for name, (_, wanted) in TOLD.items():
            self.tell(name, f": {wanted}" in told_of(said, name), told_of(said, name))
        self.tell("the total", status == 1 and said.endswith("\n5 passed, 2 failed\n"), said)
        self.same("one check has all", sorted(map(os.path.basename, glob.glob(f"{self.root}.logs/*"))), ["numbers-0.log"])
