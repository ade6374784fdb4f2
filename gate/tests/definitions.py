"""Tests of gate/definitions.py: which edits of definitions are made in copies below a copy of their law, and that each has its own answer."""

import glob
import os

from tests.small import Case, lay_out, run, told_of, write, write_edit
from choices import choose
from trees import Repository
from trials import Edits

SOURCE = """//! Numbers and laws of them, for the tests of gate/definitions.py.
#![tactic(auto)]

ghost use Rattle.std.specs.Prelude.{◌≡◌, ◌<◌};
ghost use Rattle.numbers.specs.Doubles.{double};

pub mod laws;
pub mod more_laws;

/// Twice a number.
pub fn twice(number: u8) -> u8
    requires { number < 128 }
    ensures { result ≡ double number }
{
    number + number
}
"""
LAWS = """//! Laws of the definitions.
ghost use Rattle.std.specs.Prelude.{◌≡◌, ◌+◌, ℕ};
ghost use Rattle.numbers.specs.Doubles.{double as twofold};
ghost use Rattle.numbers.specs.Fours.{fourfold};
ghost use Rattle.numbers.specs.Others.{nothing};

/// Four times a number is a sum of four.
pub fn fourfold_is_a_sum()
    ensures { (n : ℕ) → fourfold n ≡ (n + n) + (n + n) }
{}

/// Twice a number is a sum of two.
pub fn twofold_is_a_sum()
    ensures { (n : ℕ) → twofold n ≡ n + n }
{}
"""
MORE_LAWS = """//! Laws of other definitions.
ghost use Rattle.std.specs.Prelude.{◌≡◌, ◌+◌, ℕ};
ghost use Rattle.numbers.specs.Doubles.{double};
ghost use Rattle.numbers.specs.Fours.{fourfold};

/// Four times a number is twice two of it.
pub fn fourfold_is_twice_two()
    ensures { (n : ℕ) → fourfold n ≡ double (n + n) }
{}
"""
FILES = {
    "src/laws.rt": LAWS,
    "src/more_laws.rt": MORE_LAWS,
    "specs/Lib.antt": "-- Twice.\npub mod Doubles\npub mod Fours\npub mod Others\n",
    "specs/Doubles.antt": "use Rattle.std.specs.Prelude.{ℕ, ◌+◌}\n\nabbrev pub double : ℕ → ℕ\ndouble n = n + n\n",
    "specs/Fours.antt": "use Rattle.std.specs.Prelude.{ℕ}\nuse Rattle.numbers.specs.Doubles.{double}\n\nabbrev pub fourfold : ℕ → ℕ\nfourfold n = double (double n)\n",
    "specs/Others.antt": "use Rattle.std.specs.Prelude.{ℕ}\n\npub nothing : ℕ\nnothing = 0\n",
    "proofs/Lib.antt": "mod Sums\n",
    "proofs/Sums.antt": "use Rattle.std.proofs.Common.{ℕ, ◌≡◌, ◌+◌, refl}\nuse Rattle.numbers.specs.Fours.{fourfold}\n\n"
    "pub four_so : (n : ℕ) → fourfold n ≡ (n + n) + (n + n)\nfour_so n = refl\n",
    "proofs/more_laws/fourfold_is_twice_two/Answers.antt": "use Rattle.numbers.proofs.Sums.{four_so}\n"
    "use Rattle.numbers.proofs.more_laws.fourfold_is_twice_two.Goals as goal\n\npub returns : goal.returns\nreturns c = four_so\n",
    "proofs/laws/fourfold_is_a_sum/Answers.antt": "use Rattle.numbers.proofs.Sums.{four_so}\n"
    "use Rattle.numbers.proofs.laws.fourfold_is_a_sum.Goals as goal\n\npub returns : goal.returns\nreturns c = four_so\n",
}
FOUR, TWO, OTHER = "laws::fourfold_is_a_sum", "laws::twofold_is_a_sum", "more_laws::fourfold_is_twice_two"
# The first one and the last one are proved by hand.
BY_PROOF = "\n# by proof: its proof is by hand"
# Each edit: its file, its texts, the function that has to refuse it, and the names of the copied files if it is made in a copy.
EDITS = {
    "one_more": ("specs/Doubles.antt", "double n = n + n", "double n = n + n + 1", FOUR, ["Sums", "Doubles", "Fours"]),
    "once": ("specs/Fours.antt", "double (double n)", "double n", FOUR, ["Sums", "Fours"]),
    "two_more": ("specs/Doubles.antt", "double n = n + n", "double n = n + n + 2", TWO, ["Doubles"]),
    "thrice": ("specs/Fours.antt", "double (double n)", "double (double (double n))", OTHER, ["Sums", "Fours"]),
    "another_name": ("specs/Doubles.antt", "double n = n + n", "double m = m + m", FOUR, ["Sums", "Doubles", "Fours"]),
    "misspelled": ("specs/Doubles.antt", "double n = n + n", "double n = n + m", FOUR, ["Sums", "Doubles", "Fours"]),
    "at_a_function": ("specs/Doubles.antt", "double n = n + n", "double n = n + n + 3", "numbers::twice", None),
    "of_what_it_does_not_rest_on": ("specs/Others.antt", "nothing = 0", "nothing = 1", FOUR, None),
}
# What has to be told of some of them.
TOLD = {
    "one_more": f"refused at numbers::{FOUR}, proofs/Sums.antt:5",
    "once": f"refused at numbers::{FOUR}, proofs/Sums.antt:5",
    "two_more": f"refused at numbers::{TWO}, src/laws.rt:13:",
    "thrice": f"refused at numbers::{OTHER}, proofs/Sums.antt:5",
    "another_name": f"FAILED: NOT REFUSED: {FOUR}, which has to refuse it, is proved with it",
    "misspelled": "FAILED: BAD EDIT: ",
}


class Definitions(Case):
    """Edits of definitions in copies."""

    def lay(self, names: object) -> str:
        """Makes a small repository with these of the edits."""
        root = f"{self.room}/repository"
        lay_out(root, {}, SOURCE)
        for file, text in FILES.items():
            write(f"{root}/crates/numbers/{file}", text)
        for name in names:
            file, old, new, law, _ = EDITS[name]
            write_edit(root, name, (old, new), f"# at: {law}{BY_PROOF * (law != TWO)}", file=file)
        return root

    def test_texts(self) -> None:
        """The files between the law and the definition are copied, and nothing else is changed."""
        repository = Repository(self.lay(EDITS))
        edits = Edits(repository, "numbers", choose(repository, [])[0]["numbers"])
        by_name = {edit.name: edit for edit in edits.edits}
        copied = {name: edits.laws.get(edit) for name, edit in by_name.items()}
        found = {name: copy and [module for _, module in copy.between] for name, copy in copied.items()}
        self.same("what is copied", found, {name: wanted for name, (*_, wanted) in EDITS.items()})
        batch = [by_name["one_more"], by_name["two_more"], by_name["thrice"]]
        made = edits.prepared(batch)
        changed = {file for file in edits.texts if file.startswith("specs/") and made[file] != edits.texts[file]}
        self.same("no definition itself is changed", changed, {"specs/Lib.antt"})
        doubles = made["specs/Doubles_with_one_more.antt"], made["specs/Doubles_with_two_more.antt"]
        self.tell("each copy has one edit", doubles[0].endswith("n + n + 1\n") and doubles[1].endswith("n + n + 2\n"), doubles)
        fours = made["specs/Fours_with_one_more.antt"]
        self.tell("a copy names the copies", "use Rattle.numbers.specs.Doubles_with_one_more.{double}" in fours, fours)
        law, other = made["src/laws_with_one_more.rt"], made["src/laws_with_two_more.rt"]
        self.tell("a law stands alone", "fourfold_is_a_sum" in law and "twofold_is_a_sum" not in law, law)
        self.tell("it imports the copies that it names", "specs.Fours_with_one_more.{fourfold};" in law and "Doubles" not in law, law)
        self.tell("also under another name", "specs.Doubles_with_two_more.{double as twofold};" in other and "specs.Fours.{" in other, other)
        answers = made["proofs/laws_with_one_more/fourfold_is_a_sum/Answers.antt"]
        self.tell("its proof is its own", "proofs.laws_with_one_more.fourfold_is_a_sum.Goals" in answers and "Sums_with_one_more" in answers, answers)
        self.tell("the copies are declared", "pub mod laws;\npub mod laws_with_one_more;\n" in made["src/lib.rt"], made["src/lib.rt"])
        self.same("the copy has to refuse it", edits.functions_of(batch[0]), {"laws_with_one_more::fourfold_is_a_sum"})
        answers = made["proofs/more_laws_with_thrice/fourfold_is_twice_two/Answers.antt"]
        self.tell("so it is in another file of laws", "proofs.more_laws_with_thrice.fourfold_is_twice_two.Goals" in answers and "Sums_with_thrice" in answers, answers)
        self.tell("its copies are declared", "pub mod more_laws;\npub mod more_laws_with_thrice;\n" in made["src/lib.rt"], made["src/lib.rt"])
        self.same("its copy has to refuse it", edits.functions_of(batch[2]), {"more_laws_with_thrice::fourfold_is_twice_two"})

    def test_verdicts(self) -> None:
        """Edits of definitions are tried in one check, and each has its own answer. One that is not refused there is tried in its place."""
        root = self.lay(TOLD)
        status, said = run(root, "--logs", f"{root}.logs")
        for name, wanted in TOLD.items():
            self.tell(name, f": {wanted}" in told_of(said, name), told_of(said, name))
        self.tell("the total", status == 1 and said.endswith("\n4 passed, 2 failed\n"), said)
        logs = sorted(map(os.path.basename, glob.glob(f"{root}.logs/*")))
        self.same("one check has all laws, and the others are in the whole crate", logs, ["numbers-0-0.log", "numbers-0-1.log", "numbers-0.log"])
