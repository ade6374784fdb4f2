"""Tests of gate/clauses.py: what a copy of a function says of its clauses if an edit names one of them, and where it has to be refused."""

import clauses
from tests.small import SOURCE, lay_out, run, write_edit

HEAD = """pub fn lesser(
    one: u8,
    other: u8,
) -> u8
    requires small { one < 9 }
    ensures at_most_one { result
        ≤ one }
    ensures at_most_other { result ≤ other }
    ensures { result ≤ 9 }""".split("\n")
ALONE = """pub fn lesser(
    one: u8,
    other: u8,
) -> u8
    requires small { one < 9 }
    ensures at_most_one { result ≡ result }
    ensures at_most_other { result ≤ other }
    ensures { result ≤ 9 }""".split("\n")
ANSWERS = """use Rattle.numbers.proofs.lesser.Goals as goal

help : Type 0
help = Unit

pub add-requires-clause-at_most_one : goal.add-requires-clause-at_most_one
add-requires-clause-at_most_one c = omega arith

pub returns-clause-at_most_one : goal.returns-clause-at_most_one
returns-clause-at_most_one c = it
  where

    it = omega arith

pub returns-clause-at_most_other : goal.returns-clause-at_most_other
returns-clause-at_most_other c = omega arith
"""
WHOLE = "pub returns : goal.returns\nreturns c = record { at_most_one = omega arith }\n"

# Edits of a function of two clauses, and what has to come of each.
REFUSED = "numbers/{}: refused at numbers::lesser, src/lib.rt:"
EDITS = {
    "the_other": ("        one\n", "        other\n", "at_most_one", "REFUSED"),
    "one_of_none": ("one < other", "other < one", "at_most_none", "FAILED: what it edits has no clause at_most_none that says what it ensures"),
    "no_clause": ("        other\n", "        one\n", "(none)", "FAILED: NOT REFUSED at the clause (none) of numbers::lesser, but at "),
    "the_wrong_one": ("        other\n", "        one\n", "at_most_one", "FAILED: NOT REFUSED at the clause at_most_one of numbers::lesser, but at "),
}


def test_all(count, room):
    """Runs all tests of this file."""
    test_texts(count)
    test_verdicts(count, f"{room}/clauses")


def test_texts(count):
    """The other clauses say nothing, and their answers are gone, if nothing else answers for them."""
    count.tell("the clauses of a head", clauses.names(HEAD) == ["at_most_one", "at_most_other"], str(clauses.names(HEAD)))
    made = clauses.alone(HEAD, "at_most_other")
    count.tell("one clause alone", made == ALONE, "\n".join(made))
    answers = clauses.answers_alone(ANSWERS, "at_most_other")
    lines = [it for it in ANSWERS.split("\n") if it not in answers.split("\n")]
    wanted = ["pub returns-clause-at_most_one : goal.returns-clause-at_most_one", "returns-clause-at_most_one c = it", "  where", "    it = omega arith"]
    count.tell("the answers of the other are gone", lines == wanted, answers)
    goals = ("returns-clause-at_most_one", "returns-in_default", "add-requires-clause-at_most_one")
    at = [[clauses.is_at(goal, clause) for goal in goals] for clause in ("at_most_one", clauses.NONE)]
    count.tell("the goals of a clause, and of none", at == [[True, False, False], [False, False, True]], str(at))
    fits = [clauses.can_stand_alone(answers) for answers in (ANSWERS, WHOLE, "")]
    count.tell("a clause can stand alone, or not", fits == [True, False, True], str(fits))
    files = SOURCE, SOURCE.replace("◌≡◌, ", ""), "fn none() {}"
    found = [clauses.importing(it.split("\n")).count(clauses.IMPORT) for it in files]
    count.tell("the sign is imported where it is not yet", found == [0, 1, 0], str(found))


def test_verdicts(count, root):
    """An edit is refused at the clause that it names, or it failed."""
    lay_out(root, {}, SOURCE)
    for name, (old, new, clause, _) in EDITS.items():
        old, new = old.removesuffix("\n"), new.removesuffix("\n")
        write_edit(root, name, f"file: src/lib.rt\nold: {old}\nnew: {new}\n# clause: {clause}\n")
    status, said = run(root)
    for name, (_, _, _, wanted) in EDITS.items():
        line = REFUSED.format(name) if wanted == "REFUSED" else f"numbers/{name}: {wanted}"
        count.tell(f"what comes of {name}", line in said, said[-1200:])
    count.tell("the others failed", status == 1 and said.endswith("\n1 passed, 3 failed\n"), said[-300:])
