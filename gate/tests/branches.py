"""Tests of gate/branches.py: which branches are left out of the copy that carries an edit, and what comes of such edits."""

import branches
import copies
import edit_files
from tests.small import lay_out, run, write_edit

BODY = """{
    if number > 9 {
        return None;
    }
    let Some(found) = first(number) else {
        return Some(0);
    };
    match found {
        Kind::Named {
            name,
            ..
        } => take(
            name,
            number,
        ),
        Kind::Twice(one)
        | Kind::Once(one) if one > 1 => {
            let it = 2;
            Some(if one > it {
                one + 1
            } else if one > 0 {
                one + 2
            } else {
                it
            })
        }
        Kind::Last => return Some(7),
        Kind::None => None,
    }
}"""
SHORT = """{
    if number > 9 {
        nothing_comes_here()
    }
    let Some(found) = first(number) else {
        nothing_comes_here()
    };
    match found {
        Kind::Named {
            name,
            ..
        } => nothing_comes_here(),
        Kind::Twice(one)
        | Kind::Once(one) if one > 1 => {
            let it = 2;
            Some(if one > it {
                nothing_comes_here()
            } else if one > 0 {
                one + 2
            } else {
                nothing_comes_here()
            })
        }
        Kind::Last => nothing_comes_here(),
        Kind::None => nothing_comes_here(),
    }
}"""
LOOP = """{
    for it in all {
        match it {
            None => break,
            Some(0) => return 1,
            Some(n) => sum += n,
        }
    }
    sum
}"""

ASKS = """{
    let first = number_of(text)?;
    let mut rest = text
        .after(first)?
        .by(
            |it| first.max(it),
        )?;
    note(first)?;
    let made: u8 = made(rest)?;
    made = made(rest)?;
    let kind = match first {
        0 => None,
        _ => Some(made),
    }?;
    take(kind)?;
    Some(rest)
}"""
ASKS_NO_MORE = """{
    let Ok(first) = number_of(text) else {
        nothing_comes_here()
    };
    let Ok(mut rest) = text
        .after(first)?
        .by(
            |it| first.max(it),
        ) else {
        nothing_comes_here()
    };
    let Ok(_) = note(first) else {
        nothing_comes_here()
    };
    let made: u8 = made(rest)?;
    made = made(rest)?;
    let kind = match first {
        0 => None,
        _ => Some(made),
    }?;
    take(made)?;
    Some(rest)
}"""
# The last lines of functions' heads before their clauses, and the variant with which a `?` goes on there.
HEADS = {
    ") -> Result<Option<u8>, Fault>": "Ok",
    "fn it(text: &str) -> Option<u8>": "Some",
    "fn it<F: Fn(u8) -> Option<u8>>(of: F) -> std::io::Result<u8>": "Ok",
    "fn it(text: &str) -> Vec<Option<u8>>": "",
    "fn it(text: &str)": "",
}

# Edits of a body, and how many branches are left out with each: those beside it, and those that return before it.
EDITS = {
    "an arm of several lines": (BODY, "            number,\n", "            0,\n", 2 + 3),
    "the last arm": (BODY, "Kind::None => None", "Kind::None => Some(1)", 2 + 3),
    "a condition within an arm": (BODY, "one > 0", "one < 0", 2 + 3),
    "a statement before the branches": (BODY, "let it = 2;", "let it = 3;", 2 + 3),
    "a pattern": (BODY, "Kind::Last", "Kind::First", 2),
    "what is matched": (BODY, "match found", "match other", 2),
    "an arm and another": (BODY, "Some(7),\n        Kind::None => None", "Some(8),\n        Kind::None => Some(1)", 2),
    "one more arm": (BODY, "        Kind::None =>", "        Kind::Least => None,\n        Kind::None =>", 2),
    "what comes after a return": (BODY, "first(number) else", "last(number) else", 1),
    "a return": (BODY, "return None", "return Some(1)", 0),
    "what a return waits for": (BODY, "number > 9", "number > 8", 0),
    "a return from a loop": (LOOP, "return 1", "return 2", 0),
    "an arm beside one that leaves the loop": (LOOP, "sum += n", "sum += 1", 1),
    "what comes after all": (LOOP, "    sum\n", "    0\n", 1),
}

# A function of which something is written.
WRITTEN = """/// The sum of some numbers.
pub fn sum(numbers: Option<&[u8]>) -> u8
    ensures { result ≡ result }
{
    match numbers {
        Some([one, two]) => one + two,
        Some(numbers) => {
            for it in numbers {
                add(it);
            }
            0
        }
        None => 1,
    }
}
"""
ANSWER = "pub {} : goal.it\nit c = it\n"
INVARIANT = "abbrev pub invariant-loop-it : goal.invariant-loop-it\ninvariant-loop-it l = it\n"
# What is edited, the goal that has a written answer, and the files that are written for the copy; it is shorter, or not.
COPIES = {
    "an answer for a branch that is left out": ("=> 1", "returns-in-Some-clause-it", "", [], True),
    "an answer for the branch of the edit": ("=> 1", "returns-in-None", "", ["Answers.antt"], False),
    "an answer for what is called": ("=> 1", "add-requires", "", ["Answers.antt"], False),
    "invariants of the branch of the edit": ("add(it)", "returns-in-None-clause-it", INVARIANT, ["Invariants.antt"], True),
    "invariants of a loop that is left out": ("=> 1", "", INVARIANT, ["Invariants.antt"], False),
}

SOURCE = """//! Numbers for the tests of gate/edits.
#![tactic(auto)]

ghost use Rattle.std.specs.Prelude.{◌≡◌, ◌≤◌};

/// The middle one of a number and two limits.
pub fn limited(number: u8, least: u8, most: u8) -> u8
    requires { least ≤ most }
    ensures least { least ≤ result }
    ensures most { result ≤ most }
{
    if number < least {
        least
    } else if number > most {
        most
    } else {
        number
    }
}
"""
TRIED = {
    "above_the_greatest": ("        number\n", "        number.saturating_add(1)\n"),
    "below_the_least": ("        most\n", "        0\n"),
    "by_the_same": ("        least\n", "        least.min(most)\n"),
}


def test_all(count, room):
    """Runs all tests of this file."""
    test_texts(count)
    test_questions(count)
    test_written(count)
    test_verdicts(count, f"{room}/branches")


def test_texts(count):
    """The branches beside an edit and those that return before it are left out, and no others."""
    for name, (text, old, new, wanted) in EDITS.items():
        plain, edited = branches.left_out(text.split("\n"), text.replace(old, new).split("\n"))
        found = [sum(branches.CALL in it for it in lines) for lines in (plain, edited)]
        count.tell(f"what is left out with {name}", found == [wanted, wanted], "\n".join(edited))
    plain, edited = branches.left_out(BODY.split("\n"), BODY.replace("one + 2", "one + 3").split("\n"))
    count.tell("a body without its other branches", "\n".join(plain) == SHORT, "\n".join(plain))
    count.tell("the same with its edit", "\n".join(edited) == SHORT.replace("one + 2", "one + 3"), "\n".join(edited))


def test_questions(count):
    """What returns by a `?` before an edit is left out, if it ends a statement that binds what it finds, or calls."""
    body, edited = ASKS.split("\n"), ASKS.replace("take(kind)", "take(made)").split("\n")
    found = "\n".join(branches.left_out(body, edited, "Ok")[1])
    count.tell("what a body asks before an edit", found == ASKS_NO_MORE, found)
    count.tell("what asks without a result", branches.left_out(body, edited) == (body, edited), found)
    clause = "    ensures { result ≡ (λ x -> Result<x>) }"
    for head, wanted in HEADS.items():
        found = branches.variant(["/// Of a text -> Option<u8>.", head, clause])
        count.tell(f"how `?` goes on in {head}", found == wanted, found)


def test_written(count):
    """A copy has fewer branches if what is written of its proof is for those that it has, and by names that stay."""
    for name, (old, answer, invariants, wanted, is_short) in COPIES.items():
        files = {"Invariants": invariants, "Answers": answer and ANSWER.format(answer)}
        texts = {"src/lib.rt": WRITTEN, **{f"proofs/sum/{it}.antt": text for it, text in files.items() if text}}
        edit = edit_files.read("numbers", "it", f"file: src/lib.rt\nold: {old}\nnew: {old}0\n")
        copy = copies.made_for(edit, edit_files.reach(edit, texts), texts)
        files = [it.rpartition("/")[2] for it in copy.proofs]
        count.tell(name, files == wanted and copy.is_short == is_short, f"{files} {copy.lines}")


def test_verdicts(count, root):
    """An edit is refused without the other branches, and one that changes nothing is not."""
    lay_out(root, {}, SOURCE)
    for name, (old, new) in TRIED.items():
        write_edit(root, name, f"file: src/lib.rt\nold: {old}new: {new}")
    status, said = run(root)
    for name in ("above_the_greatest", "below_the_least"):
        count.tell(f"{name} is refused", f"numbers/{name}: refused at numbers::limited, src/lib.rt:" in said, said[-1200:])
    wanted = "numbers/by_the_same: FAILED: NOT REFUSED: numbers::limited, which it edits, is proved with it"
    count.tell("by_the_same is not", wanted in said and status == 1 and said.endswith("\n2 passed, 1 failed\n"), said[-1200:])
