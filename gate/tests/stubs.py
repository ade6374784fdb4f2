"""Tests of gate/stubs.py: which functions of a crate are tried without their bodies, what stands in their place, and where proofs lie."""

import os

from tests import small
from tests.small import GATE, Case
import sources
import stubs
from sources import Texts
from trees import Repository

SOURCE = small.SOURCE.partition("/// The lesser")[0] + """/// The number four after this one, by a proof by hand.
pub fn fourth(number: u8) -> u8
    requires { number < 252 }
    ensures { result ≡ number + 4 }
{
    after_next(after_next(number))
}

/// A number that knows the next one.
pub struct Number {
    pub value: u8,
}

impl Number {
    pub const fn new(value: u8) -> Number {
        Number { value }
    }

    pub fn value(&self) -> u8
        ensures { result ≡ self.now.value }
    {
        self.value
    }

    pub fn end(&self) -> u8 {
        if self.value == 0 { 0 } else { self.end() }
    }
}

impl Default for Number {
    fn default() -> Number {
        Number { value: 0 }
    }
}
"""
ANSWERS = "-- The answers of next.\n"
# The functions whose bodies are left out if that of after_next is kept.
STRIPPED = {"next": "    unreachable!()", "fourth": "    unreachable!()", "value": "        unreachable!()"}
KEPT = ("next(next(number))", "Number { value }", "self.end()", "Number { value: 0 }")
UNPROVED = """use Rattle.numbers.proofs.Unproved.{unproved}
use Rattle.numbers.proofs.Number.value.Statement.{statement}

pub value_spec : {M : Type 1} → statement M
value_spec {M} = unproved (statement M)
"""


class Stubs(Case):
    """The texts without bodies."""

    def test_texts(self) -> None:
        """Bodies are left out but for those that are to stay, with the proofs that went with them."""
        texts = {"src/lib.rt": SOURCE, "proofs/next/Answers.antt": ANSWERS, "proofs/after_next/Answers.antt": ANSWERS}
        made = stubs.stubbed("numbers", texts, {"numbers::after_next"})
        source = made["src/lib.rt"]
        self.tell("bodies are left out", source.count("unreachable!()") == len(STRIPPED) and all(body in source for body in STRIPPED.values()), source)
        self.tell("bodies that matter stay", all(body in source for body in KEPT), source)
        heads = [line for line in SOURCE.split("\n") if "fn " in line or " ensures " in line or " requires " in line]
        self.tell("heads stay", all(line in source for line in heads), source)
        wanted = ["Lib.antt", "Number/value/Proof.antt", "Unproved.antt", "after_next/Answers.antt", "fourth/Proof.antt", "next/Proof.antt"]
        self.same("a lemma is in place of proofs", sorted(file[len("proofs/") :] for file in made if file.startswith("proofs/")), wanted)
        self.same("its use", (made["proofs/Number/value/Proof.antt"], made["proofs/Lib.antt"].split()), (UNPROVED, ["pub", "mod", "Unproved"]))
        self.same("a function is named by the end of its path", stubs.stubbed("numbers", texts, {"after_next"}), made)
        cyclic = stubs.stubbed("numbers", {**texts, "proofs/+next/Proof.antt": ANSWERS}, set())["src/lib.rt"]
        self.tell("what is in a cycle stays", "    number + 1\n" in cyclic, cyclic)

    def test_calls(self) -> None:
        """A method may call itself, but not by a field."""
        method = sources.Function("Number::value", 0, 0, 0)
        own = ("self.value()", "Self::value(it)", "Number::value::<u8>(it)", "other.value()", "self.other().value()", "self.one.value() + self.value()")
        others = ("self.one.value()", "self.one.two.value()", "self\n    .one\n    .value()", "Other::value(it)", "value(it)", "self.values()")
        found = [[call for call in calls if stubs.calls_itself(method, call)] for calls in (own, others)]
        self.same("calls of itself", found, [[*own], []])

    def test_folders(self) -> None:
        """A method's proof lies where its type or trait is declared, and each folder of a proof of this repository is found to be that of a function."""
        texts = {"src/lib.rt": "mod kinds;\n", "src/kinds.rt": "pub(crate) struct Kind {\n    pub value: u8,\n}\n"}
        texts["src/values.rt"] = "impl Kind {\n    fn value(&self) -> u8 {\n        self.value\n    }\n}\n"
        (value,) = sources.functions("numbers", "src/values.rt", texts["src/values.rt"])
        self.same("a method's proof", stubs.folder_of("numbers", "src/values.rt", value, texts), "proofs/kinds/Kind/value")
        texts["src/kinds.rt"] += "\npub trait Named {\n    fn name(&self) -> u8;\n\n    fn code(&self) -> u8 {\n        self.name()\n    }\n}\n"
        _, code = sources.functions("numbers", "src/kinds.rt", texts["src/kinds.rt"])
        self.same("a trait's own method", (code.path, stubs.folder_of("numbers", "src/kinds.rt", code, texts)), ("Named::code", "proofs/kinds/Named/code"))
        repository = Repository(os.path.dirname(GATE))
        self.same("each proof is of a function", [folder for crate in repository.lines for folder in folders_of_none(crate, repository.texts(crate))], [])


def folders_of_none(crate: str, texts: Texts) -> list:
    """The folders of proofs of a crate that are of no function, but for those of cycles of calls and of what a type promises."""
    functions = ((file, function) for file, text in texts.items() if file.startswith("src/") for function in sources.functions(crate, file, text))
    known = {stubs.folder_of(crate, file, function, texts) for file, function in functions}
    folders = {os.path.dirname(file) for file in texts if file.startswith("proofs/") and os.path.basename(file) in stubs.FILES}
    return [f"{crate}/{folder}" for folder in sorted(folders - known) if not os.path.basename(folder).startswith(("+", "The"))]
