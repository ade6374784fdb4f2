"""Tests of gate/stubs.py on the repository's own crates: each folder of a proof is found to be that of a function."""

import os

import sources
import stubs
from tests.small import GATE
from trees import Repository


def test_all(count, _):
    """Runs all tests of this file."""
    test_place(count)
    repository = Repository(os.path.dirname(GATE))
    lost = [it for crate in repository.lines for it in folders_of_none(crate, repository.texts(crate))]
    count.tell("each proof is of a function", not lost, str(lost))


def test_place(count):
    """A method's proof lies where its type is declared."""
    texts = {"src/lib.rt": "mod kinds;\n", "src/kinds.rt": "pub(crate) struct Kind {\n    pub value: u8,\n}\n"}
    source = "impl Kind {\n    fn value(&self) -> u8 {\n        self.value\n    }\n}\n"
    texts["src/values.rt"] = source
    (value,) = sources.functions("numbers", "src/values.rt", source)
    place = stubs.folder_of("numbers", "src/values.rt", value, texts)
    count.tell("a method's proof", place == "proofs/kinds/Kind/value", place)


def folders_of_none(crate, texts):
    """The folders of proofs of a crate that are of no function, but for those of cycles of calls and of what a type promises."""
    found = ((file, it) for file, text in texts.items() if file.startswith("src/") for it in sources.functions(crate, file, text))
    known = {stubs.folder_of(crate, file, it, texts) for file, it in found}
    folders = {os.path.dirname(it) for it in texts if it.startswith("proofs/") and os.path.basename(it) in stubs.FILES}
    return [f"{crate}/{it}" for it in sorted(folders - known) if not os.path.basename(it).startswith(("+", "The"))]
