"""Must-fail edits, and the functions that they edit, read from their text.

An edit is a file of crates/NAME/must-fail in the kit's form: lines 'file: src/lib.rt', 'old: TEXT' and 'new: TEXT', each
TEXT standing in that file exactly once. The kit does not read the other lines. '# clause: NAME' names the clause of its function
that has to refuse it. '# at: FUNCTION' names the function that has to refuse it, by the end of its path: so each edit of a definition
does, since that changes the proofs of many functions. '# answers: none' has it tried without the written answers of its function.
'# by proof: REASON' says why a written proof alone refuses it. '# by: rt ci' leaves it to the kit's own gate, inside ./check.
"""

from __future__ import annotations

import os
import re
from dataclasses import dataclass, replace
from typing import Dict, List

import sources
from sources import Function, Texts

WORD = re.compile(r"\w+")
# The lines that the kit reads, and the other ones, each with the one word that it may have, if there is one.
KEYS = ("file", "old", "new")
MORE = {"# clause": "", "# at": "", "# answers": "none", "# by proof": "", "# by": "rt ci"}
# The name of the clause of an edit that is refused at no clause, but at what its function owes to what it calls, say.
NO_CLAUSE = "(none)"


class BadEdit(Exception):
    """An edit that cannot be tried, and why."""


@dataclass(frozen=True)
class Edit:
    """An edit: its crate, its name, its replacements as (file, old, new), the function and the clause that have to refuse it, if they are
    named, whether its function is tried without its written answers, why a written proof alone refuses it, if one does, and whether the
    kit's own gate tries it."""

    crate: str
    name: str
    pairs: tuple[tuple[str, str, str], ...]
    at: str = ""
    clause: str = ""
    is_unanswered: bool = False
    by_proof: str = ""
    is_for_kit: bool = False

    @property
    def label(self) -> str:
        return f"{self.crate}/{self.name}"

    @property
    def is_of_code(self) -> bool:
        return all(file.startswith("src/") for file, _, _ in self.pairs)


@dataclass(frozen=True)
class Reach:
    """The functions at one of which an edit has to be refused, and all whose proofs it may change: of any function, if it edits a definition.

    It may also call functions that the text before it did not: with an edit of one of these it might make a cycle of calls. An edit of
    an item stands in no function, but in a constant or a macro."""

    own: frozenset[str]
    touched: frozenset[str]
    called: frozenset[str] = frozenset()
    is_of_all: bool = False
    is_of_item: bool = False

    def is_apart_from(self, other: "Reach") -> bool:
        is_free = not self.is_of_all and not other.is_of_all
        return is_free and not self.touched & other.own and not self.own & other.touched

    def makes_no_cycle_with(self, other: "Reach") -> bool:
        return not self.called & other.own and not self.own & other.called


# The functions of a crate's source files, by file.
Functions = Dict[str, List[Function]]


def read(crate: str, name: str, text: str) -> Edit:
    """Reads an edit's text, or says by BadEdit what is wrong with it."""
    file, old, pairs, more = None, None, [], {}
    for line in text.split("\n"):
        key, _, rest = line.partition(":")
        rest = rest[1:] if rest.startswith(" ") else rest
        if key == "file":
            file = rest.strip()
            if os.path.normpath(file) != file or not file.startswith(("src/", "specs/", "proofs/")):
                raise BadEdit("its 'file:' names no file below src/, specs/ or proofs/")
        elif key == "old":
            old = rest
        elif key in MORE:
            more[key] = rest.strip()
        elif key != "new":
            if line.strip():
                raise BadEdit(f"it has a line '{line[:40]}', and what may stand in front is {', '.join(f'{each}:' for each in (*KEYS, *MORE))}")
        else:
            if not file or not old:
                raise BadEdit("a 'new:' stands before any 'file:' or 'old:'")
            pairs.append((file, old, rest))
            old = None
    if not pairs:
        raise BadEdit("it has no 'old:' and 'new:'")
    return replace(Edit(crate, name, tuple(pairs)), **read_more(more))


def read_more(more: dict[str, str]) -> dict[str, str | bool]:
    """Reads the lines of an edit that the kit does not read."""
    for key, text in more.items():
        if MORE[key] not in ("", text) or not text:
            raise BadEdit(f"its '{key}:' is not '{MORE[key]}'" if MORE[key] else f"its '{key}:' says nothing")
    if "# answers" in more and "# by proof" in more:
        raise BadEdit("without written answers no written proof refuses it: '# answers: none' and '# by proof:' exclude one another")
    texts = {"clause": more.get("# clause", ""), "at": more.get("# at", ""), "by_proof": more.get("# by proof", "")}
    return {**texts, "is_unanswered": "# answers" in more, "is_for_kit": "# by" in more}


def replaced(texts: Texts, edit: Edit) -> Texts:
    """Returns the texts with the edit's replacements made, or says by BadEdit why they cannot be."""
    made = dict(texts)
    for file, old, new in edit.pairs:
        if file not in made:
            raise BadEdit(f"there is no {file}")
        count = made[file].count(old)
        if count != 1:
            raise BadEdit(f"its 'old:' stands in {file} {count} times, where once is wanted")
        made[file] = made[file].replace(old, new)
    if made == texts:
        raise BadEdit("it changes nothing")
    return made


def line_of(text: str, old: str) -> int:
    """The line on which a piece of a text begins."""
    return text.count("\n", 0, text.find(old))


def reach(edit: Edit, texts: Texts) -> Reach:
    """The functions that an edit stands in, and those that its text may change beside them.

    What stands in a body changes the proof of its function alone, since a caller's proof rests on the contract. What stands in a
    contract changes those that name the function too. What stands in another item has to be refused where that item is named. An
    edit that names the function that has to refuse it may change any.
    """
    if edit.at:
        return Reach(frozenset([edit.at]), frozenset([edit.at]), is_of_all=True)
    functions = {file: sources.functions(edit.crate, file, text) for file, text in texts.items() if file.startswith("src/")}
    own, touched, is_of_item = set(), set(), False
    for file, old, _ in edit.pairs:
        line = line_of(texts[file], old)
        inside = [function for function in functions.get(file, []) if function.first <= line < function.end]
        if not inside:
            users = naming(sources.item_name(texts[file], line), functions, texts)
            own, touched, is_of_item = own | users, touched | users, True
            continue
        function = inside[-1]
        own.add(function.path)
        if line < function.body:
            touched |= naming(function.name, functions, texts)
    return Reach(frozenset(own), frozenset(own | touched), frozenset(newly_named(edit, functions)), is_of_item=is_of_item)


def clauses_of(edit: Edit, texts: Texts) -> set[str]:
    """The names of the clauses that say what the functions ensure which an edit edits."""
    own, files = reach(edit, texts).own, {file for file, _, _ in edit.pairs}
    edited = [(texts[file], function) for file in files for function in sources.functions(edit.crate, file, texts[file]) if function.path in own]
    return {name for text, function in edited for name in function.clauses(text)}


def newly_named(edit: Edit, functions: Functions) -> set[str]:
    """The functions with a name that stands in what an edit writes, and not in what it replaces."""
    words = {word for _, old, new in edit.pairs for word in {*WORD.findall(new)} - {*WORD.findall(old)}}
    return {function.path for of_file in functions.values() for function in of_file if function.name in words}


def naming(name: str, functions: Functions, texts: Texts) -> set[str]:
    """The functions in which a name stands."""
    if not name:
        return set()
    word, users = re.compile(rf"\b{name}\b"), set()
    for file, of_file in functions.items():
        lines = texts[file].split("\n")
        users |= {function.path for function in of_file if any(word.search(line) for line in lines[function.first : function.end])}
    return users
