"""The functions that no edit of a batch changes, without their bodies.

A caller's proof rests on the contract of what it calls, not on its body. So such a function keeps its head and its clauses, and its
body is left out: in its place stands what returns nothing. In place of its proof stands a lemma that says anything and has a hole for
a proof, which `--allow-holes` takes for one. With a hole of its own for each function, the prover would keep the whole statement of each.
A function keeps its body if more than its contract may matter: in an impl of a trait or a macro, if it is a constant one or
`main`, or if it calls itself, since functions in a cycle of calls are proved together.
"""

from __future__ import annotations

import re

import sources
from sources import Function, Texts

BODY = "unreachable!()"
# The file of the lemma that takes the place of proofs, and the one that declares it.
LEMMA, LIBRARY = "proofs/Unproved.antt", "proofs/Lib.antt"
ANYTHING = "-- What is not proved here.\n\npub unproved : (A : Type 2) → A\nunproved A = ?\n"
DECLARED = "\npub mod Unproved\n"
FILES = ("Answers.antt", "Invariants.antt", "Proof.antt")
# What stands before a call on a field of `self`.
OF_FIELD = re.compile(r"(?<![\w.])self(?:\s*\.\w+)+\s*\Z")
KEPT_HEAD, FOR_C = re.compile(r"\bconst fn\b|\bfn main\b"), re.compile(r'\bextern "C" fn\b')


def stubbed(crate: str, texts: Texts, keep: set[str]) -> Texts:
    """The texts of a crate in which the functions are without their bodies that can be, but for those whose paths end in one that is to be kept."""
    made, cyclic = dict(texts), in_cycles(texts)
    for file, text in texts.items():
        if file.startswith("src/"):
            functions = [function for function in sources.functions(crate, file, text) if function.name not in cyclic and not is_one(function, keep)]
            strip(crate, file, functions, made)
    if LEMMA in made:
        made[LIBRARY] = made.get(LIBRARY, "") + DECLARED
    return made


def is_one(function: Function, paths: set[str]) -> bool:
    """Whether a function is one of these: an edit names the end of a path."""
    return any(f"::{function.path}".endswith(f"::{path}") for path in paths)


def in_cycles(texts: Texts) -> set[str]:
    """The names in the folders of proofs of what is in a cycle of calls."""
    folders = (part for file in texts if file.startswith("proofs/") for part in file.split("/") if part.startswith("+"))
    return {name for folder in folders for name in re.findall(r"\w+", folder)}


def strip(crate: str, file: str, functions: list[Function], made: Texts) -> None:
    """Leaves out the bodies of these functions of a file, and puts the lemma in place of the proof of each."""
    lines = made[file].split("\n")
    for function in reversed(functions):
        if not can_be_stripped(lines, function):
            continue
        first = lines[function.first]
        lines[function.body + 1 : function.end - 1] = [f"{first[: len(first) - len(first.lstrip())]}    {BODY}"]
        place = folder_of(crate, file, function, made)
        for name in FILES:
            made.pop(f"{place}/{name}", None)
        made[f"{place}/Proof.antt"] = unproved(crate, place, function.name)
        made[LEMMA] = ANYTHING
    made[file] = "\n".join(lines)


def can_be_stripped(lines: list[str], function: Function) -> bool:
    """Whether nothing but the contract of a function can matter to those that call it."""
    return not FOR_C.search(lines[function.first]) and stands_alone(lines, function)


def stands_alone(lines: list[str], function: Function) -> bool:
    """Whether nothing but its own text can matter to the proof of a function, and its body has lines of its own."""
    if not lines[function.body].endswith("{") or function.end - function.body < 3 or KEPT_HEAD.search(lines[function.first]):
        return False
    above = function.first - 1
    while above >= 0 and lines[above].strip().startswith(("#[", "//")):
        if "#[cycle" in lines[above] or "#[derive" in lines[above]:
            return False
        above -= 1
    if calls_itself(function, "\n".join(lines[function.body + 1 : function.end])):
        return False
    return not lines[function.first].startswith(" ") or is_in_own_impl(lines, function.first)


def calls_itself(function: Function, body: str) -> bool:
    """Whether a function may call itself, by the calls that stand in its body. What is called on a field of `self` is of another type."""
    owner, _, name = function.path.rpartition("::")
    before = rf"(?:\.|\bSelf::|\b{owner}::)" if owner[:1].isupper() else r"(?<![\w.:])"
    calls = re.finditer(rf"{before}{name}(?:::<[^>]*>)?\(", body)
    return not all(call[0].startswith(".") and OF_FIELD.search(body, 0, call.start()) for call in calls)


def is_in_own_impl(lines: list[str], at: int) -> bool:
    """Whether the item in which a line stands is an impl of no trait."""
    while at > 0 and (not lines[at] or lines[at].startswith((" ", "}", ")", "#", "//", "where"))):
        at -= 1
    return bool(re.match(r"(?:unsafe )?impl\b", lines[at])) and not re.search(r"\bfor\b", sources.header(lines, at))


def folder_of(crate: str, file: str, function: Function, texts: Texts) -> str:
    """The folder of a function's proof: that of a method lies where its type is declared."""
    module = sources.module_of(crate, file)
    owner, _, name = function.path.rpartition("::")
    if owner == module:
        return "/".join(["proofs", *module.split("::")[1:], name])
    home = home_of(crate, owner, texts) or module
    return "/".join(["proofs", *home.split("::")[1:], owner, name])


def home_of(crate: str, owner: str, texts: Texts) -> str:
    """The module in which a type is declared, or nothing if a macro writes it."""
    declared = re.compile(rf"^(?:pub(?:\([a-z: ]+\))? )?(?:struct|enum|union) {owner}\b", re.M)
    files = [file for file, text in texts.items() if file.startswith("src/") and declared.search(text)]
    return sources.module_of(crate, files[0]) if files else ""


def unproved(crate: str, place: str, name: str) -> str:
    """The text of a proof by the lemma."""
    module = place.partition("/")[2].replace("/", ".")
    imports = f"use Rattle.{crate}.proofs.Unproved.{{unproved}}\nuse Rattle.{crate}.proofs.{module}.Statement.{{statement}}\n"
    return f"{imports}\npub {name}_spec : {{M : Type 1}} → statement M\n{name}_spec {{M}} = unproved (statement M)\n"
