"""The functions of a source file, as `rt fmt` lays them out: an item ends at the brace that stands as far in as it begins."""

from __future__ import annotations

import re
from dataclasses import dataclass
from functools import lru_cache
from typing import Dict

# The texts of a crate, by file.
Texts = Dict[str, str]

FUNCTION = re.compile(r'( *)(?:pub(?:\([a-z: ]+\))? )?(?:const |unsafe |extern "C" )*fn (\w+)')
IMPL = re.compile(r"(?:unsafe )?impl\b")
TRAIT = re.compile(r"(?:pub(?:\([a-z: ]+\))? )?(?:unsafe )?trait (\w+)")
NAMED = re.compile(r"(?:pub(?:\([a-z: ]+\))? )?(?:const|static|macro_rules!) (\w+)")
ENSURES = re.compile(r" *ensures (\w+) \{")


@dataclass(frozen=True)
class Function:
    """A function: how the name ends that the prover prints for it, and its lines from 0: the first, that of the body, the one after it."""

    path: str
    first: int
    body: int
    end: int

    @property
    def name(self) -> str:
        return self.path.rpartition("::")[2]

    def clauses(self, text: str) -> set[str]:
        """The names of the clauses that say what the function of a text ensures."""
        return {found[1] for found in map(ENSURES.match, text.split("\n")[self.first : self.body]) if found}


@lru_cache(maxsize=None)
def functions(crate: str, file: str, text: str) -> list[Function]:
    """Returns the functions of a source file, in order."""
    lines = text.split("\n")
    module = module_of(crate, file)
    listed, owner, owner_end = [], "", -1
    for at, line in enumerate(lines):
        if IMPL.match(line):
            owner, owner_end = owner_of(header(lines, at)), end_of(lines, at, 0)
        elif trait := TRAIT.match(line):
            owner, owner_end = trait[1], end_of(lines, at, 0)
        match = FUNCTION.match(line)
        if match:
            indent = len(match[1])
            body = body_of(lines, at, indent)
            listed.append(Function(f"{owner if at < owner_end else module}::{match[2]}", at, body, end_of(lines, body, indent)))
    return listed


def front_of(lines: list[str], at: int) -> int:
    """The line on which the attributes and comments above an item begin."""
    while at > 0 and lines[at - 1].strip().startswith(("#[", "//")):
        at -= 1
    return at


def in_repository(crate: str, place: str, tried: Texts, texts: Texts, end: str) -> str:
    """A place in a text that was tried as that in the repository's: the names of copies end so there, and functions have other lines."""
    file, _, line = place.rpartition(":")
    own, lines = file.replace(end, ""), tried.get(file, "").split("\n")
    inside = [each for each in functions(crate, file, "\n".join(lines)) if front_of(lines, each.first) < int(line) <= each.end]
    paths = [function.path.replace(end, "") for function in inside]
    there = [function for function in functions(crate, own, texts.get(own, "")) if function.path in paths[-1:]]
    return f"{own}:{int(line) - inside[-1].first + there[0].first}" if there else f"{own}:{line}"


def item_name(text: str, at: int) -> str:
    """The name of the constant or macro that a line stands in, or nothing."""
    for line in reversed(text.split("\n")[: at + 1]):
        if line and not line.startswith((" ", "}", ")")):
            match = NAMED.match(line)
            return match[1] if match else ""
    return ""


def module_of(crate: str, file: str) -> str:
    """The path of the module that a source file is."""
    parts = re.sub(r"^src/|\.rt$", "", file).split("/")
    return "::".join([crate, *(part for part in parts if part not in ("lib", "main", "mod"))])


def header(lines: list[str], at: int) -> str:
    """The text of an item from a line on, up to the brace that opens it."""
    text = " ".join(line.strip() for line in lines[at : at + 20])
    return text.partition("{")[0].strip()


def owner_of(text: str) -> str:
    """What the prover calls the type of an impl: the type's name, and after it the trait's with its arguments, but for `Drop`.

    An argument of the type itself is named where it is no parameter of the impl."""
    text = re.sub(r"^(?:unsafe )?impl", "", text.partition(" where ")[0])
    parameters = ""
    if text.startswith("<"):
        parameters, text = text[1 : closing(text)], text[closing(text) + 1 :]
    trait, is_of, of_type = text.partition(" for ")
    if not is_of:
        return name_of(trait)
    name = name_of(of_type) + arguments_of(of_type, names_of_parameters(parameters))
    return name[:1].upper() + name[1:] + ("" if name_of(trait) == "Drop" else name_of(trait) + arguments_of(trait))


def names_of_parameters(text: str) -> set[str]:
    """The names that an impl's list of parameters declares."""
    return {re.sub(r"^\s*const ", "", part.partition(":")[0]).strip() for part in text.split(",")}


def closing(text: str) -> int:
    """The place of the angle bracket that closes the one at the front."""
    depth = 0
    for at, letter in enumerate(text):
        depth += (letter == "<") - (letter == ">" and text[at - 1] != "-")
        if depth == 0:
            return at
    return len(text)


def name_of(path: str) -> str:
    """The last name of a path, without its arguments."""
    return re.sub(r"[^\w:]", "", path.partition("<")[0]).rpartition("::")[2]


def arguments_of(path: str, but: set[str] = frozenset()) -> str:
    """The names of a path's arguments that are no lifetimes, one after another, but for these."""
    inside = path.partition("<")[2].rpartition(">")[0]
    names = [name_of(part) for part in inside.split(",") if inside and not part.strip().startswith("'")]
    return "".join(name for name in names if name not in but)


def body_of(lines: list[str], at: int, indent: int) -> int:
    """The line on which the body of the function at a line opens, or on which it ends, where it has none."""
    for number in range(at, len(lines)):
        line = lines[number]
        if len(line) - len(line.lstrip()) == indent and line.endswith(("{", "}", ";")):
            return number
    return at


def end_of(lines: list[str], at: int, indent: int) -> int:
    """The line after the brace that closes the item whose body opens at a line."""
    if lines[at].endswith((";", "}")):
        return at + 1
    for number in range(at + 1, len(lines)):
        if lines[number].startswith(" " * indent + "}"):
            return number + 1
    return len(lines)
