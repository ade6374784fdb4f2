"""Copies of definitions, each with one edit, below a copy of the law that has to refuse it.

A definition affects the proofs of many functions, so an edit of one has to be refused at the law that its file names. Alone it would
take a check of its own, most of which is the same for every edit. So the file with the edit is copied, and with it each file of specs/
and proofs/ through which the law rests on it, and the law, in a file of src/ of its own. Copies name copies, and nothing else names
them: so none of these edits affects another, and nothing else in the crate is changed. An edit is made in its place, alone, if what
has to refuse it is no law of a file such as src/laws.rt or src/grant_laws.rt, or if it is not refused at the copy. If something else of the crate lay between, such as a
function or what a type promises, the copy would be refused without an edit too.
"""

from __future__ import annotations

import re
from typing import Tuple

import edit_files
import sources
from copies import WITH
from edit_files import Edit
from sources import Texts

# The name of a module of laws.
LAWS = re.compile(r"(\w+_)?laws")
PARTS = ("specs", "proofs")
FILE = re.compile(r"(specs|proofs)/(?!Lib\b)(\w+)\.antt")
ROOT = "src/lib.rt"
# A file of definitions or proofs, as its part and its name.
Module = Tuple[str, str]
IMPORT = re.compile(r"ghost use ([\w.]+)\.\{(.*)\};")


class Copy:
    """The copy of a law, and of the files between it and the definition that carries an edit."""

    def __init__(self, crate: str, name: str, texts: Texts, law: "Law", between: list[Module]) -> None:
        self.crate, self.law, self.between, self.end = crate, law, between, f"{WITH}{name}"
        self.texts = {self.file_of(module): self.renamed(texts[file_of(module)]) for module in between}
        own = {f"proofs/{self.module}/{law.name}/{file}": text for file, text in law.proofs(texts).items()}
        self.texts.update({file: self.renamed(text) for file, text in own.items()})
        self.texts[f"src/{self.module}.rt"] = self.renamed("\n".join(law.alone(crate, between)))

    @property
    def module(self) -> str:
        """The module that has the copy of the law alone."""
        return f"{self.law.module}{self.end}"

    @property
    def own_path(self) -> str:
        """The end of the path of the copy of the law."""
        return f"{self.module}::{self.law.name}"

    def file_of(self, module: Module) -> str:
        """The file of the copy of a module."""
        return file_of((module[0], f"{module[1]}{self.end}"))

    def renamed(self, text: str) -> str:
        """A text in which the names of what is copied are those of the copies."""
        text = names(self.crate).sub(self.renamed_name, text)
        text = re.sub(r"\bcrate::(specs|proofs)::(\w+)", self.renamed_name, text)
        own = rf"\bRattle\.{self.crate}\.(proofs|specs\.contracts)\.{self.law.module}\.{self.law.name}\b"
        return re.sub(own, rf"Rattle.{self.crate}.\1.{self.module}.{self.law.name}", text)

    def renamed_name(self, name: re.Match) -> str:
        """The name of the copy of a module that is copied, or the name of another as it is."""
        return f"{name[0]}{self.end}" if (name[1], name[2]) in self.between else name[0]

    def lines(self, part: str) -> str:
        """The lines that declare the copies of a part's files."""
        return "".join(f"pub mod {name}{self.end}\n" for of_part, name in self.between if of_part == part)


class Law:
    """A law: its module, its name, its lines, and those above all functions of the file."""

    def __init__(self, module: str, name: str, head: list[str], lines: list[str]) -> None:
        self.module, self.name, self.head, self.lines, self.text = module, name, head, lines, "\n".join(lines)

    def proofs(self, texts: Texts) -> Texts:
        """What is written of its proof, by the file in its folder."""
        folder = f"proofs/{self.module}/{self.name}/"
        return {file[len(folder) :]: text for file, text in texts.items() if file.startswith(folder)}

    def uses(self, line: str) -> bool:
        """Whether a line that imports definitions imports one that the law names."""
        match = IMPORT.fullmatch(line.strip())
        imported = [name.partition(" as ")[2] or name for name in match[2].split(", ")] if match else []
        return any(re.search(rf"(?<!\w){re.escape(part)}(?!\w)", self.text) for name in imported for part in name.split("◌") if part)

    def alone(self, crate: str, between: list[Module]) -> list[str]:
        """The lines of a file that has this law alone: it imports of what is copied only what the law names."""
        left_out = lambda line: bool(set(names(crate).findall(line)) & set(between)) and not self.uses(line)
        return [*(line for line in self.head if not left_out(line)), *self.lines, ""]


def names(crate: str) -> re.Pattern:
    """The names of the modules that are files of a crate's specs/ and proofs/."""
    return re.compile(rf"\bRattle\.{crate}\.(specs|proofs)\.(\w+)")


def file_of(module: Module) -> str:
    return f"{module[0]}/{module[1]}.antt"


def made_for(edit: Edit, texts: Texts) -> Copy | None:
    """The copy of its law that carries an edit of a definition, or nothing if the edit is to be made in its place."""
    law, edited = law_of(edit, texts), modules_of(edit)
    if not law or not edited or not all(file_of(module) in texts for module in edited):
        return None
    roots = named(edit.crate, "\n".join([*law.proofs(texts).values(), *filter(law.uses, law.head)]), texts)
    between = between_of(edit.crate, texts, roots, edited)
    return Copy(edit.crate, edit.name, edit_files.replaced(texts, edit), law, between) if between else None


def modules_of(edit: Edit) -> set[Module]:
    """The modules that an edit edits, if all are files of specs/ or proofs/."""
    files = {file for file, _, _ in edit.pairs}
    modules = {(match[1], match[2]) for match in map(FILE.fullmatch, files) if match}
    return modules if len(modules) == len(files) else set()


def law_of(edit: Edit, texts: Texts) -> Law | None:
    """The law that has to refuse an edit, if it is one."""
    module, _, name = edit.at.rpartition("::")
    file = f"src/{module}.rt"
    if not LAWS.fullmatch(module) or file not in texts or not declared(module).search(texts.get(ROOT, "")):
        return None
    functions, lines = sources.functions(edit.crate, file, texts[file]), texts[file].split("\n")
    fronts = {function.path: sources.front_of(lines, function.first) for function in functions}
    law = [function for function in functions if function.path.endswith(f"::{module}::{name}")]
    return Law(module, name, lines[: min(fronts.values())], lines[fronts[law[0].path] : law[0].end]) if len(law) == 1 else None


def declared(module: str) -> re.Pattern:
    """The line of a crate's root that declares a module of laws."""
    return re.compile(rf"^((?:pub(?:\([a-z]+\))? )?mod ){module};\n", re.M)


def named(crate: str, text: str, texts: Texts) -> set[Module]:
    """The files of a crate's definitions and proofs that a text names."""
    return {module for module in names(crate).findall(text) if file_of(module) in texts}


def between_of(crate: str, texts: Texts, roots: set[Module], edited: set[Module]) -> list[Module]:
    """The files by which something that names these rests on what is edited, and the edited ones: none if it does not rest on all of them."""
    uses, left = {}, [*roots]
    while left:
        module = left.pop()
        if module not in uses:
            uses[module] = named(crate, texts[file_of(module)], texts)
            left += uses[module]
    if not edited <= uses.keys():
        return []
    between = set(edited)
    while more := {module for module, others in uses.items() if module not in between and others & between}:
        between |= more
    return sorted(between)


def beside(texts: Texts, copies: list[Copy]) -> Texts:
    """The texts of a crate with copies of definitions and laws beside them."""
    if not copies:
        return texts
    made = dict(texts)
    for part in PARTS:
        made[f"{part}/Lib.antt"] = "".join([made.get(f"{part}/Lib.antt", ""), "\n", *(copy.lines(part) for copy in copies)])
    for module in sorted({copy.law.module for copy in copies}):
        own = [copy for copy in copies if copy.law.module == module]
        made[ROOT] = declared(module).sub(lambda line: line[0] + "".join(f"{line[1]}{copy.module};\n" for copy in own), made[ROOT], count=1)
    for copy in copies:
        made.update(copy.texts)
    return made
