"""The help of the program and of its commands, read into its parts."""

from __future__ import annotations

import re
import subprocess
from dataclasses import dataclass
from pathlib import Path
from typing import Dict, List, Optional, Tuple

# How the blocks of a help begin that are no text of it.
USAGE = "Usage: "
TABLES = ("Commands:", "Arguments:", "Options:")
EXAMPLES = ("Example:", "Examples:")
STATUS = "Exit status: "

ROW = re.compile(r" {2,}(\S.*?) {2,}(\S.*)")
OPTION = re.compile(r"(?:(-\w), )?(--[\w-]+)(?: <([^<>]+)>)?")
ARGUMENT = re.compile(r"[<[]([\w-]+)[]>](\.\.\.)?")

# How the text of an option or an argument ends if it lists its values: the words of clap, or `.., a, b or c`.
POSSIBLE = re.compile(r"\[possible values: ([^]]+)\]")
LISTED = re.compile(r"[,:] ((?:\w[\w-]*, )*\w[\w-]*) or (\w[\w-]*)(?: \[[^]]*\])?")

SECONDS = 20


class Unreadable(Exception):
    """What the program says cannot be read: the text says what, and of which call."""


@dataclass(frozen=True)
class Row:
    """A row of a table: a term, such as `<TRACE>` or `-h, --help`, and what is said of it."""

    term: str
    text: str

    @property
    def values(self) -> List[str]:
        """The values that the text lists, if it does."""
        possible, listed = POSSIBLE.search(self.text), LISTED.search(self.text)
        if possible:
            return possible[1].split(", ")
        is_last = listed and listed.end() == len(self.text)
        return [*listed[1].split(", "), listed[2]] if is_last else []


@dataclass(frozen=True)
class Option:
    """An option: its names, and the name of its value if it takes one."""

    short: Optional[str]
    long: str
    value: Optional[str]
    row: Row


@dataclass(frozen=True)
class Argument:
    """An argument that is no option: its name, and whether it may be given several times."""

    name: str
    is_repeated: bool
    row: Row


@dataclass(frozen=True)
class Help:
    """What the program says of itself, or of a command: `words` are those of the call without `--help`."""

    words: Tuple[str, ...]
    about: str
    usages: List[str]
    tables: Dict[str, List[Row]]
    texts: List[List[str]]

    @property
    def name(self) -> str:
        """The name of its page, such as vmebus-check."""
        return "-".join(self.words)

    @property
    def commands(self) -> List[Row]:
        return self.tables.get("Commands:", [])

    @property
    def options(self) -> List[Option]:
        found = [(OPTION.fullmatch(it.term), it) for it in self.tables.get("Options:", [])]
        self.refuse_unread(found)
        return [Option(match[1], match[2], match[3], row) for match, row in found]

    @property
    def arguments(self) -> List[Argument]:
        found = [(ARGUMENT.fullmatch(it.term), it) for it in self.tables.get("Arguments:", [])]
        self.refuse_unread(found)
        return [Argument(match[1], bool(match[2]), row) for match, row in found]

    def refuse_unread(self, found: list) -> None:
        for match, row in found:
            if not match:
                raise Unreadable(f"{' '.join(self.words)} --help has a row of {row.term!r}")

    @property
    def description(self) -> List[List[str]]:
        """The paragraphs, as lines, but for those of the exit status and the examples."""
        return [it for it in self.texts if it[0] not in EXAMPLES and not it[0].startswith(STATUS)]

    @property
    def examples(self) -> List[str]:
        return [line.strip() for it in self.texts if it[0] in EXAMPLES for line in it[1:]]

    @property
    def statuses(self) -> Tuple[List[Row], str]:
        """Each exit status with what it means, and what is said behind them."""
        said = [" ".join(it)[len(STATUS):] for it in self.texts if it[0].startswith(STATUS)]
        if not said:
            return [], ""
        *first, last = re.split(r"; (?=\d )", said[0])
        last, _, rest = last.partition(". ")
        return [Row(*it.rstrip(".").split(" ", 1)) for it in [*first, last]], rest


def read_table(name: str, lines: List[str]) -> List[Row]:
    found = [ROW.fullmatch(it) for it in lines]
    if not all(found):
        raise Unreadable(f"{name} --help has a table whose row is none: {lines[found.index(None)]!r}")
    return [Row(it[1], it[2]) for it in found]


def read(words: Tuple[str, ...], text: str) -> Help:
    """A help of this text."""
    name, blocks = " ".join(words), [it.splitlines() for it in text.strip("\n").split("\n\n")]
    if not blocks[0]:
        raise Unreadable(f"{name} --help says nothing")
    (about, *_), rest = blocks[0], blocks[1:]
    usages = [line for it in rest if it[0].startswith(USAGE) for line in it]
    if not usages:
        raise Unreadable(f"{name} --help has no line that begins with {USAGE!r}")
    tables = {it[0]: read_table(name, it[1:]) for it in rest if it[0] in TABLES}
    texts = [it for it in rest if it[0] not in TABLES and not it[0].startswith(USAGE)]
    return Help(words, about, [it.replace(USAGE, "", 1).strip() for it in usages], tables, texts)


def ask(program: Path, *words: str) -> Tuple[int, str, str]:
    """Calls the program, and returns its status and what it writes on both outputs."""
    try:
        ran = subprocess.run([str(program), *words], stdin=subprocess.DEVNULL, stdout=subprocess.PIPE,
                             stderr=subprocess.PIPE, timeout=SECONDS)
    except (OSError, subprocess.TimeoutExpired) as fault:
        raise Unreadable(f"{program} cannot be run: {fault}") from None
    return ran.returncode, ran.stdout.decode(errors="replace"), ran.stderr.decode(errors="replace")


def version_of(program: Path) -> str:
    """The version of a program, such as 2.0.0."""
    _, said, _ = ask(program, "--version")
    found = re.fullmatch(r"vmebus ([\w.+-]+)\n", said)
    if not found:
        raise Unreadable(f"{program} --version does not print a version of vmebus")
    return found[1]


def help_of(program: Path, *words: str) -> Help:
    """The help of the program or of a command, on whichever output it is."""
    _, written, said = ask(program, *words, "--help")
    return read(("vmebus", *words), written or said)


def all_of(program: Path) -> List[Help]:
    """The help of the program, and behind it that of each command but `help`."""
    whole = help_of(program)
    names = [it.term for it in whole.commands if it.term != "help"]
    if not names:
        raise Unreadable(f"{program} --help lists no commands")
    return [whole, *(help_of(program, it) for it in names)]
