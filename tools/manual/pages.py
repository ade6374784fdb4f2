"""Pages of the manual, in the macros of man(7), made of the help of the program and its commands."""

from __future__ import annotations

import re
import textwrap
from dataclasses import dataclass
from typing import Iterator, List, Optional

from .helps import Help, Row

# Characters that roff would take for something else, or print as another.
EXACT = {"\\": "\\(rs", "'": "\\(aq", "`": "\\(ga", "^": "\\(ha", "~": "\\(ti", '"': "\\(dq"}

# A line of source, a line of an example, and the longest term beside which its text begins.
WIDTH, EXAMPLE, BESIDE = 72, 60, 10

CODE = re.compile(r"`([^`]*)`")
# A word of a text to read that is typed so, or the name of a file.
WORD = re.compile(r"(?<![\w-])--?\w[\w-]*|(?<!\S)-(?!\S)|\b(?:docs/\w+\.md|examples/)")
HOLE = re.compile(r"<([^<>]+)>")
# What is not broken in a synopsis: an option with its value, or a word, each with its brackets.
PART = re.compile(r"\[*--[\w-]+ <[^<>]+>\]*|\S+")
# A row of a list in a text: the term, at least two blanks, and what it is; or these on further lines, set in.
BESIDE_TERM = re.compile(r"(\S.*?) {2,}(\S.*)")
NAMED = re.compile(r"\b(?:docs/\w+\.md|examples/)")


@dataclass(frozen=True)
class Edition:
    """What the pages say of the program as it is installed."""

    version: str
    date: str
    documents: Optional[str]


def exact(text: str) -> str:
    """Text as it stands, such as what a user types: each `-` is the one of the keyboard."""
    return "".join(EXACT.get(it, it) for it in text).replace("-", "\\-")


def unbroken(text: str) -> str:
    """The same, for a line that is filled: no word of it is broken."""
    return " ".join(f"\\%{exact(it)}" if it else it for it in text.split(" "))


def prose(text: str) -> str:
    """Text to read: parts in `..` are bold, and a word that begins with `-` is as it is typed."""
    pieces = CODE.split(text)
    plain = ["".join(EXACT.get(it, it) for it in piece) for piece in pieces]
    dashed = [WORD.sub(lambda it: f"\\%{it[0]}".replace("-", "\\-"), it) for it in plain]
    return "".join(f"\\fB{unbroken(piece)}\\fR" if at % 2 else dashed[at] for at, piece in enumerate(pieces))


def filled(text: str) -> Iterator[str]:
    """The lines of a paragraph, none of which roff takes for a call."""
    for line in textwrap.wrap(text, WIDTH, break_long_words=False, break_on_hyphens=False):
        yield f"\\&{line}" if line[0] in ".'" else line


def typed(term: str) -> str:
    """A term: what is typed is bold, and what stands for something else is slanted."""
    words = re.split(r"(<[^<>]+>|[][|, ]+|\.\.\.)", term)
    return "".join(typed_word(it) for it in words if it)


def typed_word(word: str) -> str:
    hole = HOLE.fullmatch(word)
    if hole:
        return f"\\fI{exact(hole[1])}\\fR"
    if word == "..." or not word.strip("[]|, "):
        return word
    return f"\\fI{word}\\fR" if word.isupper() else f"\\fB{exact(word)}\\fR"


def tagged(rows: List[Row], term=typed, indent: int = 8) -> Iterator[str]:
    for row in rows:
        yield f".TP {indent}"
        yield term(row.term)
        yield from filled(prose(row.text))


# The parts of a text that are set in.


def rows_of(lines: List[str]) -> Optional[List[Row]]:
    """The rows of a list, or None if the lines are none. The lines are set in by two blanks, and further lines by more."""
    rows: List[Row] = []
    for line in lines:
        beside = BESIDE_TERM.fullmatch(line.strip())
        if line.startswith("   ") and rows:
            rows[-1] = Row(rows[-1].term, f"{rows[-1].text} {line.strip()}".strip())
        elif beside:
            rows.append(Row(beside[1], beside[2]))
        else:
            rows.append(Row(line.strip(), ""))
    return rows if all(it.text for it in rows) else None


def broken(command: str) -> Iterator[str]:
    """A command of a shell, on several lines if it is long."""
    line = ""
    for word in re.findall(r"(?:\"[^\"]*\"|'[^']*'|\S)+", command):
        if line and len(line) + len(word) > EXAMPLE:
            yield f"{line} \\"
            line = "   "
        line = f"{line} {word}" if line else word
    yield line


def literal(lines: List[str]) -> Iterator[str]:
    yield ".nf"
    for line in lines:
        text = exact(line)
        yield f"\\&{text}" if text[:1] in (".", "'") else text
    yield ".fi"


def set_in(lines: List[str]) -> Iterator[str]:
    """A part of a text that is set in: a list, words that run on over long lines, or lines as they are."""
    rows = rows_of(lines)
    yield ".RS 4"
    if rows:
        widest = max(len(it.term) for it in rows)
        yield ".PD 0"
        yield from tagged(rows, lambda it: f"\\fB{exact(it)}\\fR", widest + 2 if widest <= BESIDE else 8)
        yield ".PD"
    elif any(len(it) > WIDTH for it in lines):
        yield from filled(unbroken(" ".join(it.strip() for it in lines)))
    else:
        yield from literal([it[2:] for it in lines])
    yield ".RE"


def paragraph(lines: List[str]) -> Iterator[str]:
    """A paragraph, in which lines that are set in are a part of their own."""
    parts: List[List[str]] = []
    for line in lines:
        if not parts or parts[-1][0].startswith("  ") != line.startswith("  "):
            parts.append([])
        parts[-1].append(line)
    for part in parts:
        yield from set_in(part) if part[0].startswith("  ") else filled(prose(" ".join(part)))


def paragraphs(texts: List[List[str]]) -> Iterator[str]:
    for at, text in enumerate(texts):
        if at:
            yield ".PP"
        yield from paragraph(text)


# The sections.


def synopsis(help: Help) -> Iterator[str]:
    """Each usage, hanging from the words of the call."""
    for usage in help.usages:
        call = " ".join(help.words)
        rest = usage[len(call):].strip() if usage.startswith(call) else usage
        yield f'.SY "{exact(call)}"'
        parts = [typed(it).replace(" ", "\\~") for it in PART.findall(rest)]
        yield from filled(" ".join(parts))
        yield ".YS"


def exit_status(help: Help, whole: Help) -> Iterator[str]:
    rows, rest = whole.statuses
    yield from tagged(rows, exact, 4)
    if help is not whole:
        said = " ".join(line for text in help.description for line in text)
        more = f" The description says which of them `{' '.join(help.words)}` has, and when." if "exit status" in said else ""
        yield ".PP"
        yield from filled(prose(f"This is what the statuses of all commands mean.{more}"))
    if rest:
        yield ".PP"
        yield from filled(prose(rest))


def examples(help: Help) -> Iterator[str]:
    for at, command in enumerate(help.examples):
        if at:
            yield ".PP"
        yield from literal([*broken(command)])


def files(help: Help, edition: Edition) -> Iterator[str]:
    """Where the files are that the text names, if they are installed."""
    names = sorted({it for text in help.texts for it in NAMED.findall("\n".join(text))})
    if edition.documents and names:
        yield from literal([f"{edition.documents}/{it}" for it in names])


def see_also(help: Help, whole: Help) -> Iterator[str]:
    """The page of the program, and those of the commands that the text names; on the first page those of all commands."""
    names = [it.term for it in whole.commands if it.term != "help"]
    said = "\n".join(line for text in help.texts for line in text)
    wanted = [it for it in names if help is whole or re.search(rf"`(?:vmebus )?{it}\b", said)]
    pages = [f"vmebus-{it}" for it in wanted if ("vmebus", it) != help.words]
    shown = ["vmebus"] * (help is not whole) + pages
    yield from (f".BR \\%{exact(it)} (1){',' * (at + 1 < len(shown))}" for at, it in enumerate(shown))


def name_of(help: Help) -> Iterator[str]:
    about = help.about.rstrip(".")
    return filled(f"{exact(help.name)} \\- {prose(about[:1].lower() + about[1:])}")


def page(help: Help, whole: Help, edition: Edition) -> str:
    """The page of a help; `whole` is that of the program."""
    sections = {
        "NAME": name_of(help),
        "SYNOPSIS": synopsis(help),
        "DESCRIPTION": paragraphs(help.description),
        "COMMANDS": tagged(help.commands),
        "ARGUMENTS": tagged([it.row for it in help.arguments]),
        "OPTIONS": tagged([it.row for it in help.options]),
        "EXIT STATUS": exit_status(help, whole),
        "FILES": files(help, edition),
        "EXAMPLES": examples(help),
        "SEE ALSO": see_also(help, whole),
    }
    lines = [f'.TH {exact(help.name.upper())} 1 {edition.date} "vmebus {edition.version}" "User Commands"', ".ad l"]
    for heading, made in sections.items():
        body = [*made]
        lines += [f".SH {heading if ' ' not in heading else chr(34) + heading + chr(34)}", *body] if body else []
    return "\n".join(lines) + "\n"
