"""The codes that are no rules, as the pages explain them, and what `rule` prints of one.

docs/FAULTS.md has a row for each fault: its text, and what it means, what usually causes it and what to do.  docs/RULES.md has
such a row for E3 and for E4, the verdicts that name a rule.
"""

import re
import textwrap
from functools import lru_cache
from pathlib import Path

DOCS = Path(__file__).resolve().parent.parent.parent / "docs"
FAULT = re.compile(r"^\| `([FLPQX]\d+) ([^`|]+)` \| (.*) \|$", re.M)
VERDICT = re.compile(r"^\| \d \| (E[34]) ([GS])\*k\*, [^|]* \| (.*) \|$", re.M)
WIDTH = 80


def plain(cell):
    """A cell of a page as text: links without where they lead, and no backslashes."""
    return re.sub(r"\\(.)", r"\1", re.sub(r"\[([^\]]*)\]\([^)]*\)", r"\1", cell))


def rows():
    """Each code of the pages, with the text that follows it and the paragraph that explains it."""
    for name, letter, cell in VERDICT.findall((DOCS / "RULES.md").read_text(encoding="utf-8")):
        yield name, f"{letter}k", plain(cell)
    for name, text, cell in FAULT.findall((DOCS / "FAULTS.md").read_text(encoding="utf-8")):
        yield name, text, plain(cell)


def wrapped(paragraph):
    """Lines of at most 80 characters, each as long as it can be. Words in backticks are not parted."""
    held = re.sub("`[^`]*`", lambda code: code[0].replace(" ", "\0"), paragraph)
    lines = textwrap.wrap(held, WIDTH, break_long_words=False, break_on_hyphens=False)
    return [it.replace("\0", " ") for it in lines]


@lru_cache(maxsize=None)
def codes():
    """What `rule` prints of each code, as lines.  The pages are read at the first call, since not every tool has them beside it."""
    return {name: [f"{name} {text}", *wrapped(paragraph)] for name, text, paragraph in rows()}
