"""Texts of a crate without the lines that are comments alone: what a verdict rests on."""

import re

# A text in quotes, or a line that is a comment alone.
RATTLE = re.compile(r"""(?P<quoted>\bb?r(?P<marks>#*)".*?"(?P=marks)|"(?:\\.|[^"\\])*"|'(?:\\[^\n]+?|[^\\'\n])')|^[ ]*//[^\n]*\n?""", re.S | re.M)
ANTT = re.compile(r"""(?P<quoted>"(?:\\.|[^"\\])*")|^[ ]*--(?: [^\n]*)?(?:\n|\Z)""", re.S | re.M)
# What may read a comment: a block of comments, a macro of this repository, or a derive beside these.
BLOCK, MACRO = ("/*", "{-"), "macro_rules!"
DERIVE = re.compile(r"\bderive\(([^)]*)\)")
DERIVES = {"Clone", "Copy", "Debug", "Default", "Drop", "Eq", "Error", "Hash", "Ord", "PartialEq", "PartialOrd", "thiserror::Error"}


def bare(file, text):
    """Returns a file's text without its comments, or the whole text if something in it may read them."""
    derives = {it.strip() for names in DERIVE.findall(text) for it in names.split(",")}
    if MACRO in text or any(it in text for it in BLOCK) or derives - DERIVES - {""}:
        return text
    form = RATTLE if file.endswith(".rt") else ANTT
    return form.sub(lambda found: found["quoted"] or "", text)
