"""A kit of the tests' own, by which an edit takes no time: its prover refuses a function whose name stands after `wrong_` in the source.

Like the kit's it keeps work, and offers what it would have proved by, if it has a folder for that.
"""

import os
from typing import Dict

from tests.small import write

PROVER = """#!/usr/bin/env python3
import os
import sys

def is_made(folder):
    try:
        os.makedirs(folder, exist_ok=True)
    except OSError:
        return False
    return True

words = sys.argv[1:]
kept = words[words.index("--incremental") + 1]
is_made(f"{kept}/work")
text = open("src/lib.rt", encoding="utf-8").read()
asked = [words[at + 1].rpartition("::")[2] for at, word in enumerate(words) if word == "--only"]
for name in asked:
    if f"wrong_{name}" in text:
        print(f"fn numbers::{name}: no proof: `search` did not prove `returns`")
    else:
        print(f"fn numbers::{name}: proved")
if is_made(f"{kept}/work-offers") or is_made(os.environ.get("TMPDIR", "/tmp") + "/rattle-offers"):
    print("help: write these lines")
print(f"only={len(asked)} proved=0")
"""

BUILDER = """#!/usr/bin/env python3
import os
name = os.path.basename(os.getcwd())
os.makedirs(f"out/rlib/{name}.rlib")
"""

# The source of a crate whose edits this kit's prover can refuse: in their place, since no copy is made of a constant function.
SOURCE = """//! Numbers, for the tests of what is kept.

/// One.
pub const fn one() -> u8 {
    1
}

/// Two.
pub const fn two() -> u8 {
    2
}
"""
GOOD = {"one_is_wrong": ("    1", "    wrong_one()"), "two_is_wrong": ("    2", "    wrong_two()")}
BAD = {"one_is_right": ("    1", "    2 - 1")}


def lay_out(folder: str, name: str = "a kit") -> Dict[str, str]:
    """Makes the kit, and returns the environment in which its `rt` is found."""
    for file, text in {"KIT-ID": name, "bin/rattle": PROVER, "bin/rt": BUILDER, "rlibs/std.rlib/format": "", "logic_built/it": "", "rattle/logic/it": ""}.items():
        write(f"{folder}/{file}", text)
    for command in ("rattle", "rt"):
        os.chmod(f"{folder}/bin/{command}", 0o755)
    return {"PATH": f"{folder}/bin:{os.environ['PATH']}"}
