"""Writes the pages and the completions into the places below a prefix in which they are looked for."""

from __future__ import annotations

import os
import time
from pathlib import Path
from typing import Dict, Optional

from . import completions, helps, pages

PAGES = "share/man/man1"


def date_of(program: Path) -> str:
    """The date of the pages: the same program has the same pages, whenever they are made."""
    seconds = float(os.environ.get("SOURCE_DATE_EPOCH") or program.stat().st_mtime)
    return time.strftime("%Y-%m-%d", time.gmtime(seconds))


def made_of(program: Path, documents: Optional[str]) -> Dict[str, str]:
    """The text of each file, by its path below a prefix."""
    version, told = helps.version_of(program), helps.all_of(program)
    edition = pages.Edition(version, date_of(program), documents)
    made = {f"{PAGES}/{it.name}.1": pages.page(it, told[0], edition) for it in told}
    return {**made, **completions.made_for(program, told, version)}


def write_all(program: Path, prefix: Path, documents: Optional[str]) -> None:
    for path, text in made_of(program, documents).items():
        file = prefix / path
        file.parent.mkdir(parents=True, exist_ok=True)
        file.write_text(text)
