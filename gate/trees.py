"""The repository's crates, and copies of them, so that the repository itself stays as it was."""

from __future__ import annotations

import os
import re
import shutil
from typing import Dict, Iterator, List

from sources import Texts

PARTS = ("src", "specs", "proofs")
# The libraries that each crate uses.
Uses = Dict[str, List[str]]


class Misuse(Exception):
    """Why no edit can be tried."""


class Repository:
    """A repository's crates: their lines of crates.txt, the libraries that each uses, and their texts as they stood when they were first read."""

    def __init__(self, root: str) -> None:
        self.root = root
        self.lines, self.uses = read_crates(root)
        self.read: dict[str, Texts] = {}

    def texts(self, name: str) -> Texts:
        """The texts of a crate's sources, definitions and proofs."""
        if name not in self.read:
            self.read[name] = read_texts(self.root, name)
        return self.read[name]


def read_text(file: str) -> str:
    with open(file, encoding="utf-8") as text:
        return text.read()


def read_crates(root: str) -> tuple[dict[str, str], Uses]:
    """Returns the line that crates.txt has for each crate, and the libraries that each uses, by the crate's name."""
    lines, uses = {}, {}
    for line in read_text(f"{root}/crates.txt").splitlines():
        head, colon, rest = line.partition("#")[0].partition(":")
        if colon:
            name = head.split()[0]
            lines[name], uses[name] = line, rest.split()
    return lines, uses


def below(uses: Uses, name: str) -> list[str]:
    """The repository's crates that a crate stands on, lowest first."""
    names = []
    for used in uses[name]:
        if used in uses:
            names += [one for one in [*below(uses, used), used] if one not in names]
    return names


def copy_below(root: str, to: str, names: list[str]) -> list[str]:
    """Copies the crates that these stand on, with the work that their checks kept, and returns their names, lowest first."""
    lines, uses = read_crates(root)
    wanted = {crate for name in names for crate in below(uses, name)}
    crates = sorted(wanted, key=lambda crate: len(below(uses, crate)))
    write(f"{to}/crates.txt", "".join(f"{lines[crate]}\n" for crate in crates))
    shutil.copyfile(f"{root}/HANDLES", f"{to}/HANDLES")
    for crate in crates:
        shutil.copytree(f"{root}/crates/{crate}", f"{to}/crates/{crate}", ignore=shutil.ignore_patterns("must-fail"))
    return crates


def copy_all(root: str, to: str) -> None:
    """Copies the repository without its history and what was built. A fault names the first file that was not copied, and the device."""
    try:
        shutil.copytree(root, to, ignore=shutil.ignore_patterns(".git", "out", "__pycache__"))
    except OSError as fault:
        first = fault.args[0][0][2] if isinstance(fault, shutil.Error) else fault
        raise OSError(f"{first} (the device is {device_of(to)})") from None


def device_of(path: str) -> str:
    """The device on which a path lies or would lie, with the folder at which it is mounted."""
    folder = os.path.realpath(path)
    while not os.path.ismount(folder):
        folder = os.path.dirname(folder)
    devices = {line.split()[1]: line.split()[0] for line in read_text("/proc/mounts").splitlines()}
    return f"{devices.get(folder, 'one')} at {folder}"


def files_of(folder: str) -> Iterator[str]:
    """Yields the files below a folder."""
    for at, _, files in os.walk(folder):
        yield from (f"{at}/{file}" for file in files)


def read_texts(root: str, name: str) -> Texts:
    """Returns the texts of a crate's sources, definitions and proofs."""
    folder = f"{root}/crates/{name}"
    return {os.path.relpath(file, folder): read_text(file) for part in PARTS for file in files_of(f"{folder}/{part}")}


def write_texts(folder: str, texts: Texts) -> None:
    """Lays the texts in a folder, in place of those that it has."""
    for part in PARTS:
        shutil.rmtree(f"{folder}/{part}", ignore_errors=True)
    for file, text in texts.items():
        write(f"{folder}/{file}", text)


def write(file: str, text: str) -> None:
    """Writes a file, in folders that are made for it."""
    os.makedirs(os.path.dirname(file), exist_ok=True)
    with open(file, "w", encoding="utf-8") as to:
        to.write(text)


def edit_names(root: str, name: str) -> list[str]:
    """Returns the names of a crate's edits, in order."""
    folder = f"{root}/crates/{name}/must-fail"
    if not os.path.isdir(folder):
        return []
    return sorted(re.sub(r"\.edit$", "", file) for file in os.listdir(folder) if file.endswith(".edit"))
