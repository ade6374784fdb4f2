"""Packs the package for pip, with nothing but Python's standard library, so that pip needs no network.

The wheel has the shared library beside the modules: that of $VMEBUS_LIBRARY, which may name its folder, or the one in
crates/vmebus_c/out of the repository, or in lib of the prefix that this folder was installed into. Without one no wheel
is made.
"""

from __future__ import annotations

import base64
import hashlib
import os
import re
import zipfile
from pathlib import Path
from typing import Dict, List

HERE = Path(__file__).resolve().parent
NAME = "libvmebus.so"

# Where the library lies if VMEBUS_LIBRARY does not say so: in the repository, and in a prefix, whose share/vmebus/python
# this folder then is.
PLACES = [HERE.parent / "crates/vmebus_c/out" / NAME, HERE.parent.parent.parent / "lib" / NAME]


def library() -> Path:
    """The shared library that goes into the wheel. Raises FileNotFoundError if there is none."""
    given = os.environ.get("VMEBUS_LIBRARY")
    places = [Path(given), Path(given, NAME)] if given else PLACES
    found = next(filter(Path.is_file, places), None)
    if found is None and given:
        raise FileNotFoundError(f"VMEBUS_LIBRARY names {given}, and there is no such file, and no {NAME} in it")
    if found is None:
        raise FileNotFoundError(f"there is no {NAME} in {' or '.join(str(it.parent) for it in PLACES)}: set VMEBUS_LIBRARY to "
                                "one, such as that which ./try --library FOLDER makes in FOLDER")
    return found


def stated(key: str) -> str:
    """What pyproject.toml states of the project: a text on a line of its own."""
    found = re.search(rf'^{key} = "(.*)"$', (HERE / "pyproject.toml").read_text(), re.M)
    assert found, key
    return found[1]


def files() -> Dict[str, bytes]:
    """The files of the package by their names in the wheel."""
    found = {f"vmebus/{it.name}": it.read_bytes() for it in sorted((HERE / "vmebus").iterdir()) if it.is_file()}
    return {**found, f"vmebus/{NAME}": library().read_bytes()}


def metadata() -> str:
    lines = {"Metadata-Version": "2.1", "Name": "vmebus", "Version": stated("version"), "Summary": stated("description"),
             "Requires-Python": stated("requires-python"), "Description-Content-Type": "text/markdown"}
    return "".join(f"{key}: {value}\n" for key, value in lines.items()) + f"\n{(HERE / 'README.md').read_text()}"


def summed(name: str, text: bytes) -> str:
    """The line of a file in the list of a wheel."""
    digest = base64.urlsafe_b64encode(hashlib.sha256(text).digest()).decode().rstrip("=")
    return f"{name},sha256={digest},{len(text)}\n"


def build_wheel(wheel_directory: str, config_settings: object = None, metadata_directory: object = None) -> str:
    """What pip calls: writes the wheel, and returns its name."""
    packed = files()
    tag = "py3-none-linux_x86_64"
    room = f"vmebus-{stated('version')}.dist-info"
    packed[f"{room}/METADATA"] = metadata().encode()
    packed[f"{room}/WHEEL"] = f"Wheel-Version: 1.0\nGenerator: vmebus\nRoot-Is-Purelib: true\nTag: {tag}\n".encode()
    record = f"{room}/RECORD"
    packed[record] = ("".join(summed(*it) for it in packed.items()) + f"{record},,\n").encode()
    wheel = f"vmebus-{stated('version')}-{tag}.whl"
    with zipfile.ZipFile(Path(wheel_directory, wheel), "w", zipfile.ZIP_DEFLATED) as archive:
        for name, text in packed.items():
            archive.writestr(name, text)
    return wheel


def get_requires_for_build_wheel(config_settings: object = None) -> List[str]:
    return []
