"""Builds the plain Rust program beside which vmebus is measured and compared."""

import os
import shutil
import subprocess
import sys
from pathlib import Path

SOURCE = Path(__file__).resolve().parent / "plain" / "main.rs"

# Tuned for speed alone, and for the same processors as vmebus.
FLAGS = ("--edition=2021", "-Copt-level=3", "-Ctarget-cpu=x86-64-v2", "-Ccodegen-units=1", "-Cpanic=abort",
         "-Crelocation-model=static")


def plain(room):
    """The program, built in that folder by rustc; None where there is no rustc."""
    rustc = shutil.which("rustc")
    if not rustc:
        return None
    program = Path(room, "plain")
    if subprocess.run([rustc, *FLAGS, SOURCE, "-o", program], check=False).returncode:
        sys.exit(f"{SOURCE.parent}: rustc does not build it")
    return program


def missing(programs):
    """The first of these that is no program, None where all are."""
    return next((it for it in programs if not (os.path.isfile(it) and os.access(it, os.X_OK))), None)
