"""Tests of the calls of the program: which one is found, and what is made of what it prints. The programs are scripts."""

from __future__ import annotations

import os
import shutil
import subprocess
import tempfile
import unittest
from pathlib import Path
from unittest import mock

from vmebus_tools import program
from vmebus_tools.program import Fault, Ran


class Programs(unittest.TestCase):
    """Calls of scripts in place of the program, in a folder that has a blank in its name."""

    def setUp(self) -> None:
        self.room = Path(tempfile.mkdtemp(prefix="programs of-"))
        self.addCleanup(shutil.rmtree, self.room)
        program.program.cache_clear()
        self.addCleanup(program.program.cache_clear)

    def script(self, name: str, text: str = "exit 0") -> Path:
        """A script of this name, in a folder of its own."""
        path = self.room / name / "vmebus"
        path.parent.mkdir()
        path.write_text(f"#!/bin/sh\n{text}\n")
        path.chmod(0o755)
        return path

    def ran(self, text: str, *words: str, input: bytes = b"") -> Ran:
        with mock.patch.dict(os.environ, VMEBUS_PROGRAM=str(self.script("named", text))):
            return program.run(words, input)

    def test_draw(self) -> None:
        """The example that draws tests calls the program that is named, and otherwise the one on the PATH."""
        named, on_path = (self.script(name, f"echo {name}") for name in ("named", "path"))
        environment = {**os.environ, "PATH": f"{on_path.parent}:{os.environ['PATH']}"}
        draw = Path(program.TOP, "examples/negative-tests/draw")
        for value, wanted in ((str(named), "named\n"), ("", "path\n")):
            words = [str(draw), "1", str(self.room / "drawn")]
            subprocess.run(words, cwd=draw.parent, env={**environment, "VMEBUS_PROGRAM": value}, check=True)
            self.assertEqual((self.room / "drawn/1.vme").read_text(), wanted)

    def test_order(self) -> None:
        """The one that is named comes first, then the PATH, then what ./build made, then ./try."""
        named, on_path, built = (self.script(name) for name in ("named", "path", "built"))
        path = f"{on_path.parent}:{os.environ['PATH']}"
        with mock.patch.object(program, "BUILT", str(built)):
            with mock.patch.dict(os.environ, VMEBUS_PROGRAM=str(named), PATH=path):
                self.assertEqual(program.find(), str(named))
            with mock.patch.dict(os.environ, VMEBUS_PROGRAM="", PATH=path):
                self.assertEqual(program.find(), str(on_path))
            with mock.patch.dict(os.environ, VMEBUS_PROGRAM="", PATH=str(self.room)):
                self.assertEqual(program.find(), str(built))
                built.unlink()
                self.assertEqual(program.find(), program.UNPROVED)

    def test_named_by_mistake(self) -> None:
        for name in (str(self.room), str(self.room / "none")):
            with self.subTest(name), mock.patch.dict(os.environ, VMEBUS_PROGRAM=name), self.assertRaises(Fault):
                program.find()

    def test_try_that_cannot_build(self) -> None:
        lost = self.script("try", "exit 1")
        with mock.patch.object(program, "UNPROVED", str(lost)), mock.patch.object(program, "find", lambda: str(lost)):
            with self.assertRaisesRegex(Fault, "cannot build"):
                program.run(["check"])

    def test_what_try_keeps(self) -> None:
        """What ./try has built is called without it, if it is one file; otherwise ./try is called each time."""
        built = self.script("try", 'mkdir -p "$0-kept" && touch "$0-kept/vmebus-1"')
        kept = f"{built}-kept"
        with mock.patch.multiple(program, UNPROVED=str(built), KEPT=kept, find=lambda: str(built)):
            self.assertEqual(program.program(), f"{kept}/vmebus-1")
            Path(f"{kept}/vmebus-2").touch()
            program.program.cache_clear()
            self.assertEqual(program.program(), str(built))

    def test_unproved(self) -> None:
        """A program is unproved if ./try of any folder keeps it, if it is a copy of what this one keeps, or if it is a ./try."""
        kept, copied, other = self.script("kept"), self.script("copied"), self.script("other", "exit 7")
        elsewhere = self.room / "crates/vmebus/out/try/vmebus-0"
        elsewhere.parent.mkdir(parents=True)
        shutil.copy(other, elsewhere)
        ours = kept.with_name("vmebus-1")
        kept.rename(ours)
        for path, wanted in ((ours, True), (copied, True), (other, False), (elsewhere, True), (Path(program.UNPROVED), True)):
            with self.subTest(path), mock.patch.multiple(program, KEPT=str(ours.parent), program=lambda: str(path)):
                self.assertEqual(program.is_unproved(), wanted)

    def test_arguments_and_input(self) -> None:
        ran = self.ran('printf "%s;" "$@"; cat; echo said >&2; exit 2', "a b", "", "<&\n", input=b"vme 1\n\xff")
        self.assertEqual(ran, Ran(2, "a b;;<&\n;vme 1\n\udcff", "said\n"))
        self.assertIsNone(ran.fault)

    def test_faults(self) -> None:
        """The last line of a call that failed, without the program's name."""
        for number, (text, fault) in enumerate((
            ("echo 'vmebus: X2 line 3 is no edge' >&2; exit 1", "X2 line 3 is no edge"),
            ("echo one >&2; echo two >&2; exit 1", "two"),
            ("exit 1", "vmebus ended with status 1 and said nothing"),
            ("kill -9 $$", "vmebus ended with status -9 and said nothing"),
        )):
            with self.subTest(text), mock.patch.dict(os.environ, VMEBUS_PROGRAM=str(self.script(str(number), text))):
                program.program.cache_clear()
                self.assertEqual(program.run([]).fault, fault)

    def test_lines_of_try(self) -> None:
        """What ./try says beside the program is left out, and kept if the program said nothing."""
        self.assertEqual(self.ran("echo 'try: unproved' >&2; echo 'vmebus: X9' >&2; exit 1").err, "vmebus: X9\n")

    def test_fault_of_try(self) -> None:
        self.assertEqual(self.ran("echo 'try: there is no rt' >&2; exit 1").fault, "try: there is no rt")

    def test_input_that_is_not_read(self) -> None:
        self.assertEqual(self.ran("exit 0", input=b"1 br-\n" * 100000).status, 0)
