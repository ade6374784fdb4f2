"""Tests of gate/test: a part that passed is not run again as long as nothing has changed that it rests on."""

from __future__ import annotations

import os
import re
import shutil

from tests import kits, small
from tests.small import GATE, Case, call, write

LINE = re.compile(r"parts of gate/test run in this run: (\d) of 1; the others are kept from earlier runs on this machine\n(.*)\Z", re.S)
# A part of the tests that passes, and one that fails.
PART = '''import unittest


class Part(unittest.TestCase):
    def test_it(self):
        self.assertTrue({})
'''


class Totals(Case):
    """Runs of gate/test in a small repository with a copy of this gate and a kit of their own."""

    def setUp(self) -> None:
        super().setUp()
        self.root = f"{self.room}/repository"
        small.lay_out(self.root, {})
        shutil.copytree(GATE, f"{self.root}/gate", ignore=shutil.ignore_patterns("__pycache__"))
        for name, text in {"build": "# It builds nothing.\n", "check": "# It checks nothing.\n", "gate/tests/steps.py": PART.format("True")}.items():
            write(f"{self.root}/{name}", text)
        self.environment = {**os.environ, **kits.lay_out(f"{self.room}/kit"), "XDG_CACHE_HOME": f"{self.room}/cache"}

    def run_parts(self, *words: str) -> tuple[int, int | None, str]:
        """Runs gate/test, and returns its status, how many parts it ran, and its total."""
        status, self.said = call([f"{self.root}/gate/test", *words], self.environment)
        line = LINE.search(self.said)
        return status, int(line[1]) if line else None, line[2] if line else self.said

    def test_same(self) -> None:
        """A part is run once, with the same total from then on, and under --anew again."""
        total = "1 passed, 0 failed\n"
        for ran in (1, 0):
            self.assertEqual(self.run_parts("steps"), (0, ran, total), self.said)
        self.assertEqual(self.run_parts("--anew", "steps"), (0, 1, total))

    def test_changes(self) -> None:
        """A part is run again if a file of the gate, ./build, ./check or the kit has changed."""
        for file in ("gate/step.sh", "gate/tests/small.py", "build", "check", "../kit/KIT-ID"):
            with self.subTest(file):
                with open(f"{self.root}/{file}", "a", encoding="utf-8") as text:
                    text.write("# A comment.\n")
                self.assertEqual([self.run_parts("steps")[:2] for _ in range(2)], [(0, 1), (0, 0)], self.said)

    def test_failures(self) -> None:
        """A part that failed is run again, one that reads the crates always, and what is none is told."""
        write(f"{self.root}/gate/tests/steps.py", PART.format("False"))
        for _ in range(2):
            self.assertEqual(self.run_parts("steps"), (1, 1, "0 passed, 1 failed\n"), self.said)
            self.assertIn("False is not true", self.said)
        self.assertEqual([self.run_parts("stubs")[:2] for _ in range(2)], [(0, 1), (0, 1)], self.said)
        self.assertEqual(self.run_parts("none")[:2], (1, None))
        self.assertIn("gate/test: none is none of kinds, ", self.said)
