"""Tests of tools/picture, on the program that VMEBUS_PROGRAM names, and of what it is made of."""

from __future__ import annotations

import os
import shutil
import subprocess
import sys
import tempfile
import unittest
import xml.etree.ElementTree as tree
from pathlib import Path
from typing import Dict, List, Tuple
from unittest import mock

from vmebus_tools import reading, style, svg
from vmebus_tools.drawing import Drawing, Story, level_before
from vmebus_tools.pictures import draw, window

TOP = Path(__file__).resolve().parents[2]
EXPECTED = Path(__file__).resolve().parent / "expected"
# The pictures that the pages show, by their file, and the arguments that make them.
OF_PAGES = {
    "late-request": ("examples/late-request/scenario.toml", "examples/late-request/trace.vme"),
    "two-interrupters": ("examples/two-interrupters/scenario.toml", "examples/two-interrupters/trace.vme", "--from", "8"),
}
LATE = "examples/late-request/"
SVG = "{http://www.w3.org/2000/svg}"
ONE_SLOT = """slots = 1
arbiter = "sgl"
[[board]]
slot = 1
requester = { level = 3, release = "rwd", burst = 1 }
"""
LEGAL = "vme 1\n1 br-\nc bg3-\n1 bbsy-\n1 br+\nc bg3+\n1 bbsy+\n"
# Names of files that would break a line, a text, an attribute, or the direction of writing.
HOSTILE = ("<svg onload=x>", "a&amp;b", "quote\"'", "line\nfeed", "\x1b[31mred\x07", "]]>", "\u202etxt.exe", "\udcff", "--from", "漢字" * 40)


def call(*words: str, folder: Path = TOP, **more: object) -> Tuple[int, bytes, str]:
    """Calls tools/picture, and returns its status, what it wrote, and what it said."""
    ran = subprocess.run([sys.executable, str(TOP / "tools/picture"), *words], cwd=folder, stdout=subprocess.PIPE, stderr=subprocess.PIPE, **more)
    return ran.returncode, ran.stdout, ran.stderr.decode()


def text_of(node: tree.Element) -> str:
    """The text of an element, without those of the elements in it."""
    return "".join(it for it in (node.text, *(below.tail for below in node)) if it)


def texts(root: tree.Element) -> List[str]:
    """The texts of a picture, in the order in which they are written."""
    return [text_of(node) for node in root.iter(f"{SVG}text")]


def with_class(root: tree.Element, name: str) -> List[tree.Element]:
    return [it for it in root.iter() if name in it.get("class", "").split()]


class Small(unittest.TestCase):
    """Tests with a folder for scenarios and traces of their own."""

    def setUp(self) -> None:
        self.room = Path(tempfile.mkdtemp(prefix="pictures-"))
        self.addCleanup(shutil.rmtree, self.room)

    def files(self, trace: str, scenario: str = ONE_SLOT, name: str = "trace.vme") -> Tuple[str, str]:
        """Writes a scenario and a trace, and returns their names within the folder."""
        (self.room / "scenario.toml").write_text(scenario)
        (self.room / name).write_text(trace)
        return "scenario.toml", name

    def drawn(self, trace: str, *words: str, status: int = 0) -> tree.Element:
        """The picture of a trace, which has to end with a status and without a word."""
        ended, out, said = call(*self.files(trace), *words, folder=self.room)
        self.assertEqual((ended, said), (status, ""))
        return tree.fromstring(out)


class Pictures(Small):
    """Pictures of whole traces."""

    def test_bytes(self) -> None:
        """Small pictures that were looked at once, byte for byte."""
        (self.room / "scenario.toml").write_text(ONE_SLOT)
        for name, trace, words in (
            ("legal", LEGAL, ()),
            ("refused", LEGAL.replace("1 br+\n", "1 br-\n"), ()),
            ("cut", LEGAL, ("--from", "3", "--to", "5", "--rows", "1 bbsy,holder")),
        ):
            with self.subTest(name):
                out = call(*self.files(trace), *words, folder=self.room)[1]
                self.assertEqual(out.decode(), (EXPECTED / f"{name}.svg").read_text(encoding="utf-8"))

    def test_pages(self) -> None:
        """The pictures that the pages show are those that the tool draws."""
        for name, words in OF_PAGES.items():
            with self.subTest(name):
                self.assertEqual(call(*words)[1], (TOP / f"docs/pictures/{name}.svg").read_bytes())

    def test_legal(self) -> None:
        """Nothing is red, every row has its name, and the tenure its line."""
        root = self.drawn(LEGAL)
        found = texts(root)
        for name in ("c bg3", "1 br", "1 bbsy", "grant at", "holder", "shown", "verdict", *"123456", "slot 1"):
            self.assertIn(name, found)
        self.assertEqual([it for it in root.iter() if {"red", "refused", "column"} & set(it.get("class", "").split())], [])
        self.assertEqual(with_class(root, "tenure")[0].find(f"{SVG}title").text, "3..6 1 tenure asked 1 cycles 0")
        self.assertIn("edges 1 to 6, none refused, on scenario.toml", found)

    def test_refused(self) -> None:
        """Each refused edge has a cross and its code, and the conditions that fail, in the words of explain."""
        status, out, said = call(f"{LATE}scenario.toml", f"{LATE}trace.vme")
        root = tree.fromstring(out)
        self.assertEqual((status, said), (2, ""))
        crosses = [node[0].text for node in with_class(root, "refused") if len(node)]
        wanted = ["14 c bg3- E3 G1", "8 2 bbsy- E3 G13", "6 3 bgout- E3 G11", "12 3 bbsy+ E3 G14", "9 4 bbsy- E3 G13"]
        self.assertEqual(crosses, wanted)
        found = texts(root)
        at = found.index("fails: own br is high")
        self.assertEqual(found[at - 4 : at + 2], ["\u2715", "6", "3 bgout-", "E3 G11", "fails: own br is high", "3 br low since 5"])
        self.assertIn("fails: own bgout is high (profile)", found)

    def test_many_refused(self) -> None:
        """The first 20 refused edges have their conditions, and the others are named."""
        found = texts(self.drawn("vme 1\n1 br-\n" + "1 br-\n" * 30, status=2))
        self.assertEqual(found.count("fails: 1 br is high"), 20)
        rest = " ".join(it for it in found if it.startswith("also") or it[:2] in ("22", "23", "24", "25", "26", "27", "28", "29", "30", "31") and "E2" in it)
        self.assertEqual(rest, "also\u00a0refused: " + ", ".join(f"{number}\u00a01\u00a0br-\u00a0E2" for number in range(22, 32)))

    def test_no_row(self) -> None:
        """An edge that no wire of the backplane has is refused in its column, and in no row."""
        found = texts(self.drawn("vme 1\n1 br-\n9 br-\n", status=2))
        self.assertIn("9 br-", found)
        self.assertIn("fails: the slot has a board", found)
        self.assertNotIn("9 br", found)

    def test_cut(self) -> None:
        """A window has the numbers of its edges; what begins before it and goes on behind it has no line there."""
        root = self.drawn(LEGAL, "--from", "4", "--to", "5")
        found = texts(root)
        self.assertIn("edges 4 to 5, none refused, on scenario.toml", found)
        self.assertNotIn("3", found)
        self.assertEqual(with_class(root, "tenure")[0].find(f"{SVG}title").text, "3.. 1 tenure asked 1 cycles 0")
        line = next(it.get("d") for it in with_class(root, "tenure-line"))
        self.assertEqual((line.count("V"), line.count("M")), (0, 2))

    def test_rows(self) -> None:
        """Only the rows that are named, in that order."""
        found = texts(self.drawn(LEGAL, "--rows", "1  bbsy, c bg3,verdict"))
        self.assertEqual([it for it in found if it in ("c bg3", "1 br", "1 bbsy", "grant at", "holder", "shown", "verdict")], ["1 bbsy", "c bg3", "verdict"])

    def test_other_end(self) -> None:
        """A trace may come over a pipe, and edges behind the window are not read."""
        scenario, _ = self.files("")
        status, out, said = call(scenario, "/dev/stdin", "--to", "2", folder=self.room, input=f"{LEGAL[:19]}nothing\n".encode())
        self.assertEqual((status, said), (0, ""))
        self.assertIn("edges 1 to 2, none refused, on scenario.toml", texts(tree.fromstring(out)))

    def test_hostile_names(self) -> None:
        """A name is a text, whatever it has; what cannot be shown is another character."""
        for name in HOSTILE:
            with self.subTest(name=ascii(name)):
                scenario, trace = self.files(LEGAL, name=name)
                status, out, said = call("--", scenario, trace, folder=self.room)
                self.assertEqual((status, said), (0, ""))
                root = tree.fromstring(out)
                self.assertEqual({it.tag[len(SVG) :] for it in root.iter()}, {"svg", "title", "style", "text", "rect", "path", "circle"})
                self.assertEqual(root.find(f"{SVG}title").text, f"{svg.safe(name)}: edges 1 to 6, none refused")
                self.assertEqual(svg.UNSAFE.findall(out.decode().replace("\n", "")), [])
                told = call("--", scenario, f"{name}.lost", folder=self.room)
                self.assertEqual((told[0], told[1], told[2].count("\n")), (1, b"", 1))

    def test_examples(self) -> None:
        """A picture of each example is XML with all of its rows and numbers, and has no text that ends outside of it."""
        for folder in sorted(it.parent for it in (TOP / "examples").glob("*/trace.vme")):
            with self.subTest(folder.name):
                drawn = draw(str(folder / "scenario.toml"), str(folder / "trace.vme"), 1, 200)
                root = tree.fromstring(drawn.svg)
                edges = len((folder / "trace.vme").read_text().splitlines()) - 1
                self.assertLessEqual({str(it) for it in range(1, edges + 1)}, set(texts(root)))
                self.assertEqual([text_of(it) for it in root.iter(f"{SVG}text") if outside(it, root)], [])


def outside(node: tree.Element, root: tree.Element) -> bool:
    """Whether a text ends outside of the picture."""
    classes = node.get("class").split()
    size = 14 if "title" in classes else 11 if "small" in classes else 9 if "tiny" in classes else 12
    wide = svg.width(text_of(node), size)
    end = float(node.get("x")) + (wide / 2 if "middle" in classes else 0 if "end" in classes else wide)
    return end > float(root.get("width"))


class Faults(Small):
    """What is no picture: one line on standard error, and status 1."""

    def fails(self, words: Tuple[str, ...], part: str, out: bool = False) -> None:
        with self.subTest(words):
            status, written, said = call(*words, folder=self.room)
            self.assertEqual((status, said.count("\n"), bool(written)), (1, 1, out), said)
            self.assertTrue(said.startswith("picture: "), said)
            self.assertIn(part, said)

    def test_usage(self) -> None:
        files = self.files(LEGAL)
        for words, part in (
            ((), "SCENARIO"),
            (files[:1], "TRACE"),
            ((*files, "more"), "more"),
            ((*files, "--form", "1"), "--form"),
            ((*files, "--from"), "--from"),
            ((*files, "--from", "0"), "'0' is no number from 1 to"),
            ((*files, "--to", "18446744073709551616"), "is no number"),
            ((*files, "--from", "1_0"), "is no number"),
            ((*files, "--from", "3", "--to", "2"), "edges 3 to 2: a picture has 1 to 200 edges"),
            ((*files, "--from", "1", "--to", "201"), "a picture has 1 to 200 edges"),
            ((*files, "--rows", "1 br,,1 bbsy"), "a name of a row is empty"),
            ((*files, "--rows", "1 br,holder,1 br"), "the row '1 br' is named twice"),
            ((*files, "--rows", "2 br"), "no row is named '2 br' here; there are: c bg3, 1 br, 1 bbsy, grant at,"),
        ):
            self.fails(words, part)

    def test_files(self) -> None:
        scenario, trace = self.files(LEGAL)
        self.fails(("none", trace), "F1 cannot read none")
        self.fails((scenario, "none"), "cannot read none: No such file or directory")
        self.fails((scenario, "."), "cannot read .: Is a directory")
        self.fails((scenario, scenario), "X1")

    def test_traces(self) -> None:
        """The edges before a fault are drawn, if there are any."""
        self.fails((*self.files(f"{LEGAL}2 berr-\n"), ), "X2 line 8 is no edge", out=True)
        self.fails((*self.files(f"{LEGAL}2 berr-\n"), "--from", "7"), "X2 line 8 is no edge")
        self.fails((*self.files(LEGAL), "--from", "7"), "X9 the trace has 6 edges")
        self.fails(self.files("vme 1\n"), "X9")

    def test_other_programs(self) -> None:
        """A program that prints something else is a fault, too."""
        words = self.files(LEGAL)
        for name, text, part in (("mute", "exit 0", "show printed nothing"), ("other", "echo edges; echo; echo 1", "the program printed something else"),
                                 ("lost", "kill -9 $$", "ended with status -9")):
            path = self.room / name
            path.write_text(f"#!/bin/sh\n{text}\n")
            path.chmod(0o755)
            with mock.patch.dict(os.environ, VMEBUS_PROGRAM=str(path)):
                self.fails(words, part)
        with mock.patch.dict(os.environ, VMEBUS_PROGRAM=str(self.room / "none")):
            self.fails(words, "which is no program")

    def test_full_disk(self) -> None:
        with open("/dev/full", "wb") as full:
            words = [sys.executable, str(TOP / "tools/picture"), *self.files(LEGAL)]
            ran = subprocess.run(words, cwd=self.room, stdout=full, stderr=subprocess.PIPE)
        self.assertEqual((ran.returncode, ran.stderr), (1, b"picture: cannot write the picture: No space left on device\n"))

    def test_help(self) -> None:
        status, out, said = call("--help")
        self.assertEqual((status, said), (0, ""))
        for part in ("--from", "--to", "--rows", "status is 0", "2 if one is", "It is 1"):
            self.assertIn(part, out.decode())


class Parts(unittest.TestCase):
    """What a picture is made of. The answers are worked out by hand."""

    def test_window(self) -> None:
        """As docs/COMMANDS.md has it of `show`."""
        for given, wanted in {(None, None): (1, 60), (7, None): (7, 66), (None, 100): (41, 100), (None, 5): (1, 5), (3, 202): (3, 202)}.items():
            self.assertEqual(window(*given), wanted)
        self.assertEqual(window(2**64 - 1, None), (2**64 - 1, 2**64 - 1))

    def test_levels(self) -> None:
        """What a wire was before its first column: told by its first edge, by its level, or by a refusal."""
        fall, rise = (reading.Refusal(1, f"1 br{way}", "E3 G9") for way in "-+")
        for marks, refusal, wanted in (
            ("\\__", None, "-"), ("/--", None, "_"), ("--\\", None, "-"), ("xx_", fall, "_"),
            ("x", fall, "-"), ("x", rise, "_"), ("x", reading.Refusal(1, "1 br-", "E2"), "_"), ("x", reading.Refusal(1, "1 br+", "E2"), "-"),
            ("x", None, None),
        ):
            self.assertEqual(level_before(marks, refusal), wanted, marks)

    def test_grants(self) -> None:
        """A grant goes from its beginning to each board that passes it on, and to the one that takes it."""
        marks = {"c bg3": "-\\________/--x-\\_", "2 bgout": "--\\_________/----", "2 bbsy": "-------x--------\\", "3 bbsy": "------\\____x__/--"}
        self.assertEqual(list(self.drawing(marks, ".23333.........2.").passes()), [(1, 2), (2, 6), (15, 16)])

    def test_grant_taken_back(self) -> None:
        """No arrow ends where the arbiter takes a grant back, and none begins before the picture."""
        self.assertEqual(list(self.drawing({"c bg3": "-\\_/-", "1 bbsy": "-----"}, ".11..").passes()), [])
        self.assertEqual(list(self.drawing({"c bg3": "___", "1 bbsy": "-\\_"}, "1..").passes()), [])

    @staticmethod
    def drawing(wires: Dict[str, str], grant_at: str) -> Drawing:
        rows = tuple(reading.Row(name, marks) for name, marks in wires.items())
        none = "." * len(grant_at)
        return Drawing(Story("", "", reading.Shown(1, len(grant_at), rows, grant_at, none, none, none), (), (), {}))

    def test_wave(self) -> None:
        """A fall in the second of four columns, and a refused edge in the third."""
        drawing = self.drawing({"1 br": "-\\x_"}, "....")
        left, column = drawing.left, drawing.column
        at = left + column * 1.5
        self.assertEqual(drawing.wave("-\\x_", "-", 50), f"M{left} 42H{at - 3:g}L{at + 3:g} 58H{left + 4 * column}")

    def test_bands(self) -> None:
        """Lines of cycles, ended and under way."""
        said = "12 refused 1 addr- r2 E3 G15\n9..18 1 acknowledge 4 status 65 from 2 asked 1\n22.. 1 access 2\n5..30 1 tenure asked 3 cycles 2\ncycles 1 tenures 1 refused 1\n"
        found = [(it.first, it.last, it.slot, it.kind, it.about) for it in reading.bands(said)]
        self.assertEqual(found, [(9, 18, "1", "acknowledge", "4 status 65 from 2 asked 1"), (22, None, "1", "access", "2"), (5, 30, "1", "tenure", "asked 3 cycles 2")])
        self.assertEqual(list(reading.refusals(said)), [reading.Refusal(12, "1 addr- r2", "E3 G15")])

    def test_failing(self) -> None:
        said = "9 4 bbsy- E3 G13\nfails own grant-in is low\n    3 bgout high\nholds own br is low (profile)\n    4 br low since 1\n"
        self.assertEqual(reading.failing(said), [reading.Failing("own grant-in is low", ("3 bgout high",))])

    def test_letters(self) -> None:
        """Slots above 9 and levels, as `show` writes them."""
        self.assertEqual([reading.slot_of(it) for it in "19AL"], ["1", "9", "10", "21"])
        self.assertEqual([reading.shown_value(it) for it in "2La"], ["r2", "r21", "i1"])

    def test_contrast(self) -> None:
        """Texts and lines can be read, light and dark, and in shades of gray."""
        for colors in (style.LIGHT, style.DARK):
            grounds = [name for name in colors if name == "paper" or "wash" in name or "tint" in name]
            for text, ground in [(text, ground) for text in ("ink", "muted", "red") for ground in grounds]:
                if text == "ink" or ground in ("paper", "red-wash", "blue-tint"):
                    with self.subTest(f"{text} on {ground}"):
                        self.assertGreaterEqual(contrast(colors[text], colors[ground]), 4.5)

    def test_elided(self) -> None:
        """A name that is too long ends as it ended."""
        short = svg.elided("a" * 99 + "/trace.vme", 12, 120)
        self.assertTrue(short.startswith("…") and short.endswith("/trace.vme"))
        self.assertLessEqual(svg.width(short, 12), 120)


def contrast(one: str, other: str) -> float:
    """The contrast of two colors, by the Web Content Accessibility Guidelines."""
    light, dark = sorted((luminance(one), luminance(other)), reverse=True)
    return (light + 0.05) / (dark + 0.05)


def luminance(color: str) -> float:
    parts = [int(color[at : at + 2], 16) / 255 for at in (1, 3, 5)]
    red, green, blue = (it / 12.92 if it <= 0.03928 else ((it + 0.055) / 1.055) ** 2.4 for it in parts)
    return 0.2126 * red + 0.7152 * green + 0.0722 * blue
