"""Tests of tools/report, on the program that VMEBUS_PROGRAM names, and of what it is made of."""

from __future__ import annotations

import os
import re
import shlex
import shutil
import signal
import subprocess
import sys
import tempfile
import unittest
import xml.etree.ElementTree as tree
from dataclasses import replace
from datetime import datetime, timezone
from html.parser import HTMLParser
from pathlib import Path
from typing import Callable, Dict, Iterator, List, Optional, Sequence, Tuple
from unittest import mock

from vmebus_tools import judging
from vmebus_tools.judging import Faulty, Judged, Legal, Refused, Rule, Trace, judge, limit, rules_of
from vmebus_tools.junit import junit
from vmebus_tools.page import MOST_EDGES, causes_of, command, headline, history, page
from vmebus_tools.sums import Counts, sums
from vmebus_tools.svg import escaped, safe

TOP = Path(__file__).resolve().parents[2]
MOMENT = datetime(2026, 12, 1, 9, 30, 5, tzinfo=timezone.utc)
ONE_SLOT = """slots = 1
arbiter = "sgl"
[[board]]
slot = 1
requester = { level = 3, release = "rwd", burst = 1 }
"""
LEGAL = "vme 1\n1 br-\nc bg3-\n1 bbsy-\n1 br+\nc bg3+\n1 bbsy+\n"
# The request falls twice; the board requests the bus that it has; and a line is no edge.
TWICE = "vme 1\n1 br-\n1 br-\n"
OWNER = LEGAL.replace("1 bbsy+\n", "1 br-\n1 bbsy+\n")
BROKEN = "vme 1\n1 br-\nnothing\n"
LATE_FAULT = f"{TWICE}nothing\n"
# Names of files that would break a line, a text, an attribute, a command line, or the direction of writing.
HOSTILE = ("<script>x", "a&amp;b", "quote\"'", "line\nfeed", "\x1b[31mred\x07", "]]>", "\u202etxt.exe", "\udcff", "-x", "--junit", " a  b ", "a: legal 7")

SMALL_JUNIT = """<?xml version="1.0" encoding="UTF-8"?>
<testsuites>
  <testsuite id="0" package="vmebus" name="scenario.toml" tests="3" failures="1" errors="1" timestamp="2026-12-01T09:30:05" hostname="localhost" time="0.250">
    <properties>
      <property name="version" value="VERSION"/>
    </properties>
    <testcase classname="vmebus" name="legal.vme" time="0"/>
    <testcase classname="vmebus" name="twice.vme" time="0">
      <failure type="E2" message="edge 2, 1 br-: E2, fails: 1 br is high">2 1 br- E2
fails 1 br is high
    1 br low since 1

a short trace with the same answer:
vme 1
1 br-
1 br-
</failure>
    </testcase>
    <testcase classname="vmebus" name="broken.vme" time="0">
      <error type="X2" message="X2 line 3 is no edge">X2 line 3 is no edge
    nothing
vmebus rule X2 explains it
</error>
    </testcase>
    <system-out>traces 2
edges 8 accepted 7 refused 1
G1 accepted 1 refused 0
G2 accepted 1 refused 0
G9 accepted 2 refused 0
G10 accepted 1 refused 0
G13 accepted 1 refused 0
G14 accepted 1 refused 0
E2 refused 1
never accepted G3 G4 G5 G6 G7 G8 G11 G12 G15 G16 G17 G18 G19 G20 G21 G22 G23 G24 G25 G26
never met grant-passed late-request overtaken early-release overlap full-burst bus-clear rivals delivery iack-passed answered-again spurious bus-error withdrawn grant-timeout
board 1 asked 2 waited 2 longest-wait 2 tenures 1 held 3 longest-hold 3 cycles 0
</system-out>
    <system-err/>
  </testsuite>
</testsuites>
"""


class Page(HTMLParser):
    """A page as it is read: the elements, the text, the names of places, and what is wrong with it."""

    VOID = ("meta", "br")

    def __init__(self, text: str) -> None:
        super().__init__()
        self.open: List[str] = []
        self.tags: List[str] = []
        self.attributes: List[Tuple[str, str]] = []
        self.texts: List[str] = []
        self.wrong: List[str] = []
        self.feed(text)
        self.close()
        self.wrong += [f"<{tag}> stays open" for tag in self.open]

    def handle_starttag(self, tag: str, attributes: List[Tuple[str, Optional[str]]]) -> None:
        self.handle_startendtag(tag, attributes)
        if tag not in self.VOID:
            self.open.append(tag)

    def handle_startendtag(self, tag: str, attributes: List[Tuple[str, Optional[str]]]) -> None:
        self.tags.append(tag)
        self.attributes += [(name, value or "") for name, value in attributes]

    def handle_endtag(self, tag: str) -> None:
        if not self.open or self.open.pop() != tag:
            self.wrong.append(f"</{tag}> ends another element")

    def handle_data(self, data: str) -> None:
        if self.open[-1:] != ["style"]:
            self.texts.append(data)

    @property
    def text(self) -> str:
        """All text, whose blanks count as one."""
        return " ".join(" ".join(self.texts).split())

    def values(self, name: str) -> List[str]:
        return [value for key, value in self.attributes if key == name]


class Small(unittest.TestCase):
    """Tests with a folder for scenarios and traces of their own."""

    def setUp(self) -> None:
        self.room = Path(tempfile.mkdtemp(prefix="reports-"))
        self.addCleanup(shutil.rmtree, self.room)
        self.write("scenario.toml", ONE_SLOT)
        for name, text in (("legal.vme", LEGAL), ("twice.vme", TWICE), ("owner.vme", OWNER), ("broken.vme", BROKEN), ("late.vme", LATE_FAULT)):
            self.write(name, text)

    def write(self, name: str, text: str) -> str:
        (self.room / name).write_text(text)
        return name

    def call(self, *words: str, **more: object) -> Tuple[int, str, str]:
        """Calls tools/report in the folder, and returns its status, what it wrote, and what it said."""
        ran = subprocess.run([sys.executable, str(TOP / "tools/report"), *words], cwd=self.room, stdout=subprocess.PIPE, stderr=subprocess.PIPE, **more)
        return ran.returncode, ran.stdout.decode(), ran.stderr.decode()

    def judged(self, *names: str) -> Judged:
        """What the program says of traces in the folder."""
        before = os.getcwd()
        os.chdir(self.room)
        try:
            return judge("scenario.toml", names)
        finally:
            os.chdir(before)

    def sound(self, text: str) -> Page:
        """A page that is balanced, and asks for nothing outside of itself."""
        found = Page(text)
        self.assertEqual(found.wrong, [])
        self.assertEqual({"script", "link", "img", "iframe", "object", "form"} & {*found.tags}, set())
        self.assertEqual([name for name, _ in found.attributes if name.startswith("on") or name in ("src", "style", "xlink:href")], [])
        places, links = found.values("id"), found.values("href")
        self.assertEqual(len({*places}), len(places))
        self.assertEqual([it for it in links if it[:1] != "#" or it[1:] not in places], [])
        self.assertEqual(re.findall(r"@import|url\(", text), [])
        return found


class Reports(Small):
    """What a report of some traces says."""

    def test_bytes(self) -> None:
        """A small file of JUnit XML, byte for byte."""
        judged = self.judged("legal.vme", "twice.vme", "broken.vme")
        self.assertRegex(judged.version, r"^vmebus \d+\.\d+\.\d+$")
        self.assertEqual(junit(judged, MOMENT, 0.25), SMALL_JUNIT.replace("VERSION", judged.program))

    def test_page(self) -> None:
        """The refused edges come first, with their picture, their reasons and their history, and then the rest."""
        status, out, said = self.call("scenario.toml", "legal.vme", "owner.vme", "twice.vme")
        self.assertEqual((status, said), (2, "report: 1 legal, 2 refused, 0 faults of 3 traces\n"))
        found = self.sound(out)
        self.assertEqual(found.tags.count("svg"), 2)
        self.assertEqual(out.count(".vmebus-picture .wave { fill"), 1)
        for part in (
            "2 of 3 traces have a refused edge", "2 refused 0 with a fault 1 legal",
            # The owner of the bus requests it at edge 6, and BBSY* is its own since edge 3.
            "E3 G9 “own bbsy is high (profile)” fails 1 trace", "fails own bbsy is high (profile) 1 bbsy low since 3", "is marked (profile)",
            "E2 “1 br is high” fails 1 trace", "fails 1 br is high 1 br low since 1",
            "Short history vme 1 1 br- 1 br-", "vmebus explain scenario.toml twice.vme", "legal.vme 6 edges",
        ):
            self.assertIn(part, found.text)
        places = [found.text.index(it) for it in ("What fails", "E3 G9", "What the traces exercised", "legal.vme 6 edges")]
        self.assertEqual(places, sorted(places))

    def test_exercised(self) -> None:
        """What the summary has, and what it never had."""
        found = self.sound(page(self.judged("legal.vme", "owner.vme"), MOMENT))
        self.assertIn("no edge was accepted: G3, G4, G5, G6, G7, G8, G11, G12, G15,", found.text)
        self.assertIn("did not occur: grant-passed, late-request,", found.text)
        self.assertIn("G9 br- 2 1 The owner of the bus does not request it.", found.text)
        self.assertIn("G3 c bclr- never 0 ", found.text)
        self.assertIn("Status bytes 1 2 2 0 2 4", found.text)

    def test_legal(self) -> None:
        """A page without a failure has no part for it."""
        found = self.sound(page(self.judged("legal.vme"), MOMENT))
        self.assertIn("The trace is legal On scenario.toml", found.text)
        self.assertEqual(found.values("id"), ["exercised", "legal"])

    def test_program_of_try(self) -> None:
        """A program that lies where ./try keeps its own is called unproved in both files."""
        kept = self.room / "crates/vmebus/out/try/vmebus-0123"
        kept.parent.mkdir(parents=True)
        shutil.copy(os.environ["VMEBUS_PROGRAM"], kept)
        status, out, said = self.call("scenario.toml", "legal.vme", "--junit", "a.xml", env={**os.environ, "VMEBUS_PROGRAM": str(kept)})
        self.assertEqual((status, said), (0, "report: 1 legal, 0 refused, 0 faults of 1 trace\n"))
        self.assertIn("./try built the program that judged these traces: it is not proved.", self.sound(out).text)
        self.assertIn(', unproved"/>', (self.room / "a.xml").read_text())

    def test_fault_beside(self) -> None:
        """A trace with a fault is an error, and the others are judged."""
        status, out, said = self.call("scenario.toml", "legal.vme", "broken.vme", "none.vme", "twice.vme", "--junit", "junit.xml")
        self.assertEqual((status, said), (1, "report: 1 legal, 1 refused, 2 faults of 4 traces\n"))
        text = self.sound(out).text
        for part in ("1 of 4 traces has a refused edge, and 2 have a fault", "broken.vme X2 line 3 is no edge nothing vmebus rule X2 explains it",
                     "none.vme F1 cannot read none.vme vmebus rule F1 explains it", "legal.vme 6 edges"):
            self.assertIn(part, text)
        suite = tree.parse(self.room / "junit.xml").getroot()[0]
        self.assertEqual([suite.get(it) for it in ("tests", "failures", "errors")], ["4", "1", "2"])
        self.assertEqual([it.get("type") for it in suite.iter("error")], ["X2", "F1"])

    def test_fault_behind(self) -> None:
        """A fault behind a refused edge is told with it, and leaves the trace out of the sums."""
        judged = self.judged("late.vme")
        self.assertEqual((judged.status, judged.summary, judged.traces[0].outcome.fault), (1, (), Faulty("X2 line 4 is no edge", "nothing")))
        text = self.sound(page(judged, MOMENT)).text
        self.assertIn("Behind this edge: X2 line 4 is no edge nothing vmebus rule X2 explains it", text)
        self.assertNotIn("exercised", text)
        file = junit(judged, MOMENT, 0)
        self.assertIn("\nbehind this edge: X2 line 4 is no edge\n    nothing\nvmebus rule X2 explains it\n</failure>", file)
        self.assertIn('failures="1" errors="0"', file)

    def test_quoted(self) -> None:
        """The line that a fault names is quoted as a text: what cannot be shown is another character, and much is cut."""
        for line, wanted in (
            ("", ""), ("1 br-\r", "1 br-\u240d"), ("<b>]]>&amp;", "<b>]]>&amp;"), ("\x1b[31m\u202e", "\u241b[31m\ufffd"),
            ("a" * 80, "a" * 64 + "a" * 16), ("\u20ac" * 81, "\u20ac" * 80 + ".."), ("b" * 99_999 + "\n1 br-", "b" * 80 + ".."),
        ):
            with self.subTest(line[:20]):
                (self.room / "odd.vme").write_bytes(f"{TWICE[:12]}{line}\n".encode())
                judged = self.judged("odd.vme")
                error = next(tree.fromstring(junit(judged, MOMENT, 0)).iter("error"))
                said = judged.traces[0].outcome.fault
                self.assertRegex(said, r"^X[23] line 3 is ")
                self.assertEqual(error.text, f"{said}\n    {wanted}\nvmebus rule {said[:2]} explains it\n")
                text = page(judged, MOMENT)
                self.sound(text)
                self.assertIn(f"<pre>{escaped(wanted)}</pre>", text)
        self.assertEqual(judging.quoted(str(self.room / "none.vme"), "X2 line 3 is no edge"), None)
        self.assertEqual(judging.quoted(str(self.room / "legal.vme"), "X4 the trace is cut off"), None)

    def test_twice(self) -> None:
        """A name that is given twice, and a trace that comes over a pipe, which can be read once."""
        status, out, said = self.call("scenario.toml", "legal.vme", "/dev/stdin", "legal.vme", input=TWICE.encode())
        self.assertEqual((status, said), (2, "report: 2 legal, 1 refused, 0 faults of 3 traces\n"))
        text = self.sound(out).text
        self.assertIn("/dev/stdin edge 2: 1 br-", text)
        self.assertIn("legal.vme 6 edges legal.vme 6 edges", text)

    def test_hostile_names(self) -> None:
        """A name is a text, whatever it has; what cannot be shown is another character."""
        legal, refused, broken = ([f"{it}{end}" for it in HOSTILE] for end in ("1", "2", "3"))
        for names, text in ((legal, LEGAL), (refused, TWICE), (broken, BROKEN)):
            for name in names:
                self.write(name, text)
        status, out, said = self.call("--junit=junit <&>.xml", "--", self.write("-<scenario>", ONE_SLOT), *legal, *refused, *broken)
        self.assertEqual((status, said), (1, "report: 12 legal, 12 refused, 12 faults of 36 traces\n"))
        found, cases = self.sound(out), [*tree.parse(self.room / "junit <&>.xml").getroot().iter("testcase")]
        names = [it.get("name") for it in cases]
        self.assertEqual(names, [*map(safe, legal), *map(safe, refused), *map(safe, broken)])
        self.assertEqual([it for it in (safe(name) for name in (*legal, *refused, *broken)) if it not in "".join(found.texts)], [])
        self.assertEqual(found.tags.count("svg"), len(HOSTILE))

    def test_schema(self) -> None:
        """The file of JUnit XML is valid, with refused edges, faults, and a trace of each example."""
        files = sorted((TOP / "examples").glob("*/trace.vme"))
        for names in (("legal.vme",), ("broken.vme",), ("legal.vme", "twice.vme", "late.vme", "none.vme"), tuple(map(str, files))):
            with self.subTest(names[0]):
                self.assertEqual(list(invalid(tree.fromstring(junit(self.judged(*names), MOMENT, 1.5)))), [])


class Statuses(Small):
    """Exit statuses, and what is said on standard error."""

    def test_traces(self) -> None:
        for status, counts, names in (
            (0, "1 legal, 0 refused, 0 faults of 1 trace", ("legal.vme",)),
            (0, "2 legal, 0 refused, 0 faults of 2 traces", ("legal.vme", "legal.vme")),
            (2, "0 legal, 1 refused, 0 faults of 1 trace", ("twice.vme",)),
            (2, "1 legal, 1 refused, 0 faults of 2 traces", ("legal.vme", "owner.vme")),
            (1, "0 legal, 0 refused, 1 fault of 1 trace", ("broken.vme",)),
            (1, "1 legal, 0 refused, 1 fault of 2 traces", ("none.vme", "legal.vme")),
            (1, "0 legal, 1 refused, 1 fault of 2 traces", ("twice.vme", "broken.vme")),
            (1, "1 legal, 1 refused, 1 fault of 2 traces", ("late.vme", "legal.vme")),
            (1, "0 legal, 0 refused, 1 fault of 1 trace", (".",)),
            (1, "0 legal, 0 refused, 1 fault of 1 trace", ("/dev/null",)),
        ):
            with self.subTest(names):
                ended, out, said = self.call("scenario.toml", *names)
                self.assertEqual((ended, said), (status, f"report: {counts}\n"))
                self.sound(out)

    def test_faults(self) -> None:
        """What is no report: one line on standard error, status 1, and nothing on standard output."""
        self.write("bad.toml", "slots = 0\n")
        for words, part in (
            ((), "it takes a scenario and at least one trace"), (("scenario.toml",), "it takes a scenario"),
            (("scenario.toml", "legal.vme", "--form"), "'--form'"), (("scenario.toml", "legal.vme", "--junit"), "--junit takes the name"),
            (("--junit", "a", "--junit=b", "scenario.toml", "legal.vme"), "twice"),
            (("scenario.toml", "legal.vme", "--junit", "."), "cannot write .: Is a directory"),
            (("scenario.toml", "legal.vme", "--junit", "none/a.xml"), "cannot write none/a.xml: No such file"),
            (("none.toml", "legal.vme"), "F1 cannot read none.toml"), (("bad.toml", "legal.vme"), "Q3 missing key arbiter"),
            (("bad.toml", "legal.vme", "twice.vme"), "Q3 missing key arbiter"), (("legal.vme", "scenario.toml"), "Q1 "),
        ):
            with self.subTest(words):
                status, out, said = self.call(*words)
                self.assertEqual((status, out, said.count("\n")), (1, "", 1), said)
                self.assertTrue(said.startswith("report: "), said)
                self.assertIn(part, said)

    def test_full_disk(self) -> None:
        with open("/dev/full", "wb") as full:
            words = [sys.executable, str(TOP / "tools/report"), "scenario.toml", "legal.vme"]
            ran = subprocess.run(words, cwd=self.room, stdout=full, stderr=subprocess.PIPE)
        self.assertEqual((ran.returncode, ran.stderr), (1, b"report: cannot write the report: No space left on device\n"))

    def test_help(self) -> None:
        status, out, said = self.call("--help")
        self.assertEqual((status, said), (0, ""))
        for part in ("SCENARIO TRACE..", "--junit FILE", "status is 0", "2 if one has a refused edge", "It is 1", "unproved", "tools/report examples/"):
            self.assertIn(part, out)

    def test_changed(self) -> None:
        """A trace that is another one by the time it is explained has a fault."""
        instead = self.room / "twice.vme"

        def run(words: Sequence[str], before: Callable = judging.run) -> judging.Ran:
            if words[0] == "explain":
                instead.write_text(LEGAL)
            return before(words)

        with mock.patch.object(judging, "run", run):
            judged = self.judged("twice.vme", "legal.vme")
        self.assertEqual([it.outcome for it in judged.traces], [Faulty("the file changed while it was read"), Legal(6)])
        self.assertIn('<error type="fault" message="the file changed while it was read">', junit(judged, MOMENT, 0))
        self.assertIn("twice.vme the file changed while it was read", self.sound(page(judged, MOMENT)).text)

    def test_other_program(self) -> None:
        """If another program is called vmebus, that is a fault."""
        other = self.room / "other"
        for text, part in (("echo hello", "the program said: hello"), ("exit 7", "ended with status 7"), ("kill -9 $$", "status -9")):
            with self.subTest(text):
                other.write_text(f"#!/bin/sh\n{text}\n")
                other.chmod(0o755)
                status, out, said = self.call("scenario.toml", "legal.vme", env={**os.environ, "VMEBUS_PROGRAM": str(other)})
                self.assertEqual((status, out, said.count("\n")), (1, "", 1))
                self.assertIn(part, said)


# What the schema has of an element: its children in their order, how often each may come, and its attributes.
MANY = 1 << 30
TOKEN, COUNT, DECIMAL = r"\S|\S.*\S", r"[+-]?\d+", r"[+-]?(\d+(\.\d*)?|\.\d+)"
CHILDREN: Dict[str, List[Tuple[Tuple[str, ...], int, int]]] = {
    "testsuites": [(("testsuite",), 0, MANY)],
    "testsuite": [(("properties",), 1, 1), (("testcase",), 0, MANY), (("system-out",), 1, 1), (("system-err",), 1, 1)],
    "properties": [(("property",), 0, MANY)],
    "testcase": [(("error", "failure"), 0, 1)],
}
ATTRIBUTES: Dict[str, Dict[str, str]] = {
    "testsuite": {
        "package": TOKEN, "id": COUNT, "name": TOKEN, "timestamp": r"\d{4}-\d\d-\d\dT\d\d:\d\d:\d\d", "hostname": TOKEN,
        "tests": COUNT, "failures": COUNT, "errors": COUNT, "time": DECIMAL,
    },
    "property": {"name": TOKEN, "value": ".*"},
    "testcase": {"name": ".*", "classname": ".*", "time": DECIMAL},
    "error": {"type": ".*", "message": ".*"},
    "failure": {"type": ".*", "message": ".*"},
}
OPTIONAL = {("error", "message"), ("failure", "message")}
WITH_TEXT = ("error", "failure", "system-out", "system-err")


def invalid(root: tree.Element) -> Iterator[str]:
    """What is not valid by the schema of JUnit's task in Ant; `testsuites` has to be the root."""
    if root.tag != "testsuites":
        yield f"the root is {root.tag}"
    for node in root.iter():
        yield from of_children(node)
        yield from of_attributes(node)
        texts = [node.text, *(below.tail for below in node)]
        if node.tag not in WITH_TEXT and any((it or "").strip() for it in texts):
            yield f"{node.tag} has a text"


def of_children(node: tree.Element) -> Iterator[str]:
    """What is wrong with the elements in an element."""
    rest = [it.tag for it in node]
    for names, least, most in CHILDREN.get(node.tag, []):
        count = next((place for place, it in enumerate(rest) if it not in names), len(rest))
        if not least <= count <= most:
            yield f"{node.tag} has {count} of {names}"
        rest = rest[count:]
    if rest:
        yield f"{node.tag} has {rest[0]} there"


def of_attributes(node: tree.Element) -> Iterator[str]:
    """What is wrong with the attributes of an element."""
    allowed = ATTRIBUTES.get(node.tag, {})
    yield from (f"{node.tag} has {name}" for name in node.keys() if name not in allowed)
    for name, form in allowed.items():
        value = node.get(name)
        if value is None and (node.tag, name) not in OPTIONAL:
            yield f"{node.tag} has no {name}"
        elif value is not None and not re.fullmatch(form, " ".join(value.split()) if form == TOKEN else value):
            yield f"{node.tag} has {name} {value}"


class Schema(unittest.TestCase):
    """The checks by the schema refuse what it refuses."""

    def test_refuses(self) -> None:
        self.assertEqual(list(invalid(tree.fromstring(SMALL_JUNIT))), [])
        for old, new in (
            ('package="vmebus" ', ""), ('id="0"', 'id="first"'), ("09:30:05", "09:30:05.1"), ('time="0"', 'time="1 s"'), ('time="0"', ""),
            ('type="X2" ', ""), ("</properties>", "</properties><system-err/>"), ("    <system-err/>\n", ""), ('name="scenario.toml"', 'name=" "'),
            ("<testsuites>", '<testsuites tests="3">'), ("<error", '<failure type="E1"/><error'), ("</properties>", "</properties>text"),
            ("<property ", "<other/><property "), ('classname="vmebus" ', 'classname="vmebus" file="a" '), ('value="VERSION"', ""),
        ):
            with self.subTest(new or old):
                self.assertNotEqual(SMALL_JUNIT.replace(old, new, 1), SMALL_JUNIT)
                self.assertNotEqual(list(invalid(tree.fromstring(SMALL_JUNIT.replace(old, new, 1)))), [])


class Parts(unittest.TestCase):
    """What a report is made of. The answers are worked out by hand."""

    def test_balance(self) -> None:
        """The reader of pages sees what is wrong with one."""
        for text in ("<p>", "</p>", "<p><b></p></b>", "<svg><path></svg>"):
            self.assertNotEqual(Page(text).wrong, [], text)
        self.assertEqual(Page("<p>a<br><meta charset=x><svg><path/></svg></p>").wrong, [])

    def test_sums(self) -> None:
        """Lines of `summary` of one trace, and of several."""
        lines = ["edges 9 accepted 7 refused 2", "G1 accepted 3 refused 1", "S2 refused 1", "never accepted G2 G3", "met overlap 2 first 5", "never met none"]
        boards = ["board 2 asked 3 waited 9 longest-wait 4 tenures 2 held 8 longest-hold 5 cycles 6 holds since 9", "board 2 answered 1 delivered 0"]
        for found in (sums([*lines, *boards]), sums(["traces 2", *lines, *boards])):
            self.assertEqual((found.edges, found.rules), (Counts(7, 2), {"G1": Counts(3, 1), "S2": Counts(None, 1)}))
            self.assertEqual((found.never_accepted, found.met, found.never_met), (("G2", "G3"), {"overlap": 2}, ()))
            self.assertEqual([found.boards[2][it] for it in ("asked", "longest-wait", "cycles", "answered", "delivered")], [3, 4, 6, 1, 0])

    def test_rules(self) -> None:
        said = "E1 any An edge needs a board.\nG1 c bgN- It grants.\nG15 addr- v It begins.\nG9 br- The owner.\n"
        wanted = (Rule("E1", "any", "An edge needs a board."), Rule("G1", "c bgN-", "It grants."), Rule("G15", "addr- v", "It begins."), Rule("G9", "br-", "The owner."))
        self.assertEqual(rules_of(said), wanted)

    @staticmethod
    def refused(verdict: str, condition: str) -> Refused:
        return Refused(3, "1 br-", verdict, f"3 1 br- {verdict}\nfails {condition}\n", None, "", None)

    def judged(self, *outcomes: object) -> Judged:
        return Judged("s", tuple(Trace(f"t{place}", it) for place, it in enumerate(outcomes)), (), None, (), "vmebus 2.0.0", False)

    def test_causes(self) -> None:
        """The cause of most traces comes first, and of as many the one that came first."""
        one, two, three = self.refused("E3 G9", "a"), self.refused("E3 G9", "b"), self.refused("E3 G13", "a")
        causes = causes_of(self.judged(one, Legal(1), two, three, two))
        self.assertEqual([(it.rule, it.failing, len(it.traces)) for it in causes], [("G9", ("b",), 2), ("G9", ("a",), 1), ("G13", ("a",), 1)])

    def test_headline(self) -> None:
        one, fault, legal = self.refused("E2", "a"), Faulty("X1 a"), Legal(1)
        for outcomes, wanted in (
            ((legal,), "The trace is legal"), ((legal, legal), "All 2 traces are legal"), ((one,), "The trace has a refused edge"), ((fault,), "The trace has a fault"),
            ((one, legal), "1 of 2 traces has a refused edge"), ((one, one, fault), "2 of 3 traces have a refused edge, and 1 has a fault"),
            ((fault, fault, legal), "2 of 3 traces have a fault"),
        ):
            self.assertEqual(headline(self.judged(*outcomes)), wanted)

    def test_no_history(self) -> None:
        """If `shrink` takes too long, both files say so."""
        judged = self.judged(self.refused("E2", "a"))
        self.assertIn("None was found within 10 seconds", page(judged, MOMENT))
        self.assertIn("\nno short history within 10 seconds\n", junit(judged, MOMENT, 0))

    def test_unproved(self) -> None:
        """Both files say of a program of ./try that it is unproved, and of another nothing."""
        proved = self.judged(Legal(1))
        unproved = replace(proved, is_unproved=True)
        for judged, wanted in ((proved, "vmebus 2.0.0"), (unproved, "vmebus 2.0.0, unproved")):
            self.assertIn(f"by {wanted}, 2026-12-01", page(judged, MOMENT))
            self.assertIn(f'name="version" value="{wanted}"', junit(judged, MOMENT, 0))
            self.assertEqual("./try built the program" in page(judged, MOMENT), judged.is_unproved)

    def test_long_history(self) -> None:
        """A long history has its header, its end, and how many edges were left out between."""
        edges = [f"1 as{'+-'[place % 2]}" for place in range(MOST_EDGES + 7)]
        found = Page(history(["vme 1", *edges])).texts
        self.assertEqual("".join(found).split("\n"), ["vme 1", ".. 7 edges", *edges[7:]])
        self.assertEqual("".join(Page(history(["vme 1", *edges[7:]])).texts).split("\n"), ["vme 1", *edges[7:]])

    def test_command(self) -> None:
        """A shell takes a command apart into its words, and a name that begins with `-` is no option."""
        self.assertEqual(shlex.split(command("explain", "-a", "it's; b")), ["vmebus", "explain", "./-a", "it's; b"])

    def test_limit(self) -> None:
        """A process ends once it has used its seconds."""
        with mock.patch.object(judging, "SECONDS", 1), subprocess.Popen([sys.executable, "-c", "while True: pass"]) as busy:
            limit(busy.pid)
            self.assertIn(busy.wait(), (-signal.SIGXCPU, -signal.SIGKILL))
