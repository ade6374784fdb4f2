#!/usr/bin/env python3
"""Tests of the package vmebus over the shared library.

    test_vmebus.py [-v]

All examples and all acceptance cases that replay a trace, but the largest, have to be printed as
they are stored. What a bus shows after each edge of the examples has to be what the model of the
rules says, which was written from the pages alone. Draws have to make the stored traces of
`drive --seed`.
"""

import copy
import ctypes
import io
import os
import pickle
import re
import shutil
import subprocess
import sys
import tempfile
import types
import unittest
from importlib.machinery import SourceFileLoader
from importlib.util import module_from_spec, spec_from_loader
from pathlib import Path

HERE = Path(__file__).resolve().parent
TOP = HERE.parents[1]
EXAMPLES = TOP / "examples"
sys.path[:0] = [str(TOP / "python"), str(EXAMPLES / "embedded-python"), str(TOP / "acceptance")]
import bench
import vmebus
from vmebus import Bus, Condition, Delivery, Draws, NoEdge, ScenarioRefused, Wires
from vmebus_model import backplane, embedded
from vmebus_model.bus import Bus as Model

ONE_TENURE, TWO_INTERRUPTERS = EXAMPLES / "one-tenure", EXAMPLES / "two-interrupters"


def script(name):
    """A script of acceptance/ as a module."""
    loader = SourceFileLoader(f"acceptance_{name}", str(TOP / "acceptance" / name))
    module = module_from_spec(spec_from_loader(loader.name, loader))
    sys.modules[loader.name] = module
    loader.exec_module(module)
    return module


def examples():
    return sorted(it.parent for it in EXAMPLES.glob("*/trace.vme"))


def edges_of(folder):
    """The version of an example's trace, and the lines of its edges."""
    header, *edges = (folder / "trace.vme").read_text().splitlines()
    return int(header[4:]), edges


def opened(folder):
    return Bus(folder / "scenario.toml", edges_of(folder)[0])


def stepped(folder, count):
    """The bus of an example after the first edges of its trace."""
    bus = opened(folder)
    for edge in edges_of(folder)[1][:count]:
        bus.step(edge)
    return bus


class Replays(unittest.TestCase):
    """Every trace that acceptance/embedded has the bench in C replay."""

    def test_replays(self):
        run, count = script("run"), 0
        for found in run.find_all():
            forms = () if found.case.has("large") else run.forms_of_bench(found.runs)
            for form in forms:
                count += 1
                with self.subTest(found.case.name), tempfile.TemporaryDirectory() as room:
                    form.case.lay_out(room)
                    self.look_at(form, [Path(room, it.decode()) for it in form.words])
        self.assertGreater(count, 0)
        print(f"{count} traces replayed")

    def look_at(self, form, files):
        out = io.StringIO()
        try:
            status = bench.main(files, out)
        except SystemExit:
            status = 1
        self.assertEqual(out.getvalue().encode(), form.outcome.stdout)
        self.assertIn(status, form.outcome.statuses)

    def test_faults(self):
        """Each case whose scenario is refused has the line that the program prints."""
        run, count = script("run"), 0
        for found in run.find_all():
            said = re.match(rb"vmebus: ([PQ]\d.*)\n", found.case.bytes("stderr", b""))
            for form in run.forms_of_bench(found.runs) if said else ():
                count += 1
                with self.subTest(found.case.name), tempfile.TemporaryDirectory() as room:
                    form.case.lay_out(room)
                    with self.assertRaises(ScenarioRefused) as caught:
                        Bus(Path(room, "scenario.toml"))
                    self.assertEqual(caught.exception.line, said[1].decode())
                    self.assertEqual(caught.exception.code, said[1].decode()[:2])
        self.assertGreater(count, 0)


# Edges whose failing conditions are asked for at each edge of the examples.
TRIED = "1 bbsy-;1 addr- r2;1 addr- i4;1 as-;2 ds-;3 dtack-;c bg3-"


class Views(unittest.TestCase):
    """What a bus shows after each edge of the examples is what the model says."""

    def test_views(self):
        for folder in examples():
            scenario, trace = ((folder / it).read_bytes() for it in ("scenario.toml", "trace.vme"))
            edges = embedded.edges_of(trace)
            model = Model(backplane.read(scenario), edges.version)
            bus = Bus(scenario, edges.version)
            for number, edge in enumerate(edges, 1):
                with self.subTest(f"{folder.name} {number} {edge}"):
                    self.ask_both(model, bus)
                    self.step_both(model, bus, number, edge)

    def ask_both(self, model, bus):
        lines = f"vme 1;{TRIED};".replace(";", "\n").encode()
        for edge in embedded.edges_of(lines):
            self.assertEqual(printed(bus.failing(str(edge))), texts(embedded.failing_lines(model, edge)))

    def step_both(self, model, bus, number, edge):
        line, driver = str(edge), "c" if edge.driver in (0, "c") else edge.driver
        fails = texts(embedded.failing_lines(model, edge))
        self.assertEqual(printed(bus.failing(line)), fails)
        verdict = bus.step(line)
        self.assertEqual(str(verdict), embedded.step(model, edge, number))
        self.assertEqual(printed(verdict.failing), fails)
        *lines, _ = embedded.bus_lines(model)  # the last is of slot 22, which the module refuses
        self.assertEqual(lines, list(bus_lines(bus)))
        lines = list(embedded.driver_lines(model, edge.driver))
        self.assertEqual(lines, list(driver_lines(bus, driver)))


def printed(conditions):
    """The texts of conditions."""
    return tuple(str(it) for it in conditions)


def texts(lines):
    """The texts of conditions, which the model prints behind their names."""
    return tuple(it.partition(": ")[2] for it in lines)


def bus_lines(bus):
    """What a bus shows, as the model prints it."""
    yield f"holder {bus.holder or 0} grant {bus.grant_at or 0}"
    for driver in ("c", *range(1, vmebus.MOST_SLOTS + 1)):
        pins = bus.pins(driver)
        low = [it for it in vmebus.PINS if it in pins.low]
        yield " ".join([str(driver), *low, *([pins.shows] if pins.shows else [])])


def driver_lines(bus, driver):
    """What a driver could make next, which of its wires are low, and which it has."""
    yield f"open {', '.join(bus.open(driver))}".rstrip()
    yield " ".join(["low", *(it for it in vmebus.WIRES if bus.low(driver, it))])
    yield " ".join(["has", *(it for it in vmebus.WIRES if bus.has(driver, it))])


class Verdicts(unittest.TestCase):
    def test_refusal(self):
        verdict = stepped(ONE_TENURE, 9).step("1 br-")
        self.assertEqual((verdict.ok, verdict.code, verdict.rule), (False, "E3", "G9"))
        self.assertEqual((str(verdict), bool(verdict), verdict.delivery), ("E3 G9", False, None))
        own_busy_high = Header.conditions().index("OWN_BUSY_HIGH")
        self.assertEqual(verdict.failing, (Condition("own bbsy is high", own_busy_high, True),))
        self.assertEqual(str(verdict.failing[0]), "own bbsy is high (profile)")

    def test_conditions_of_the_standard(self):
        verdict = stepped(ONE_TENURE, 3).step("1 as-")
        own_address_on = Header.conditions().index("OWN_ADDRESS_ON")
        self.assertEqual(verdict.failing, (Condition("own addr is on", own_address_on, False),))
        self.assertEqual(str(verdict.failing[0]), "own addr is on")

    def test_accepted(self):
        verdict = opened(ONE_TENURE).step("1 br-")
        self.assertEqual((verdict.ok, verdict.code, verdict.rule), (True, "ok", None))
        self.assertEqual((str(verdict), bool(verdict), verdict.failing), ("ok", True, ()))

    def test_delivery(self):
        lines = (TWO_INTERRUPTERS / "expected").read_text().splitlines()
        number, line = next(it.split(" ", 1) for it in lines if "irq" in it)
        edge = edges_of(TWO_INTERRUPTERS)[1][int(number) - 1]
        verdict = stepped(TWO_INTERRUPTERS, int(number) - 1).step(edge)
        self.assertEqual(str(verdict), line)
        level, handler, answered_by, status = (int(it) for it in re.findall(r"\d+", line))
        self.assertEqual(verdict.delivery, Delivery(level, handler, answered_by, status))


class Copies(unittest.TestCase):
    def test_copies(self):
        """A copy goes its own way, and a refused edge leaves a bus as it was."""
        bus = opened(ONE_TENURE)
        for kept in (bus.copy(), copy.copy(bus), copy.deepcopy(bus)):
            self.assertEqual(bus, kept)
            self.assertTrue(kept.step("1 br-"))
            self.assertNotEqual(bus, kept)
            bus.step("1 bbsy-")
            self.assertEqual(bus, opened(ONE_TENURE))
        self.assertNotEqual(bus, "a text")

    def test_copies_of_draws(self):
        """A copy of draws draws on alike, and leaves those that it is of."""
        bus, draws = stepped(TWO_INTERRUPTERS, 8), Draws(7)
        draws.next(bus)
        copies = draws.copy(), copy.copy(draws), copy.deepcopy(draws), pickle.loads(pickle.dumps(draws))
        for kept in copies:
            self.assertEqual(draws, kept)
            drawn = [kept.next(bus) for _ in range(20)]
            self.assertNotEqual(draws, kept)
            self.assertEqual(drawn, [it.next(bus) for it in [draws.copy()] for _ in range(20)])
        self.assertNotEqual(draws, Draws(7))
        self.assertNotEqual(draws, bus)

    def test_pickled_bus(self):
        """A bus that was pickled goes on alike."""
        bus = stepped(TWO_INTERRUPTERS, 8)
        kept = pickle.loads(pickle.dumps(bus))
        self.assertEqual((bus, repr(bus)), (kept, repr(kept)))
        for edge in edges_of(TWO_INTERRUPTERS)[1][8:]:
            self.assertEqual(str(bus.step(edge)), str(kept.step(edge)))
        self.assertEqual(bus, kept)

    def test_pickle_of_another_build(self):
        """Words that another version of the library kept are not taken."""
        for it in (opened(ONE_TENURE), Draws(1)):
            make, (version, words, *rest) = it.__reduce__()
            self.assertRaisesRegex(ValueError, "another version", make, version + 1, words, *rest)
            self.assertRaisesRegex(ValueError, "another version", make, version, words[:-4], *rest)

    def test_repr(self):
        bus = opened(ONE_TENURE)
        self.assertEqual(repr(bus), "<vmebus.Bus version 1, 0 edges accepted, held by nobody>")
        for edge in ("1 br-", "1 br-", "c bg3-", "1 bbsy-"):
            bus.step(edge)
        self.assertEqual(repr(bus), "<vmebus.Bus version 1, 3 edges accepted, held by slot 1>")
        self.assertEqual((bus.version, bus.accepted), (1, 3))

    def test_failing_makes_no_edge(self):
        bus = opened(ONE_TENURE)
        self.assertEqual(bus.failing("1 br-"), ())
        self.assertEqual(bus, opened(ONE_TENURE))


class Drawing(unittest.TestCase):
    def test_draws(self):
        """Draws over all wires make the stored traces of `drive --seed`."""
        drawn = sorted(EXAMPLES.glob("*/drawn"))
        self.assertTrue(drawn)
        for it in drawn:
            words = it.read_text().split("\n")
            bus, draws = opened(it.parent), Draws(int(words[words.index("--seed") + 1]))
            verdicts = (it.parent / "expected").read_text().splitlines()
            # With `--until` an edge that is refused may stand behind those that are drawn.
            legal = [edge for edge, it in zip(edges_of(it.parent)[1], verdicts) if " ok" in it]
            for edge in legal:
                self.assertEqual(draws.next(bus), edge)
                self.assertTrue(bus.step(edge))

    def test_wires(self):
        """Of a driver that is named its named wires alone are played."""
        bus, draws = opened(EXAMPLES / "nine-slots"), Draws(7)
        wires = Wires({2: ["dtack"], "c": ["bg0"]})
        for _ in range(300):
            edge = draws.next(bus, wires)
            if edge is None:
                break
            self.assertRegex(edge, r"2 dtack|c bg0|(?!2 |c )")
            self.assertTrue(bus.step(edge))

    def test_wires_alone(self):
        """Only slot 1 can begin, by its br, and then only the controller can go on, by bg3."""
        bus, nothing = opened(ONE_TENURE), {it: () for it in ("c", *range(1, 22))}
        self.assertIsNone(Draws(1).next(bus, Wires(nothing)))
        self.assertIsNone(Draws(1).next(bus, Wires({**nothing, 1: ["bbsy", "dtack"], 2: ["br"]})))
        self.assertEqual(Draws(1).next(bus, Wires({**nothing, 1: ["br"]})), "1 br-")
        self.assertTrue(bus.step("1 br-"))
        self.assertIsNone(Draws(1).next(bus, Wires({**nothing, "c": ["bg2", "bclr"]})))
        self.assertEqual(Draws(1).next(bus, Wires({**nothing, "c": ["bg3"]})), "c bg3-")


class Faults(unittest.TestCase):
    def test_no_edge(self):
        bus = opened(ONE_TENURE)
        for line in ("", "2 br", "2 br-\n", "22 br-", "c br-", "2  br-", "2 addr- i8", "2 b\u00fc-",
                     "\udc00"):
            with self.assertRaisesRegex(NoEdge, "is not the line of an edge") as caught:
                bus.step(line)
            self.assertIn(repr(line), str(caught.exception))

    def test_scenarios(self):
        text = (ONE_TENURE / "scenario.toml").read_text()
        long = text + "#" * 1_048_576
        unknown = [(text, version, "X1") for version in (0, 3, -1, 2**32 + 1, 2**32 + 2)]
        for scenario, version, code in (("slots", 1, "Q1"), (long, 1, "F2"), *unknown):
            with self.assertRaises(ScenarioRefused) as caught:
                Bus(scenario, version)
            self.assertEqual(caught.exception.code, code)
        self.assertEqual(Bus(text), Bus(text.encode()))

    def test_name_of_a_file(self):
        """The name of a file as a text is no scenario, and the error says what is wanted."""
        self.assertRaisesRegex(ScenarioRefused, "'scenario.toml' is taken as the text.*pass a Path", Bus, "scenario.toml")
        self.assertRaises(FileNotFoundError, Bus, Path("no such file"))

    def test_types(self):
        """An argument of another type is told by its name."""
        bus, text = opened(ONE_TENURE), (ONE_TENURE / "scenario.toml").read_text()
        for name, call, *given in (
            ("scenario", Bus, None), ("scenario", Bus, 3), ("version", Bus, text, "1"), ("version", Bus, text, 1.0),
            ("version", Bus, text, True), ("edge", bus.step, b"1 br-"), ("edge", bus.step, None), ("driver", bus.open, 2.7),
            ("driver", bus.open, True), ("driver", bus.open, None), ("wire", bus.low, 1, 3), ("only", Wires, {2: "dtack"}),
            ("only", Wires, [1]), ("only", Wires, {1: None}), ("wire", Wires, {1: [3]}),
            ("wires", Draws(1).next, bus, {1: []}), ("wires", Draws(1).next, bus, None), ("seed", Draws, 1.5), ("seed", Draws, "1"), ("bus", Draws(1).next, Draws(1)),
        ):
            with self.subTest(f"{name} {given}"):
                self.assertRaisesRegex(TypeError, f"^{name}: ", call, *given)

    def test_names(self):
        bus = opened(ONE_TENURE)
        for driver in (0, 22, -1, "d", "x", "1", 2**32 + 1):
            self.assertRaisesRegex(ValueError, "^driver: ", bus.pins, driver)
        self.assertRaisesRegex(ValueError, "^wire: 'dtak' is no wire", bus.low, 1, "dtak")
        self.assertRaisesRegex(ValueError, "^wire: ", Wires, {2: ["d", "t"]})
        for seed in (1 << 64, -1):
            self.assertRaisesRegex(ValueError, "^seed: .* is no seed", Draws, seed)

    def test_draws_are_no_bus(self):
        """Words of another number are passed to no call: they may be too few for it."""
        words = opened(ONE_TENURE)._words
        self.assertRaises(ctypes.ArgumentError, vmebus.LIBRARY.vmebus_seed_sized, words, 148, 1)

    def import_in(self, folder, library):
        """What Python says of an import of the package in a folder."""
        given = {**os.environ, "VMEBUS_LIBRARY": library}
        words = [sys.executable, "-B", "-c", "import vmebus"]
        ran = subprocess.run(words, cwd=folder, env=given, text=True, stderr=subprocess.PIPE)
        return ran.stderr.splitlines()[-1] if ran.stderr else ""

    def test_no_library(self):
        said = self.import_in(TOP / "python", "/no/libvmebus.so")
        self.assertRegex(said, r"LibraryError: .* ./try --library .* \(cd crates/vmebus_c && rt lib && ./shared\) ")

    def test_folder_of_the_library(self):
        self.assertEqual(self.import_in(TOP / "python", str(Path(vmebus.LIBRARY._name).parent)), "")

    def test_other_build(self):
        """The package does not go with a library whose bus has another number of words."""
        with tempfile.TemporaryDirectory() as room:
            shutil.copytree(TOP / "python/vmebus", Path(room, "vmebus"))
            module = Path(room, "vmebus/_library.py")
            module.write_text(module.read_text().replace(f", {vmebus.WORDS},", ", 166,"))
            said = self.import_in(room, vmebus.LIBRARY._name)
        self.assertRegex(said, "LibraryError: .* are of different builds: ")


class Installed(unittest.TestCase):
    """pip installs the package, without network, and it takes the library with it."""

    def test_installed(self):
        with tempfile.TemporaryDirectory() as room:
            subprocess.run([sys.executable, "-m", "venv", room], check=True)
            python, given = Path(room, "bin/python"), {**os.environ, "VMEBUS_LIBRARY": vmebus.LIBRARY._name, "PYTHONPATH": ""}
            words = [python, "-m", "pip", "install", "--no-index", "--quiet", "--disable-pip-version-check", TOP / "python"]
            subprocess.run(words, env=given, check=True)
            del given["VMEBUS_LIBRARY"]
            asked = "import vmebus; print(vmebus.__version__, vmebus.Bus(open(0).read()).step('1 br-'), vmebus.LIBRARY._name)"
            ran = subprocess.run([python, "-c", asked], cwd=room, env=given, input=(ONE_TENURE / "scenario.toml").read_text(),
                                 text=True, stdout=subprocess.PIPE, check=True)
        version, verdict, library = ran.stdout.split()
        self.assertEqual((version, verdict), (vmebus.__version__, "ok"))
        self.assertTrue(library.startswith(str(Path(room).resolve())), library)
        self.assertIn(f'version = "{version}"\n', (TOP / "python/pyproject.toml").read_text())


class Wheels(unittest.TestCase):
    """Which library goes into a wheel."""

    def packed(self, places, **given):
        """What is said of a wheel: the bytes of its library, or the error. `places` are libraries in an empty folder."""
        with tempfile.TemporaryDirectory() as room:
            at = Path(room, "share/vmebus/python")
            shutil.copytree(TOP / "python", at, ignore=shutil.ignore_patterns("tests", "__pycache__"))
            for place in places:
                Path(room, place).parent.mkdir(parents=True, exist_ok=True)
                Path(room, place).write_text(place)
            made = "import wheels, zipfile; print(zipfile.ZipFile(wheels.build_wheel('.')).read('vmebus/libvmebus.so').decode())"
            others = {name: value for name, value in os.environ.items() if name != "VMEBUS_LIBRARY"}
            given = {name: str(Path(room, value)) for name, value in given.items()}
            ran = subprocess.run([sys.executable, "-B", "-c", made], cwd=at, env={**others, **given}, text=True,
                                 stdout=subprocess.PIPE, stderr=subprocess.STDOUT)
        return ran.stdout.splitlines()[-1]

    def test_places(self):
        installed, built = "lib/libvmebus.so", "share/vmebus/crates/vmebus_c/out/libvmebus.so"
        self.assertEqual(self.packed([installed]), installed)
        self.assertEqual(self.packed([built]), built)
        self.assertEqual(self.packed([installed, "other/it.so"], VMEBUS_LIBRARY="other/it.so"), "other/it.so")
        self.assertEqual(self.packed([installed, "other/libvmebus.so"], VMEBUS_LIBRARY="other"), "other/libvmebus.so")

    def test_none(self):
        self.assertRegex(self.packed([]), "^FileNotFoundError: there is no libvmebus.so in .*: set VMEBUS_LIBRARY ")
        self.assertRegex(self.packed(["lib/libvmebus.so"], VMEBUS_LIBRARY="other"), "^FileNotFoundError: VMEBUS_LIBRARY names ")


class RisingEdge:
    """Stands for that of cocotb: each await of a clock ends with what the test sends."""

    def __init__(self, clock):
        pass

    def __await__(self):
        yield


class Handle:
    """Stands for a handle of cocotb, whose value is X at first."""

    value = "X"


# The edges of each clock of a design: a good cycle, in some of whose clocks an edge is the effect of another, and one that is
# dropped before it is answered.
TAKEN = ["1 br", "c bg3", "1 br;1 bbsy", "c bg3", "1 addr", "1 as", "1 ds"]
GOOD = [*TAKEN, "2 dtack", "1 as;1 addr;1 ds", "2 dtack", "1 br;1 bbsy", *TAKEN[1:]]
DROPPED = "1 as;1 addr;1 ds"


class Cocotb(unittest.TestCase):
    """The monitor, on a stand-in for cocotb."""

    def setUp(self):
        triggers = types.ModuleType("cocotb.triggers")
        triggers.RisingEdge = RisingEdge
        sys.modules.update({"cocotb": types.ModuleType("cocotb"), "cocotb.triggers": triggers})
        from vmebus.cocotb import Monitor

        self.wires = {name: Handle() for name in ("1 br", "c bg3", "1 bbsy", "1 addr", "1 as", "1 ds", "2 dtack")}
        self.bus, self.monitor = opened(ONE_TENURE), Monitor

    def running(self, **how):
        """The monitor as it runs, after a clock at which all wires are X, and with all of them high."""
        running = self.monitor(None, self.wires, self.bus, **how).run()
        running.send(None)
        running.send(None)
        for handle in self.wires.values():
            handle.value = "1"
        return running

    def move(self, running, names):
        """Has some wires move in one clock."""
        for name in names.split(";"):
            self.wires[name].value = "1" if self.wires[name].value == "0" else "0"
        running.send(None)

    def test_good(self):
        running = self.running(shows=lambda _: "r2")
        for names in GOOD:
            self.move(running, names)
        self.assertEqual(self.bus.accepted, 22)
        with self.assertRaises(AssertionError) as caught:
            self.move(running, DROPPED)
        self.assertEqual(str(caught.exception), "1 ds+: E3 G18; DTACK* or BERR* is low")

    def test_address_off_late(self):
        """AS* may not rise in a clock before that in which the address goes off."""
        running = self.running(shows=lambda _: "r2")
        for names in (*TAKEN, "2 dtack", "1 ds"):
            self.move(running, names)
        with self.assertRaises(AssertionError) as caught:
            self.move(running, "1 as")
        self.assertEqual(str(caught.exception), "1 as+: E3 G20; own addr is off (profile)")

    def test_wires(self):
        """A key that is no wire of the backplane is told when the monitor is made."""
        for name in ("1 brr", "br 1", "1_br", "9 br", "01 br", "1  br", "1 bg3", "c br", "2 br", "", 1, None):
            wires = {**self.wires, name: Handle()}
            with self.subTest(name):
                self.assertRaisesRegex(ValueError, f"^wires: {name!r} is no wire", self.monitor, None, wires, self.bus)

    def test_import_without_cocotb(self):
        words = [sys.executable, "-B", "-c", "import sys; sys.modules['cocotb'] = None; import vmebus.cocotb"]
        subprocess.run(words, cwd=TOP / "python", check=True)

    def test_shows_is_wanted(self):
        running = self.running()
        for names in TAKEN[:4]:
            self.move(running, names)
        self.assertRaisesRegex(TypeError, "^shows: .* 1 addr shows", self.move, running, "1 addr")


class Header(unittest.TestCase):
    """The numbers of the package are those of vmebus.h."""

    @staticmethod
    def conditions():
        """The names of the conditions, by their numbers."""
        text = (TOP / "crates/vmebus_c/vmebus.h").read_text()
        return re.findall(r"VMEBUS_CONDITION_(\w+)", re.search(r"enum vmebus_condition \{(.*?)\}", text, re.S)[1])

    def setUp(self):
        self.text = (TOP / "crates/vmebus_c/vmebus.h").read_text()

    def number(self, name):
        return int(re.search(rf"#define VMEBUS_{name} (\w+?)u?$", self.text, re.M)[1], 0)

    def test_numbers(self):
        for name in ("VERSION", "WORDS", "DRAWS_WORDS", "NO_EDGE"):
            self.assertEqual(self.number(name), getattr(vmebus, name))

    def test_wires(self):
        wires = re.search(r"enum vmebus_wire \{(.*?)\}", self.text, re.S)[1]
        self.assertEqual(re.findall(r"VMEBUS_(\w+)", wires), [it.upper() for it in vmebus.WIRES])


if __name__ == "__main__":
    unittest.main()
