"""Tests of ./build: what it prints, with a small command `rt` in place of the kit's, which proves nothing.

They take a minute, most of it waiting."""

from __future__ import annotations

import json
import os
import re
import shutil
import signal
import subprocess
import sys
import time
from typing import Dict, List, Optional, Tuple

from tests import small
from tests.small import GATE, Case, read, write

# What plays the kit: it works on vme_slow and vme_known for as many seconds as a file says, ends a function each second, and
# keeps the files that the kit keeps. Of vme_slow it says how many functions there are, of vme_known it does not. It may have
# something to read first, and leave a process behind when it is stopped.
KIT = r"""#!/usr/bin/env bash
crate=${PWD##*/}
echo "$crate $*" >>../../calls
if [[ $1 == run ]]; then cat ../../report; exit; fi
if [[ ! -f seconds ]]; then exit; fi
if [[ $crate == vme_broken ]]; then echo "error[E7]: no such name"; exit 1; fi
seconds=$(cat seconds)
if [[ $crate == vme_slow ]]; then echo "so far: 0 of $seconds functions checked; the verdict comes last"; fi
if [[ -f leaves ]]; then setsid sleep 40 & fi
if [[ -f reading ]]; then sleep "$(cat reading)"; fi
mkdir -p out/incremental/kit
for ((at = 1; at <= seconds; at++)); do
    sleep 1
    touch "out/incremental/kit/Rattle-$crate-proofs.f$at.Tie.oantt"
done
for ((at = 1; at <= seconds; at++)); do echo "fn $crate::f$at: proved"; done
"""

CRATES = """# lowest first
vme_kept:
vme_slow may_wait=1: vme_kept
vme_known: vme_slow
vme_tests tests_may=Threads+Wait: vme_slow
vmebus_c staticlib: vme_slow
vmebus may_wait=2: vme_known
"""

# Two crates that can be proved side by side, and one that stands on both.
BESIDE = """vme_kept:
vme_known: vme_kept
vme_slow: vme_kept
vmebus: vme_known vme_slow
"""
# Starts ./build as it is on a machine of so many processors.
ON = """import os, runpy, sys
processors = set(range(int(sys.argv[1])))
os.sched_getaffinity = lambda _: processors
sys.argv[:2] = []
runpy.run_path(sys.argv[0], run_name="__main__")
"""

EXAMPLE = "1 ok\naccepted 1 refused 0\n"
LINE = re.compile(r" +\d+:\d\d  (.*)")


def lay_out(root: str, crates: str = CRATES, seconds: Optional[Dict[str, int]] = None) -> None:
    """Makes a repository of small crates, and the command that plays the kit."""
    write(f"{root}/crates.txt", crates)
    for name in re.findall(r"^\w+", crates, re.M):
        write(f"{root}/crates/{name}/src/lib.rt", "// a line\n" * 100)
    for name, number in (seconds or {}).items():
        write(f"{root}/crates/{name}/seconds", str(number))
    for file in ("crates/vmebus/stdin", "crates/vmebus/stdout", "report"):
        write(f"{root}/{file}", EXAMPLE)
    write(f"{root}/bin/rt", KIT)
    os.chmod(f"{root}/bin/rt", 0o755)
    os.mkdir(f"{root}/gate")
    for file in ("build", "gate/left.py", "gate/ending.py"):
        shutil.copy(f"{os.path.dirname(GATE)}/{file}", f"{root}/{file}")


def start(root: str, *words: str, path: Optional[str] = None, processors: int = 2) -> subprocess.Popen:
    """Starts ./build there, as on a machine of so many processors."""
    how = {"text": True, "stdout": subprocess.PIPE, "stderr": subprocess.STDOUT}
    os.makedirs(f"{root}/scratch", exist_ok=True)
    how["env"] = {**os.environ, "PATH": path or f"{root}/bin:{os.environ['PATH']}", "TMPDIR": f"{root}/scratch"}
    return subprocess.Popen([sys.executable, "-c", ON, str(processors), f"{root}/build", *words], **how)


def read_timed(made: subprocess.Popen) -> Tuple[List[str], List[float]]:
    """Returns the lines that a build prints, and the seconds before each."""
    lines, pauses, last = [], [], time.monotonic()
    for line in made.stdout:
        now = time.monotonic()
        lines.append(line.rstrip("\n"))
        pauses.append(now - last)
        last = now
    made.communicate()
    return lines, pauses


def ended(made: subprocess.Popen) -> Tuple[str, int]:
    """What a build says, and its status."""
    said, _ = made.communicate()
    return said, made.returncode


def running(root: str) -> List[str]:
    """The processes that work below a folder."""
    return [process for process in filter(str.isdigit, os.listdir("/proc")) if small.folder_of(f"/proc/{process}/cwd").startswith(root)]


class Build(Case):
    """Runs of ./build."""

    def test_lines(self) -> None:
        """While crates are proved, lines come in time, and each has news apart from its clock.

        Two crates are known to take 30 and 60 seconds; 18.5 are expected for the third, and 98.5 for the program: 207 in all. When
        the third has taken 22, 98.6 are expected for the program."""
        root = f"{self.room}/lines of a build"
        lay_out(root, seconds={"vme_slow": 22, "vme_known": 12})
        write(f"{root}/crates/vme_known/reading", "11")
        write(f"{root}/crates/vmebus/out/build-times.json", json.dumps({"vme_known": 60, "vme_kept": 30}))
        made = start(root)
        lines, pauses = read_timed(made)
        said = "\n".join(lines)
        self.tell("status", made.returncode == 0, f"{made.returncode}: {said}")
        self.tell("a line in time", max(pauses) < 30, f"{max(pauses):.1f} s without a line: {said}")
        wanted = "build: proves the program's 4 crates, in about 3 min from nothing; the log is crates/vmebus/out/build.log"
        self.tell("how long it takes", lines[0] == wanted, lines[0])
        news = [match[1] for match in map(LINE.fullmatch, lines) if match]
        self.tell("no line twice", len(news) > 6 and all(one != other for one, other in zip(news, news[1:])), said)
        counts = r"1 of 4 crates; vme_slow: ([5-9]|1\d|2[01]) of 22 functions, \d+ s.*; then about 3 min"
        slow = [line for line in news if re.match(counts, line)]
        self.tell("functions of a crate", len(slow) >= 2, said)
        known = [line for line in news if re.match(r"2 of 4 crates; vme_known: \d+ functions, \d+ s of about 60; then about 2 min", line)]
        self.tell("the time of the last build", len(known) >= 1, said)
        reads = [line for line in news if re.match(r"2 of 4 crates; vme_known: reads the sources, \d+ s of about 60; then about", line)]
        self.tell("a crate that is read", len(reads) >= 1, said)
        self.tell("a kept crate", news[0] == "1 of 4 crates; vme_kept: was proved before", said)
        self.tell("a proved crate", any(re.fullmatch(r"2 of 4 crates; vme_slow: 22 functions proved in \d+ s", line) for line in news), said)
        self.tell("the example", f"all proved; one bus tenure, as the program judges it:\n{EXAMPLE}the program is one file" in said, said)
        self.tell("how to install", "to install it: ./install --only program ~/.local" in lines[-1], said)
        self.told_in(root)

    def told_in(self, root: str) -> None:
        """Which crates were worked on, and what is kept of their times."""
        calls = read(f"{root}/calls")
        self.tell("the crates", calls == "vme_kept lib\nvme_slow lib\nvme_known lib\nvmebus run\n", calls)
        times = json.loads(read(f"{root}/crates/vmebus/out/build-times.json"))
        are_new = 21 < times.pop("vme_slow", 0) < 60 and 11 < times.pop("vme_known") < 50
        self.tell("the times", are_new and times == {"vme_kept": 30}, str(times))

    def test_beside(self) -> None:
        """On four processors two crates are proved side by side, and each line says how far both are. On three they are not.

        They are expected to take 40 seconds and 18.5, and the program 98.5: side by side that is 138.5 in all, and else 157."""
        for processors, minutes, at_once in ((4, 2, 2), (3, 3, 1)):
            root = f"{self.room}/{processors} processors"
            lay_out(root, BESIDE, {"vme_known": 11, "vme_slow": 12})
            write(f"{root}/crates/vmebus/out/build-times.json", json.dumps({"vme_kept": 0, "vme_known": 40}))
            lines, _ = read_timed(start(root, processors=processors))
            said = "\n".join(lines)
            wanted = f"build: proves the program's 4 crates, in about {minutes} min from nothing; "
            self.tell(f"how long it takes on {processors}", lines[0].startswith(wanted), said)
            both = r".* 1 of 4 crates; vme_known: \d+ functions, \d+ s.*; vme_slow: \d+ of 12 functions, \d+ s.*; then about 2 min"
            self.tell(f"how far crates are on {processors}", any(re.fullmatch(both, line) for line in lines) == (at_once == 2), said)
            self.tell(f"what is proved on {processors}", "  4 of 4 crates; vmebus: " in said and "12 functions proved in 1" in said, said)
            log = read(f"{root}/crates/vmebus/out/build.log")
            self.tell(f"the log on {processors}", log.count("proved\n") == 23 and log.count("so far") == 1, log)

    def test_faults(self) -> None:
        """What cannot be built ends with a clear line and status 1."""
        root = f"{self.room}/broken"
        lay_out(root, "vme_broken:\nvmebus: vme_broken\n", {"vme_broken": 1})
        fault = "build: vme_broken is not proved or not built: error[E7]: no such name; see crates/vmebus/out/build.log"
        no_kit = "build: there is no rt on the PATH: the Rattle kit is needed (see README.md)"
        for name, wanted, path in (("a crate that is not proved", fault, None), ("no kit", no_kit, f"{self.room}/nothing")):
            said, made = ended(start(root, path=path))
            self.tell(name, made == 1 and said.splitlines()[-1] == wanted, said)
        self.fault_beside(f"{self.room}/broken beside")
        root = f"{self.room}/wrong"
        lay_out(root, "vmebus:\n")
        write(f"{root}/report", "1 E1\n")
        said, made = ended(start(root))
        wanted = "build: the program does not write what it should on its example; see crates/vmebus/out/build.log.run"
        self.tell("a wrong report", made == 1 and said.splitlines()[-1] == wanted, said)
        said, made = ended(start(root, "--help"))
        is_well = said.startswith("usage: ./build ") and said.count("\n") == 2 and "neither the tests nor vmebus_c" in said
        self.tell("./build --help", made == 0 and is_well, said)
        said, made = ended(start(root, "crate"))
        self.tell("./build crate", made == 1 and said == "build: it takes no argument 'crate'; ./build --help prints what it does\n", said)

    def fault_beside(self, root: str) -> None:
        """A crate that is not proved ends the work on the one beside it, and the log has what was said of both."""
        lay_out(root, "vme_slow:\nvme_low:\nvme_broken: vme_low\nvmebus: vme_broken vme_slow\n", {"vme_slow": 50, "vme_broken": 1})
        said, status = ended(start(root, processors=4))
        self.tell("a crate that is not proved beside another", status == 1 and "build: vme_broken is not proved" in said, said)
        log = read(f"{root}/crates/vmebus/out/build.log")
        self.tell("the log of both", "error[E7]" in log and "so far: 0 of 50" in log, log)
        rest = running(root), os.listdir(f"{root}/scratch")
        self.tell("nothing is left of the other", not any(rest), str(rest))

    def test_interrupts(self) -> None:
        """A signal ends what runs, with what the kit leaves, and says so in a line; it then ends the build as it ends others."""
        signals = ("an interrupt", signal.SIGINT), ("a request to end", signal.SIGTERM), ("a hangup", signal.SIGHUP)
        for name, number in signals:
            root = f"{self.room}/{name}"
            crates = ("vme_slow", "vme_known")
            lay_out(root, "vme_slow:\nvme_known:\nvmebus: vme_slow vme_known\n", dict.fromkeys(crates, 50))
            for crate in crates:
                write(f"{root}/crates/{crate}/leaves", "")
            made = start(root, processors=4)
            while made.poll() is None and not all(os.path.exists(f"{root}/crates/{crate}/out/incremental/kit") for crate in crates):
                time.sleep(0.05)
            made.send_signal(number)
            said, status = ended(made)
            wanted = "build: stopped; what was proved is kept, and ./build goes on from there"
            self.tell(name, status == -number and said.splitlines()[-1] == wanted, f"{status} {said}")
            rest = running(root), os.listdir(f"{root}/scratch")
            self.tell(f"nothing is left of {name}", not any(rest), str(rest))
