"""The words of the command line: which command they ask for, of which files and with which options."""

import re
from dataclasses import dataclass, field
from typing import Dict, List

from .draw import goals, why_no_goal
from .faults import Fault, WrongWords
from .codes import codes
from .sources import TABLE, unmarked
from .traces import name_of

GREATEST = 2**64 - 1
MOST = 1_048_576
WINDOW = 200
SHOWN = 60
NUMBER = re.compile(r"\+?0*([0-9]{1,20})")

# For each command: how many operands it has, at least and at most, and the options that it takes.
COMMANDS = {
    "replay": (2, 2, ("--full",)),
    "check": (2, None, ()),
    "explain": (2, 2, ("--edge",)),
    "shrink": (2, 2, ("--edge", "--progress")),
    "state": (2, 2, ("--after",)),
    "show": (2, 2, ("--from", "--to", "--color")),
    "cycles": (2, 2, ()),
    "summary": (2, None, ()),
    "races": (2, 2, ("--edge", "--other")),
    "same": (3, 3, ()),
    "order": (2, 2, ("--slack", "--where", "--progress")),
    "probe": (2, 2, ("--skew",)),
    "rule": (0, 1, ()),
    "drive": (1, 1, ("--edges", "--version", "--seed", "--seeds", "--until", "--of", "--after", "--progress")),
    "run": (1, 1, ("--edges", "--turns", "--version")),
}
NEEDED = {"drive": ("--edges",), "run": ("--edges", "--turns")}
FLAGS = ("--color", "--full", "--progress", "--where")
VERSION = ("--version", "-V")
RANGES = {
    "--edges": (1, MOST),
    "--turns": (1, 1_000_000),
    "--version": (1, 2),
    "--edge": (1, GREATEST),
    "--other": (1, GREATEST),
    "--from": (1, GREATEST),
    "--to": (1, GREATEST),
    "--after": (0, GREATEST),
    "--seed": (0, GREATEST),
    "--slack": (0, GREATEST),
    "--skew": (0, GREATEST),
}

# The drivers as a list of slacks names them.
DRIVERS = {name_of(driver): driver for driver in range(22)}


@dataclass
class Job:
    """What the words ask for; `options` has those that were given, by name, with their values."""

    command: str
    files: List[str] = field(default_factory=list)
    options: Dict[str, object] = field(default_factory=dict)


def demand(holds, what):
    if not holds:
        raise WrongWords(what)


def texts_of(words):
    """The words as text; of those that are not UTF-8 the first is told."""
    for number, word in enumerate(words, 1):
        try:
            word.decode("utf-8")
        except UnicodeDecodeError:
            raise Fault(f"F4 word {number} is not UTF-8") from None
    return [word.decode("utf-8") for word in words]


def job_of(words):
    """The job of the program's words, None if there are none."""
    texts = texts_of(words)
    if not texts:
        return None
    if texts[0] in VERSION:
        return Job("--version")
    demand(texts[0] in COMMANDS, "no such command")
    job = Job(texts[0])
    read_words(job, texts[1:])
    least, most, _ = COMMANDS[job.command]
    demand(least <= len(job.files) <= (most or len(job.files)), "the number of files")
    demand(all(it in job.options for it in NEEDED.get(job.command, ())), "an option is missing")
    demand("--edge" not in job.options or "--other" not in job.options, "two edges")
    job.options.setdefault("--version", 1)
    return DEMANDS[job.command](job) if job.command in DEMANDS else job


def read_words(job, texts):
    """Sorts operands and options; behind two dashes all are operands."""
    waiting = list(texts)
    while waiting:
        word = waiting.pop(0)
        if word == "--":
            job.files += waiting
            return
        if not word.startswith("-") or word == "-":
            job.files.append(word)
        else:
            read_option(job, *word.partition("="), waiting)


def read_option(job, name, sign, value, waiting):
    """An option, whose value is the next word where it is not in the same one."""
    demand(name in COMMANDS[job.command][2], "no such option")
    demand(name not in job.options, "an option twice")
    if name in FLAGS:
        demand(not sign, "a flag with a value")
        job.options[name] = True
        return
    demand(sign or waiting, "an option without value")
    text = value if sign else waiting.pop(0)
    job.options[name] = VALUES[name](text) if name in VALUES else number(text, *RANGES[name])


def number(text, least, most):
    found = NUMBER.fullmatch(text)
    demand(found and least <= int(found[1]) <= most, "a number")
    return int(found[1])


def seeds(text):
    """The range S..T of several seeds."""
    first, dots, last = text.partition("..")
    demand(dots, "no range")
    bounds = number(first, 0, GREATEST), number(last, 0, GREATEST)
    demand(bounds[0] <= bounds[1], "an empty range")
    return bounds


def slack(text):
    """A number for all drivers, or a list of some of them, each with a number: by driver."""
    if "=" not in text:
        return number(text, *RANGES["--slack"])
    listed = {}
    for item in text.split(","):
        name, _, value = item.partition("=")
        demand(name in DRIVERS, "no driver")
        demand(DRIVERS[name] not in listed, "a driver twice")
        listed[DRIVERS[name]] = number(value, *RANGES["--slack"])
    return listed


def driver(text):
    """The controller, or a slot, which is a number like others."""
    return DRIVERS["c"] if text == "c" else number(text, 1, 21)


# Options whose values are no mere numbers.
VALUES = {"--until": str, "--of": driver, "--seeds": seeds, "--slack": slack}


def drive_of(job):
    """A drive, if its options go together."""
    options = job.options
    demand(not ("--seed" in options and "--seeds" in options), "two kinds of seeds")
    demand("--until" not in options or "--seed" in options or "--seeds" in options, "an event without a seed")
    demand("--seeds" not in options or "--until" in options, "seeds without an event")
    demand("--progress" not in options or "--seeds" in options, "progress without seeds")
    demand("--until" in options or not {"--of", "--after"} & set(options), "a driver or a place without an event")
    if "--until" in options:
        options["--until"] = unmarked(options["--until"])
        name, version = options["--until"], options["--version"]
        demand(name in goals(version), why_no_goal(name, version))
    return job


def window_of(job):
    """A picture, with the edges of its window filled in."""
    options = job.options
    if "--from" not in options:
        options["--from"] = max(1, options["--to"] - (SHOWN - 1)) if "--to" in options else 1
    options.setdefault("--to", min(GREATEST, options["--from"] + (SHOWN - 1)))
    demand(0 <= options["--to"] - options["--from"] < WINDOW, "the window")
    return job


def rule_of(job):
    """A rule or another code, if there is one of that name."""
    demand(all(it in TABLE or it in codes() for it in job.files), "no such rule")
    return job


# What a command demands of its words beside the ranges of its options.
DEMANDS = {"drive": drive_of, "show": window_of, "rule": rule_of}
