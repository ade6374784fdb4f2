"""Faults: what ends a command with status 1, and how their one line is written."""

SHORT = {"\b": "\\b", "\t": "\\t", "\n": "\\n", "\f": "\\f", "\r": "\\r", "\\": "\\\\"}
MOST_OF_A_KEY = 200


class Fault(Exception):
    """One fault; its text is what stands after `vmebus: `."""


class WrongWords(Exception):
    """The words are no job, or ask for help; what is said of that may be anything."""


def escaped(text):
    """A name or key as a fault has it: control characters and backslashes stand as in a string of TOML."""
    return "".join(SHORT.get(it) or (f"\\u{ord(it):04x}" if ord(it) < 32 or 127 <= ord(it) <= 159 else it) for it in text)


def told(path):
    """The path of a key as a fault has it: of a longer one 200 characters, and two dots."""
    return escaped(path if len(path) <= MOST_OF_A_KEY else path[:MOST_OF_A_KEY] + "..")


def of_file(name, fault):
    """A fault of one of several files, which it names."""
    return Fault(f"{escaped(name)}: {fault}")
