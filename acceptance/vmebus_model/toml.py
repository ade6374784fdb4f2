"""TOML 1.1 as far as a scenario needs it: which texts are TOML, and the values of their keys.

Tables are dicts, arrays are lists, and a date or time is a `Moment`.  Whatever is no TOML, or goes beyond the bounds of
docs/FAULTS.md, is the fault Q1; so neither a reason nor a place is kept.
"""

import math
import re
from datetime import date

from .faults import Fault

DEEPEST = 80
MOST_PARTS = 80
BLANKS = re.compile(r"[ \t]*")
COMMENT = re.compile(r"[ \t]*(?:#[^\x00-\x08\x0a-\x1f\x7f]*)?")
LINE_END = re.compile(r"\r?\n")
LINES = re.compile(rf"(?:{COMMENT.pattern}{LINE_END.pattern})*{COMMENT.pattern}")
COMMA = re.compile(rf",{LINES.pattern}")
BARE_KEY = re.compile(r"[A-Za-z0-9_-]+")
BASIC = re.compile(r'"((?:[^"\\\x00-\x08\x0a-\x1f\x7f]|\\[^\r\n])*)"')
LITERAL = re.compile(r"'([^'\x00-\x08\x0a-\x1f\x7f]*)'")
LONG_BASIC = re.compile(r'"""(?:\r?\n)?((?:"{0,2}(?:[^"\\\x00-\x08\x0b-\x1f\x7f]|\r\n|\\(?:\r\n|[^\r])))*"{0,2})"""(?!")')
LONG_LITERAL = re.compile(r"'''(?:\r?\n)?((?:'{0,2}(?:[^'\x00-\x08\x0b-\x1f\x7f]|\r\n))*'{0,2})'''(?!')")
ESCAPE = re.compile(r"\\(?:([btnfre\"\\])|x([0-9A-Fa-f]{2})|u([0-9A-Fa-f]{4})|U([0-9A-Fa-f]{8})|([ \t]*\r?\n[ \t\r\n]*)|())")
SHORT_ESCAPES = {"b": "\b", "t": "\t", "n": "\n", "f": "\f", "r": "\r", "e": "\x1b", '"': '"', "\\": "\\"}
PLAIN = re.compile(r"[A-Za-z0-9_.:+-]+(?: [0-9][0-9]:[0-9.:Zz+-]+)?")
DECIMAL = r"[+-]?(?:0|[1-9](?:_?[0-9])*)"
WHOLE = [
    (re.compile(DECIMAL), 10),
    (re.compile(r"0x[0-9A-Fa-f](?:_?[0-9A-Fa-f])*"), 16),
    (re.compile(r"0o[0-7](?:_?[0-7])*"), 8),
    (re.compile(r"0b[01](?:_?[01])*"), 2),
]
FRACTION = re.compile(DECIMAL + r"(?:\.[0-9](?:_?[0-9])*)?(?:[eE][+-]?[0-9](?:_?[0-9])*)?")
ENDLESS = re.compile(r"[+-]?(?:inf|nan)")
DAY = r"(?P<year>[0-9]{4})-(?P<month>[0-9]{2})-(?P<day>[0-9]{2})"
TIME = r"(?P<hour>[0-9]{2}):(?P<minute>[0-9]{2})(?::(?P<second>[0-9]{2})(?:\.[0-9]+)?)?"
ZONE = r"(?:[Zz]|[+-](?P<zone_hour>[0-9]{2}):(?P<zone_minute>[0-9]{2}))?"
MOMENTS = [re.compile(it) for it in (DAY, TIME, DAY + "[Tt ]" + TIME + ZONE)]
GREATEST = {"hour": 23, "minute": 59, "second": 60, "zone_hour": 23, "zone_minute": 59}


class Moment(str):
    """A date, a time, or both."""


class Table(dict):
    """A table; `made` says by what: a longer header, a header, a dotted key, or braces (it is complete then)."""

    def __init__(self, made):
        super().__init__()
        self.made = made


class Tables(list):
    """An array of tables that headers in double brackets made."""


def read(text):
    """The top table of a text of bytes."""
    try:
        return Reader(text.decode("utf-8-sig")).top_table()
    except ValueError:
        raise Fault("Q1 the scenario is not TOML") from None


def demand(holds):
    """Refuses the text if something does not hold, and else returns it."""
    if not holds:
        raise ValueError
    return holds


class Reader:
    """A text, how far it is read, and how deep tables and arrays go in one another there."""

    def __init__(self, text):
        self.text, self.at, self.depth = text, 0, 0

    def begins(self, word):
        return self.text.startswith(word, self.at)

    def take(self, pattern):
        """What stands next, which has to be of this form."""
        found = demand(pattern.match(self.text, self.at))
        self.at = found.end()
        return found

    def took(self, word):
        """Whether this word stands next; it is read then."""
        found = self.begins(word)
        self.at += len(word) if found else 0
        return found

    def deepen(self, by):
        self.depth += by
        demand(self.depth <= DEEPEST)

    def skip_lines(self):
        """Reads blanks, comments and ends of lines."""
        self.at = LINES.match(self.text, self.at).end()

    def end_line(self):
        self.take(COMMENT)
        if self.at < len(self.text):
            self.take(LINE_END)

    def top_table(self):
        """All lines: keys with their values, below headers."""
        top = section = Table("header")
        self.skip_lines()
        while self.at < len(self.text):
            if self.begins("["):
                section = self.header(top)
            else:
                self.key_and_value(section)
            self.end_line()
            self.skip_lines()
        return top

    def header(self, top):
        """Reads a header, and returns the table that it opens; its dots go on counting, its brackets do not count."""
        brackets = 2 if self.begins("[[") else 1
        self.at += brackets
        self.depth = 0
        *parents, last = self.key()
        demand(self.took("]" * brackets))
        table = top
        for part in parents:
            table = within(table.setdefault(part, Table("longer header")))
        return new_item(table, last) if brackets == 2 else new_table(table, last)

    def key(self):
        """The parts of a key; each dot goes one deeper."""
        parts = [self.part_of_key()]
        while self.took("."):
            self.deepen(1)
            parts.append(self.part_of_key())
        demand(len(parts) <= MOST_PARTS)
        return parts

    def part_of_key(self):
        self.take(BLANKS)
        if self.begins('"'):
            part = unescaped(self.take(BASIC)[1])
        elif self.begins("'"):
            part = self.take(LITERAL)[1]
        else:
            part = self.take(BARE_KEY)[0]
        self.take(BLANKS)
        return part

    def key_and_value(self, table):
        """Reads a key and its value into a table; the dots of the key count as long as the value goes on."""
        depth = self.depth
        *parents, last = self.key()
        demand(self.took("="))
        self.take(BLANKS)
        value = self.value()
        self.depth = depth
        for part in parents:
            table = table.setdefault(part, Table("dotted key"))
            demand(type(table) is Table and table.made in ("dotted key", "longer header"))
            table.made = "dotted key"
        demand(last not in table)
        table[last] = value

    def value(self):
        """A value, by its first character."""
        first = self.text[self.at : self.at + 1]
        if first == '"':
            return unescaped(self.take(LONG_BASIC if self.begins('"""') else BASIC)[1])
        if first == "'":
            return self.take(LONG_LITERAL if self.begins("'''") else LITERAL)[1]
        if first == "[":
            return self.items("[", "]", [], lambda array: array.append(self.value()))
        if first == "{":
            return self.items("{", "}", Table("braces"), self.key_and_value)
        return self.plain_value()

    def items(self, opening, closing, into, read_one):
        """The items of an array or of an inline table, with commas between them, and one after the last where it is liked."""
        self.took(opening)
        self.deepen(1)
        self.skip_lines()
        more = True
        while more and not self.begins(closing):
            read_one(into)
            self.skip_lines()
            more = COMMA.match(self.text, self.at)
            self.at = more.end() if more else self.at
        demand(self.took(closing))
        self.depth -= 1
        return into

    def plain_value(self):
        """A truth, a number, a date or a time; the dot of one goes one deeper."""
        word = self.take(PLAIN)[0]
        demand(self.depth + word.count(".") <= DEEPEST)
        if word in ("true", "false"):
            return word == "true"
        for form, base in WHOLE:
            if form.fullmatch(word):
                return whole(int(word.replace("_", ""), base))
        if ENDLESS.fullmatch(word):
            return float(word)
        if FRACTION.fullmatch(word):
            number = float(word.replace("_", ""))
            demand(math.isfinite(number))
            return number
        return moment(word)


def within(value):
    """The table through which a longer header leads."""
    table = value[-1] if type(value) is Tables else value
    demand(type(table) is Table and table.made != "braces")
    return table


def new_table(table, name):
    """The table that a header opens: a new one, or one that so far only longer headers have named."""
    found = table.setdefault(name, Table("longer header"))
    demand(type(found) is Table and found.made == "longer header")
    found.made = "header"
    return found


def new_item(table, name):
    """The table that a header in double brackets adds to its array."""
    found = table.setdefault(name, Tables())
    demand(type(found) is Tables)
    found.append(Table("header"))
    return found[-1]


def unescaped(text):
    """A basic string with its escapes replaced."""
    return ESCAPE.sub(meaning, text)


def meaning(escape):
    """The character of an escape; nothing for the end of a line."""
    short, *codes, line_end, _ = escape.groups()
    if short:
        return SHORT_ESCAPES[short]
    if line_end:
        return ""
    code = int(demand(next((it for it in codes if it), None)), 16)
    demand(code < 0xD800 or 0xDFFF < code <= 0x10FFFF)
    return chr(code)


def whole(number):
    """A whole number, which has 63 bits and a sign at most."""
    demand(-(2**63) <= number < 2**63)
    return number


def moment(word):
    """A date, a time or both, each part within its range."""
    found = demand(next(filter(None, (form.fullmatch(word) for form in MOMENTS)), None))
    parts = {name: int(text) for name, text in found.groupdict().items() if text}
    demand(all(parts.get(name, 0) <= most for name, most in GREATEST.items()))
    if "year" in parts:
        date(parts["year"] or 2000, parts["month"], parts["day"])
    return Moment(word)
