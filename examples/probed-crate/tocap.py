#!/usr/bin/env python3
"""Turns the CSV of a bus analyser into a capture for `vmebus probe`.

    python3 tocap.py PIN.. < FILE.csv > FILE.cap

The CSV has a row for each change and a column for each signal, in which 0 is low. Each PIN is the
column of a channel that is clipped to a pin of a slot, such as "4 BG3IN". Adapt the constants
below to your analyser and to your crate: COLUMNS, TIME, STEP and SLAVES.
"""

import csv
import re
import sys
from decimal import Decimal

# Signals that have another name in your CSV, such as {"BBSY": "BBSY*", "A": "A[31:0]"}. A is the
# address and D the data, both in hexadecimal; IACK is the line IACK*, and no pin of its chain.
COLUMNS = {}

# The column of the times, and the time that becomes 1 in the capture, in the unit of that column:
# Decimal("1e-9") makes nanoseconds of seconds, and Decimal("1") leaves them as they are.
TIME, STEP = "s", Decimal("1e-9")

# The first and the last address of each slave, and its slot.
SLAVES = [
    (0x80000000, 0x8000FFFF, 2),
    (0x00300000, 0x0030FFFF, 3),
    (0x00400000, 0x0040FFFF, 4),
]

REQUESTS = [f"BR{level}" for level in range(4)] + [f"IRQ{level}" for level in range(1, 8)]
OTHERS = ["BBSY", "BCLR", "AS", "DS", "DTACK", "BERR"]
DATA_STROBES = ["DS0", "DS1"]

# What the column of a clipped channel is called.
PIN = re.compile(r"([1-9]|1[0-9]|2[01]) (BG[0-3]|IACK)(IN|OUT)")


class Row(dict):
    """A row of the CSV under the names of this script, and its number in the file, from 1."""

    def __init__(self, number, head, cells):
        if len(cells) != len(head):
            sys.exit(f"row {number}: {len(cells)} columns, and not {len(head)} as in the first row")
        super().__init__(zip(head, map(str.strip, cells)))
        self.number = number

    def value(self, column, kind, of):
        """What `of` makes of a column, which has to hold such a number."""
        try:
            return of(self[column])
        except (ValueError, ArithmeticError):
            sys.exit(f"row {self.number}: {column} is '{self[column]}', and no {kind}")

    def time(self):
        return self.value(TIME, "time", time_of)

    def bits(self, column):
        return self.value(column, "hexadecimal number", lambda text: int(text, 16))


def time_of(text):
    """A time, which is not too far away for a capture."""
    time = Decimal(text)
    if not abs(time) / STEP < 2**64:
        raise ValueError
    return time


def head_of(columns, pins):
    """The columns under the names of this script, none of which may be missing."""
    if not columns:
        sys.exit("row 1: it is empty, and should name the columns")
    names = {column: name for name, column in COLUMNS.items()}
    head = [names.get(column.strip(), column.strip()) for column in columns]
    signals = {*REQUESTS, *OTHERS, *DATA_STROBES, *pins, "IACK", "A", "D"} - {"DS"}
    missing = sorted({TIME, *signals} - {*head})
    if missing:
        sys.exit(f"row 1: no column {', '.join(missing)}: adapt COLUMNS, TIME or the pins")
    return head


def read(file, pins):
    """The rows of the CSV."""
    reader = csv.reader(file)
    try:
        head = head_of(next(reader, []), pins)
        return [Row(reader.line_num, head, cells) for cells in reader if cells]
    except (csv.Error, UnicodeDecodeError) as why:
        sys.exit(f"row {reader.line_num + 1}: it cannot be read: {why}")


def times_of(rows):
    """The times of the rows, none of which is before the one above it."""
    times = [row.time() for row in rows]
    for row, time, above in zip(rows[1:], times[1:], times):
        if time < above:
            sys.exit(f"row {row.number}: its time is before that of the row above it")
    return times


def lines_of(rows, pins):
    """For each signal, in which rows it is low. DS is low while a data strobe is."""
    parts = {"DS": DATA_STROBES}
    return {
        name: [any(row[it] == "0" for it in parts.get(name, [name])) for row in rows]
        for name in [*REQUESTS, *pins, *OTHERS]
    }


def shown_by(row):
    """An acknowledge of a level, or an access to a slot; `r` if no slave has the address."""
    address = row.bits("A")
    if row["IACK"] == "0":
        level = address >> 1 & 7
        if not level:
            sys.exit(f"row {row.number}: an acknowledge of level 0: A1 to A3 should be in column A")
        return f"i{level}"
    return next((f"r{slot}" for first, last, slot in SLAVES if first <= address <= last), "r")


def next_low(line, first):
    """The next row in which a signal is low, or the number of rows."""
    return next((row for row in range(first, len(line)) if line[row]), len(line))


def end_of(rows, low, begin):
    """The row in which AS* and DS* are high again. AS* may rise before DS*, and stays high then."""
    for row in range(begin, len(rows)):
        if not low["AS"][row] and not low["DS"][row]:
            return row
        if row > begin and low["AS"][row] and not low["AS"][row - 1]:
            sys.exit(f"row {rows[row].number}: AS* falls again before DS* is high")
    return len(rows)


def join(line, begin, end):
    """Makes one pulse of a signal's pulses in these rows, from the first fall to the last rise.

    The rows of the pulse, and whether there were several pulses.
    """
    found = [row for row in range(begin, end) if line[row]]
    if not found:
        return end, end, False
    first, last = found[0], found[-1] + 1
    had_gaps = not all(line[first:last])
    line[first:last] = [True] * (last - first)
    return first, last, had_gaps


def drop_early_strobe(strobe, begin, end):
    """A strobe may be seen to fall before its AS*. It falls with it then."""
    while end < len(strobe) and end > begin and strobe[end - 1]:
        end -= 1
        strobe[end] = False


def tidy(low, begin, end, after, is_of_slave):
    """Gives a cycle the form that the rules know: one strobe, one answer, and AS* up to its end."""
    low["AS"][begin:end] = [True] * (end - begin)
    strobe, strobe_end, had_gaps = join(low["DS"], begin, end)
    if had_gaps:
        for name in ("DTACK", "BERR"):
            join(low[name], strobe, strobe_end)
    if is_of_slave:  # a slave may answer with BERR*
        for row in range(strobe, after):
            low["DTACK"][row], low["BERR"][row] = low["DTACK"][row] or low["BERR"][row], False


def tidy_all(rows, low, first):
    """Tidies all cycles; what is shown in each row of one, and how many had no strobe."""
    shown, left_out = {}, 0
    begin = next_low(low["AS"], first)
    drop_early_strobe(low["DS"], first, begin)
    while begin < len(rows):
        end = end_of(rows, low, begin)
        after = next_low(low["AS"], end)
        if end < len(rows) and not any(low["DS"][begin:end]):
            low["AS"][begin:end] = [False] * (end - begin)
            left_out += 1
        else:
            cycle = shown_by(rows[begin])
            shown.update(dict.fromkeys(range(begin, end), cycle))
            tidy(low, begin, end, after, cycle.startswith("r") and cycle != "r")
        drop_early_strobe(low["DS"], end, after)
        begin = after
    return shown, left_out


def moved_in(row, low):
    """The signals that change in a row."""
    return [name for name, line in low.items() if line[row] != line[row - 1]]


def changes_in(rows, row, low, shown):
    """The changes of a row, in the order that a cycle has: its ends come last, AS* behind all."""
    last = ["DS", "DTACK", "BERR", "AS"]
    place = {name: last.index(name) for name in last if not low[name][row]}
    for name in sorted(moved_in(row, low), key=lambda it: place.get(it, -1)):
        if not low[name][row]:
            yield f"{name}+"
        elif name == "AS":
            yield f"AS- {shown[row]}"
        elif name == "DTACK" and shown.get(row, "r")[0] == "i":
            yield f"DTACK- {rows[row].bits('D') & 255}"
        else:
            yield f"{name}-"


def notes_on(rows, joint, shown, left_out, pins):
    """What the capture does not say of the file."""
    yield f"{len(rows)} rows; cycles without a strobe left out: {left_out}"
    unknown = [row for row, cycle in shown.items() if cycle == "r" and shown.get(row - 1) != "r"]
    if unknown:
        row = rows[unknown[0]]
        yield f"accesses outside SLAVES: {len(unknown)}, the first in row {row.number}, {row['A']}"
    others = [column for column in rows[0] if PIN.fullmatch(column) and column not in pins]
    if others:
        yield f"pins that were not asked for: {', '.join(others)}"
    if joint:
        yield f"rows with several changes: {joint}; their order is not known, so use probe --skew 0"


def main():
    pins = sys.argv[1:]
    for pin in pins:
        if not PIN.fullmatch(pin):
            sys.exit(f"'{pin}' is no pin: one is called as '4 BG3IN' or '9 IACKOUT' is")
    rows = read(sys.stdin, pins)
    times = times_of(rows)
    low = lines_of(rows, pins)
    quiet = (row for row in range(len(rows)) if not low["AS"][row] and not low["DS"][row])
    first = next(quiet, None)
    if first is None:
        sys.exit("AS* and DS* are never high in the same row")
    joint = sum(len(moved_in(row, low)) > 1 for row in range(first + 1, len(rows)))
    shown, left_out = tidy_all(rows, low, first)

    print("vme 1", *(f"pin {pin}" for pin in pins), "running", sep="\n")
    for name in low:
        if low[name][first]:
            print(f"low {name}")
    begin = min(times[0], 0)
    for row in range(first + 1, len(rows)):
        changes = list(changes_in(rows, row, low, shown))
        if changes:
            print(f"@{int((times[row] - begin) / STEP)}", *changes, sep="\n")
    print(*notes_on(rows, joint, shown, left_out, pins), sep="\n", file=sys.stderr)


if __name__ == "__main__":
    main()
