"""Where the processor time of edits goes: how much of each batch was spent before its first function, and on which functions."""

import re
import threading
from collections import Counter

import verdicts

CHECKED = re.compile(r"checked (\S+), \d+ of \d+")
# How many of the dearest functions are named.
NAMED = 10


class Spent:
    """The processor time of all checks so far, in seconds."""

    def __init__(self):
        self.start, self.called, self.rest, self.edited, self.lock = 0, 0, 0, Counter(), threading.Lock()

    def add(self, ended, functions):
        """Adds a check in which these functions were edited."""
        with self.lock:
            last = None
            for line, time in zip(ended.said.split("\n"), ended.times):
                match = CHECKED.fullmatch(line)
                if match:
                    self.add_function(verdicts.outer(match[1]), time - (last or 0), functions, last is None)
                    last = max(time, last or 0)
            self.rest += ended.seconds - (last or 0)

    def add_function(self, path, seconds, functions, is_first):
        """Adds what came to an end with a function: the first one of a check ends with what is done before any."""
        if is_first:
            self.start += seconds
        elif any(f"::{path}".endswith(f"::{it}") for it in functions):
            self.edited[path] += seconds
        else:
            self.called += seconds

    def lines(self):
        """What was spent, and the dearest functions: of those that stand first in a batch nothing is known."""
        edited = sum(self.edited.values())
        total = self.start + self.called + edited + self.rest
        parts = f"{self.start:.0f} until the first function of each batch, {self.called:.0f} for functions that were called and not edited"
        yield f"edits took {total:.0f} s of processor time: {parts}, {edited:.0f} for edited ones, {self.rest:.0f} after them"
        if self.edited:
            dearest = (f"{path} {seconds:.1f}" for path, seconds in self.edited.most_common(NAMED))
            yield f"the dearest edited functions, in seconds: {', '.join(dearest)}"


def timed(ended):
    """What a check printed, with the processor time that it had spent when it ended with each function."""
    lines = ended.said.split("\n")
    times = [*ended.times, *[0] * len(lines)]
    return "\n".join(f"{line} at {time:.2f} s" if CHECKED.fullmatch(line) else line for line, time in zip(lines, times))
