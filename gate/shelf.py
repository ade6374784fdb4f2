"""Files that earlier runs on this machine made: static libraries, and totals of the tests of the gate.

A file lies in the user's cache under the sum of all that it was made of. Its own sum stands in its name too, so that one that was cut
short or changed counts for nothing. Whatever goes wrong costs time and nothing else.
"""

import glob
import hashlib
import os
import shutil
import tempfile

import outcomes

# At most so many files of each kind are kept: the newest.
MOST = {"libraries": 4, "gate-tests": 100}


class Shelf:
    """The place of the file of a kind with a sum."""

    def __init__(self, kind, key):
        self.kind, self.key, self.at = kind, key, outcomes.place(kind)
        self.is_ours = outcomes.is_ours(self.at)

    def give(self, to):
        """Puts the file there if an earlier run made it, and returns whether it did."""
        for file in glob.glob(f"{self.at}/{self.key}-*") if self.is_ours else ():
            try:
                os.makedirs(os.path.dirname(to), exist_ok=True)
                shutil.copyfile(file, to)
                if file == self.named(to):
                    os.utime(file)
                    return True
            except OSError:
                pass
            outcomes.remove(file)
        return False

    def keep(self, file):
        """Keeps a file that was made."""
        made = None
        try:
            if self.is_ours:
                with tempfile.NamedTemporaryFile(prefix="new-", dir=self.at, delete=False) as it:
                    made = it.name
                shutil.copyfile(file, made)
                os.replace(made, self.named(file))
                self.shrink()
        except OSError:
            outcomes.remove(made)

    def named(self, file):
        """The name under which a file with this content is kept."""
        with open(file, "rb") as it:
            return f"{self.at}/{self.key}-{hashlib.sha256(it.read()).hexdigest()}"

    def shrink(self):
        """Removes the files that were not used for the longest time, beyond the most that are kept."""
        found = sorted(os.scandir(self.at), key=lambda it: it.stat().st_mtime, reverse=True)
        for it in found[MOST[self.kind] :]:
            outcomes.remove(it.path)
