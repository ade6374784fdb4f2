"""Makes the pages of the manual and the completions of the shells of a built program.

usage: python3 tools/manual PROGRAM PREFIX [--documents FOLDER]

PROGRAM is asked for its help and that of each command. Below PREFIX, which may be missing, it writes

    share/man/man1/vmebus.1, and vmebus-COMMAND.1 of each command
    share/bash-completion/completions/vmebus
    share/zsh/site-functions/_vmebus
    share/fish/vendor_completions.d/vmebus.fish

FOLDER is where the pages docs/ are that the help names. The date of the pages is that of PROGRAM, or SOURCE_DATE_EPOCH.
./install calls this; alone it is for who looks at a change of the help: man -l PREFIX/share/man/man1/vmebus.1
"""

import argparse
import sys
from pathlib import Path

sys.dont_write_bytecode = True
sys.path.insert(0, str(Path(__file__).resolve().parent.parent))
from manual.making import write_all
from manual.helps import Unreadable


def main() -> int:
    parser = argparse.ArgumentParser(prog="tools/manual", usage="python3 tools/manual PROGRAM PREFIX [--documents FOLDER]",
                                     description=__doc__, formatter_class=argparse.RawDescriptionHelpFormatter)
    parser.add_argument("program", type=Path)
    parser.add_argument("prefix", type=Path)
    parser.add_argument("--documents")
    given = parser.parse_args()
    try:
        write_all(given.program.resolve(), given.prefix, given.documents)
    except (Unreadable, OSError) as fault:
        print(f"manual: {fault}", file=sys.stderr)
        return 1
    return 0


if __name__ == "__main__":
    sys.exit(main())
