"""What stands in for programs, pages and headers while `acceptance/test` tries these scripts."""

# What stands in for the program, the bench in C, rt and any_words: it says that a trace of one edge is legal. With STUB_SLEEPS
# it notes in that file that it runs, and sleeps; if STUB_NAME is there, too, it does so under that name alone.
STUB = """#!/bin/bash
if [[ -n ${STUB_SLEEPS:-} && ${0##*/} == ${STUB_NAME:-*} ]]; then
    echo $$ >>"$STUB_SLEEPS"
    sleep 300
fi
case ${1:-} in
    say) echo "$2" ;;
    check) echo legal 1 ;;
    *) printf '1 ok\\naccepted 1 refused 0\\n' ;;
esac
"""

# What stands in for make: it puts the stub where the programs should be, and a bench in SystemVerilog that ends with a status;
# and it copies moments.
MAKE = """#!/bin/bash
if [[ $1 == moments ]]; then
    cp "$STUB_MOMENTS"/*.vme .
    exit
fi
if [[ $3 == TOP=*/other ]]; then
    echo "echo 'bench: header and library are of different sizes'" >"$2/bench" && chmod +x "$2/bench"
    exit
fi
if [[ $2 != */sv ]]; then
    cp "$STUB" "$2/bench" && cp "$STUB" "$2/any_words"
    exit
fi
cat >"$2/bench" <<'END'
#!/bin/bash
scenario=${1#+scenario=}
cat "${scenario%/*}/expected"
echo '- bench.sv:83: Verilog $finish'
exit "${STUB_STATUS:-0}"
END
chmod +x "$2/bench"
"""

# What stands in for ghdl: the bench of the monitor prints what acceptance/clocked says that it has to.
WATCHES = """#!/usr/bin/env python3
import importlib.machinery, importlib.util, os
loader = importlib.machinery.SourceFileLoader("clocked", os.environ["STUB_CLOCKED"])
clocked = importlib.util.module_from_spec(importlib.util.spec_from_loader("clocked", loader))
loader.exec_module(clocked)
rows = open("rows").read()
for watched, _ in clocked.WATCHED.values():
    if any(rows == clocked.rows_of(watched, lacks) for _, lacks, *_ in clocked.LANGUAGES.values()):
        open("moments.vme", "w").write(clocked.moments_of(watched))
"""
GHDL = """#!/bin/bash
if [[ $1 == -r ]]; then "${0%/*}/vvp"; fi
"""

# What stands in for verilator makes the bench that does the same.
VERILATOR = """#!/bin/bash
cp "${0%/*}/vvp" bench
"""

# What stands in for the program in `order`: it refuses the designs of the example that have a bug, and too little slack; and in
# `cycles`, behind `order` of the wrong designs that the monitors watch.
ORDER = """#!/bin/bash
if [[ $1 == cycles ]]; then
    if grep -q dtack moments.vme; then
        printf '9 refused %s\\n' '2 dtack- E3 G25' '2 irq+ E3 G22'
    else
        printf '9 refused %s\\n' '1 ds+ E3 G18' '1 addr+ E3 G19' '1 as+ E3 G20'
    fi
fi
if [[ "$*" != *plain.vme* && "$*" != *\ waits.vme* && "$*" != *early.vme* && "$*" != *synchronized.vme*c=2* ]]; then exit 2; fi
"""

# What stand in for the tools of acceptance/benches: programs that print each number as 0, a bench that finds each wrong design
# unless STUB_BLIND is there, one over a pipe that prints what is expected, and a program that explains what the bench found.
NUMBERS = """#!/bin/bash
lines() { sed -nE 's/^ *(printf|\\$display)[(]"([^%]*) %.*/\\2 0/p' "$1"; }
case "$*" in
    *numbers.c) (echo '#!/bin/bash'; echo "cat <<'END'"; lines numbers.c; echo END) >in_c; chmod +x in_c ;;
    *numbers.sv) mkdir -p obj_dir; lines numbers.sv >obj_dir/said; printf '#!/bin/bash\ncat obj_dir/said\n' >obj_dir/Vnumbers
        chmod +x obj_dir/Vnumbers ;;
    *player_bench.sv) mkdir obj_dir; cp "${STUB_BENCHES%/*/*}/plays" obj_dir/Vplayer_bench ;;
esac
"""
PLAYS = """#!/usr/bin/env python3
import importlib.machinery, importlib.util, os, sys
loader = importlib.machinery.SourceFileLoader("benches", os.environ["STUB_BENCHES"])
benches = importlib.util.module_from_spec(importlib.util.spec_from_loader("benches", loader))
loader.exec_module(benches)
lie = os.environ.get("STUB_NOT", "")
if len(sys.argv) > 1:
    sys.exit(lie or benches.PLAYER_REFUSES[int(sys.argv[1].partition("=")[2]) - 1])
print(lie + benches.PLAYER_PRINTS + "- bench.sv:83: Verilog $finish")
for name, text in benches.PLAYER_WRITES.items():
    open(name, "w").write(lie + text)
"""
MAKE_BENCHES = """#!/bin/bash
if [[ "$*" == *" run "* ]]; then
    if [[ "$*" == *=no/vmebus* ]]; then echo "there is no program no/vmebus: build it"; exit 2; fi
    if [[ "$*" == *=*/Makefile* ]]; then echo "vmebus: Q1 line 1 is no TOML"; exit 2; fi
    for it in "$@"; do if [[ $it == SCENARIO=* ]]; then it=${it#*=}; cat "${it%/*}/expected"; fi; done
    exit
fi
cat >bench <<'END'
#!/bin/bash
ends=passed
why() { if [[ -z ${STUB_BLIND:-} ]]; then echo "$1" >why; cat why; ends=illegal; fi; }
case "$*" in
    *floor=100*) ends=idle ;;
    *seed=20*late=2*) ends=overtaken ;;
    *takes-*) why 'fails own bgout is high (profile)' ;;
    *leaves-*) why 'fails own grant-in is high (profile)' ;;
    *passes-*) why 'fails own bbsy is high' ;;
    *withdraws*) why 'fails own bbsy is low (profile)' ;;
    *drives-*) why 'fails AS* is high' ;;
esac
echo "seed 1 $ends edges 1"
END
chmod +x bench
"""
EXPLAINS = """#!/bin/bash
if [[ $1 == explain ]]; then cat why; fi
"""

# What stands in for cc: the program that it builds prints what the model does, whatever the header
# says, or the traces that it draws, from another seed on with STUB_SEED, or what is taken of a stack.
CC = """#!/bin/bash
while [[ $1 != -o ]]; do shift; done
cp "$STUB_BUILT" "$2"
"""
BUILT = """#!/usr/bin/env python3
import os, sys
sys.path.insert(0, os.environ["STUB_MODEL"])
from vmebus_model import backplane, embedded
from vmebus_model.draw import walked
from vmebus_model.traces import text_of
words = sys.argv[1:]
if words[0].endswith(".toml"):
    plan = backplane.read(open(words[0], "rb").read())
    version, seed, seeds, edges = map(int, words[1:])
    seed = int(os.environ.get("STUB_SEED", seed))
    for it in range(seed, seed + seeds):
        print(text_of(version, walked(plan, version, it, edges)[0]), end="")
    sys.exit()
if words[0].isdigit():
    lines = ["0 100"] * (len(words) - 2) + ["others 100"]
    print(*lines[: int(os.environ.get("STUB_LINES", len(lines)))], sep="\\n")
    sys.exit(int(os.environ.get("STUB_STATUS", "0")))
for name, *files in zip(words[::3], words[1::3], words[2::3]):
    texts = [open(it, "rb").read() for it in files]
    print(f"= {name}", *embedded.seen(*texts), sep="\\n")
"""
# What stands in for cc where nothing is looked at, for nm, and for crates/vmebus_c/shared; and a page with a whole bench.
CC_OF_STUBS = """#!/bin/bash
while [[ $1 != -o ]]; do shift; done
cp "$STUB" "$2"
"""
NM = """#!/bin/bash
echo "0000 T ${STUB_EXPORTS:-vmebus_open}"
"""
PKG_CONFIG = """#!/bin/bash
prefix=${PKG_CONFIG_PATH%/lib/pkgconfig}
echo "-I$prefix/include -L$prefix/lib -lvmebus"
"""

SHARED = """#!/bin/bash
cp "$1" "$2"
"""
BENCH_OF_PAGE = """# A page

```sh
mkdir /tmp/bench && cd /tmp/bench
```

```python
print("1 br-: ok")
```

It prints:

```text
1 br-: ok
```

```sh
python3 bench.py
```
"""
HEADER = """#define VMEBUS_H
enum vmebus_wire {
    VMEBUS_BG0,
    VMEBUS_BG1
};
#define VMEBUS_PIN_IRQ(level) (1u << (11 + (level))) /* IRQ1* to IRQ7* */
"""
STACK = """`vmebus_open` takes at most 16 KiB of the caller's stack for a scenario such as those
of the examples, and at most 112 KiB for any text. `vmebus_draw` takes at most 32 KiB, and each
other call at most 8 KiB.
"""
# What stands in for the program in little room: it does what a command does, but for WRONG in 44 KiB of the sizes of its
# address space.
LITTLE = """
#include <signal.h>
#include <stdio.h>
#include <string.h>
#include <fcntl.h>
#include <sys/resource.h>
#include <unistd.h>

int main(void) {
    struct rlimit room;
    char head[3] = "";
    /* no stream, which would want memory of its own */
    if (read(open("scenario.toml", O_RDONLY), head, 2) == 2 && (!strcmp(head, "x ") || !strcmp(head, "[["))) {
        fputs("vmebus: Q2 unknown key\\n", stderr);
        return 1;
    }
    getrlimit(RLIMIT_AS, &room);
    if (room.rlim_cur > 5000 << 10 && room.rlim_cur <= 5044 << 10) {
        WRONG
    }
    puts("all of it");
    return 0;
}
"""
