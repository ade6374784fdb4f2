#!/usr/bin/env bash
# Renames crates, in the clone in which it is called (its top folder), and lays out what that changes.
#
#     /tmp/h/rename.sh            renames folders and words, puts vme_past into vme_bus, orders crates.txt
#     /tmp/h/rename.sh --fmt      and then runs rt fmt in each crate of which a file changed
#
# It may be run twice: what is renamed already is left alone. It commits nothing.
set -euo pipefail

[[ -f crates.txt && -d crates && -d .git ]] || { echo "not at the top of a clone" >&2; exit 1; }

pairs=(
    vme_reasons:vme_explain
    vme_pictures:vme_show
    vme_tallies:vme_summary
    vme_draws:vme_seeds
    vme_words:vme_command_line
    vme_jobs:vme_program
)

program=''
for pair in "${pairs[@]}"; do
    old=${pair%:*} new=${pair#*:}
    if [[ -d crates/$old/src ]]; then
        rm -rf "crates/$old/out"
        git mv "crates/$old" "crates/$new"
    fi
    rm -rf "crates/$old"
    program+="s/\\b$old\\b/$new/g; "
done
git ls-files -z | { xargs -0 grep -lIZE "\\b(vme_reasons|vme_pictures|vme_tallies|vme_draws|vme_words|vme_jobs)\\b" || true; } |
    xargs -0 -r perl -pi -e "$program"

if [[ -d crates/vme_past/src ]]; then
    rm -rf crates/vme_past/out
    git mv crates/vme_past/src/past.rt crates/vme_bus/src/past.rt
    mkdir -p crates/vme_bus/proofs/past
    git mv crates/vme_past/proofs/past/Past crates/vme_bus/proofs/past/Past
    for edit in crates/vme_past/must-fail/*.edit; do
        name=$(basename "$edit")
        git mv "$edit" "crates/vme_bus/must-fail/a_past_${name#*_}"
    done
    git rm -rq crates/vme_past
    rm -rf crates/vme_past
    git ls-files -z crates | { xargs -0 grep -lIZE "\\bvme_past\\b" || true; } |
        xargs -0 perl -pi -e 's/\buse vme_past::/use crate::past::/; s/\bRattle\.vme_past\./Rattle.vme_bus./g; s/\bvme_past::/vme_bus::/g'
    perl -pi -e 's/^mod records;$/mod past;\nmod records;/' crates/vme_bus/src/lib.rt
    perl -ni -e 's/ vme_past\b//; print unless /^vme_past:/' crates.txt
fi

python3 - <<'PY'
# The lines of crates.txt under five headings. A crate that none of them names stays with those of the last.
HEADINGS = [
    ("The standard", "vme_model vme_slots vme_rules"),
    ("Parts", "vme_lines vme_chain vme_iack vme_arbiter vme_requester vme_master vme_interrupter vme_handler"),
    ("The bus", "vme_arena vme_store vme_past vme_wiring vme_backplane vme_bus vme_lock"),
    ("Text", "vme_text vme_trace vme_scenario"),
    ("Commands and program", ""),
]
FIRST = "# A line for each crate: NAME: DEP DEP .. (lowest first, also within a heading)"
with open("crates.txt", encoding="utf-8") as text:
    lines = [it for it in text.read().splitlines() if it and not it.startswith("#")]
name = lambda line: line.split()[0].rstrip(":")
place = {it: at for at, (_, names) in enumerate(HEADINGS) for it in names.split()}
order = {it: at for at, it in enumerate(it for _, names in HEADINGS for it in names.split())}
last = len(HEADINGS) - 1
# Whoever stands below a crate of an upper heading goes with it: a crate that is new is put under the first heading that needs it.
needs = {name(it): it.split(":", 1)[1].split() for it in lines}
for line in lines:
    if name(line) not in place:
        users = [place.get(other, last) for other in needs if name(line) in needs[other]]
        place[name(line)] = min(users, default=last) if min(users, default=last) < last else last
out, seen = [FIRST], set()
for at, (heading, _) in enumerate(HEADINGS):
    group = [it for it in lines if place[name(it)] == at]
    if not group:
        continue
    out.append(f"# {heading}")
    todo = list(group)
    while todo:
        ready = [it for it in todo if all(d in seen or d not in needs or d == name(it) for d in needs[name(it)])]
        chosen = min(ready, key=lambda it: (order.get(name(it), 1000), todo.index(it))) if ready else todo[0]
        todo.remove(chosen)
        seen.add(name(chosen))
        out.append(chosen)
with open("crates.txt", "w", encoding="utf-8") as text:
    text.write("\n".join(out) + "\n")
stood = set()
for line in out:
    if line.startswith("#"):
        continue
    for it in needs[name(line)]:
        if it in needs and it not in stood:
            print(f"crates.txt: {name(line)} stands before {it}, which it uses")
    stood.add(name(line))
PY

if [[ ${1-} == --fmt ]]; then
    { git diff --name-only HEAD -- crates; git ls-files --others --exclude-standard crates; } | sed -n 's#^crates/\([^/]*\)/.*#\1#p' | sort -u |
        while read -r crate; do
            [[ -d crates/$crate/src ]] || continue
            (cd "crates/$crate" && nice -n 10 rt fmt </dev/null 2>&1 | sed "s/^/$crate: /") || echo "$crate: rt fmt failed"
        done
fi
echo "Changed lines over 100 columns:"
git diff HEAD -U0 -- '*.md' 'crates/*/src/*' | awk '/^\+\+\+ /{f=substr($2,3)} /^\+/&&!/^\+\+\+/&&length($0)>101{print f": "substr($0,2,110)}' |
    grep -vE ': (ghost use |\| )' || true
