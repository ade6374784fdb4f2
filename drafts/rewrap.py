#!/usr/bin/env python3
"""Fills again, at 100 columns, the paragraphs of the pages named that have a longer line."""
import re, sys, textwrap
ITEM = re.compile(r"^(\s*)([-*]|\d+\.) +")
for path in sys.argv[1:]:
    lines = open(path, encoding="utf-8").read().split("\n")
    out, at, fenced = [], 0, False
    while at < len(lines):
        line = lines[at]
        if line.lstrip().startswith("```"):
            fenced = not fenced
        if fenced or len(line) <= 100 or line.startswith(("|", "#", "    ")) and not re.match(r"^ {2,5}\S", line) or line.startswith("|"):
            out.append(line); at += 1; continue
        end = at + 1
        while end < len(lines) and lines[end].strip() and not ITEM.match(lines[end]) and not lines[end].lstrip().startswith(("|", "#", "```", ">")):
            end += 1
        first = re.match(r"^\s*", line).group()
        head = ITEM.match(line)
        hang = " " * len(head.group()) if head else first
        text = " ".join(it.strip() for it in lines[at:end])
        text = re.sub(r"`[^`]*`", lambda m: m.group().replace(" ", "\x00"), text)
        filled = textwrap.fill(text, 100, initial_indent=first, subsequent_indent=hang, break_long_words=False, break_on_hyphens=False)
        out.extend(filled.replace("\x00", " ").split("\n")); at = end
    open(path, "w", encoding="utf-8").write("\n".join(out))
