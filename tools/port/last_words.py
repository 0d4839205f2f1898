#!/usr/bin/env python3
"""`x.entry.now` and `x.exit.now` in clauses, where port.py left them (it takes a parameter for a field where a record beside it
has a field of its name), become `x.old` and `x.new` of a `&mut`, and `x.now` of a `&`.

    python3 tools/port/last_words.py             at the top of the checkout, after port.py; a second run finds nothing
"""
import glob
import re

count = 0
for path in sorted(glob.glob("crates/*/src/**/*.rt", recursive=True)):
    with open(path, encoding="utf8") as file:
        text = file.read()
    starts = [m.start() for m in re.finditer(r"(?m)^(?:#\[|pub |fn )", text)] + [len(text)]
    out = text[:starts[0]]
    for a, b in zip(starts, starts[1:]):
        item = text[a:b]
        for name, when in set(re.findall(r"\b(\w+)\.(entry|exit)\.now\b", item)):
            kind = re.search(r"\b%s: &(mut )?" % name, item)
            if kind is None:
                print("left: %s: %s.%s.now" % (path, name, when))
                continue
            new = "now" if not kind[1] else "old" if when == "entry" else "new"
            item, n = re.subn(r"\b%s\.%s\.now\b" % (name, when), "%s.%s" % (name, new), item)
            count += n
        out += item
    if out != text:
        with open(path, "w", encoding="utf8") as file:
            file.write(out)
print("last_words: %d places" % count)
