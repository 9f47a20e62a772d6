#!/usr/bin/env python3
"""Respells this repository's own definitions and lemmas: words in snake case, a dash between two functions' names.

usage: tools/respell.py [FOLDER]      the checkout to turn, once, behind port.py (docs/PORT.md says when)

The rows of respell.tsv are 'old, tab, new'. They turn in .antt files, in the contracts of .rt files, in the lines 'old:' and 'new:' of must-fail edits, and in the code spans of
comments and pages. Names of Rattle's code, exported names and strings have no row.
"""

import os
import re
import sys

HERE = os.path.dirname(os.path.realpath(__file__))
# A name of the two whose spellings would fall together with a tactic's, and the folders where it is the one or the other.
OWN = {"crates/layout": "first_data_of", "crates/program": "first_fault_of", "crates/rows": "first_fault_of"}
WORD = re.compile(r"[^\s(){}\[\];,.«»`\"]+")
SPAN = re.compile(r"`[^`\n]+`")


def turn(text, rows):
    return WORD.sub(lambda m: rows.get(m.group(0), m.group(0)), text)


def spans(text, rows):
    return SPAN.sub(lambda m: turn(m.group(0), rows), text)


def antt(text, rows):
    """Code whole; of a comment the code spans, and names in camel case, which no English word is."""
    out = []
    for line in text.split("\n"):
        at = re.search(r"(?:^|\s)-- ", line)
        code, said = (line[: at.end()], line[at.end() :]) if at else (line, "")
        out.append(turn(code, rows) + spans(camel(said, rows), rows))
    return "\n".join(out)


def camel(text, rows):
    return re.sub(r"\b[a-z][a-z0-9]*[A-Z]\w*", lambda m: rows.get(m.group(0), m.group(0)), text)


def rt(text, rows):
    """Ghost items and clauses: no word of the code has a dash or camel case behind a small letter; strings stay, and of comments all but code spans."""
    out = []
    for line in text.split("\n"):
        if re.match(r"\s*//", line):
            out.append(spans(camel(line, rows), rows))
        elif re.match(r"\s*(ghost|requires|ensures|also)\b", line):
            out.append(turn(line, rows))
        else:
            out.append(line)
    return "\n".join(out)


def edit(text, rows):
    out = []
    for line in text.split("\n"):
        if line.startswith(("old:", "new:")):
            out.append(turn(line, rows))
        else:
            out.append(spans(camel(line, rows), rows))
    return "\n".join(out)


def page(text, rows):
    return spans(text, rows)


def main(root):
    with open(os.path.join(HERE, "respell.tsv"), encoding="utf-8") as f:
        rows = dict(line.rstrip("\n").split("\t") for line in f)
    ways = {".antt": antt, ".rt": rt, ".edit": edit, ".md": page}
    for folder, dirs, files in os.walk(root):
        dirs[:] = [d for d in dirs if d not in (".git", "out", "target", "landings")]
        for name in files:
            way = ways.get(os.path.splitext(name)[1])
            if not way:
                continue
            path = os.path.join(folder, name)
            crate = "/".join(os.path.relpath(path, root).split("/")[:2])
            own = {w: OWN[crate] for w in ("first_of", "firstOf", "first-of")} if crate in OWN else {}
            with open(path, encoding="utf-8") as f:
                was = f.read()
            now = way(was, rows | own)
            if now != was:
                with open(path, "w", encoding="utf-8") as f:
                    f.write(now)


if __name__ == "__main__":
    main(sys.argv[1] if len(sys.argv) > 1 else ".")
