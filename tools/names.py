#!/usr/bin/env python3
"""tools/names.py: brings this repository's own definitions from lowerCamel to snake case, in the .rt, .antt and .edit files below crates/.

Run once, at the top, after the kit's port.py. Every lowerCamel word there is a name of this repository's own: a definition, a field, a local or
the name that a `use` gives. `names.py --list` prints old and new. Where the new name is another lemma's or a parameter's, TAKEN has the name that
stands for it. The field `dry-run` becomes `dry_run`. Names of lemmas keep their dashes, which join two names.
"""
import os
import re
import sys

CAMEL = re.compile(r"(?<![A-Za-z0-9_'·◌])[a-z][a-z0-9]*(?:[A-Z][A-Za-z0-9]*)+(?![A-Za-z0-9_◌])")
DRY_RUN = re.compile(r"(?<![A-Za-z0-9_'-])dry-run(?![A-Za-z0-9_'-])")
COMMENT = {".rt": "//", ".antt": "--", ".edit": "\0"}
TAKEN = {
    "endBy": "end_given",
    "inOne": "is_in_one",
    "cutList": "list_cut",
    "movedUp": "moved_list",
    "roomAs": "room_line_as",
    "rateCount": "rates_counted",
    "delayCount": "delays_counted",
}


def snake(name):
    return TAKEN.get(name) or re.sub(r"(?<=[a-z0-9])([A-Z])", lambda m: "_" + m.group(1), name).lower()


def files(root):
    for folder, dirs, names in os.walk(os.path.join(root, "crates")):
        dirs[:] = sorted(d for d in dirs if d != "out")
        for n in sorted(names):
            if n.endswith((".rt", ".antt", ".edit")):
                yield os.path.join(folder, n)


def turn(text, ending):
    lines = []
    for line in text.split("\n"):
        line = CAMEL.sub(lambda m: snake(m.group(0)), line)
        code, mark, rest = line.partition(COMMENT[ending])
        lines.append(DRY_RUN.sub("dry_run", code) + mark + rest)
    return "\n".join(lines)


def main():
    root = os.path.dirname(os.path.dirname(os.path.abspath(__file__)))
    if "--list" in sys.argv:
        found = set()
        for p in files(root):
            found.update(CAMEL.findall(open(p, encoding="utf-8").read()))
        for name in sorted(found):
            print(name, snake(name))
        return
    for p in files(root):
        old = open(p, encoding="utf-8").read()
        new = turn(old, os.path.splitext(p)[1])
        if new != old:
            open(p, "w", encoding="utf-8").write(new)


main()
