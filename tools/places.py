#!/usr/bin/env python3
"""Of the older Rattle kit: with today's, 'rt check --start F --allow-holes' in a crate's folder stands for this. It writes
the first proof files of a function F that has none, and prints its goals and the names that they can cite.

The places of a function's proof, and the path to each from where a fact is wanted.

    tools/places.py CRATE FUNCTION [NEED..]      after 'rt goals CRATE'

FUNCTION is its folder under proofs/, as 'fields/get' or 'Kind/of'. For each need (or only those named) the places on
the way back to the function's start are listed, one a line: the path to write in the proof, what is known there, and
the facts of a branch or a match.
"""

import re
import sys
from pathlib import Path

OLDER = (
    "places.py: this is of the older Rattle kit, and reads what its 'rt goals' wrote to {}, which is not there;"
    " today 'rt check --start F --allow-holes' in the crate's folder stands for it"
)


def fields(lines, start):
    """The fields of the record whose first line is lines[start], with their types, and the line behind it."""
    indent = len(lines[start]) - len(lines[start].lstrip())
    end = start + 1
    while end < len(lines) and lines[end].strip() and len(lines[end]) - len(lines[end].lstrip()) > indent:
        end += 1
    text = "\n".join(lines[start + 1 : end])
    of = re.compile(rf"^ {{{indent + 2}}}pub (\S+) :(.*(?:\n {{{indent + 2}}} .*)*)", re.M)
    return {m[1]: " ".join(m[2].split()) for m in of.finditer(text)}, end


def parse(lines):
    """Each record of the file by name, and of each need the record that its proof is given."""
    records, needs, at = {}, {}, 0
    while at < len(lines):
        if m := re.match(r"\s+pub record (\S+) : Type 0 where", lines[at]):
            records[m[1]], at = fields(lines, at)
            continue
        if m := re.match(r"\s+Need-(\S+) =(.*)", lines[at]):
            given = re.search(r"\(c : (\S+?)\)", m[2] + " " + lines[at + 1])
            if given:
                needs[m[1]] = given[1]
        at += 1
    return records, needs


def show(records, name):
    path = "c"
    while name in records:
        known = [field for field in records[name] if field != "before"]
        facts = [f"{field}: {text[:90]}" for field, text in records.get(name + "·own", {}).items()]
        print("  ", path, "|", ", ".join(known), "|", "; ".join(facts))
        if "before" not in records[name]:
            return
        name, path = records[name]["before"], path + " .before"


def main():
    if len(sys.argv) < 3:
        sys.exit(__doc__)
    crate, function, *only = sys.argv[1:]
    file = Path("target") / "goals" / crate / f"Rattle·{crate}·proofs" / "proofs" / function / "Lts.antt"
    if not file.exists():
        sys.exit(OLDER.format(file))
    records, needs = parse(file.read_text().split("\n"))
    for need, name in needs.items():
        if not only or need in only:
            print(need)
            show(records, name)


if __name__ == "__main__":
    main()
