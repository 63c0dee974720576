"""Stored questions and answers: what a program of crates/ is run on, and what it has to write."""

import sys
from pathlib import Path


def keep(crate, asked):
    """Writes questions, each a line with its answer's line, as the crate's stdin and stdout; or, with --check, only says whether they are there."""
    folder = Path(__file__).resolve().parent.parent / "crates" / crate
    for name, lines in (("stdin", (q for q, _ in asked)), ("stdout", (a for _, a in asked))):
        text = "".join(line + "\n" for line in lines)
        if sys.argv[1:] != ["--check"]:
            (folder / name).write_text(text)
        elif (folder / name).read_text() != text:
            sys.exit(f"{crate}/{name} is not what this script writes")
    print(f"{len(asked)} questions")
