#!/usr/bin/env python3
"""Of the older Rattle kit: with today's, 'rt plant' in a crate's folder stands for this. --list needs no kit.

Tries single-place changes of a crate's code: the prover has to refuse each, because a fact no longer holds.

    tools/changes.py CRATE.. [--least N] [--all] [--seed N] [--list] [--only TEXT]      after 'rt check'

Operators, constants, fields, cases and names are changed, one place at a time and spread over the functions, until
N changes (40 unless told) of each crate are refused by a fact or let through; --all tries every change that it finds.
--list only shows the changes in their order; --only keeps those of functions whose path has TEXT in it.

Of each function one change is put into a copy of the crate, target/changes/CRATE, and the copy is checked once: the
prover tells of each function whether its own proof stands. 'By a fact' means that a need or an end of that function
is not proved; 'by shape' that its proof does not fit the code's places any more, which shows nothing and counts for
nothing; so does what does not compile. What seems to be let through is checked again, without
the other changes and with nothing trusted.
"""

import argparse
import os
import platform
import random
import re
import shutil
import subprocess
import sys
import time
from pathlib import Path

from change_kinds import LAST, changes_of, edit, numbers_near
from change_sites import Sites, Tokens, Types, functions_in

repository = Path(__file__).resolve().parent.parent
OLDER = "changes.py: this is of the older Rattle kit, whose prover is not here; today 'rt plant' in a crate's folder stands for it"
SHAPE = re.compile(
    r"has no field|no `Need|not in scope|is not a field|does not export|exports no|unknown name|cannot find|no such"
    r"|nothing named|is not defined|takes .* arguments?|too many arguments|is not a function|has no module|no module|that can be named from here"
)
CASCADE = "was not admitted"


class Change:
    def __init__(self, owners, file, kind, edits, text):
        self.owners, self.file, self.kind, self.edits = owners, file, kind, sorted(edits)
        self.line = text.count("\n", 0, self.edits[0][0]) + 1
        self.old = " .. ".join(text[a:b] for a, b, _ in self.edits)
        self.new = " .. ".join(new for _, _, new in self.edits)
        self.place = self.edits[0][0]
        start = text.rfind("\n", 0, self.place) + 1
        self.context = text[start : text.find("\n", self.place)].strip()

    def told(self):
        places = " ".join(f"{self.file}:{self.line}: {self.old!r} becomes {self.new!r}".split())
        return f"{places}  [{self.kind}; {'/'.join(sorted(self.owners))}; in: {self.context}]"


def depends():
    lines = (line.split("#")[0].partition(":") for line in (repository / "crates.txt").read_text().splitlines())
    return {name.strip(): rest.split() for name, _, rest in lines}


def read_all():
    """The types of every crate, and the functions and tokens of each file."""
    types, files = Types(), {}
    types.depends = depends()
    for path in sorted((repository / "crates").glob("*/src/**/*.rt")):
        crate = path.relative_to(repository / "crates").parts[0]
        src = repository / "crates" / crate / "src"
        module = "::".join(path.relative_to(src).with_suffix("").parts)
        module = "" if module in ("lib", "main") else module
        files[path] = crate, module, Tokens(path.read_text())
        types.read(*files[path])
    functions = {p: functions_in(types, c, p, m, t) for p, (c, m, t) in files.items()}
    return types, files, functions


def changes_in(crate, world, seed):
    """The crate's changes by function, those at different places first."""
    types, files, functions = world
    by_owner = {}
    for path, (of, _, tokens) in files.items():
        if of != crate:
            continue
        name = str(path.relative_to(repository / "crates" / crate))
        for f in functions[path]:
            for kind, edits in changes_of(Sites(types, crate, tokens, f)):
                by_owner.setdefault(f.path, []).append(Change({f.path}, name, kind, edits, tokens.text))
        for change in constants(path, name, tokens, functions, files, crate):
            by_owner.setdefault(min(change.owners), []).append(change)
    order = lambda owner, found: spread(found, random.Random(f"{seed} {crate} {owner}"))
    parts = {o: ([c for c in cs if c.kind not in LAST], [c for c in cs if c.kind in LAST]) for o, cs in by_owner.items()}
    return {owner: order(owner, first) + order(owner, last) for owner, (first, last) in parts.items()}


def constants(path, name, tokens, functions, files, crate):
    """Changes of 'const X: T = n;', which belong to every function that says X."""
    for i, w in enumerate(tokens.word):
        if w == "const" and tokens.get(i + 4) == "=":
            users = {
                f.path
                for p, (of, _, t) in files.items() if of == crate
                for f in functions[p] if tokens.word[i + 1] in t.word[f.first : f.end]
            }
            for new in numbers_near(tokens.word[i + 5]) if users else []:
                yield Change(users, name, "constant", [edit(tokens, i + 5, i + 6, new)], tokens.text)


def spread(found, chance):
    places = {}
    for change in found:
        if not any(c.edits == change.edits for c in places.get(change.place, [])):
            places.setdefault(change.place, []).append(change)
    rows = list(places.values())
    chance.shuffle(rows)
    for row in rows:
        chance.shuffle(row)
    return [row[n] for n in range(max(map(len, rows), default=0)) for row in rows if n < len(row)]


class Prover:
    """'rattle check' of the crate's copy, with the words that rt gives it."""

    def __init__(self, crate):
        rt = os.path.realpath(shutil.which("rt") or sys.exit(OLDER))
        home = Path(os.environ.get("RATTLE_HOME") or Path(rt).parent.parent)
        own = home / "on" / platform.machine()
        if not (own / "bin" / "rattle").exists():
            sys.exit(OLDER)
        self.crate, self.copy = crate, repository / "target" / "changes" / crate
        self.source = repository / "crates" / crate
        root = "main.rt" if (self.source / "src" / "main.rt").exists() else "lib.rt"
        rlibs = repository / "target" / "rlib"
        self.words = [own / "bin" / "rattle", "check", "--crate-name", crate, f"src/{root}", "--extern", f"std={own}/rlib/std.rlib"]
        for d in depends()[crate]:
            where = rlibs if (repository / "crates" / d / "src").exists() else own / "rlib"
            self.words += ["--extern", f"{d}={where}/{d}.rlib"]
        self.words += ["-L", f"dependency={rlibs}", "-L", f"dependency={own}/rlib"]
        self.words += ["--antt-project", home / "logic" / "antt-project.json", "--logic-built", own / "logic-built"]
        self.time = 0

    def check(self, changes, whole=False):
        """Exit status and what is said, with the changes applied."""
        for part in ("src", "specs", "proofs"):
            shutil.rmtree(self.copy / part, ignore_errors=True)
            if (self.source / part).exists():
                shutil.copytree(self.source / part, self.copy / part)
        for file in {c.file for c in changes}:
            text = (self.copy / file).read_text()
            edits = sorted((e for c in changes if c.file == file for e in c.edits), reverse=True)
            for start, end, new in edits:
                text = text[:start] + new + text[end:]
            (self.copy / file).write_text(text)
        more = [] if whole else ["--incremental", self.copy / "inc"]
        began = time.time()
        ran = subprocess.run(self.words + more, cwd=self.copy, capture_output=True, text=True)
        self.time += time.time() - began
        said = ran.stdout + ran.stderr
        with open(self.copy / "log", "a") as log:
            log.write("".join(f"== {c.told()}\n" for c in changes) + f"-- status {ran.returncode}\n{said}\n")
        return ran.returncode, said


def own_errors(said, crate, owners):
    """What is said against the proofs of these functions themselves, and not only for a callee's sake."""
    errors = []
    for m in re.finditer(r"^(\S+): error: (.*(?:\n  .*)*)", said, re.M):
        where = re.match(r"(?:\./)?proofs/(.*)/Proof\.antt:", m[1])
        if not where or CASCADE in m[2]:
            continue
        folder, _, last = where[1].rpartition("/")
        paths = {"::".join(filter(None, [folder.replace("/", "::"), n])) for n in last.split("+") if n}
        if paths & owners:
            errors.append(m[2])
    for m in re.finditer(r"^fn (\S+): (.*)", said, re.M):
        if m[1].removeprefix(crate + "::") in owners and "does not close" in m[2]:
            errors.append(m[2])
    return errors


def judged(errors):
    if not errors:
        return "open"
    bad = [e for e in errors if SHAPE.search(e.split("\n")[0]) or re.match(r"`[^`]*-spec`", e)]
    return "shape" if bad else "fact"


def unfit(said, changes):
    """The changes at which the compiler stops."""
    lines = {(m[1], int(m[2])) for m in re.finditer(r"^(?:\./)?(\S+\.rt):(\d+):\d+: error", said, re.M)}
    at = {c: min((abs(c.line - n) for f, n in lines if f == c.file), default=None) for c in changes}
    near = [c for c in changes if at[c] is not None]
    if not near:
        return changes if len(changes) == 1 else []
    return [min(near, key=lambda c: at[c])]


def tried(prover, changes, verdicts):
    """Checks the changes together; each gets its verdict, or 'open' where nothing is said against it."""
    rest = list(changes)
    while rest:
        status, said = prover.check(rest)
        if re.search(r"^fn \S+: ", said, re.M):
            for c in rest:
                verdicts[c] = judged(own_errors(said, prover.crate, c.owners))
            return
        bad = unfit(said, rest)
        if not bad:
            half = len(rest) // 2
            tried(prover, rest[:half], verdicts)
            tried(prover, rest[half:], verdicts)
            return
        for c in bad:
            verdicts[c] = "no code"
            rest.remove(c)


def confirmed(prover, changes, verdicts):
    """What nothing was said against is checked once more, with nothing trusted: together, and alone if that fails."""
    status, said = prover.check(changes, whole=True)
    if status == 0 and re.search(r"^logic=proved", said, re.M):
        verdicts.update((c, "through") for c in changes)
    elif len(changes) > 1:
        for c in changes:
            confirmed(prover, [c], verdicts)
    else:
        verdict = judged(own_errors(said, prover.crate, changes[0].owners))
        verdicts[changes[0]] = "unclear" if verdict == "open" else verdict


def next_batch(queues, wanted):
    """One change of each function, at most as many as are wanted."""
    batch, taken = [], set()
    for queue in sorted(queues, key=len, reverse=True):
        if queue and len(batch) < wanted and not queue[0].owners & taken:
            batch.append(queue.pop(0))
            taken |= batch[-1].owners
    return batch


def try_crate(crate, world, given):
    found = changes_in(crate, world, given.seed)
    queues = [q for owner, q in sorted(found.items()) if not given.only or given.only in owner]
    possible = sum(map(len, queues))
    prover, verdicts, counted = None if given.list else Prover(crate), {}, 0
    while any(queues) and (given.all or counted < given.least):
        batch = next_batch(queues, 10**6 if given.all else (given.least - counted) * 5 // 4 + 2)
        if given.list:
            verdicts.update((c, "listed") for c in batch)
            continue
        tried(prover, batch, verdicts)
        still = [c for c in batch if verdicts[c] == "open"]
        if still:
            confirmed(prover, still, verdicts)
        for c in batch:
            print(f"{verdicts[c]}: {crate}/{c.told()}", flush=True)
        counted = sum(v in ("fact", "through") for v in verdicts.values())
    if given.list:
        print("\n".join(c.told() for c in verdicts))
    count = lambda v: sum(w == v for w in verdicts.values())
    row = [crate, possible, len(verdicts), count("fact"), count("shape"), count("no code"), count("through"), count("unclear")]
    print("| " + " | ".join(map(str, row)) + (f" |   {prover.time:.0f} s" if prover else " |"), flush=True)
    return row, [(crate, c) for c in verdicts if verdicts[c] in ("through", "unclear")]


def main():
    parser = argparse.ArgumentParser(usage=__doc__)
    parser.add_argument("crates", nargs="+")
    parser.add_argument("--least", type=int, default=40)
    parser.add_argument("--seed", type=int, default=1)
    parser.add_argument("--only")
    parser.add_argument("--all", action="store_true")
    parser.add_argument("--list", action="store_true")
    given = parser.parse_args()
    world = read_all()
    results = [try_crate(crate, world, given) for crate in given.crates]
    print("\n| crate | found | tried | by a fact | by shape | no code | let through | unclear |\n|---|---|---|---|---|---|---|---|")
    for row, _ in results:
        print("| " + " | ".join(map(str, row)) + " |")
    for crate, c in [pair for _, left in results for pair in left]:
        print(f"not refused: {crate}/{c.told()}")


if __name__ == "__main__":
    main()
