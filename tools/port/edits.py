#!/usr/bin/env python3
"""Brings must-fail edits over whose 'old:' text no longer stands, because port.py turned the file's spelling.

usage, at the top of the repository:   edits.py OLD [--dry] [CRATE..]
    OLD: a commit (or a folder) with the repository before port.py

For each pair old:/new: whose old text is not once in today's file, it finds the old file's lines that hold it, the lines of today's
file that stand in their place (difflib over the two files), and turns both texts by
  1. tight projections: (x .f) -> x.f, (p .a .b) -> p.a.b, «x» -> x, ′ -> '
  2. the words that the two files show to be turned (learned token by token from lines that differ only by words), as halfOf -> half_of
Only where the turned old text stands exactly once in today's file is the edit written; else a line 'left:' names it, with today's line.
The new text gets the same turn, so its meaning stays. Run `rt must-fail NAME` afterwards: it says whether it reads and is refused.
Exit status 0; 1 if something is left.
"""
import difflib, glob, os, re, subprocess, sys

TOK = re.compile(r"[^\s(){}\[\];,.«»]+|[\s(){}\[\];,.«»]")

def tight(s):
    s = re.sub(r"«([^»]*)»", r"\1", s).replace("′", "'")
    s = re.sub(r"Rattle·(\w+)[·.](specs|proofs)(?:\.\2(?=\.))?", r"Rattle.\1.\2", s)   # Rattle·rules·specs.specs.M, Rattle·wire.specs.M
    s = re.sub(r"(?<=\.)_([^\w\s.,()]+)_(?![\w])", "◌\\1◌", s)       # Prim.Native.Nat._-_ -> Prim.Native.Nat.◌-◌
    prev = None
    while prev != s:
        prev = s
        s = re.sub(r"([\w'₀-₉)]) \.(\w)", r"\1.\2", s)           # x .f -> x.f
        s = re.sub(r"(?<![\w'.])\(([\w'₀-₉-]+(?:\.[\w'-]+)+)\)", r"\1", s)   # (x.f) -> x.f
    return s

def old_text(old, path):
    if os.path.isdir(old):
        p = os.path.join(old, path)
        return open(p, encoding="utf-8").read() if os.path.exists(p) else ""
    r = subprocess.run(["git", "show", f"{old}:{path}"], capture_output=True, text=True)
    return r.stdout if r.returncode == 0 else ""

def main():
    args = [a for a in sys.argv[1:] if a != "--dry"]; dry = "--dry" in sys.argv
    if not args: print(__doc__); return 2
    old, crates = args[0], args[1:]
    left = done = 0
    own = renamed(old)
    for e in sorted(glob.glob("crates/*/must-fail/*.edit")):
        crate = e.split(os.sep)[1]
        if crates and crate not in crates: continue
        d = os.path.join("crates", crate)
        lines = open(e, encoding="utf-8").read().split("\n")
        cur, texts, out, changed, bad = None, {}, [], False, False
        i, pend = 0, None
        for l in lines:
            if l.startswith("file: "): cur = l[6:].strip()
            if l.startswith("old: "):
                o = l[5:]
                p = os.path.join(d, cur)
                if p not in texts: texts[p] = open(p, encoding="utf-8").read() if os.path.exists(p) else ""
                if texts[p].count(o) == 1:
                    pend = (p, o, None)
                else:
                    w = words(old_text(old, p), texts[p])
                    t = turn(o, w)
                    if texts[p].count(t) != 1:
                        left += 1; bad = True
                        print(f"left: {e}: {o!r}\n      turned: {t!r} stands {texts[p].count(t)} times\n      near: {near(t, texts[p])!r}")
                        break
                    pend = (p, t, w); l = "old: " + t; changed = True
            elif l.startswith("new:") and pend:
                p, t, w = pend
                n = l[5:]
                if w is not None: n = turn(n, w)
                elif cur.endswith(".antt") and tight(n) != n: n = tight(n); changed = True
                # names of the repository's own that were turned, also below a path: Rattle.record.specs.Answers.numberOf -> number_of
                for x in set(TOK.findall(n)):
                    if x in own and x not in texts[p]: n = "".join(own[y] if y == x else y for y in TOK.findall(n)); changed = True
                l = "new: " + n if n else l
                texts[p] = texts[p].replace(t, n, 1); pend = None
            out.append(l)
        if bad: continue
        if changed:
            done += 1
            print(f"turned: {e}")
            if not dry: open(e, "w", encoding="utf-8").write("\n".join(out))
    print(f"edits: {done} edits turned, {left} left")
    return 1 if left else 0

DECL = re.compile(r"(?m)^ *(?:abbrev |unfoldable )?(?:pub )?(?:abbrev |unfoldable )?([^\s(){}:,]+) : ")

def renamed(old):
    """the repository's own names that port.py turned: the names that each .antt file declares, before and after, in order"""
    out = {}
    for f in glob.glob("crates/**/*.antt", recursive=True):
        if "/out/" in f: continue
        a, b = DECL.findall(old_text(old, f)), DECL.findall(open(f, encoding="utf-8").read())
        if len(a) == len(b):
            for x, y in zip(a, b):
                if x != y: out[x] = y
    return out

def words(a, b):
    """words turned, learned from lines that stand in one another's place"""
    w, seen = {}, {}
    alike = lambda x: re.sub(r"[-_◌]", "", x).lower()
    A, B = [tight(x) for x in a.split("\n")], b.split("\n")
    for tag, i1, i2, j1, j2 in difflib.SequenceMatcher(None, A, B, autojunk=False).get_opcodes():
        if tag != "replace": continue
        for x in A[i1:i2]:
            for y in B[j1:j2]:
                X, Y = TOK.findall(x), TOK.findall(y)
                if len(X) == len(Y):
                    df = [(p, q) for p, q in zip(X, Y) if p != q]
                    if len(df) <= max(3, len(X) // 4) and all(re.search(r"[^\W\d]", p) for p, q in df):
                        for p, q in df: seen.setdefault(p, {}).setdefault(q, 0); seen[p][q] += 1
    # a word that reads alike, or one that is turned the same way on every line that shows it
    for p, qs in seen.items():
        same = [q for q in qs if alike(p) == alike(q)]
        if same: w[p] = same[0]
        elif len(qs) == 1 and p not in re.findall(TOK, b): w[p] = next(iter(qs))
    return w

def turn(s, w):
    return "".join(w.get(t, t) for t in TOK.findall(tight(s)))

def near(t, text):
    c = difflib.get_close_matches(t, text.split("\n"), 1, 0.3)
    return c[0] if c else ""

sys.exit(main())
