#!/usr/bin/env python3
"""Lists what changed since a commit, old and new side by side: functions with their clauses, types, definitions and theorems. By text alone.
usage: tools/changed.py COMMIT [--into PAGE]   (--into: in place of all that stands behind the line '## Lists' of PAGE)"""
import collections, io, os, re, subprocess, sys, tarfile

KINDS = ("functions and their clauses", "types", "definitions", "theorems and lemmas")


def squeeze(s):
    return re.sub(r"\s+", " ", s).strip()


def code(lines):
    """Functions by impl and name, with signature and clauses, and types by name."""
    place, i = "", 0
    while i < len(lines):
        l = lines[i]
        if m := re.match(r"impl(?:<.*?>)? (.+?) \{", l):
            place = m[1]
        elif l == "}":
            place = ""
        if m := re.match(r"(?:pub(?:\(crate\))? )?(?:enum|struct|trait) (\w+)", l):
            end = i if l.endswith((";", "}")) else next(k for k in range(i, len(lines)) if lines[k] == "}")
            above = [lines[i - 1]] if lines[i - 1].startswith("#[derive") else []
            body = [re.sub(r"\s*//.*", "", x) for x in lines[i : end + 1]]
            yield "types", m[1], squeeze(" ".join(above + [x for x in body if x.strip()]))
            i = end
        elif m := re.match(r"\s*(?:pub(?:\(crate\))? )?fn (\w+)", l):
            end = next(k for k in range(i, len(lines)) if lines[k].endswith((" {", ";")) or lines[k].strip() == "{")
            head = "\n".join(lines[i : end + 1]).rstrip("{;")
            head = re.sub(r"\(\s+", "(", re.sub(r",\s*\)", ")", squeeze(re.sub(r"\n\s*(requires|ensures)\b", r"\\n\1", head))))
            yield "functions and their clauses", f"{place + '::' if place else ''}{m[1]}", (f"{place}: " if place else "") + head.replace("\\n", "\n    ")
            i = end
        elif m := re.match(r"\s*ghost (\w+) = (.*);$", l):
            yield "functions and their clauses", f"{place}::{m[1]}", f"in {place}: {squeeze(l)}"
        i += 1


WORDS = r"(?:(?:abbrev|opaque|unfoldable|pub|instance|pattern)\s+)*"
NO_NAME = ("use", "mod", "open", "module", "infixl", "infixr", "infix", "prefix", "let", "unfolding", "where")


def specs(lines):
    """Definitions whole, theorems by what they say, each behind the parameters of the modules around it."""
    lines, around, i = [re.sub(r"(^|\s)--.*", "", l).rstrip() for l in lines], [], 0
    while i < len(lines):
        l, deep = lines[i], len(lines[i]) - len(lines[i].lstrip())
        if l.strip():
            around = [a for a in around if a[0] < deep]
        inner = lambda k: not lines[k] or len(lines[k]) - len(lines[k].lstrip()) > deep  # noqa: E731
        here = around[-1][0] + 2 if around else 0  # deeper lines are parts of a proof
        if m := re.match(r"\s*module \S+(.*?) where$", l):
            around.append((deep, squeeze(m[1])))
        elif deep == here and (m := re.match(rf"\s*({WORDS})((?:record|data)\s+)?([^\s:(){{}},.=|]+)(?:\s[^=]*?)?\s*:(?:\s|$)", l)) and m[3] not in NO_NAME:
            k = i + 1
            while k < len(lines) and inner(k):
                k += 1
            defines = bool(m[2] or re.search(r"abbrev|unfoldable|opaque|pattern", m[1]))
            if defines and not m[2]:  # its equations too
                while k < len(lines) and (inner(k) or re.match(rf"\s*({re.escape(m[3])}\b|unfolding|.*\b{re.escape(m[3].strip('◌'))}\b.*=)", lines[k])):
                    k += 1
            given = squeeze(" ".join(a[1] for a in around))
            rows = [x[deep:] for x in lines[i:k] if x]
            said = squeeze(rows[0]) + "".join("\n    " + squeeze(x) if defines and x[0] != " " else " " + squeeze(x) for x in rows[1:])
            yield KINDS[2 if defines else 3], m[3], (f"for {given}: " if given else "") + said.removeprefix("pub ")
            i = k - 1
        i += 1


def read(files):
    got = {k: collections.defaultdict(list) for k in KINDS}
    for path, text in sorted(files):
        m = re.match(r"crates/(\w+)/(src|specs|proofs)/(.*)\.(rt|antt)$", path)
        if not m or m[4] == "antt" and (m[2] == "src" or re.search(r"(^|/)(Answers|Invariants)$", m[3])):
            continue
        for kind, name, said in code(text.split("\n")) if m[4] == "rt" else specs(text.split("\n")):
            got[kind][m[1], name].append((said, m[2]))
    return got


def main(argv):
    top = subprocess.run(["git", "rev-parse", "--show-toplevel"], capture_output=True, text=True, check=True).stdout.strip()
    tar = tarfile.open(fileobj=io.BytesIO(subprocess.run(["git", "-C", top, "archive", argv[0], "crates"], capture_output=True, check=True).stdout))
    old = read([(t.name, tar.extractfile(t).read().decode()) for t in tar if t.isfile() and t.name.endswith((".rt", ".antt"))])
    names = subprocess.run(["git", "-C", top, "ls-files", "-co", "--exclude-standard", "crates"], capture_output=True, text=True, check=True).stdout.split("\n")
    new = read([(n, open(os.path.join(top, n)).read()) for n in names if n.endswith((".rt", ".antt")) and os.path.exists(os.path.join(top, n))])
    order = [l.split(":")[0].strip() for l in open(os.path.join(top, "crates.txt")) if l.strip() and not l.startswith("#")]
    out = []
    for kind in KINDS:
        o, n = old[kind], new[kind]
        texts = lambda d, k: sorted(s for s, _ in d.get(k, []))  # noqa: E731
        same = [k for k in o if k in n and texts(o, k) == texts(n, k)]
        changed = [k for k in o if k in n and k not in same]
        gone, come = [k for k in o if k not in n], [k for k in n if k not in o]
        moved = {k: q for k in gone for q in come if q[1] == k[1] and texts(o, k) == texts(n, q)}
        gone, come = [k for k in gone if k not in moved], [k for k in come if k not in moved.values()]
        out += ["", f"### {kind[0].upper()}{kind[1:]}", "", f"{len(o)} and {len(n)} names: {len(same)} as they were, {len(changed)} changed, {len(moved)} moved to another crate, {len(gone)} gone, {len(come)} new."]
        for crate in order:
            c, g, a = [sorted(k for k in ks if k[0] == crate) for ks in (changed, gone, come)]
            if not c + g + a:
                continue
            out += ["", f"`{crate}`", "", "```diff"]
            for label, ks in (("changed", c), ("gone", g), ("new", a)):
                out += [f"@@ {label}"] if ks else []
                for k in ks:
                    was, is_ = texts(o, k), texts(n, k)
                    out += ["- " + s.replace("\n", "\n- ") for s in was if s not in is_] + ["+ " + s.replace("\n", "\n+ ") for s in is_ if s not in was]
            out += ["```"]
    text = "\n".join(out) + "\n"
    if "--into" not in argv:
        print(text)
        return
    page = argv[argv.index("--into") + 1]
    head = open(page).read().split("\n## Lists\n")[0]
    open(page, "w").write(head + "\n## Lists\n" + text)


main(sys.argv[1:])
