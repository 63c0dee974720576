"""Of the older Rattle kit, as tools/changes.py is: with today's, 'rt plant' stands for both.

The kinds of single-place change that tools/changes.py tries. Each function below yields (kind, edits) for a
function's Sites, an edit being (start, end, new text); several edits make one change where two things are exchanged.
"""

import re
from itertools import combinations

from change_sites import OTHER, is_name


def edit(tokens, a, b, new):
    """Tokens a up to b become new."""
    return (tokens.at[a][0], tokens.at[b - 1][1], new)


def numbers_near(word):
    """Other numbers in place of one, in the way it is written, with its suffix."""
    m = re.fullmatch(r"(0x[0-9a-fA-F_]+|[0-9_]+?)(u8|u16|u32|u64|usize|i32|i64)?", word)
    if not m:
        return []
    n, suffix = int(m[1].replace("_", ""), 0), m[2] or ""
    near = [n + 1, n - 1] + ([0] if n > 2 else [])
    if n >= 16 and n & (n - 1) == 0:
        near += [2 * n, n // 2]
    write = hex if m[1].startswith("0x") else str
    return [write(k) + suffix for k in near if k >= 0]


def texts_near(word):
    """b'x' and b"text" with another letter; the text also without its last one."""
    if "\\" in word:
        return ["b' '"] if word[1] == "'" else []
    other = chr(ord(word[2]) + 1) if word[2] not in "&!~" else "x"
    changed = [word[:2] + other + word[3:]]
    return changed + ([word[:-2] + '"'] if word[1] == '"' and len(word) > 4 else [])


def words(s):
    """Operators, numbers, texts, true and false."""
    t = s.tokens
    for i in s.range():
        w, before = t.word[i], t.word[i - 1]
        if i in s.patterns and not w[0].isdigit():
            continue
        new = []
        binary = is_name(before) and before not in ("return", "match", "if", "in") or before[0].isdigit() or before in (")", "]")
        if w in OTHER and binary:
            new = OTHER[w].split()
        elif w == "!" and not is_name(before):
            new = [""]
        elif w[0].isdigit():
            new = numbers_near(w)
        elif w[:2] in ("b'", 'b"'):
            new = texts_near(w)
        elif w in ("true", "false"):
            new = ["false" if w == "true" else "true"]
        kind = "operator" if w in OTHER or w == "!" else "case" if w in ("true", "false") else "constant"
        for other in new:
            yield kind, [edit(t, i, i + 1, other)]


def variants(s):
    """A variant in an expression becomes another that holds the same."""
    t = s.tokens
    for i in s.range():
        variant = "::".join((t.word[i], t.get(i + 2)))
        if i in s.patterns or t.get(i + 1) != "::" or variant not in s.types.variants:
            continue
        for other in s.types.alike(variant):
            yield "case", [edit(t, i, i + 3, other)]


def values(s, kind):
    """Fixed values of a type that the crate can name: what a variable or a field of it may become."""
    if kind == "bool":
        return ["true", "false"]
    if kind in ("u8", "u16", "u32", "u64", "usize"):
        return ["0", "1"]
    path = kind if kind in s.tokens.named else s.types.path(kind, s.crate)
    named = [v.split("::") for v, held in s.types.variants.items() if not held]
    return [f"{path}::{variant}" for name, variant in named if name == kind] if path else []


def settled(s):
    """A variable, or a field, becomes a fixed value of its type."""
    t = s.tokens
    for i in s.range():
        if i in s.patterns or not is_name(t.word[i]) or t.get(i - 1) in (".", "::"):
            continue
        end = i + 1
        while t.get(end) == "." and is_name(t.get(end + 1)) and t.get(end + 2) != "(":
            end += 2
        if t.get(end) in ("(", "::", ":", "{", ".", "[", "=", "+=", "-="):
            continue
        for value in values(s, s.type_of(i, end)):
            yield "constant", [edit(t, i, end, f"{t.word[i]}: {value}" if end == i + 1 and shorthand(t, i) else value)]


def emptied(s):
    """A variant that holds something becomes one that holds nothing, or the other way about."""
    t = s.tokens
    for i in s.range():
        variant = "::".join((t.word[i], t.get(i + 2)))
        if i in s.patterns or variant not in s.types.variants or t.get(i + 1) != "::":
            continue
        others = {v: held for v, held in s.types.variants.items() if v != variant and v.split("::")[0] == t.word[i]}
        if s.types.variants[variant] and t.get(i + 3) in ("(", "{"):
            for v in [v for v, held in others.items() if not held]:
                yield "case", [edit(t, i, t.mate[i + 3] + 1, v)]
        elif not s.types.variants[variant]:
            for v, held in others.items():
                for name in [n for n, k, a, b in s.scope if a <= i < b and [("0", k)] == held]:
                    yield "case", [edit(t, i, i + 3, f"{v}({name})")]


def head(t, a, b):
    """Where a pattern's variant ends, or the whole of a number."""
    return a + 3 if t.get(a + 1) == "::" else b


def arms(s):
    """The patterns of two arms are exchanged, where they bind the same and do not do the same."""
    t = s.tokens
    for of_match in s.arms:
        for (a, b, e), (c, d, f) in combinations(of_match, 2):
            m, n = head(t, a, b), head(t, c, d)
            x, y = t.span(a, m), t.span(c, n)
            alike = x in s.types.variants and y in s.types.alike(x) or x[0].isdigit() and y[0].isdigit()
            if alike and t.span(m, b) == t.span(n, d) and t.span(b, e) != t.span(d, f):
                yield "case", [edit(t, a, m, y), edit(t, c, n, x)]


def shorthand(t, i):
    """Whether the name at i is a field given by its name alone."""
    return t.get(i - 1) in ("{", ",") and t.get(i + 1) in (",", "}") and literal_at(t, i)


def literal_at(t, i):
    """Whether i stands directly within a struct literal or pattern."""
    j = i
    while j > 0:
        j -= 1
        if t.word[j] in (")", "}", "]"):
            j = t.mate[j]
        elif t.word[j] in ("(", "["):
            return False
        elif t.word[j] == "{":
            return t.word[j - 1][0].isupper()
    return False


def names(s):
    """A variable becomes another of its type."""
    t = s.tokens
    for i in s.range():
        w = t.word[i]
        if i in s.patterns or not is_name(w) or t.get(i - 1) in (".", "::") or t.get(i + 1) in ("(", "::", ":", "{"):
            continue
        kind = s.variable(w, i)
        if not kind or "mut" in kind or t.get(i + 1) in ("=", "+=", "-="):
            continue
        for other in dict.fromkeys(n for n, k, a, b in s.scope if k == kind and n not in (w, "_") and a <= i < b):
            if s.variable(other, i) == kind:
                yield "name", [edit(t, i, i + 1, f"{w}: {other}" if shorthand(t, i) else other)]


def members(s):
    """x.a becomes x.b, of the same type."""
    t = s.tokens
    for i in s.range():
        if t.word[i] != "." or t.get(i + 2) == "(" or not is_name(t.get(i + 1)):
            continue
        first = i - 1
        while t.get(first - 1) == ".":
            first -= 2
        owner = s.type_of(first, i)
        kind = s.types.field(owner, t.word[i + 1])
        for other, k in s.types.structs.get(owner, []):
            if k == kind and other != t.word[i + 1]:
                yield "field", [edit(t, i + 1, i + 2, other)]


def exchanged(t, parts, kinds):
    """Two parts of the same type change places."""
    for (n, (a, b)), (m, (c, d)) in combinations(enumerate(parts), 2):
        x, y = t.span(a, b), t.span(c, d)
        if kinds[n] and kinds[n] == kinds[m] and x != y and "&mut" not in x + y:
            yield [edit(t, a, b, y), edit(t, c, d, x)]


def arguments(s):
    t = s.tokens
    for i in s.range():
        if t.word[i] != "(" or not is_name(t.word[i - 1]):
            continue
        parts = t.split(i)
        held = s.types.variants.get("::".join((t.word[i - 3], t.word[i - 1])))
        if held and t.word[i - 2] == "::":
            lists = [[k for _, k in held]]
        else:
            lists = [[k for n, k in f.params if n != "self"] for f in s.callee(i - 1, None)]
        lists = [k for k in lists if len(k) == len(parts)]
        for edits in exchanged(t, parts, lists[0]) if lists else []:
            yield "field", edits


def literals(s):
    """The values, or in a pattern the variables, of two fields of the same type change places."""
    t = s.tokens
    for i in s.range():
        if t.word[i] != "{" or not is_name(t.word[i - 1]):
            continue
        name = t.word[i - 1]
        held = s.types.variants.get(f"{t.word[i - 3]}::{name}") if t.word[i - 2] == "::" else s.types.structs.get(name)
        if not held:
            continue
        given = [(t.word[a], a, b) for a, b in t.split(i) if t.word[a] != ".."]
        for (f, a, b), (g, c, d) in combinations(given, 2):
            x = t.span(a + 2, b) if b > a + 1 else f
            y = t.span(c + 2, d) if d > c + 1 else g
            if dict(held).get(f) == dict(held).get(g) and x != y:
                yield "field", [edit(t, a, b, f"{f}: {y}"), edit(t, c, d, f"{g}: {x}")]


def dropped(s):
    """A step 'x.with_y(z)' of a chain is left out."""
    t = s.tokens
    for i in s.range():
        if t.word[i] == "." and t.get(i + 2) == "(":
            if any(f.owner and f.owner == f.result for f in s.callee(i + 1, None)):
                yield "step", [(t.at[i][0], t.at[t.mate[i + 2]][1], "")]


def called(s):
    """A function becomes another of the same place and the same type."""
    t = s.tokens
    of = lambda f: (f.file, f.owner, [k for _, k in f.params], f.result)
    for i in s.range():
        if not is_name(t.word[i]) or t.get(i + 1) != "(":
            continue
        for f in s.callee(i, None)[:1]:
            for name, others in s.types.functions.items():
                if name != t.word[i] and any(of(g) == of(f) for g in others):
                    yield "call", [edit(t, i, i + 1, name)]


KINDS = (words, variants, arms, members, arguments, literals, names, settled, emptied, dropped, called)

# they change which calls there are, so that a proof seldom fits: tried last
LAST = ("step", "call")


def changes_of(sites):
    for kind in KINDS:
        yield from kind(sites)
