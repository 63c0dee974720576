"""Of the older Rattle kit, as tools/changes.py is: with today's, 'rt plant' stands for both.

The single-place changes of a crate's code: what tools/changes.py tries.

The code is read as tokens, with the types of a function's variables as far as they are written somewhere: enough to
exchange a value for another of its type. What a change makes that is no code, the compiler refuses. Clauses, comments,
'use' lines and declarations of types are left alone.
"""

import re

TOKEN = re.compile(
    r"//[^\n]*|b?\"(?:\\.|[^\"\\])*\"|b'(?:\\.|[^'\\])'|\d\w*|[A-Za-z_]\w*"
    r"|=>|->|::|\.\.|&&|\|\||<<|>>|[=!<>+\-*/%|&^]=|\S"
)
OTHER = {
    "+": "- *", "-": "+", "*": "+ /", "/": "* %", "%": "/", "<<": ">>", ">>": "<<", "&": "|", "|": "&", "^": "&", "==": "!=",
    "!=": "==", "<": "<= >", "<=": "< >=", ">": ">= <", ">=": "> <=", "&&": "||", "||": "&&", "+=": "-=", "-=": "+=",
}
OPEN = {"(": ")", "{": "}", "[": "]"}
CLAUSES = ("requires", "ensures", "ghost")


class Tokens:
    def __init__(self, text):
        found = [m for m in TOKEN.finditer(text) if not m[0].startswith("//")]
        self.text, self.at = text, [(m.start(), m.end()) for m in found]
        self.word = [m[0] for m in found]
        self.mate = {}
        stack = []
        for i, w in enumerate(self.word):
            if w in OPEN:
                stack.append(i)
            elif w in OPEN.values() and stack:
                j = stack.pop()
                self.mate[i], self.mate[j] = j, i

        self.named = set(re.findall(r"^use .*\b(\w+);|^(?:pub )?(?:struct|enum) (\w+)", text, re.M))
        self.named = {name for pair in self.named for name in pair}

    def get(self, i):
        return self.word[i] if 0 <= i < len(self.word) else ""

    def span(self, a, b):
        """The text of the tokens from a up to b, b not among them."""
        return self.text[self.at[a][0] : self.at[b - 1][1]] if a < b else ""

    def split(self, i):
        """What stands between the bracket at i and its mate, cut at commas: pairs of first token and end."""
        parts, first, j = [], i + 1, i + 1
        while j <= self.mate[i]:
            if j == self.mate[i] or self.word[j] == ",":
                if first < j:
                    parts.append((first, j))
                first = j + 1
            j = self.mate[j] + 1 if self.word[j] in OPEN and j in self.mate else j + 1
        return parts


def is_name(w):
    return bool(re.fullmatch(r"[A-Za-z_]\w*", w))


class Function:
    def __init__(self, file, path, owner, params, result, first, end):
        self.file, self.path, self.owner = file, path, owner
        self.params, self.result, self.first, self.end = params, result, first, end


class Types:
    """What the sources of all crates declare: structs, variants (by 'Enum::Variant'), functions by name."""

    def __init__(self):
        self.structs, self.variants, self.functions, self.homes = {}, {}, {}, {}
        self.depends = {}

    def read(self, crate, module, tokens):
        for i, w in enumerate(tokens.word):
            if w in ("struct", "enum") and tokens.get(i + 2) == "{":
                name = tokens.word[i + 1]
                self.homes[crate, name] = module
                if w == "struct":
                    self.structs[name] = fields_in(tokens, i + 2)
                else:
                    self.read_variants(name, tokens, i + 2)

    def read_variants(self, name, tokens, i):
        for a, b in tokens.split(i):
            variant = f"{name}::{tokens.word[a]}"
            if b == a + 1:
                self.variants[variant] = []
            elif tokens.word[a + 1] == "{":
                self.variants[variant] = fields_in(tokens, a + 1)
            else:
                self.variants[variant] = [(str(n), tokens.span(*p)) for n, p in enumerate(tokens.split(a + 1))]

    def path(self, name, crate):
        """How a crate can write the type's name without a 'use' line, or None."""
        for (home, of), module in self.homes.items():
            if of == name and (home == crate or home in self.depends[crate]):
                return "::".join(filter(None, ["crate" if home == crate else home, module, name]))
        return None

    def alike(self, variant):
        """The other variants of the same enum that hold the same."""
        name = variant.split("::")[0]
        return [v for v in self.variants if v != variant and v.split("::")[0] == name and self.variants[v] == self.variants[variant]]

    def field(self, name, field):
        return dict(self.structs.get(name, [])).get(field)


def fields_in(tokens, i):
    fields = []
    for a, b in tokens.split(i):
        colon = next(k for k in range(a, b) if tokens.word[k] == ":")
        fields.append((tokens.word[colon - 1], tokens.span(colon + 1, b)))
    return fields


def functions_in(types, crate, file, module, tokens):
    """The functions of a file that have a body."""
    owner, owner_end, found = None, -1, []
    for i, w in enumerate(tokens.word):
        if w == "impl" and tokens.get(i + 2) == "{":
            owner, owner_end = tokens.word[i + 1], tokens.mate[i + 2]
        if w != "fn" or not is_name(tokens.get(i + 1)) or tokens.get(i + 2) != "(":
            continue
        owner = owner if i < owner_end else None
        name, j = tokens.word[i + 1], tokens.mate[i + 2] + 1
        params = []
        for a, b in tokens.split(i + 2):
            a += tokens.word[a] == "mut"
            params.append((tokens.word[a], owner if tokens.word[a] == "self" else tokens.span(a + 2, b)))
        arrow = j
        while j < len(tokens.word) and (tokens.word[j] != "{" or tokens.word[j - 1] in CLAUSES):
            j = tokens.mate[j] + 1 if tokens.word[j] == "{" else j + 1
        result_end = next((k for k in range(arrow, j) if tokens.word[k] in CLAUSES), j)
        result = tokens.span(arrow + 1, result_end) if tokens.word[arrow] == "->" else "()"
        home = types.homes.get((crate, owner), module) if owner else module
        path = "::".join(filter(None, [home, owner, name]))
        function = Function(file, path, owner, params, result, j + 1, tokens.mate[j])
        found.append(function)
        types.functions.setdefault(name, []).append(function)
    return found


class Sites:
    """The changes of one function: lists of (start, end, new text), with a kind."""

    def __init__(self, types, crate, tokens, function):
        self.types, self.crate, self.tokens, self.function = types, crate, tokens, function
        self.patterns, self.arms = set(), []
        self.scope = [(n, t, function.first, function.end) for n, t in function.params]
        self.find_patterns()
        self.find_variables()

    def range(self):
        return range(self.function.first, self.function.end)

    def find_patterns(self):
        t = self.tokens
        for i in self.range():
            if t.word[i] == "match":
                j = next(k for k in range(i, self.function.end) if t.word[k] == "{")
                self.find_arms(j + 1, t.mate[j])
            elif t.word[i] == "let":
                end = next(k for k in range(i, self.function.end) if t.word[k] == "=")
                self.patterns.update(range(i, end))
                after = self.block_end(i)
                self.bind(i + 1, end, after)

    def find_arms(self, j, end):
        t, arms = self.tokens, []
        while j < end:
            arrow = next(k for k in range(j, end) if t.word[k] == "=>")
            stop = arrow + 1
            if t.word[stop] == "{":
                stop = t.mate[stop] + 1
            else:
                while stop < end and t.word[stop] != ",":
                    stop = t.mate[stop] + 1 if t.word[stop] in OPEN else stop + 1
            self.patterns.update(range(j, arrow + 1))
            self.bind(j, arrow, stop)
            arms.append((j, arrow, stop))
            j = stop + (t.get(stop) == ",")
        self.arms.append(arms)

    def block_end(self, i):
        t = self.tokens
        return min([b for a, b in t.mate.items() if a < i < b and t.word[a] == "{"])

    def bind(self, a, b, end):
        """The variables of a pattern 'Enum::Variant(..)' or 'Enum::Variant { .. }'."""
        t = self.tokens
        if b - a < 4 or t.word[a + 1] != "::":
            return
        held = self.types.variants.get("::".join((t.word[a], t.word[a + 2])), [])
        for n, (x, y) in enumerate(t.split(a + 3)):
            kind = dict(held).get(t.word[x] if t.word[a + 3] == "{" else str(n))
            if kind and is_name(t.word[y - 1]):
                self.scope.append((t.word[y - 1], kind, b, end))

    def find_variables(self):
        t = self.tokens
        for i in self.range():
            if t.word[i] == "let" and t.get(i + 1) != "mut" and t.get(i + 2) == "=":
                end = i
                while t.word[end] != ";":
                    end = t.mate[end] + 1 if t.word[end] in OPEN else end + 1
                kind = t.word[end - 1] if t.word[end - 2] == "as" else self.type_of(i + 3, end)
                if kind:
                    self.scope.append((t.word[i + 1], kind, end, self.block_end(i)))

    def variable(self, name, i):
        return next((k for n, k, a, b in reversed(self.scope) if n == name and a <= i < b), None)

    def type_of(self, i, end):
        """The type of the chain of fields and calls from i up to end, if it is one."""
        t, kind = self.tokens, None
        if is_name(t.word[i]):
            kind = self.variable(t.word[i], i)
            while t.get(i + 1) == "::":
                i += 2
            kind, i = (kind, i + 1) if t.get(i + 1) != "(" else (self.result(i, None), t.mate[i + 1] + 1)
        while kind and i < end and t.word[i] == ".":
            if t.get(i + 2) == "(":
                kind, i = self.result(i + 1, kind), t.mate[i + 2] + 1
            else:
                kind, i = self.types.field(kind, t.word[i + 1]), i + 2
        return kind if i == end else None

    def callee(self, i, owner):
        """The functions that the name at i may be."""
        t = self.tokens
        if not owner and t.get(i - 1) == "::":
            owner = t.word[i - 2] if t.word[i - 2][0].isupper() else None
        named = self.types.functions.get(t.word[i], [])
        return [f for f in named if owner is None or f.owner == owner]

    def result(self, i, owner):
        t = self.tokens
        if t.get(i - 1) == "::" and "::".join((t.word[i - 2], t.word[i])) in self.types.variants:
            return t.word[i - 2]
        results = {f.result for f in self.callee(i, owner)}
        return results.pop() if len(results) == 1 else None
