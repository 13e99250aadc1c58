#!/usr/bin/env python3
"""Brings the names of this repository's own definitions and laws to the spelling that Rattle's
library has: words in snake case, types and modules in upper camel case.

usage: python3 tools/respell.py     once, at the top of the repository, after port.py

A name in lower camel case becomes snake case wherever it stands in specs/, proofs/, contracts,
must-fail edits and pages. A dash in a name that specs/ declares becomes an underscore, and so does
one in a law's name, unless names of definitions stand on both sides of it. Functions of src/,
exported names, text in quotes, inputs and outputs are left as they are. It stops where two names
would fall together.
"""
import glob
import re
import sys

WORD = re.compile(r"[A-Za-z_][\w']*(?:-[\w'<≤≡≢]+)*")
CAMEL = re.compile(r"^[a-z][A-Za-z0-9_']*[A-Z][A-Za-z0-9_']*$")
HEAD = re.compile(
    r"^(\s*)(?:unfoldable |abbrev |opaque )?(?:pub )?(?:(record|data|module|ruleset) )?"
    r"([^\s:(){}.]+)(?:\s+[({].*)? :(?:\s|$)"
)
# Words of the library that stand in a law's name as a definition's name does.
LIBRARY = set(
    "le lt eq add mul sub div mod zero suc one append length take drop get_or set reverse map nil "
    "cons pow min max leb ltb eqb true false".split()
)


def read(path):
    with open(path, encoding="utf-8") as it:
        return it.read()


def snake(part):
    """One word: from camel case to snake case; a type keeps its capitals."""
    if not CAMEL.match(part):
        return part
    return re.sub(r"(?<=[a-z0-9'])([A-Z])", r"_\1", part).lower()


def declared(text):
    """The names that a file declares, fields and constructors too, each with its declaration."""
    for part in text.split("\n\n"):
        for line in part.split("\n"):
            m = HEAD.match(line)
            if m and m.group(2) not in ("module",):
                yield m.group(3), part


def imported(text):
    """The names that a file takes from the library."""
    for m in re.finditer(r"^(?:ghost )?use ([A-Za-z_][\w.]*)\.\{([^}]*)\}", text, re.M):
        where = m.group(1)
        if where.startswith("Rattle.") and not where.startswith("Rattle.std"):
            continue
        for name in m.group(2).split(","):
            yield name.strip().split(" as ")[0]


specs = sorted(glob.glob("crates/*/specs/*.antt"))
laws = sorted(glob.glob("crates/*/proofs/*.antt"))
bodies = sorted(glob.glob("crates/*/proofs/*/*.antt"))
sources = sorted(glob.glob("crates/*/src/*.rt"))
edits = sorted(glob.glob("crates/*/must-fail/*.edit"))
pages = ["README.md", *sorted(glob.glob("docs/*.md")), *sorted(glob.glob("docs/*.edit"))]
texts = {p: read(p) for p in specs + laws + bodies + sources + edits + pages}

of_library = {n for p in specs + laws + bodies + sources for n in imported(texts[p])}
turned = {}

# Definitions, their fields, constructors and parameters.
of_specs = set()
for p in specs:
    for name, _ in declared(texts[p]):
        of_specs.add(name)
    code = re.sub(r"--.*", "", texts[p])
    for name in WORD.findall(code):
        if "-" in name and name not in of_library and not name.startswith("Rattle"):
            turned[name] = "_".join(snake(part) for part in name.split("-"))
for p in laws:  # a law's own words
    of_specs |= {n for n, _ in declared(texts[p]) if CAMEL.match(n)}
of_definitions = {turned.get(n, snake(n)) for n in of_specs}
known = {snake(n) for n in of_specs if "-" not in n} | LIBRARY


def law(name):
    parts = [snake(part) for part in name.split("-")]
    out = parts[0]
    for before, after in zip(parts, parts[1:]):
        both = before in known and after in known
        out += ("-" if both else "_") + after
    # A law that would have its definition's name.
    return out + "_lem" if out in of_definitions else out


for p in laws + bodies:
    for name, line in declared(texts[p]):
        if p in bodies and re.search(r"\b(tie|goal)\.|statement|Tie\b", line):  # the kit's own
            continue
        if name in of_library or name in turned or not WORD.fullmatch(name):
            continue
        if "-" in name:
            turned[name] = law(name)
        elif name not in of_specs and name in of_definitions:
            turned[name] = name + "_lem"


def new(name):
    if name in turned:
        return turned[name]
    if "-" in name:
        return "-".join(snake(part) for part in name.split("-"))
    return snake(name)


of_laws = {n for p in laws for n, _ in declared(texts[p])}
ours = of_definitions | of_laws | {new(n) for n in of_specs | of_laws}


def turn(text):
    """Code: every name that is not the library's."""
    return WORD.sub(lambda m: m.group(0) if m.group(0) in of_library else new(m.group(0)), text)


def prose(text):
    """A comment or a page: our names alone, and a name with a dash only between backticks."""

    def one(m):
        name = m.group(0)
        if "-" in name or name in of_library or new(name) not in ours:
            return name
        return new(name)

    def ticked(m):
        return WORD.sub(lambda w: new(w.group(0)) if new(w.group(0)) in ours else w.group(0), m.group(0))

    return "".join(
        re.sub(r".+", ticked, part, flags=re.S) if i % 2 else WORD.sub(one, part)
        for i, part in enumerate(re.split(r"(`[^`\n]*`)", text))
    )


def clauses(text):
    """A source: a name in lower camel case, or with a dash, that is ours stands only in its clauses
    and ghost lines."""
    return WORD.sub(
        lambda m: new(m.group(0))
        if m.group(0) in of_specs | of_laws or m.group(0) in turned or new(m.group(0)) in ours
        else m.group(0),
        text,
    )


def by_line(text, mark, code, comment):
    """Each line's code by one rule, and what follows the mark of a comment by another."""
    lines = []
    for line in text.split("\n"):
        at = re.search(mark, line)
        at = at.start() if at else len(line)
        lines.append(code(line[:at]) + comment(line[at:]))
    return "\n".join(lines)


def quoted(text, how):
    """Text in double quotes stays as it is."""
    return "".join(
        part if i % 2 else how(part) for i, part in enumerate(re.split(r'("(?:[^"\\\n]|\\.)*")', text))
    )


out = {}
for p, text in texts.items():
    if p in specs + laws + bodies:
        text = by_line(text, r"--", lambda code: quoted(code, turn), prose)
        if p in bodies:
            text = re.sub(
                r"(?m)\b([A-Za-z][\w-]*)-spec\b", lambda m: m.group(1).replace("-", "_") + "_spec", text
            )
    elif p in sources:
        text = by_line(text, r"//", lambda code: quoted(code, clauses), prose)
    elif p in edits:
        text = by_line(text, r"^#", clauses, prose)
    else:
        text = prose(text)
    out[p] = text

# Names that fall together: two names of one file that would be one, or a name and a parameter that
# a clause would take for it. A function and its definition may share a name.
clash = 0
for p, text in texts.items():
    if p in pages or p in edits:
        continue
    into = {}
    code = re.sub(r"--.*|//.*", "", text)
    if p in sources:
        for m in re.finditer(r"\bfn \w+(?:<[^>]*>)?\(([^)]*)\)(.*?)\n\{\n", code, re.S):
            params = set(re.findall(r"(\w+):", m.group(1)))
            for name in set(WORD.findall(m.group(2))):
                if name not in of_library and new(name) != name and new(name) in params:
                    print(f"hidden by a parameter: {p}: {name} -> {new(name)}")
                    clash += 1
        continue
    code = re.sub(r"(?<=[\w)])\.[\w'-]+", "", re.sub(r"Rattle\.\w+(\.\w+)*", "", code))
    for name in set(WORD.findall(code)):
        to = name if name in of_library else new(name)
        into.setdefault(to, set()).add(name)
    for to, names in sorted(into.items()):
        if len(names) > 1:
            print(f"fall together: {p}: {sorted(names)} -> {to}")
            clash += 1
if "--dry" in sys.argv:
    for name, to in sorted(turned.items()):
        print(name, "->", to)
    print(clash, "clashes;", sum(out[p] != texts[p] for p in texts), "files")
    sys.exit(0)
for p, text in out.items():
    if text != texts[p]:
        with open(p, "w", encoding="utf-8") as it:
            it.write(text)
print(f"{sum(out[p] != texts[p] for p in texts)} files respelled")
