#!/usr/bin/env python3
"""Brings the repository's own definitions and lemmas to Rattle's present spelling.

usage: tools/respell.py [--dry-run]        at the top of the repository, once, right after the kit's port/port.py

Words are in snake case (`leastFitting` becomes `least_fitting`), types and facts keep their capital. In a lemma's name a
dash joins two names, and a plain word is added with `_` (`edge-rule` becomes `edge_rule`, `length-sorted` stays). A field or a
constructor of specs/ has no dash (`same-targets` becomes `same_targets`). Functions
of src/, exported names, strings, inputs and outputs keep their names. Rewrites the code of crates/, the edits in
crates/*/must-fail and edits/, and what stands in backquotes in README.md and docs/. Prints the names that would fall together.
"""

import os
import re
import sys

TOKEN = re.compile(r"(?<![\w'.\u2080-\u2089-])[A-Za-z_\u03bc][\w'\u2080-\u2089]*(?:-[\w'\u2080-\u2089]+)*(?![\w'\u2080-\u2089-])")
PART = re.compile(r"(?<![\w'\u2080-\u2089-])[A-Za-z_\u03bc][\w'\u2080-\u2089]*(?:-[\w'\u2080-\u2089]+)*(?![\w'\u2080-\u2089-])")
DECLARED = re.compile(r"^\s*((?:(?:pub|abbrev|unfoldable|data|record)\s+)*)([A-Za-z_\u03bc][^\s:(){}]*(?:\s+[A-Za-z_\u03bc][^\s:(){}]*)*)\s*(?:[({].*)?:(?!=)")
WORDS = {"use", "module", "where", "let", "in", "elim", "open", "unfolding", "pub", "abbrev", "unfoldable", "data", "record"}
# lemmas that would get the name of a definition or of a function
TAKEN = {name: name.replace("-", "_") + "_lem" for name in ("abs-bits", "at-index", "from_one", "last-there", "marks-valid", "nearest-quotient", "of-bits")}
UNITS = {"kvB"}  # sat/kvB, as comments write it
HEX = re.compile(r"^x[0-9A-F_]+$|^0x")


def files(top, endings):
    for folder, dirs, names in os.walk(top):
        dirs[:] = sorted(d for d in dirs if d not in ("out", ".git"))
        for name in sorted(names):
            if name.endswith(endings):
                yield os.path.join(folder, name)


def read(path):
    with open(path, encoding="utf-8") as f:
        return f.read()


def is_walk(path):
    return os.path.basename(path) == "Proof.antt"


def snake(word):
    if not word[:1].islower() or HEX.match(word):
        return word
    word = re.sub(r"(?<=[a-z0-9'])(?=[A-Z])", "_", word)
    return re.sub(r"(?<=[A-Z])(?=[A-Z][a-z])", "_", word).lower()


def without_comments(text):
    return re.sub(r"(?m)(^|\s)--(\s.*)?$", r"\1", text)


def declared(text):
    for line in without_comments(text).split("\n"):
        m = DECLARED.match(line)
        if m:
            for name in m[2].split():
                if name not in WORDS:
                    yield m[1], name


def table():
    names, known, fields = set(), set(), set()
    for path in files("crates", (".antt",)):
        text = read(path)
        for m in re.finditer(r"use [\w.'+-]+\.\{([^}]*)\}", text):
            known |= {n for w in m[1].split(",") for n in w.split() if "-" not in n}
        if is_walk(path):
            continue
        for marks, name in declared(text):
            names.add(name)
            if "/specs/" in path:
                fields.add(name)
            if "-" not in name and ("/specs/" in path or "abbrev" in marks or "unfoldable" in marks or "data" in marks or "record" in marks):
                known.add(name)
    known = {snake(n) for n in known if len(n) > 1}
    new = {}
    for name in names:
        if "-" in name and "_" in name:
            continue  # port.py has spelled it
        parts = [snake(p) for p in name.split("-")]
        to = parts[0]
        for p in parts[1:]:
            to += ("-" if p in known and name not in fields else "_") + p
        if to != name:
            new[name] = to
    for path in files("crates", (".antt", ".rt")):
        for m in PART.finditer(read(path)):
            name = m[0]
            if name not in new and re.search(r"[a-z0-9][A-Z]", name) and name[:1].islower() and "-" not in name and name not in UNITS and not HEX.match(name):
                new[name] = snake(name)
    return new | TAKEN


def turn(text, new, pattern=PART):
    return pattern.sub(lambda m: new.get(m[0], m[0]), text)


def turn_walk(text, new, camel):
    """The text of a proof by hand: what it imports and the definitions. The names that the check makes have dashes too, and stay."""
    imported = {n for m in re.finditer(r"use Rattle\.[\w.'+-]+\.\{([^}]*)\}", text) for n in re.split(r"[,\s]+", m[1])}
    own = {n: to for n, to in new.items() if n in imported and n not in camel}
    return turn(turn(text, camel), own, TOKEN)


def turn_code(text, new):
    """The text of a .rt file: everything but strings."""
    parts = re.split(r'("(?:[^"\\]|\\.)*")', text)
    return "".join(p if i % 2 else turn(p, new) for i, p in enumerate(parts))


def fall_together(path, old, new):
    """Pairs of names of one file that the table makes one."""
    seen = {}
    for m in TOKEN.finditer(old):
        seen.setdefault(new.get(m[0], m[0]), set()).add(m[0])
    return [f"{path}: {' and '.join(sorted(v))} become {k}" for k, v in sorted(seen.items()) if len(v) > 1]


def main(argv):
    if argv and argv[0] in ("-h", "--help"):
        print(__doc__)
        return 0
    if argv and argv != ["--dry-run"]:
        print(__doc__, file=sys.stderr)
        return 2
    if not os.path.isdir("crates"):
        print("respell: no crates/ here: run it at the top of the repository", file=sys.stderr)
        return 2
    new = table()
    camel = {k: v for k, v in new.items() if "-" not in k}
    together, out = [], {}
    for path in files("crates", (".antt", ".rt", ".edit")):
        text = read(path)
        if path.endswith(".antt"):
            if is_walk(path):
                together += fall_together(path, without_comments(text), camel)
                out[path] = turn_walk(text, new, camel)
            else:
                together += fall_together(path, without_comments(text), new)
                out[path] = turn(text, new)
        elif path.endswith(".edit"):
            out[path] = turn(text, new)
        else:
            together += fall_together(path, re.sub(r"(?m)//.*$", "", text), camel)
            out[path] = turn_code(text, camel)
    for path in files("edits", (".edit",)):
        out[path] = turn(read(path), new)
    for path in [*files("docs", (".md",)), "README.md"]:
        out[path] = re.sub(r"`[^`\n]+`", lambda m: turn(m[0], new), read(path))
    for line in together:
        print(line)
    changed = 0
    for path, text in out.items():
        if text != read(path):
            changed += 1
            if not argv:
                with open(path, "w", encoding="utf-8") as f:
                    f.write(text)
    print(f"respell: {len(new)} names, {changed} files{' would change' if argv else ' changed'}, {len(together)} to look at")
    return 0


if __name__ == "__main__":
    raise SystemExit(main(sys.argv[1:]))
