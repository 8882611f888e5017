#!/usr/bin/env python3
"""Brings the names of this repository's definitions and lemmas to the library's spelling, once: words in snake case.

usage: python3 tools/respell.py        at the top of the repository, once, after the kit's port.py
       python3 tools/respell.py list   only prints each name with its new spelling, and which names fall together

A name is one that a file of specs/ or a lemma file of proofs/ writes and imports from no library. Types and modules
keep their names. In the folder of a function's proof the names that are imported from this repository's own files are
renamed, and the fields of its own records; what the check names there stays. In source files, edits and pages a name
is renamed in clauses and between back quotes. Functions, exported names, strings and texts in quotes stay.
"""
import collections
import os
import re
import sys

NAME = r"[^\s(){}.;,@\"«»\[\]`]+"
USE = re.compile(r"(?m)^([ \t]*(?:ghost )?use )([^\s;{]+)\.\{([^}]*)\}")
BINDERS = re.compile(r"λ[^.]*\.")
# Names that would fall together with another one, or with a name of the source, each with the spelling that it gets.
OTHER = {"a-cells": "a_as_cells", "b-cells": "b_as_cells"} | {
    it: it.replace("-", "_") + "_lem"
    for it in (
        "a-of after-all after-profile after-register b-of fault-of first-apart is-sound least-divisor length-told line-fits merged-term "
        "prime-count prime-powers profile-cell put-part refused-at register-told reply-by word-at zero-from"
    ).split()
}


def snake(name):
    words = re.sub(r"(?<=[a-z0-9])[A-Z]", lambda m: "_" + m[0].lower(), name)
    return re.sub(r"(?<=_)[A-Z]", lambda m: m[0].lower(), words.replace("-", "_").replace("′", "'"))


def respelled(name):
    if name in OTHER:
        return OTHER[name]
    return snake(name)


def worth(name):
    return bool(re.match(r"[a-z]", name)) and snake(name) != name


def crates(root):
    return {c for c in os.listdir(os.path.join(root, "crates")) if os.path.isdir(os.path.join(root, "crates", c))}


def files(root, ends):
    for folder, dirs, names in os.walk(root):
        dirs[:] = sorted(d for d in dirs if d not in ("out", ".git", "target"))
        for n in sorted(names):
            if n.endswith(ends):
                yield os.path.join(folder, n)


def of_function(path):
    """Whether the file is in the folder of a function's proof."""
    return re.search(r"/proofs/[^/]+/", path) is not None


def parts(text):
    """The text as pieces, each with what it is: 'code', 'comment' or 'string'."""
    at = 0
    for m in re.finditer(r'--[^\n]*|"(?:\\.|[^"\\])*"', text):
        yield "code", text[at:m.start()]
        yield ("comment" if m[0].startswith("--") else "string"), m[0]
        at = m.end()
    yield "code", text[at:]


def imports(code, own):
    """The names that a file imports from libraries, and those from this repository."""
    ours, theirs = set(), set()
    for m in USE.finditer(code):
        steps = m[2].split(".")
        mine = steps[0] == "Rattle" and len(steps) > 1 and steps[1] in own
        names = set(re.findall(NAME, m[3])) - {"as"}
        (ours if mine else theirs).update(names)
    return ours, theirs


def code_of(text):
    return "".join(p if kind == "code" else " " * len(p) for kind, p in parts(text))


def qualified(code):
    """The last steps of paths into libraries, as native.Mathlib.Nat.le_refl."""
    return {m[0].split(".")[-1] for m in re.finditer(r"\b(?:Prim|native|mathlib|lib|borrow|Rattle\.std|Rattle\.core)\.[\w.]*\.[^\s(){};,]+", code)}


def fields(code):
    """The names of fields of the records that a file declares."""
    found = set()
    for m in re.finditer(r"(?m)^( *)(?:pub )?record .* where\n((?:\1 +.*\n|\n)*)", code):
        found |= set(re.findall(r"(?m)^ +(?:pub )?(" + NAME + r") :", m[2]))
    return found


def collect(root):
    own = crates(root)
    names, labels = set(), set()
    for path in files(os.path.join(root, "crates"), (".antt",)):
        if of_function(path):
            continue
        code = code_of(open(path, encoding="utf-8").read())
        ours, theirs = imports(code, own)
        rest = USE.sub("", code)
        free = qualified(rest)
        labels |= {n for n in fields(code) if worth(n)}
        for n in re.findall(NAME, rest) + list(ours):
            if worth(n) and n not in theirs and n not in free:
                names.add(n)
    return names, labels


def turn_words(text, names, dotted):
    """The text with the names turned; behind a dot only the names in dotted."""

    def one(m):
        if m[0] not in names:
            return m[0]
        before = text[m.start() - 1:m.start()]
        if before == "." and m[0] not in dotted:
            return m[0]
        return respelled(m[0])

    return re.sub(NAME, one, text)


def turn_ticks(text, names):
    """A comment or a page: only names between back quotes."""
    return re.sub(r"`[^`\n]+`", lambda m: turn_words(m[0], names, names), text)


def turn_antt(path, text, names, labels, own):
    code = code_of(text)
    ours, theirs = imports(code, own)
    if of_function(path):
        names = (names & ours) | labels
        dotted = labels
    else:
        names = (names - theirs) | (names & ours)
        dotted = names
    out = []
    for kind, p in parts(text):
        if kind == "code":
            # A path into a library keeps its last step.
            pieces = re.split(r"(\b(?:Prim|native|mathlib|lib|borrow|Rattle\.std|Rattle\.core)\.[\w.]*\.[^\s(){};,]+)", p)
            p = "".join(q if i % 2 else turn_words(q, names, dotted) for i, q in enumerate(pieces))
        elif kind == "comment":
            p = turn_ticks(p, names)
        out.append(p)
    return "".join(out)


def turn_rt(text, names):
    """Clauses and imports; a comment between back quotes; no string."""
    out, at = [], 0
    for m in re.finditer(r'//[^\n]*|b?"(?:\\.|[^"\\])*"|b?\'(?:\\.|[^\\\'])\'', text):
        out.append(("code", text[at:m.start()]))
        out.append(("comment" if m[0].startswith("//") else "string", m[0]))
        at = m.end()
    out.append(("code", text[at:]))
    return "".join(turn_words(p, names, names) if k == "code" else turn_ticks(p, names) if k == "comment" else p for k, p in out)


def turn_edit(path, text, names):
    of_source = False
    lines = []
    for line in text.split("\n"):
        if line.startswith("file: "):
            of_source = line.rstrip().endswith(".rt")
        elif line.startswith(("old:", "new:")):
            line = line[:4] + (turn_rt(line[4:], names) if of_source else turn_words(line[4:], names, names))
        lines.append(line)
    return "\n".join(lines)


def together(names):
    by = collections.defaultdict(set)
    for n in names:
        by[respelled(n)].add(n)
    return {k: v for k, v in by.items() if len(v) > 1}


def main(argv):
    root = "."
    own = crates(root)
    names, labels = collect(root)
    if argv[1:] == ["list"]:
        for n in sorted(names):
            print(n, respelled(n))
        for k, v in sorted(together(names).items()):
            print("together:", k, sorted(v))
        return 0
    for path in files(os.path.join(root, "crates"), (".antt", ".rt", ".edit")):
        text = open(path, encoding="utf-8").read()
        if path.endswith(".antt"):
            new = turn_antt(path, text, names, labels, own)
        elif path.endswith(".rt"):
            new = turn_rt(text, names)
        else:
            new = turn_edit(path, text, names)
        if new != text:
            with open(path, "w", encoding="utf-8") as f:
                f.write(new)
    for path in [os.path.join(root, "README.md")] + list(files(os.path.join(root, "docs"), (".md",))):
        text = open(path, encoding="utf-8").read()
        new = turn_ticks(text, names)
        if new != text:
            with open(path, "w", encoding="utf-8") as f:
                f.write(new)
    return 0


if __name__ == "__main__":
    raise SystemExit(main(sys.argv))
