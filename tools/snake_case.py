#!/usr/bin/env python3
"""Spells this repository's own definitions and lemmas as the library does: in snake case, a dash only between two names.

usage: tools/snake_case.py            at the top, once, after the kit's port.py
       tools/snake_case.py --list     prints old and new names, and what would fall together; writes nothing

A definition of specs/ has underscores alone. A lemma of proofs/ keeps a dash where both sides are names of definitions,
as `length-store`; a plain word is added with an underscore, as `received_other`. Names that Rattle makes are not touched,
nor are functions, fields and strings of src/.
"""
import os
import re
import sys

TOKEN = re.compile(r"[^\s(){}\[\];,.:|\"`@«»⌜⌝]+")
SIGNATURE = re.compile(r"^\s*(?:-- )?(?:(?:pub|abbrev|unfoldable|data|record|ruleset) )*([^\s(){}\[\];,.:|\"`@«»]*-[^\s(){}\[\];,.:|\"`@«»]*) (?::|\(|\{)(.*)$")
# words of the library that lemmas are named after
LIBRARY = {"length", "take", "drop", "get_or", "set", "append", "cond"}
# definitions whose names are plain words in a lemma's name
PLAIN = {"is", "none", "empty", "first"}


def files(ends):
    for folder, dirs, names in os.walk("crates"):
        dirs[:] = sorted(d for d in dirs if d != "out")
        for n in sorted(names):
            if n.endswith(ends):
                yield os.path.join(folder, n)


def read(path):
    with open(path, encoding="utf-8") as f:
        return f.read()


def code_of(line):
    """A line of antt without its comment."""
    return re.sub(r"(^|\s)-- .*$", "", line)


def defined():
    """The names with a dash that specs/ define, and those that proofs/ define."""
    specs, lemmas = set(), set()
    for path in files(".antt"):
        for line in read(path).splitlines():
            m = SIGNATURE.match(code_of(line))
            if not m or "tie." in m.group(2)[:6]:
                continue
            (specs if "/specs/" in path else lemmas).add(m.group(1))
    for path in files((".antt", ".rt")):
        for line in read(path).splitlines():
            if re.match(r"\s*(ghost )?use ", line):
                specs.update(re.findall(r" as ([\w-]+-[\w-]+)", line))
    return specs, lemmas


def spelled(name, names):
    """A lemma's name: a dash stays where what stands on each side of it names a definition."""
    parts = name.split("-")
    for i in range(1, len(parts)):
        left, right = "_".join(parts[:i]), "_".join(parts[i:])
        if left in names and right in names:
            return left + "-" + right
    return "_".join(parts)


def table():
    specs, lemmas = defined()
    plain = set()
    for path in files(".antt"):
        if "/specs/" in path:
            for line in read(path).splitlines():
                m = re.match(r"^\s*(?:(?:pub|abbrev|unfoldable|data|record) )+([a-z][^\s(){}\[\];,.:-]*) [:({]", code_of(line))
                if m:
                    plain.add(m.group(1))
    names = (plain - PLAIN) | {s.replace("-", "_") for s in specs} | LIBRARY
    new = {s: s.replace("-", "_") for s in specs}
    for lemma in lemmas - specs:
        new[lemma] = lemma[:-5].replace("-", "_") + "_spec" if lemma.endswith("-spec") else spelled(lemma, names)
    return {old: name for old, name in new.items() if old != name}


def turned(text, new):
    """Names in a text; in a comment only what stands in backticks, since the rest is English."""
    def names(t):
        return TOKEN.sub(lambda m: new.get(m.group(0), m.group(0)), t)

    def line(t):
        at = re.search(r"(?:^|(?<=\s))(?:--|#) ", t)
        if not at:
            return names(t)
        return names(t[: at.start()]) + re.sub(r"`[^`]*`", lambda m: names(m.group(0)), t[at.start() :])

    return "".join(line(t) for t in text.splitlines(keepends=True))


def turned_source(text, new):
    """Of src/, the imports and clauses of contracts."""
    out, inside = [], False
    for line in text.splitlines(keepends=True):
        head = re.match(r"\s*(ghost use|requires|ensures)\b", line)
        inside = bool(head) or inside and not re.match(r"\s*(\{\s*$|//|pub |fn )", line)
        out.append(turned(line, new) if inside else line)
        if line.rstrip().endswith((";", "}")):
            inside = False
    return "".join(out)


def together(new):
    """New names that something else has already."""
    tokens = {}
    for path in files(".antt"):
        for line in read(path).splitlines():
            for t in TOKEN.findall(code_of(line)):
                tokens.setdefault(t, path)
    seen = {}
    for old, name in sorted(new.items()):
        if name in tokens:
            yield f"{old}: {name} stands in {tokens[name]}"
        if name in seen:
            yield f"{old} and {seen[name]}: {name}"
        seen[name] = old


def main(argv):
    new = table()
    if argv == ["--list"]:
        for old, name in sorted(new.items()):
            print(old, name)
        for line in together(new):
            print("together:", line)
        return 0
    for path in files((".antt", ".rt", ".edit")):
        text = read(path)
        if path.endswith(".antt"):
            result = turned(text, new)
        elif path.endswith(".rt"):
            result = turned_source(text, new)
        else:
            result = turned(text, new) if re.search(r"(?m)^file: .*\.antt$", text) else text
        if result != text:
            with open(path, "w", encoding="utf-8") as f:
                f.write(result)
    return 0


if __name__ == "__main__":
    raise SystemExit(main(sys.argv[1:]))
