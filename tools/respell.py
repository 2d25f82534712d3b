#!/usr/bin/env python3
"""Respells the repository's own definitions and lemmas in snake case, once, after port.py.

A definition, a lemma, a field or a constructor of antt that begins in lower case loses its capitals and its
dashes: crossingSum becomes crossing_sum and build-cons becomes build_cons. A name with a type in it keeps its
dash (Parts-flip), and so does every name that is Rattle's or the library's. Where a function and a lemma would
then share a name, the lemma's ends in _lem. Functions of src/, strings, inputs and outputs are left alone.

usage: python3 tools/respell.py          at the top of the repository; --list prints the names and writes nothing
"""

import os
import re
import sys

EDGE = r"\s(){}\[\],;.:«»`"
DEFINED = re.compile(r"^(\s*)(?:(?:abbrev|unfoldable|pub) )*([^" + EDGE + r"=]+)((?: [^\s:=]+)*) : (.*)$", re.M)
WORDS = {"data", "record", "let", "pub", "in", "use", "where", "λ", "--", "//", "module", "open"}


def files(ending):
    for folder, inner, names in os.walk("."):
        inner[:] = sorted(d for d in inner if d not in ("out", "target", ".git"))
        for name in sorted(names):
            if name.endswith(ending):
                yield os.path.join(folder, name)


def read(path):
    with open(path, encoding="utf-8") as f:
        return f.read()


def snake(name):
    return re.sub(r"(?<=[a-z0-9])([A-Z])", lambda m: "_" + m.group(1).lower(), name).replace("-", "_")


def own_names():
    """The names that the repository's antt files define, less the goals that Rattle names."""
    found = set()
    for path in files(".antt"):
        for m in DEFINED.finditer(read(path)):
            name, statement = m.group(2), m.group(4)
            if name not in WORDS and "goal." not in statement:
                found.add(name)
    return found


def renamed(found):
    new = {}
    for name in found:
        if name[0].islower() and not re.search(r"-[A-Z]", name):
            to = snake(name)
            if to != name:
                new[name] = to
    return new


def fallen_together(new, found):
    """New names that two old ones share, or that stood before."""
    seen = {}
    for name, to in new.items():
        seen.setdefault(to, set()).add(name)
    return {to: sorted(olds | ({to} & found)) for to, olds in seen.items() if len(olds | ({to} & found)) > 1}


def apart(new, same):
    """Where a function and a lemma would share a name, the lemma's ends in _lem."""
    for to, olds in same.items():
        keeps = next((old for old in olds if re.search(r"[A-Z]", old)), to)
        for old in olds:
            if old != keeps:
                new[old] = to + "_lem"


def respelled(text, new, only):
    token = re.compile(r"(?<![^" + EDGE + r"])([^" + EDGE + r"]+)(?![^" + EDGE + r"])")
    return token.sub(lambda m: new[m.group(1)] if m.group(1) in new and only(m) else m.group(1), text)


def clauses(text, new):
    """In Rust code a name with a dash stands in a clause or an import alone; one with a capital inside stands nowhere else."""
    return "\n".join(
        respelled(line, new, lambda m: "-" not in m.group(1) or re.search(r"ensures|requires|ghost|≡|λ", line)) if '"' not in line else line
        for line in text.split("\n")
    )


def ticked(text, new):
    return re.sub(r"`[^`\n]*`", lambda m: respelled(m.group(0), new, lambda m: True), text)


def main():
    found = own_names()
    new = renamed(found)
    same = fallen_together(new, found)
    apart(new, same)
    if "--list" in sys.argv:
        print("\n".join(f"{a} {b}" for a, b in sorted(new.items())))
        return
    for ending, turn in ((".antt", lambda t: respelled(t, new, lambda m: True)), (".rt", lambda t: clauses(t, new)), (".edit", lambda t: respelled(t, new, lambda m: True)), (".md", lambda t: ticked(t, new))):
        for path in files(ending):
            text = read(path)
            to = turn(text)
            if to != text:
                with open(path, "w", encoding="utf-8") as f:
                    f.write(to)


main()
