#!/usr/bin/env python3
"""Brings this repository's own names in specs/ and proofs/ to the toolchain's spelling: snake case for definitions and lemmas.

usage: tools/respell.py [FOLDER]      once, after the toolchain's port script, on the crates below FOLDER (here if none is given)

A name like `freeAt` becomes `free_at`, a part of one too: `upTo-end` becomes `up_to-end`. Names that begin with a capital are types and modules,
and stay; so do the names of the toolchain's library that have a capital behind an underscore. Before anything is written, it says which names would
fall together, and stops; OTHER says how those are told apart.
"""

import collections
import os
import re
import sys

NAME = re.compile(r"[^\W\d][\w'-]*")

# (file, old, new): lemmas that would have their definition's name
OTHER = [("promises/proofs/Logs.antt", "entries_by", "entries_by_lem")]

# a library's lemma under a name of its own, which differs from the library's by the path before it
ALIASES = {"lt-wfRel"}

# a module of specs/ whose name the toolchain makes itself
MODULE = ("promises", "Contracts", "ByTheContracts")


def snake(part):
    first = re.search(r"[A-Z]", part)
    if not part[:1].islower() or not first or "_" in part[: first.start()]:
        return part
    part = re.sub(r"(?<=[a-z0-9])([A-Z])(?=[A-Z]|$)", lambda m: "_" + m.group(1).lower(), part)
    return re.sub(r"(?<=[a-z0-9])([A-Z])", lambda m: "_" + m.group(1).lower(), part)


def respelled(name):
    return "-".join(snake(p) for p in name.split("-"))


def texts(root):
    for folder, dirs, files in os.walk(os.path.join(root, "crates")):
        dirs[:] = sorted(d for d in dirs if d != "out")
        for f in sorted(files):
            if f.endswith((".rt", ".antt")):
                yield os.path.join(folder, f)


def module(root, read):
    crate, old, new = MODULE
    path = os.path.join(root, "crates", crate, "specs", old + ".antt")
    if path not in read:
        return
    to = os.path.join(root, "crates", crate, "specs", new + ".antt")
    read[to] = read.pop(path)
    for p in read:
        read[p] = read[p].replace(f"Rattle.{crate}.specs.{old}.", f"Rattle.{crate}.specs.{new}.").replace(f"Rattle.{crate}.specs.{old} ", f"Rattle.{crate}.specs.{new} ")
    lib = os.path.join(root, "crates", crate, "specs", "Lib.antt")
    read[lib] = read[lib].replace(f"mod {old}\n", f"mod {new}\n")


def main(root):
    read = {}
    for p in texts(root):
        with open(p, encoding="utf-8") as f:
            read[p] = f.read()
    was = dict(read)
    for end, old, new in OTHER:
        p = os.path.join(root, "crates", end)
        read[p] = re.sub(r"(?<![\w'-])" + re.escape(old) + r"(?![\w'-])", new, read[p])
    module(root, read)
    names = {p: set(NAME.findall(t)) for p, t in read.items()}
    comes_from = collections.defaultdict(set)
    for p in names:
        for n in names[p]:
            comes_from[respelled(n)].add(n)
    together = []
    for new, olds in sorted(comes_from.items()):
        camel = [n for n in olds if n != new]
        if len(camel) > 1:
            together.append(f"{', '.join(sorted(olds))} all become {new}")
        for old in set(camel) - ALIASES:
            for p in sorted(names):
                if p.endswith(".antt") and old in names[p] and new in names[p] and not used_as_path(read[p], new):
                    together.append(f"{os.path.relpath(p, root)}: {old} becomes {new}, which stands there")
    if together:
        print("\n".join(together))
        return 1
    for p in set(was) - set(read):
        os.remove(p)
    for p in sorted(read):
        t = NAME.sub(lambda m: respelled(m.group(0)), read[p])
        if p not in was or t != was[p]:
            with open(p, "w", encoding="utf-8") as f:
                f.write(t)
    print(f"{sum(len(v - {k}) for k, v in comes_from.items())} names respelled")
    return 0


def used_as_path(text, name):
    """Does name stand in text only as a part of a path or of a generated name, which is another thing than a definition's name?"""
    bare = re.compile(r"(?<![\w'.-])" + re.escape(name) + r"(?![\w'-])")
    return all(l.lstrip().startswith("--") for l in text.splitlines() if bare.search(l))


if __name__ == "__main__":
    raise SystemExit(main(sys.argv[1] if len(sys.argv) > 1 else "."))
