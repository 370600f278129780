#!/usr/bin/env python3
"""Spells this repository's own definitions and lemmas as today's Rattle does: words in snake case, types in camel case.

usage: python3 tools/respell.py [--dry] [FOLDER]      in a repository on which port.py has run once; FOLDER is its top, . if it is left out

Every name with a dash that a file of specs/ or a lemma file of proofs/ has, and that it does not import from a library, is one of the
repository's own. `all-along` becomes `all_along`, a type `Axes-stay` becomes `AxesStay`, and `noMemory` becomes `no_memory`. Comments, text
in quotes, names that Rattle makes (the goals and steps in a function's own folder) and the code of src/ outside of its clauses stay.
It prints each file in which a new name already stood, since two names could fall together there.
"""

import os
import re
import sys

# A name of letters, digits and _, with parts joined by dashes.
NAME = re.compile(r"(?<![\w'◌-])[^\W\d][\w']*(?:-[\w']+)*(?![\w'-])")
# Comments and quoted text, which are left alone.
ASIDE = {".antt": re.compile(r'"(?:[^"\\\n]|\\.)*"|--[^\n]*'), ".rt": re.compile(r'"(?:[^"\\]|\\.)*"|//[^\n]*')}
IMPORT = re.compile(r"^(?:ghost |pub |open )*use ([^\s{;]+?)(?:\.\{([^}]*)\})?;?$", re.M)
CAMEL = re.compile(r"^[a-z][a-z0-9]*(?:[A-Z][a-z0-9]+)+$")
OWN_ANSWERS = ("Answers.antt", "Invariants.antt", "Proof.antt")


def files(top):
    for folder, dirs, names in os.walk(os.path.join(top, "crates")):
        dirs[:] = sorted(d for d in dirs if d not in ("out", ".git"))
        for n in sorted(names):
            if n.endswith((".rt", ".antt")):
                yield os.path.join(folder, n)


def split(path, text):
    """The pieces of a text: (True, what is read as names) and (False, a comment or quoted text)."""
    at = 0
    for m in ASIDE[os.path.splitext(path)[1]].finditer(text):
        yield True, text[at : m.start()]
        yield False, m.group(0)
        at = m.end()
    yield True, text[at:]


def named(path, text):
    for read, piece in split(path, text):
        if read:
            for m in NAME.finditer(piece):
                yield m.group(0)


def ours(module, crates):
    return any(module == c or module.startswith(c + ".") for c in crates)


def foreign(text, crates):
    """What a text imports from a library."""
    for m in IMPORT.finditer(text):
        if not ours(m.group(1), crates):
            for n in (m.group(2) or m.group(1).split(".")[-1]).split(","):
                yield n.split(" as ")[0].strip()


def is_lemma_file(path, top):
    parts = os.path.relpath(path, top).split(os.sep)
    return path.endswith(".antt") and os.path.basename(path) not in OWN_ANSWERS and ("specs" in parts or "proofs" in parts)


def respelled(name):
    if "-" in name:
        parts = name.split("-")
        if len(parts[0]) > 1 and parts[0][0].isupper():
            return "".join(p[0].upper() + p[1:] for p in parts)
        return "_".join(parts)
    return re.sub(r"([A-Z])", lambda m: "_" + m.group(1).lower(), name)


def main(argv):
    dry = "--dry" in argv
    rest = [a for a in argv if a != "--dry"]
    top = os.path.abspath(rest[0] if rest else ".")
    crates = ["Rattle." + c for c in os.listdir(os.path.join(top, "crates"))]
    texts = {p: open(p, encoding="utf-8").read() for p in files(top)}
    library = {n for t in texts.values() for n in foreign(t, crates)}
    own = set()
    for p, t in texts.items():
        if is_lemma_file(p, top):
            own |= {n for n in named(p, t) if "-" in n or (CAMEL.match(n) and re.search(r"^(?:abbrev |unfoldable |pub )*" + n + r"\b[^=\n]* : ", t, re.M))}
    own -= library
    new = {n: respelled(n) for n in own}
    together = {}
    for n, m in new.items():
        together.setdefault(m, []).append(n)
    for m, ns in sorted(together.items()):
        if len(ns) > 1:
            print(f"together: {' '.join(sorted(ns))} would both be {m}")
    for p, t in texts.items():
        before = set(named(p, t))
        for n in sorted(before & own):
            if new[n] in before:
                print(f"look: {os.path.relpath(p, top)}: {n} becomes {new[n]}, which stands there")
        out = "".join(NAME.sub(lambda m: new.get(m.group(0), m.group(0)), piece) if read else piece for read, piece in split(p, t))
        if out != t and not dry:
            open(p, "w", encoding="utf-8").write(out)
    print(f"respell: {len(own)} names" + (" (dry)" if dry else ""))
    for n in sorted(own):
        print(f"  {n} -> {new[n]}")


if __name__ == "__main__":
    main(sys.argv[1:])
