#!/usr/bin/env python3
"""Brings the repository's own definitions and lemmas to the spelling of today's Rattle: words in snake case.

usage: respell.py [ROOT]      once, after the kit's port.py, at the top of the repository

A name that a file of specs/ or proofs/ declares, and that begins with a small letter and has a capital inside, as
`beBytes` or `leBytes-add`, becomes `be_bytes` and `le_bytes-add`, in every .antt file, in the clauses, ghost items and
comments of every .rt file, and in the texts of the wrong programs. Types, modules, constants and what stands in a
string keep their spelling. A lemma that would get the name of a definition so gets `_lem` behind it, and a definition
that a parameter of the code would hide another name.
"""

import os
import re
import sys

HEAD = re.compile(r"^(\s*)((?:(?:abbrev|unfoldable|pub|data|record|ruleset)\s+)*)([^\s:(){}.,;λ\"]+)\s*(?:[({][^:]*)?:(?:\s|$)")
WORD = r"[^\s(){}.,;λ@\"`'\[\]]+'*"
TOKEN = re.compile(r"\"(?:\\.|[^\"\\])*\"|" + WORD)
TOKEN_RT = re.compile(r"'(?:\\.|[^'\\\n])'|\"(?:\\.|[^\"\\])*\"|" + WORD)
BRACES = re.compile(r"use [^\n;{]*\{([^}]*)\}")
# Names that are not made by the rule.
ODD = {
    "isIPv4": "is_ipv4",
    "isIPv6": "is_ipv6",
    # The writers of lists have parameters of the plain names.
    "nameLengths": "lengths_of_names",
    "addressLengths": "lengths_of_addresses",
}


def snake(part):
    if part in ODD:
        return ODD[part]
    if not re.match(r"^[a-z]", part) or not re.search(r"[A-Z]", part):
        return part
    return re.sub(r"(?<=[a-z0-9])(?=[A-Z])|(?<=[A-Z])(?=[A-Z][a-z])", "_", part).lower()


def spelled(name):
    return "-".join(snake(p) for p in name.split("-"))


def files(root, *ends):
    for folder, dirs, names in os.walk(os.path.join(root, "crates")):
        dirs[:] = sorted(d for d in dirs if d != "out")
        for n in sorted(names):
            if n.endswith(ends):
                yield os.path.join(folder, n)


def read(path):
    with open(path, encoding="utf-8") as f:
        return f.read()


def declared(text):
    return {m[3] for line in text.splitlines() if (m := HEAD.match(line))}


def imported(text):
    return {w.strip() for m in BRACES.finditer(text) for w in m[1].split(",")}


def turned(text, table, token=TOKEN):
    return token.sub(lambda m: table.get(m[0], m[0]), text)


def lemmas_turned(text, names):
    """The lemmas' names where they stand alone: a part of a path is the name of a function."""
    for n in names:
        text = re.sub(r"(?<![\w.'-])" + re.escape(n) + r"(?![\w.'-])", n + "_lem", text)
    return text


def main(argv):
    root = argv[0] if argv else "."
    there = {p: read(p) for p in files(root, ".antt")}
    every = set().union(*(declared(t) for t in there.values()))
    table = {n: spelled(n) for n in every if spelled(n) != n}
    fall_together = {n for n in table.values() if n in every}
    count = 0
    for path in files(root, ".antt", ".rt", ".edit"):
        old = new = there.get(path) or read(path)
        if path.endswith(".antt"):
            new = lemmas_turned(new, (declared(old) | imported(old)) & fall_together)
        new = turned(new, table, TOKEN_RT if path.endswith(".rt") else TOKEN)
        if new != old:
            count += 1
            with open(path, "w", encoding="utf-8") as f:
                f.write(new)
    print(f"respell: {len(table)} names and {len(fall_together)} lemmas, in {count} files")
    return 0


if __name__ == "__main__":
    raise SystemExit(main(sys.argv[1:]))
