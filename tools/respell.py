#!/usr/bin/env python3
"""Brings the repository's own definitions and lemmas to today's spelling: words in snake case (setupAnswer is setup_answer).

usage: python3 tools/respell.py         at the top of the repository, once, behind the kit's own script

It goes over the antt files and the ghost text of the .rt files of crates/. Names of types and modules keep their capitals, and
functions, strings, inputs and outputs keep their names. It says which new name was there already, as another name.
"""
import os
import re
import sys

# A name that begins with a small letter, its dashes and primes with it.
NAME = re.compile(r"(?<![\w'·-])[a-z_][\w'-]*(?:-[\w'*]+)*")
DECLARED = re.compile(r"\s*(?:(?:pub|abbrev|unfoldable|data|record)\s+)*([^\s(){}\[\];,.:]+)\s*(?:\(|\{|:)")
ALIAS = re.compile(r"\bas ([a-z][\w'-]*)")
HUMP = re.compile(r"(?<=[a-z0-9])([A-Z])")


def snake(name):
    return HUMP.sub(lambda m: "_" + m.group(1).lower(), name)


def files(root):
    for folder, dirs, names in os.walk(os.path.join(root, "crates")):
        dirs[:] = sorted(d for d in dirs if d != "out")
        for n in sorted(names):
            if n.endswith((".antt", ".rt")):
                yield os.path.join(folder, n)


def parts(line):
    """A line's text and its comment."""
    at = re.search(r"(?:^|\s)(--|//)(?:\s|$)", line)
    return (line[:at.start(1)], line[at.start(1):]) if at else (line, "")


def main():
    texts = {p: open(p, encoding="utf-8").read() for p in files(".")}
    own = set()
    for p, t in texts.items():
        for line in t.split("\n"):
            code, _ = parts(line)
            found = DECLARED.match(code) if p.endswith(".antt") else None
            own |= {m for m in ALIAS.findall(code)} | ({found.group(1)} if found else set())
    turned = {n: snake(n) for n in own if re.match(r"[a-z]", n) and HUMP.search(n)}
    there = {m for t in texts.values() for line in t.split("\n") for m in NAME.findall(parts(line)[0])}
    for n, to in sorted(turned.items()):
        if to in there:
            print(f"there already: {to}, beside {n}")
    for p, t in texts.items():
        lines = [parts(line)[0] for line in t.split("\n")]
        declared = {m.group(1) for m in map(DECLARED.match, lines) if m}
        both = {to for n, to in turned.items() if n in declared and to in declared} if p.endswith(".antt") else set()
        for to in sorted(both):
            print(f"{p}: the lemma {to} becomes {to}_lem, as its definition has that name now")
            texts[p] = re.sub(r"(?<![\w'·.-])" + re.escape(to) + r"(?![\w'-])", to + "_lem", texts[p])
    for p, t in texts.items():
        out = []
        for line in t.split("\n"):
            code, comment = parts(line)
            code = NAME.sub(lambda m: turned.get(m.group(0), m.group(0)), code)
            comment = re.sub(r"(?<=\w)-as-(?=\w)", "·", comment)
            comment = NAME.sub(lambda m: turned.get(m.group(0), m.group(0)), comment)
            out.append(code + comment)
        with open(p, "w", encoding="utf-8") as f:
            f.write("\n".join(out))
    print(f"{len(turned)} names turned")


main()
