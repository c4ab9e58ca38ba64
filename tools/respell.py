#!/usr/bin/env python3
"""Brings this repository's own definitions and lemmas to snake case, as today's Rattle spells them.

Run it once, at the top, right after /opt/rattle/port/port.py: it rewrites each name that a file of specs/ or proofs/ declares
and that has a capital inside or a hyphen (displacementAt, branch-reads), in every .antt file, and in the clauses and
`ghost` lines of every .rt file. Types and modules keep their capitals. Functions of src/, strings, inputs and outputs keep
their names, and so do the names of goals in proofs/F/, which Rattle makes. It stops where two names would fall together.
"""

import pathlib
import re
import sys

CRATES = pathlib.Path("crates")
# a word of antt: what stands between blanks, brackets and separators, with the dots of its path apart
WORD = re.compile(r"[^\s(){}\[\];,.«»]+")
WORDS = r"(?:abbrev|unfoldable|pub)"
DECLARED = re.compile(rf"^\s*(?:{WORDS}\s+)*([^:(){{}}]+?)\s+:\s")


def generated(path):
    """Is it a file of answers in proofs/F/, whose declarations are named by Rattle?"""
    return "proofs" in path.parts and path.name in ("Answers.antt", "Invariants.antt", "Proof.antt")


def snake(name):
    return re.sub(r"(?<=[a-z0-9])([A-Z])", lambda m: "_" + m[1].lower(), name).replace("-", "_")


def declared():
    """Every name that a file of specs/ or of lemmas declares: definitions, lemmas, fields and constructors."""
    names = set()
    for path in sorted(CRATES.glob("*/specs/**/*.antt")) + sorted(CRATES.glob("*/proofs/**/*.antt")):
        if generated(path):
            continue
        for line in path.read_text().splitlines():
            if line.startswith(("use ", "pub use ", "--")):
                continue
            m = DECLARED.match(line)
            if m and "=" not in m[1]:
                names.update(re.sub(rf"\b{WORDS}\b", " ", m[1]).split())
    return names


def clause_spans(text):
    """Where the ghost parts of a source file stand: `ghost` items and lines, and clauses with their braces."""
    for m in re.finditer(r"\bghost use [^;]*;", text):
        yield m.span()
    for m in re.finditer(r"\b(?:requires|ensures|ghost)\b[^{};]*\{", text):
        if text.startswith("ghost use", m.start()):
            continue
        depth, at = 1, m.end()
        while depth:
            depth += {"{": 1, "}": -1}.get(text[at], 0)
            at += 1
        yield m.span()[0], at


def main():
    names = declared()
    turned = {n: snake(n) for n in names if n[0].islower() and snake(n) != n}
    for name, new in sorted(turned.items()):
        others = [n for n in names if n != name and turned.get(n, n) == new]
        if others:
            sys.exit(f"{name} and {', '.join(others)} would both be {new}")
    places = sorted(CRATES.glob("**/*.antt")) + sorted(CRATES.glob("**/*.rt"))
    texts = {p: p.read_text() for p in places if "out" not in p.parts}
    everywhere = set(WORD.findall("\n".join(texts.values())))
    for name, new in sorted(turned.items()):
        if new in everywhere:
            print(f"look: {name} becomes {new}, and a word {new} stands somewhere already")

    def respelled(text):
        return WORD.sub(lambda m: turned.get(m[0], m[0]), text)

    for path, text in texts.items():
        if path.suffix == ".antt":
            new = respelled(text)
        else:
            new, end = "", 0
            for a, b in sorted(clause_spans(text)):
                new += text[end:a] + respelled(text[a:b])
                end = b
            new += text[end:]
        if new != text:
            path.write_text(new)
    print(f"{len(turned)} names respelled")


main()
