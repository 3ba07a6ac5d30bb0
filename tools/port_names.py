#!/usr/bin/env python3
"""Brings the repository's own definitions and lemmas to snake case, and the texts of must-fail edits to today's spelling.

usage: python3 tools/port_names.py       at the top, once, after the kit's port.py

It goes by text: a name of specs/ or proofs/ in camel case or with dashes becomes snake case wherever it stands in crates/*/specs, crates/*/proofs, clauses and imports of crates/*/src and the edits;
where two names would fall together, the lemma gets _lem. In the pages names between backticks are turned. Edits get the new names, and projections are written tight.
"""

import glob
import re

DECLARED = re.compile(r"^\s*(?:(?:abbrev|unfoldable|pub|opaque|record|data) )*([^\s:{(\[]+)\s*(?:\{[^}]*\}\s*)?:(?!=)")
RECORD = re.compile(r"^\s*(?:pub )?(?:record|data) ([^\s:{(\[]+)")
CAMEL = re.compile(r"(?<![\w'\-·.])[a-z][a-z0-9]*[A-Z]\w*(?![\w'\-])")
# Lemmas whose new name a definition has, or another statement.
LEMMAS = {
    "plan-fits", "read-words", "lent-twice", "held-entries", "map-words", "or-frame", "first-mark", "outcome-at", "in-time", "earlier-fits",
    "same-words",
}
# What the kit's script had turned already, in files where a definition of that name comes in.
TURNED = {
    "crates/counts/proofs/Chains.antt": {"same_answer": "same_answer_lem"},
    "crates/words/proofs/Places.antt": {"held_after": "held_after_lem"},
    "crates/cache/proofs/Changes.antt": {"in_use": "in_use_lem"},
}


def files(*kinds):
    return sorted(p for kind in kinds for p in glob.glob(kind, recursive=True) if "/out/" not in p)


def read(path):
    with open(path, encoding="utf-8") as f:
        return f.read()


def snake(name):
    if name in LEMMAS:
        return name.replace("-", "_") + "_lem"
    if name == "getD-snoc-old":
        return "get_or_snoc_old"
    if name[0].islower():
        name = re.sub(r"(?<=[a-z0-9])([A-Z])", lambda m: "_" + m.group(1).lower(), name)
    return name.replace("-", "_")


def names():
    """The names to turn, with their new ones."""
    found = set()
    for p in files("crates/*/specs/**/*.antt", "crates/*/proofs/**/*.antt"):
        by_hand = p.endswith("/Proof.antt")
        for line in read(p).split("\n"):
            if line.lstrip().startswith(("--", "use ")):
                continue
            if not by_hand:
                m = DECLARED.match(line)
                if m:
                    found.add(m.group(1))
                found.update(CAMEL.findall(line))
    for p in files("crates/*/src/*.rt"):
        for line in read(p).split("\n"):
            if re.match(r"\s*(ghost use|requires|ensures)\b", line):
                found.update(CAMEL.findall(line))
                found.update(re.findall(r"[{ ,.]([a-z][a-z0-9]*[A-Z]\w*)", line))
    return {n: snake(n) for n in found if re.fullmatch(r"[A-Za-z][\w'\-]*", n) and snake(n) != n}


def turner(to):
    word = re.compile(r"(?<![\w'\-·])(?:" + "|".join(sorted(map(re.escape, to), key=len, reverse=True)) + r")(?![\w'\-])")
    return lambda text: word.sub(lambda m: to[m.group(0)], text)


def tight(text):
    """Projections as the kit writes them now: 'e .last .0' is e.last.0, with no brackets round it alone."""
    text = re.sub(r"(?<=[\w')]) \.(?=[\w])", ".", text)
    text = re.sub(r"(?<=[ (])\(([A-Za-z_][\w']*(?:\.[\w'\-]+)+)\)", r"\1", text)
    text = text.replace("_≡_", "◌≡◌").replace("getD", "get_or")
    return CAMEL.sub(lambda m: snake(m.group(0)), text)


def main():
    to = names()
    turn = turner(to)
    for p in files("crates/*/specs/**/*.antt", "crates/*/proofs/**/*.antt", "crates/*/src/*.rt"):
        old = read(p)
        new = turn(old)
        for a, b in TURNED.get(p, {}).items():
            new = re.sub(r"(?<![\w'\-·.])" + a + r"(?![\w'\-])", b, new)
        if new != old:
            with open(p, "w", encoding="utf-8") as f:
                f.write(new)
    for p in files("crates/*/must-fail/*.edit"):
        old = read(p)
        lines = []
        for line in old.split("\n"):
            m = re.match(r"(old|new): ?(.*)$", line)
            lines.append(f"{m.group(1)}: {turn(tight(m.group(2)))}" if m else turn(line) if line.startswith("breaks:") else line)
        new = "\n".join(lines)
        if new != old:
            with open(p, "w", encoding="utf-8") as f:
                f.write(new)
    for p in files("docs/*.md", "docs/changes/*.md", "README.md"):
        old = read(p)
        new = re.sub(r"`[^`\n]+`", lambda m: turn(m.group(0)), old)
        if new != old:
            with open(p, "w", encoding="utf-8") as f:
                f.write(new)
    print(f"port_names: {len(to)} names")


main()
