#!/usr/bin/env python3
"""Brings the definitions and lemmas of this repository to one spelling.

usage: python3 tools/respell.py      once, at the top of the repository

Types, facts and constructors of types are in camel case, all other names in snake case. Names that the prover makes,
names of the library and names from src/ stay. It renames what specs/ and proofs/ declare, and the names under which
src/ imports them.
"""

import collections
import glob
import re

NAME = r"[^\s(){}\[\].,;:λ→«»\"`@#|]+"
DECLARED = re.compile(r"^\s*(?:(?:pub|abbrev|unfoldable)\s+)*(?:(?:record|data)\s+)?(" + NAME + r")\s*(?:\{[^}]*\}\s*|\([^)]*\)\s*)*:\s")
TYPE = re.compile(r"(?:pub )?(?:record|data)\s+(" + NAME + ")")
ALIAS = re.compile(r" as (" + NAME + ")")
WORDS = {"use", "let", "module", "open"}

# Names of the library that a proof also gives to a step of its own.
KEPT = {"append-nil"}

# Names that would fall together with another one.
OTHER = {
    "Name-list": "IsNameList",
    "No-step": "IsNoStep",
    "No-tag": "IsNoTag",
    "bit-or": "bit_at_or",
    "hex-digit": "digit_of",
    "images-are-plans": "images_are_of_plans",
    "origin-at": "origin_shown_at",
    "steps-are-xpath": "each_step_is_xpath",
}

# The same, in one file alone.
OTHER_IN = {
    "crates/image/proofs/Nodes.antt": {"node_at": "node_shown_at"},
    "crates/tree/src/reads.rt": {"nodeAt": "node_of"},
}


def spelled(name):
    if name in KEPT:
        return name
    if name in OTHER:
        return OTHER[name]
    if name[0].isupper():
        return "".join(w[:1].upper() + w[1:] for w in name.split("-"))
    return re.sub(r"([a-z])([A-Z])(?=[a-z])", lambda m: m.group(1) + "_" + m.group(2).lower(), name.replace("-", "_"))


def files():
    found = []
    for below in ("specs/**/*.antt", "proofs/**/*.antt", "src/**/*.rt"):
        found += glob.glob("crates/*/" + below, recursive=True)
    return sorted(found)


def declared(text):
    for line in text.splitlines():
        if line.strip().startswith("--"):
            continue
        at = DECLARED.match(line)
        if at and at.group(1) not in WORDS and not re.match(r"\s*(goal|need)\.", line[at.end() - 1:]):
            yield at.group(1)
        for at in TYPE.finditer(line):
            yield at.group(1)


def main():
    names = set()
    for path in files():
        with open(path, encoding="utf-8") as file:
            text = file.read()
        if path.endswith(".antt"):
            names |= set(declared(text))
        else:
            names |= {n for line in text.splitlines() if line.startswith("ghost use") for n in ALIAS.findall(line)}
    new = {n: spelled(n) for n in names if spelled(n) != n}
    together = collections.Counter(new.values())
    for name in sorted(n for n in new if together[new[n]] > 1 or new[n] in names):
        print(f"look: {name} is now {new[name]}, as another name")
    token = re.compile(NAME)
    for path in files():
        with open(path, encoding="utf-8") as file:
            text = file.read()
        here = new | OTHER_IN.get(path, {})
        turned = "\n".join(line if re.match(r"\s*(//|mod |pub mod )", line) else token.sub(lambda m: here.get(m.group(0), m.group(0)), line) for line in text.split("\n"))
        if path.endswith("reads.rt"):
            turned = turned.replace("specs.Nodes.{node_of,", "specs.Nodes.{node_at as node_of,")
        if turned != text:
            with open(path, "w", encoding="utf-8") as file:
                file.write(turned)
    print(f"respell: {len(new)} names")


if __name__ == "__main__":
    main()
