#!/usr/bin/env python3
"""Brings the repository's own definitions and lemmas to one spelling: functions, lemmas, fields and constructors in
snake case, types and facts in camel case. Names of the standard library, of proof goals and of the sources stay.

    tools/respell.py           rewrites specs/, proofs/, the ghost lines of src/ and must-fail/ below crates/
    tools/respell.py --list    prints the old and the new names, and changes nothing

It ran once, after the spelling of the toolchain's own words had been turned."""

import collections
import glob
import re
import sys

NAME = r"[A-Za-z][A-Za-z0-9_'≢≡≤<∙₁₂-]*"
DEFINED = re.compile(r"^\s*(?:pub )?(?:(?:abbrev|data|record|ruleset|opaque|unfoldable) )*(?:pub )?(" + NAME + r")\s*(?=[:({])(?!.*:\s*goal\.)")
LOCAL = re.compile(r"let (" + NAME + r") *[:=]")
ALIAS = re.compile(r"[ ,]as (" + NAME + ")")
PARAMETERS = re.compile(r"[({]((?:" + NAME + r" )+): ")
FOREIGN = re.compile(r"use (?:Rattle\.std|lib|native|Prim|mathlib)[^{\n]*\{([^}]*)\}")
GOAL = re.compile(r"\b(?:goal|need)\.(" + NAME + ")")
TOKEN = re.compile(r"(?<![A-Za-z0-9_'-])(" + NAME + r")(?![A-Za-z0-9_'-])")


def respelt(name):
    if name[0].isupper():
        if "-" not in name:
            return name
        return "".join(part[:1].upper() + part[1:] for part in name.split("-"))
    snake = name.replace("-", "_")
    if re.search(r"[a-z][A-Z]", name) and "-" not in name:
        snake = re.sub(r"(?<=[a-z0-9])([A-Z])", lambda m: "_" + m.group(1).lower(), snake)
    return snake


def main():
    antt = [f for part in ("specs", "proofs") for f in glob.glob(f"crates/*/{part}/**/*.antt", recursive=True)]
    sources = glob.glob("crates/*/src/**/*.rt", recursive=True) + glob.glob("crates/*/must-fail/*.edit")
    own, goals = collections.defaultdict(set), set()
    for path in antt + sources:
        with open(path, encoding="utf-8") as file:
            text = file.read()
        goals.update(GOAL.findall(text))
        foreign = {n.strip() for m in FOREIGN.finditer(text) for n in m.group(1).split(",")}
        found = [a for line in text.split("\n") if re.match(r"\s*(?:ghost )?use ", line) for a in ALIAS.findall(line)]
        if path.endswith(".antt"):
            found += [m.group(1) for line in text.split("\n") for m in [DEFINED.match(line)] if m] + LOCAL.findall(text)
            for group in PARAMETERS.findall(text):
                found += group.split()
        for name in found:
            if name not in foreign:
                own[name].add(path)
    turned = {n: respelt(n) for n in own if respelt(n) != n and n not in goals}
    for name, new in sorted(turned.items()):
        others = [o for o in own if o != name and turned.get(o, o) == new]
        if others:
            print(f"falls together: {name} with {others}: {sorted(own[name])[:3]} {sorted(own[others[0]])[:3]}")
        if "--list" in sys.argv:
            print(name, new)
    if "--list" in sys.argv:
        return
    for path in antt + sources:
        with open(path, encoding="utf-8") as file:
            text = file.read()
        foreign = {n.strip() for m in FOREIGN.finditer(text) for n in m.group(1).split(",")}
        new = TOKEN.sub(lambda m: turned.get(m.group(1), m.group(1)) if m.group(1) not in foreign else m.group(1), text)
        if new != text:
            with open(path, "w", encoding="utf-8") as file:
                file.write(new)


main()
