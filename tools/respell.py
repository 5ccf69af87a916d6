#!/usr/bin/env python3
"""Respell the repository's own definitions and lemmas in snake case.

Run once at the top of the repository, after port.py: respell.py [--list]
Names declared in crates/*/specs and crates/*/proofs are respelled there, in ghost clauses of src/, and in comments:
`floorDiv` is `floor_div`, `rank-fits` is `rank_fits`. A dash stays beside an operator. Types, modules and what comes
from a library keep their spelling. Code of src/ is not touched: its names are in snake case or in upper camel case,
and no name that is respelled is either.
"""
import pathlib
import re
import sys

WORD = r"[^\s(){}\[\],;:.\"]+"
DECLARED = re.compile(r"^\s*(?:abbrev |unfoldable |pub |mutual )*(" + WORD + r"(?: " + WORD + r")*) : ")
HEADED = re.compile(r"^\s*(?:abbrev |unfoldable |pub )*(?:data|record|ruleset) (" + WORD + ")")
USED = re.compile(r"^\s*(?:ghost )?use ([^\s{]+?)(?:\.\{([^}]*)\})?;?\s*$", re.M)
OWN = {"in-range": "is_in_range", "power-right": "right_power"}  # fields that would have a definition's name


def snake(part):
    part = re.sub(r"(?<=[a-z0-9'₀-₉])(?=[A-Z])", "_", part) if part[:1].islower() else part
    return "_".join(p.lower() if p[:1].isupper() and part[:1].islower() else p for p in part.split("_"))


def respelled(name):
    if name.startswith("_") or "◌" in name:
        return name
    parts = re.split(r"(?<=[\w'₀-₉])-(?=[\w'₀-₉])", name)
    spelled = [snake(p) for p in parts]
    made = spelled[0]
    for left, right in zip(spelled, spelled[1:]):
        made += "_" + right
    return made


def main():
    crates = [line.split(":")[0].split()[0] for line in open("crates.txt") if line.split("#")[0].strip()]
    files = [p for c in crates for f in ("specs", "proofs") for p in sorted(pathlib.Path("crates", c, f).rglob("*.antt"))]
    own, foreign = {}, set()
    for p in files:
        text = p.read_text()
        for line in text.split("\n"):
            found = HEADED.match(line)
            if p.name == "Proof.antt":  # its names are those of needs
                break
            names = [found.group(1)] if found else (DECLARED.match(line).group(1).split() if DECLARED.match(line) else [])
            for n in names:
                own.setdefault(n, p)
        for path, names in USED.findall(re.sub(r"\{[^}]*\}", lambda m: m.group(0).replace("\n", " "), text)):
            parts = path.split(".")
            if parts[0] != "Rattle" or parts[1] not in crates or "declared" in parts:
                foreign.update(n.strip().split(" as ")[0] for n in names.split(","))
    table = {n: respelled(n) for n in own if n not in foreign}
    table.update((n, to) for n, to in OWN.items() if n in own)
    table = {n: to for n, to in table.items() if n != to}
    taken = {}
    for n in sorted(set(own) | set(table)):
        taken.setdefault(table.get(n, n), []).append(n)
    for to, many in sorted(taken.items()):
        if len(many) > 1:  # a lemma that would have its function's name
            lemmas = [n for n in many if own[n].parts[2] == "proofs"]
            if len(lemmas) == len(many):
                lemmas = lemmas[1:]
            for n in lemmas:
                table[n] = to + "_lem"
            print("fall together:", to, many, [str(own[n]) for n in many], {n: table.get(n, n) for n in many})
        if to in foreign and to in table.values():
            print("a library has it:", to, many)
    print(len(table), "of", len(own), "names are respelled")
    if "--list" in sys.argv:
        for n, to in sorted(table.items()):
            print(n, to)
        return
    token = re.compile(r"(?<![\w'₀-₉⁻¹◌+*<≤≡⊖ℤ-])(" + "|".join(re.escape(n) for n in sorted(table, key=len, reverse=True)) + r")(?![\w'₀-₉⁻¹◌ℤ]|-[\w+*<≤≡⊖])")
    for p in files:
        text = p.read_text()
        p.write_text(token.sub(lambda m: table[m.group(1)], text))
    for c in crates:
        for p in sorted(pathlib.Path("crates", c, "src").rglob("*.rt")):
            text = p.read_text()
            p.write_text(token.sub(lambda m: table[m.group(1)], text))


main()
