#!/usr/bin/env python3
"""Brings this repository's own definitions and lemmas to snake case, once, after the toolchain's port.py.

A dash in a name of our own becomes an underscore; names of the library, goals and steps that the checker makes, and
functions of src/ keep theirs. In a function's Proof.antt only names declared elsewhere are respelled, since a dash
there also stands in the names of goals and steps. Edits that must fail follow the text that they change.
usage: tools/respell.py [--check]    at the top; --check says which names fall together and writes nothing
"""

import collections
import os
import re
import sys

IDENT = r"[^\s(){};,.\[\]λ:=⟦⟧«»\"]+"
DECLARED = re.compile(rf"(?m)^\s*(?:abbrev |unfoldable |pub )*((?:{IDENT} )+):(?= |$)")
RECORD = re.compile(r"(?ms)^\s*(?:abbrev |pub |unfoldable )*record .*?where\n(.*?)(?=^\S|\Z)")
FIELD = re.compile(rf"(?m)^\s+pub ({IDENT}) :")
USE = re.compile(r"use ([^\s{;]+?)\.?\{([^}]*)\}")
TOKEN = re.compile(rf"(\.?)({IDENT})")
# Functions that held a capital, a fact that began with a small letter, and names that the library has.
NAMED = {"refusal-number": "RefusalNumber", "isZero-eq": "is_zero_eq", "bit-and": "bit_of_and", "bit-or": "bit_of_or"}


def of_number(name):
    return name.replace("eqZ", "eq_ℤ").replace("leZ", "le_ℤ").replace("ltZ", "lt_ℤ")


def respelled(name):
    if name in NAMED:
        return NAMED[name]
    return re.sub(r"(?<=[\w'→])-(?=[\w⊖])", "_", of_number(name))


def files():
    for folder, folders, names in os.walk("crates"):
        folders[:] = [it for it in folders if it != "out"]
        for name in names:
            if name.endswith((".antt", ".rt", ".edit")):
                yield os.path.join(folder, name)


def is_proof(path):
    return path.endswith("/Proof.antt")


def main(check):
    text = {path: open(path, encoding="utf-8").read() for path in files()}
    crates = os.listdir("crates")
    own, fields, steps, kit = set(), set(), set(), collections.defaultdict(set)
    for path, it in text.items():
        if path.endswith(".rt"):
            steps |= {found.replace("_", "-") for found in re.findall(r"\bfn (\w+)", it)}
        if path.endswith(".antt") and not is_proof(path):
            own |= {name for names in DECLARED.findall(it) for name in names.split()} - {"abbrev", "unfoldable", "pub"}
            for body in RECORD.findall(it):
                fields |= set(FIELD.findall(body))
        for module, names in USE.findall(it):
            if not any(module == f"Rattle.{crate}" or module.startswith(f"Rattle.{crate}.") for crate in crates):
                kit[path] |= {word for name in names.split(",") for word in name.split()}
    own |= fields
    everywhere = set().union(*kit.values())
    for path, it in text.items():
        before = {name for _, name in TOKEN.findall(it)}
        made = {}

        def turn(found):
            dot, name = found.groups()
            if respelled(name) == name or name in kit[path] or (name in everywhere and name not in own):
                return found[0]
            if is_proof(path) and (name not in own or (dot and (name not in fields or name in steps))):
                return found[0]
            made[name] = respelled(name)
            return dot + made[name]

        def line(found):
            return re.sub(TOKEN, turn, found[0])

        if path.endswith(".edit"):
            new = re.sub(r"(?m)^(old|new):.*$", line, it)
        elif path.endswith(".rt"):
            new = re.sub(r"(?ms)^(ghost use .*?;|[^\n]*\b(requires|ensures)\b.*?\}$)", line, it)
        else:
            # A comment is prose, and keeps its dashes.
            new = "\n".join(re.sub(TOKEN, turn, part) if not part.lstrip().startswith("--") else part for part in it.split("\n"))
        for name, to in made.items():
            if to in before:
                print(f"{path}: {name} falls together with {to}")
        if not check and new != it:
            with open(path, "w", encoding="utf-8") as out:
                out.write(new)


main("--check" in sys.argv[1:])
