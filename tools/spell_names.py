#!/usr/bin/env python3
"""Spells the names that this repository's own .antt files declare as today's Rattle spells names.

usage: python3 tools/spell_names.py        at the top, once, after the kit's port.py; it rewrites the files in place

- A type, and a fact spelled as a type, is in upper camel case: First-orphan becomes FirstOrphan.
- Every other name is in snake case: rule-of becomes rule_of. In the name of a lemma a dash still joins the names of two
  functions, as in length-next; a plain word is added with _, as in digits_after.
- What the kit's `getD` was called in names is `get_or`.
- The library's recursive `All` goes by its own name, AllByRecursion.

Names of Rust items, of goals and of steps are not declared there, and stay. Stops where two names would fall together.
"""
import glob
import re

WORD = re.compile(r"[A-Za-z_ℕ][A-Za-z0-9_'ℕ-]*")
DECLARED = re.compile(r"^(?:abbrev |unfoldable |pub |data |record |ruleset )*([^\s:(){}]+)\s*[:({]")
FIELD = re.compile(r"^ +(?:pub )?([^\s:(){}]+) :")
# functions of the library that names of lemmas begin or end with
LIBRARY = {"length", "take", "drop", "map", "get_or", "append", "cons", "pow", "mul", "add", "replicate", "set", "sum"}

# names that would fall together with another
CHOSEN = {"bit-and": "bit-bit_and", "bit-or": "bit-bit_or", "random-cells": "drawn_cells"}


def files(pattern):
    return sorted(glob.glob("crates/*/" + pattern, recursive=True))


def read(path):
    with open(path, encoding="utf-8") as f:
        return f.read()


def declared():
    """The names that specs/ and proofs/ declare, and those of them that are fields; goals of answer files are none of ours."""
    names, fields = set(), set()
    for path in files("specs/**/*.antt") + files("proofs/**/*.antt"):
        text = read(path)
        answers = path.endswith(("Answers.antt", "Invariants.antt", "Proof.antt"))
        for line in text.split("\n"):
            m = DECLARED.match(line)
            if m and not line.startswith(("use ", "pub use ", "mod ", "pub mod ", "--", "unfolding ")):
                name = m.group(1)
                goal = answers and re.search(r":\s*(\(|\{)?.*goal\." + re.escape(name) + r"\b", line)
                if not goal:
                    names.add(name)
            m = FIELD.match(line)
            if m and not answers:
                names.add(m.group(1))
                fields.add(m.group(1))
    return names, fields


def functions():
    """The names of the functions that specs/ defines, in snake case."""
    found = set(LIBRARY)
    for path in files("specs/**/*.antt"):
        for name in re.findall(r"^abbrev pub ([a-z][^\s:(){}]*)", read(path), re.M):
            found.add(name.replace("-", "_"))
    return found


def camel(name):
    return "".join(p[:1].upper() + p[1:] for p in re.split("[-_]", name))


def snake(name, known):
    """Dashes are kept where the name of a function stands on each side."""
    parts = name.replace("getD", "get_or").split("-")
    out, i = "", 0
    while i < len(parts):
        j = next((j for j in range(len(parts), i, -1) if "_".join(parts[i:j]) in known), None)
        piece, is_name = ("_".join(parts[i:j]), True) if j else (parts[i], False)
        if out:
            out += "-" if is_name and named else "_"
        out, named, i = out + piece, is_name, j or i + 1
    return out


def spelled(names):
    known = functions()
    table = {}
    for name in names:
        if name in CHOSEN:
            new = CHOSEN[name]
        elif name[:1].isupper():
            new = camel(name) if "-" in name or "_" in name else name
        else:
            new = snake(name, known) if "-" in name or "getD" in name else name
        if new != name:
            table[name] = new
    return table


def clashes(table, paths):
    """Where an old name and its new one stand in one file, or two old ones get one new one."""
    said = []
    for path in paths:
        words = set(WORD.findall(read(path)))
        seen = {}
        for w in words:
            new = table.get(w, w)
            if new in seen:
                said.append(f"{path}: {seen[new]} and {w} would both be {new}")
            seen[new] = w
    return said


def main():
    names, fields = declared()
    table = spelled(names)
    paths = [p for p in files("**/*.antt") + files("src/**/*.rt") if "/out/" not in p]
    said = clashes(table, paths)
    if said:
        print("\n".join(said))
        raise SystemExit(1)
    for path in paths:
        text = read(path)

        def turned(m):
            word = m.group(0)
            member = text[m.start() - 1 : m.start()] == "."
            return word if member and word not in fields else table.get(word, word)

        new = WORD.sub(turned, text)
        if "AllByRecursion as All" in new:
            new = re.sub(r"\bAll\b", "AllByRecursion", new.replace("AllByRecursion as All", "AllByRecursion"))
        if new != text:
            with open(path, "w", encoding="utf-8") as f:
                f.write(new)
    for old in sorted(table):
        print(old, "->", table[old])


if __name__ == "__main__":
    main()
