#!/usr/bin/env python3
"""Spells the repository's own definitions and lemmas as the library spells its own: words in snake case.

usage: python3 tools/respell.py            at the top of the repository, once, after the kit's own port/port.py

port.py respells the names that the library knows. This script takes the others: each definition, lemma, field and
constructor that a file of specs/ or proofs/ declares, in the .antt files, in the clauses and `ghost use` lines of the
.rt files, in the must-fail edits, and between backticks in the pages. Types and facts keep their capital; functions,
types, fields and constants of src/, exported names, strings, inputs and outputs are left as they are.
A new name that would fall together with another in a file is listed, and nothing is written.
"""

import collections
import glob
import os
import re
import sys

NAME = r"[^\s(){}\[\].,;:@\"«»`|]+"
HEAD = re.compile(rf"^ *(?:(?:abbrev|unfoldable|pub|record|data|fill|axiom) +)*({NAME})(?: *[({{\[].*)? *:(?: |$)")
FIELD_OF_THE_NAME = {"goesOn"}  # a field of a struct of src/ has the new name too, and stands behind a dot or before `=` alone
SPECIAL = [("getD", "get_or")]


def snake(name):
    for old, new in SPECIAL:
        name = name.replace(old, new)
    before = ""
    while before != name:  # a word of one letter, as in oneASecond, takes a second turn
        before, name = name, re.sub(r"(?<=[a-z0-9])[A-Z]", lambda m: "_" + m[0].lower(), name)
    return name.replace("-", "_").replace("′", "'")


def antt_files():
    return sorted(p for p in glob.glob("crates/*/*/**/*.antt", recursive=True) if "/out/" not in p)


def declared():
    """The names that the repository's own definitions, lemmas, fields and constructors have, each with its files."""
    names = collections.defaultdict(set)
    for path in antt_files():
        generated = re.search(r"/proofs/.*/Proof\.antt$", path)
        for line in open(path, encoding="utf-8"):
            if line.lstrip().startswith(("--", "use ", "unfolding", "let ", "λ")):
                continue
            m = HEAD.match(line)
            if not m:
                continue
            name = m[1]
            if line.startswith("    ") and (generated or snake(name) == name) or name in ("in", "let", "elim", "where"):
                continue
            if generated and (re.search(r": (tie|goal)\.", line) or name.endswith(("-spec", "_spec"))):
                continue
            names[name].add(path)
    return names


ANY = re.compile(rf"(?<![^\s(){{}}\[\].,;:@\"«»`|]){NAME}")


def turned(text, table, of_rust=False):
    """In of_rust, text beside names of src/, an old name in snake case behind a dot is one of src/ and stays."""

    def one(m):
        if of_rust and re.fullmatch(r"[a-z0-9_]+", m[0]) and (of_rust == "all" or m.start() > 0 and text[m.start() - 1] == "."):
            return m[0]
        return table.get(m[0], m[0])

    return ANY.sub(one, text)


def turned_antt(text, table, of_rust=False):
    lines = []
    for line in text.split("\n"):
        at = line.find("--")
        comment = at >= 0 and line[:at].strip() == "" or re.search(r"\s-- ", line)
        if comment:
            at = line.find("--") if line.lstrip().startswith("--") else re.search(r"\s-- ", line).start()
            lines.append(turned(line[:at], table, of_rust) + ticked(line[at:], table))
        else:
            lines.append(turned(line, table, of_rust))
    return "\n".join(lines)


def ticked(text, table):
    return re.sub(r"`[^`\n]*`", lambda m: "`" + turned(m[0][1:-1], table) + "`", text)


def turned_rt(text, table):
    """Clauses and `ghost use` lines: a name of the table can stand nowhere else but in comments and strings."""
    lines = []
    for line in text.split("\n"):
        at = re.search(r"(^|\s)//", line)
        if at:
            lines.append(turned_code(line[: at.start()], table) + ticked(line[at.start():], table))
        else:
            lines.append(turned_code(line, table))
    return "\n".join(lines)


def turned_code(line, table):
    return "".join(part if i % 2 else turned(part, table, "all") for i, part in enumerate(re.split(r'("(?:[^"\\]|\\.)*")', line)))


def bound(path, code):
    """The names that a text has in scope besides paths: of a .rt file those that a clause can see."""
    if path.endswith(".rt"):
        return set(re.findall(r"(?<![\w:])(\w+)\s*:(?!:)", code)) | set(re.findall(r"\b(?:const|static) (\w+)", code))
    code = re.sub(r"(?m)^use [^{\n]*", "", code)
    return set(re.findall(rf"(?<![^\s(){{}}\[\],;:@\"«»`|]){NAME}", code))


def main():
    names = declared()
    table = {old: snake(old) for old in names if snake(old) != old and not re.fullmatch(r"[A-Z][A-Za-z0-9]*", old)}
    table = {old: new for old, new in table.items() if "◌" not in old}
    back = collections.defaultdict(set)
    for old, new in table.items():
        back[new].add(old)
    # A lemma that would have its function's name gets `_lem`: the lemma is the one that is spelled with dashes.
    for new, olds in back.items():
        lemmas = [old for old in olds if "-" in old]
        if len(olds) == 2 and len(lemmas) == 1:
            table[lemmas[0]] = new + "_lem"
    for old in list(table):
        if "-" in old and table[old] in names:
            table[old] += "_lem"
        elif "-" not in old and table[old] in names:
            table[table[old]] = table[old] + "_lem"
    back = collections.defaultdict(set)
    for old, new in table.items():
        back[new].add(old)
    bad = []
    for new, olds in back.items():
        if len(olds) > 1:
            bad.append(f"{sorted(olds)} would both be {new}")
    for path in antt_files() + sorted(glob.glob("crates/*/src/**/*.rt", recursive=True)):
        text = open(path, encoding="utf-8").read()
        code = "\n".join(l for l in text.split("\n") if not l.lstrip().startswith(("--", "//")))
        present = set(ANY.findall(code))
        there = bound(path, code)
        for old in present & table.keys():
            if table[old] in there and table[old] not in table and old not in FIELD_OF_THE_NAME:
                bad.append(f"{path}: {old} would be {table[old]}, which stands there already")
    if bad:
        print("\n".join(sorted(bad)))
        print(f"{len(bad)} places where names would fall together; nothing was written")
        return 1
    for path in antt_files():
        write(path, lambda t: turned_antt(t, table, path.endswith("/Proof.antt")))
    for path in sorted(glob.glob("crates/*/src/**/*.rt", recursive=True)):
        write(path, lambda t: turned_rt(t, table))
    for path in sorted(glob.glob("crates/*/must-fail/*.edit")):
        write(path, lambda t: turned(t, table, "all"))
    for path in sorted(glob.glob("*.md") + glob.glob("docs/*.md") + glob.glob("*/README.md")):
        write(path, lambda t: ticked(t, table))
    print(f"{len(table)} names respelled")
    return 0


def write(path, how):
    old = open(path, encoding="utf-8").read()
    new = how(old)
    if new != old:
        open(path, "w", encoding="utf-8").write(new)


if __name__ == "__main__":
    sys.exit(main())
