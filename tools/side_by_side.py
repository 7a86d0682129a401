#!/usr/bin/env python3
"""Lays what the crates say beside what they said at a commit: side_by_side.py OLD [OLD..], at the top of a checkout.

Of each crate: its public functions (signature and clauses), its public types, its definitions (whole) and its theorems (statements),
those of specs/ and those of proofs/ but for answers and invariants. What reads the same is left out, and so are theorems that are not
public or that are new; spaces and line ends don't count."""
import os
import re
import subprocess
import sys

from design_places import closing, uncommented

ITEM = re.compile(r"^(\s*)((?:(?:abbrev|unfoldable|pub|private|opaque)\s+)*)(data |record )?([^\s:(){}=.]+)(?: \{ℓ\})?\s+(?::|\(|\{|where)")
CLAUSE = re.compile(r"^\s*(unfolding|using|with)\b")


def squeezed(text):
    return re.sub(r"\s+", " ", text).strip().replace("( ", "(").replace(", )", ")").replace(",)", ")")


def rust_items(text):
    """Public functions without their bodies, under their impl; public types whole; constants."""
    text = uncommented(text)
    found = []
    impls = [(m.start(), closing(text, m.end() - 1), squeezed(m.group(0)[:-1])) for m in re.finditer(r"^impl\b[^{]*(?:\{[^}]*\}[^{]*)??\{", text, re.M)]
    for m in re.finditer(r"\b(pub (?:const )?(?:extern \"C\" )?fn|fn) (\w+)", text):
        inside = next((name for a, b, name in impls if a < m.start() < b), "")
        if m.group(1) == "fn" and " for " not in inside:
            continue
        at = text.index("(", m.end())
        depth = 0
        for i in range(at, len(text)):
            depth += (text[i] == "(") - (text[i] == ")")
            if depth == 0:
                break
        i += 1
        while i < len(text):
            depth += (text[i] == "[") - (text[i] == "]")
            if text[i] == ";" and depth == 0:
                break
            if text[i] == "{":
                if re.search(r"(requires|ensures)(?: \w+)?\s*$", text[at:i]):
                    i = closing(text, i)
                else:
                    break
            i += 1
        found.append(("function", f"{inside} {m.group(2)}".strip(), squeezed(text[m.start() : i])))
    for m in re.finditer(r"((?:#\[derive[^\n]*\n)?)pub (struct|enum|type|trait) (\w+)[^;{]*", text):
        end = m.end()
        if end < len(text) and text[end] == "{":
            end = closing(text, end) + 1
        found.append(("type", m.group(3), squeezed(re.sub(r"#\[derive[^\n]*\n", "", text[m.start() : end]))))
    for m in re.finditer(r"pub (?:const|static) (\w+): [^=;]*=([^;]*);", text):
        found.append(("constant", m.group(1), squeezed(m.group(0))))
    return found


def antt_items(text, theorems):
    """Definitions whole, theorems by their statements."""
    lines = [l for l in text.split("\n") if not l.lstrip().startswith("--") and not re.match(r"\s*(pub )?use ", l)]
    found, i = [], 0
    while i < len(lines):
        m = ITEM.match(lines[i])
        if not m or re.match(r"\s*(module|where|let|in|of|field)\b", lines[i]):
            i += 1
            continue
        name, indent = m.group(4), len(m.group(1))
        said, whole, j, defined = [lines[i]], [lines[i]], i + 1, False
        while j < len(lines):
            l = lines[j]
            own = len(l) - len(l.lstrip())
            if l.strip() and own <= indent and ITEM.match(l) and not l.lstrip().startswith(name + " "):
                break
            if l.strip() and own <= indent and re.match(r"\s*(module|infix)", l):
                break
            if not m.group(3) and (CLAUSE.match(l) or re.match(rf"\s*{re.escape(name)}\b(?! :)", l) or (own <= indent and "=" in l)):
                defined = True
            whole.append(l)
            if not defined:
                said.append(l)
            j += 1
        kind = "theorem" if theorems and not m.group(3) and not re.match(r"\s*(abbrev|unfoldable)", lines[i]) else "definition"
        found.append((kind, name, squeezed("\n".join(said if kind == "theorem" else whole))))
        i = j
    return found


def tree(read, names):
    out = {}
    for path in names:
        parts = path.split("/")
        if len(parts) < 4 or parts[0] != "crates":
            continue
        crate, part = parts[1], parts[2]
        if path.endswith(".rt") and part == "src":
            items = rust_items(read(path))
        elif path.endswith(".antt") and part in ("specs", "proofs") and parts[-1] not in ("Answers.antt", "Invariants.antt", "Lib.antt"):
            items = antt_items(read(path), parts[-1].endswith("Laws.antt") or part == "proofs")
        else:
            continue
        for kind, name, text in items:
            out.setdefault((crate, kind, name), []).append(text)
    return out


def now():
    names = subprocess.run(["git", "ls-files", "crates"], capture_output=True, text=True, check=True).stdout.split()
    return tree(lambda p: open(p).read(), [n for n in names if os.path.exists(n)])


def at(commit):
    names = subprocess.run(["git", "ls-tree", "-r", "--name-only", commit, "crates"], capture_output=True, text=True, check=True).stdout.split()
    return tree(lambda p: subprocess.run(["git", "show", f"{commit}:{p}"], capture_output=True, text=True, check=True).stdout, names)


def main():
    old, new = at(sys.argv[1]), now()
    crates = sorted({k[0] for k in old} | {k[0] for k in new})
    for crate in crates:
        lines = []
        for kind in ("type", "constant", "function", "definition", "theorem"):
            keys = sorted({k for k in list(old) + list(new) if k[0] == crate and k[1] == kind})
            for key in keys:
                a, b = list(old.get(key, [])), list(new.get(key, []))
                for text in list(a):
                    if text in b:
                        a.remove(text)
                        b.remove(text)
                if kind == "theorem" and not (a and any(t.startswith("pub ") for t in a + b)):
                    continue
                if a or b:
                    lines.append(f"- {kind} `{key[2]}`")
                    lines += [f"  - was: `{t}`" for t in a] + ["  - was: nothing"] * (not a)
                    lines += [f"  - is: `{t}`" for t in b] + ["  - is: nothing"] * (not b)
        if lines:
            print(f"\n### {crate}\n")
            print("\n".join(lines))


main()
