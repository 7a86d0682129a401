#!/usr/bin/env python3
"""Counts, in crates/*/src, the places that docs/DESIGN-PASS.md speaks of: design-places [--list] [POINT ..], at the top of a checkout.

Each point is read off the text by the rule that stands at its function. A place is named by its file and line."""
import os
import re
import sys

KEYWORDS = set("as break const crate else enum false fn for if impl in let loop match mod mut pub ref return self Self struct super true type use where while".split())


def sources():
    for crate in sorted(os.listdir("crates")):
        for folder, _, names in os.walk(f"crates/{crate}/src"):
            for name in sorted(names):
                if name.endswith(".rt"):
                    path = os.path.join(folder, name)
                    yield crate, path, open(path).read()


def uncommented(text):
    """The text without comments, its lines in their places."""
    return re.sub(r"//[^\n]*", "", text)


def bare(text):
    """The text without comments and strings, its lines in their places."""
    return re.sub(r'b?"(?:[^"\\]|\\.)*"', '""', uncommented(text))


def closing(text, at):
    """The place of the brace that closes the one at the place."""
    depth = 0
    for i in range(at, len(text)):
        depth += (text[i] == "{") - (text[i] == "}")
        if depth == 0:
            return i
    return len(text)


def functions(text):
    """Each function: name, place, parameters, what stands between them and the body, the body."""
    for m in re.finditer(r"\bfn (\w+)(?:<[^>]*>)?\(", text):
        depth, i = 1, m.end()
        while depth and i < len(text):
            depth += (text[i] == "(") - (text[i] == ")")
            i += 1
        parameters = text[m.end() : i - 1]
        at = i
        while at < len(text) and text[at] not in "{;":
            at += 1
        clauses = ""
        if at < len(text) and text[at] == "{":
            # clauses are in braces too: the body is the brace that begins a line or follows the result
            while re.search(r"(requires|ensures)(?: \w+)?\s*$", text[i:at]):
                at = closing(text, at) + 1
                while at < len(text) and text[at] not in "{;":
                    at += 1
            clauses = text[i:at]
        if at >= len(text) or text[at] == ";":
            continue
        yield m.group(1), m.start(), parameters, clauses, text[at : closing(text, at) + 1]


def items(text, kind):
    for m in re.finditer(rf"\b{kind} (\w+)(?:<[^>]*>)? \{{", text):
        yield m.group(1), m.start(), text[m.end() : closing(text, m.end() - 1)]


def line(text, at):
    return text.count("\n", 0, at) + 1


def point_1(crate, path, text):
    """Enums that say 'nothing' or 'refused' by a variant of their own beside one with a value, or that have two variants and a value;
    fields that are a mark or a yes beside values; refusals as u32."""
    for name, at, body in items(text, "enum"):
        variants = [v.strip() for v in re.split(r",(?![^(]*\))", body) if v.strip()]
        names = [re.match(r"\w+", v).group(0) for v in variants]
        valued = [v for v in variants if "(" in v]
        if valued and len(variants) == 2:
            yield at, f"enum {name}: {', '.join(names)}"
        elif any(n in ("Refused", "Bad", "Absent", "Nothing", "Failed", "Unknown") for n in names):
            yield at, f"enum {name}: {', '.join(names)}"
    for name, at, body in items(text, "struct"):
        for field in re.findall(r"(\w+): (?:bool|u\d+|usize)", body):
            if field in ("mark", "yes", "more", "found", "given", "some", "is_some", "number") and body.count(":") > 1:
                yield at, f"struct {name}: {field} beside values"
    for m in re.finditer(r"\bRefused\(u32\)|\brefusal::[A-Z_]{4,}", text):
        yield m.start(), m.group(0)


def shape(body):
    tokens = re.findall(r"[A-Za-z_]\w*|\d[\w]*|[^\s\w]", body)
    out = []
    for t in tokens:
        if re.match(r"[A-Za-z_]", t) and t not in KEYWORDS:
            out.append("x")
        elif re.match(r"\d", t):
            out.append("0")
        else:
            out.append(t)
    return tuple(out)


def point_2(all_sources):
    """Functions of 30 tokens or more that are alike but for names and numbers; structs of the same field names; and structs of two fields,
    a state and an answer or a reply."""
    groups = {}
    for crate, path, text in all_sources:
        for name, at, parameters, _, body in functions(text):
            s = shape(body)
            if len(s) >= 30:
                groups.setdefault(("fn", shape(parameters), s), []).append((path, line(text, at), name))
        for name, at, body in items(text, "struct"):
            fields = re.findall(r"(\w+):(?!:)", body)
            if len(fields) == 2 and fields[1] in ("answer", "reply"):
                groups.setdefault(("struct", "a state and an answer"), []).append((path, line(text, at), name))
            elif len(fields) > 1:
                groups.setdefault(("struct", tuple(fields)), []).append((path, line(text, at), name))
    for key, places in groups.items():
        if len(places) > 1:
            yield key[0], places


def point_3(crate, path, text):
    """`while` and `loop` whose body steps a counter by a fixed number."""
    for m in re.finditer(r"\b(while\b[^{]*|loop )\{", text):
        body = text[m.end() - 1 : closing(text, m.end() - 1)]
        counters = re.findall(r"\b(\w+) [+-]= \d+\b", body)
        head = m.group(1)
        if any(re.search(rf"\b{c}\b", head) or head.startswith("loop") for c in counters):
            yield m.start(), head.strip()


def point_4(crate, path, text):
    """Functions that compare, order, convert a number to an enum or an enum to a number, or give a default, by hand."""
    for name, at, parameters, clauses, body in functions(text):
        result = re.match(r"\s*-> ([\w<>, ()\[\];]+)", clauses)
        result = result.group(1).strip() if result else ""
        own = re.search(rf"impl[^\n]* for [^\n]*\{{\s*(?:[^}}]*\n)*?[^\n]*fn {name}\(", text[max(0, at - 400) : at + 20])
        if name in ("from", "try_from", "fmt", "eq", "cmp", "partial_cmp", "clone") and own:
            continue
        if re.match(r"(compare|same|equals?|is_same)(_|$)", name):
            yield at, f"fn {name}: compares"
        elif re.search(r"_of$", name) and re.search(r"\bmatch \w+ \{\s*\d", body):
            yield at, f"fn {name}: an enum from a number"
        elif re.search(r"\bmatch \w+ \{(?:\s*\w+::\w+ => \d+,)+\s*\}", body):
            yield at, f"fn {name}: a number from an enum"
        elif name == "default" and not parameters.strip():
            yield at, "fn default"


def point_5(all_sources):
    """A condition on parameters that stands, but for the names of the parameters, in three functions or more of a crate; and three
    parameters or more that three functions or more of a crate take together."""
    facts, together = {}, {}
    for crate, path, text in all_sources:
        for name, at, parameters, clauses, body in functions(text):
            for clause in re.findall(r"requires(?: \w+)? \{([^\n]*)\}\s*\n", clauses):
                facts.setdefault((crate, clause.strip()), []).append((path, line(text, at), name))
            names = tuple(p.strip() for p in re.split(r",(?![^<\[(]*[>\])])", parameters) if ":" in p)
            for i in range(len(names)):
                for j in range(i + 3, len(names) + 1):
                    together.setdefault((crate, names[i:j]), []).append((path, line(text, at), name))
    for (crate, clause), places in sorted(facts.items()):
        if len(places) > 2:
            yield f"{crate}: requires {clause}", places
    best = {}
    for (crate, names), places in together.items():
        if len(places) > 2:
            key = (crate, tuple(places))
            if len(names) > len(best.get(key, ())):
                best[key] = names
    for (crate, places), names in sorted(best.items()):
        yield f"{crate}: ({', '.join(names)})", list(places)


def point_6(crate, path, text):
    """Structs of an array and how much of it is used; two slices of one length as parameters."""
    for name, at, body in items(text, "struct"):
        if re.search(r": \[\w+; ", body) and re.search(r"\b(used|length|len|count): \w+", body):
            yield at, f"struct {name}"
    for name, at, parameters, clauses, body in functions(text):
        if re.search(r"length (\w+)\.(now|old) ≡ length (\w+)\.", clauses):
            yield at, f"fn {name}: parallel slices"


def point_7(crate, path, text):
    """Matches with four arms or more on a number or an own enum that each call another function: a switch on which step to run."""
    for m in re.finditer(r"\bmatch (operation|subject|kind|[\w.]+\.operation) \{", text):
        body = text[m.end() : closing(text, m.end() - 1)]
        if body.count("=>") >= 4:
            yield m.start(), f"match {m.group(1)}: {body.count('=>')} arms"


def point_8():
    """Files of answers and invariants, the answers in them, and the lemmas of proofs/ and specs/."""
    answers = files = lemmas = lines = 0
    for crate in os.listdir("crates"):
        for part in ("proofs", "specs"):
            for folder, _, names in os.walk(f"crates/{crate}/{part}"):
                for name in names:
                    if not name.endswith(".antt"):
                        continue
                    text = open(os.path.join(folder, name)).read()
                    if name in ("Answers.antt", "Invariants.antt"):
                        files += 1
                        lines += text.count("\n")
                        answers += len(re.findall(r"^\s*(?:abbrev )?pub [\w-]+ : goal\.", text, re.M))
                    elif name.endswith("Laws.antt") or part == "proofs":
                        lemmas += len(re.findall(r"^\s*(?:pub )?[\w◌-]+ (?:\{ℓ\} )?: ", text, re.M))
    return files, answers, lines, lemmas


def main():
    arguments = sys.argv[1:]
    listed = "--list" in arguments
    points = [int(a) for a in arguments if a.isdigit()] or list(range(1, 9))
    read = [(crate, path, bare(text)) for crate, path, text in sources()]
    single = {1: point_1, 3: point_3, 4: point_4, 6: point_6, 7: point_7}
    for p in points:
        if p in single:
            found = [(path, line(text, at), what) for crate, path, text in read for at, what in single[p](crate, path, text)]
            print(f"point {p}: {len(found)} places")
            for path, n, what in found if listed else ():
                print(f"  {path}:{n}: {what}")
        elif p == 2:
            groups = sorted(point_2(read), key=lambda g: g[1])
            print(f"point 2: {len(groups)} groups, {sum(len(g[1]) for g in groups)} places")
            for kind, places in groups if listed else ():
                print(f"  {kind} " + ", ".join(f"{path}:{n} {name}" for path, n, name in places))
        elif p == 5:
            groups = list(point_5(read))
            print(f"point 5: {len(groups)} facts and sets of parameters, in {sum(len(g[1]) for g in groups)} places")
            for what, places in groups if listed else ():
                print(f"  {what}: " + ", ".join(f"{path.split('/', 1)[1]}:{n} {name}" for path, n, name in places))
        else:
            files, answers, lines, lemmas = point_8()
            print(f"point 8: {files} files of answers and invariants, {answers} answers in {lines} lines; {lemmas} lemmas")


if __name__ == "__main__":
    main()
