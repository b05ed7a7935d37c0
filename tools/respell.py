#!/usr/bin/env python3
"""Respells the repository's own definitions and lemmas as docs/PORT.md says: words in snake case, no dashes, facts and types in camel case.

usage: tools/respell.py [--list]       at the top of the repository, right after the port's spelling script, once

A name counts as the repository's own if a file directly in specs/ or proofs/ of a crate declares it, or a proof of a function declares it as a helper.
What is generated of a function (its goals and the fields of its steps) is left alone. Strings, code and inputs keep their text.
"""

import os
import re
import sys

IDENT = re.compile(r"[^\s(){}\[\].,;:\"«»|\\⌜⌝`]+")
DECLARED = re.compile(r"^\s*(?:(?:pub|unfoldable|abbrev|data|record|ruleset)\s+)*([^\s:(){}\[\].,;\"=?]+)\s*(?:[({].*)?\s*:\s")
HEADS = ("use ", "ghost use ", "--", "module ", "where", "unfolding ", "open ", "let ", "in ", "λ")
SKIPPED = {"pub", "record", "data", "mod", "use", "module", "λ", "let", "elim", "|", "→", "×"}


def walk(top, *endings):
    for folder, dirs, files in os.walk(top):
        dirs[:] = sorted(d for d in dirs if d not in ("out", ".git", "build", "target"))
        for f in sorted(files):
            if f.endswith(endings):
                yield os.path.join(folder, f)


def of_function(path):
    parts = path.split(os.sep)
    return parts[2] == "proofs" and len(parts) > 4


def read(path):
    with open(path, encoding="utf-8") as f:
        return f.read()


def declared(path):
    """The names that a file declares; of a function's proof, those that answer no goal."""
    lines = read(path).split("\n")
    for i, line in enumerate(lines):
        if line.strip().startswith(HEADS):
            continue
        m = DECLARED.match(line)
        if m and m.group(1) not in SKIPPED:
            if of_function(path) and re.search(r":\s+(?:\(?\w+\s+)?(?:tie|need|goal)\.", line):
                continue
            yield m.group(1)


def respelled(name):
    name = name.replace("′", "'")
    if name[0] in "-+" or re.match(r"(?:Need|After|goal)-", name):
        return name
    if re.match(r"[A-Z]-", name):
        name = name[0].lower() + name[1:]
    if not name[0].isupper():
        name = re.sub(r"(?<=[a-z0-9])([A-Z])", lambda m: "_" + m.group(1).lower(), name)
        name = re.sub(r"[A-Z]", lambda m: m.group(0).lower(), name)
    return re.sub(r"(?<=[\w'])-(?=[\w'])", "_", name)


def own_names(top):
    names = set()
    for path in walk(top, ".antt"):
        if of_function(path):
            continue
        names.update(declared(path))
    turned = {n: respelled(n) for n in names if respelled(n) != n and re.match(r"^[\w'′-]+$", n)}
    # A lemma that would have its definition's name.
    words = {n for n in names if "-" not in n} | {b for a, b in turned.items() if "-" not in a}
    turned = {a: b + "_lem" if "-" in a and words & {b} else b for a, b in turned.items()}
    # Lemmas, fields and constructors that the port's spelling script brought to snake case already, where a definition now takes that name.
    return turned | {b: b + "_lem" for a, b in turned.items() if "-" not in a and b in names}


def kept_here(text):
    """Names that a file takes from elsewhere than this repository's crates: they keep their spelling in it."""
    kept = set()
    for m in re.finditer(r"use\s+([^\s{};]+?)\.\{([^}]*)\}", text):
        if not OWN.match(m.group(1)):
            kept.update(n.split(" as ")[0].strip() for n in m.group(2).split(","))
    return kept


def pieces(text, comment):
    """Cuts a text into (kind, part): 'code', 'string' and 'comment'."""
    pattern = re.compile(r'"(?:\\.|[^"\\\n])*"|' + (r"//[^\n]*" if comment == "//" else r"(?<!\S)--[^\n]*"))
    at = 0
    for m in pattern.finditer(text):
        yield "code", text[at : m.start()]
        yield ("string" if m.group(0)[0] == '"' else "comment"), m.group(0)
        at = m.end()
    yield "code", text[at:]


def turn(text, names, comment="--"):
    names = {a: b for a, b in names.items() if a not in kept_here(text)}
    done = []
    for kind, part in pieces(text, comment):
        if kind == "code":
            part = IDENT.sub(lambda m: names.get(m.group(0), m.group(0)), part)
        elif kind == "comment":
            part = re.sub(r"`([^`\n]*)`", lambda m: IDENT.sub(lambda k: names.get(k.group(0), k.group(0)), m.group(0)), part)
            part = re.sub(r"\b[a-z0-9]+(?:[A-Z][a-z0-9]*)+\b", lambda m: names.get(m.group(0), m.group(0)), part)
        done.append(part)
    return "".join(done)


def turn_edit(text, names, code):
    file, lines = "", []
    for line in text.split("\n"):
        if line.startswith("file: "):
            file = line
        elif line.startswith(("old: ", "new: ")):
            line = line[:5] + (turn(line[5:], code, "//") if file.endswith(".rt") else turn(line[5:], names))
        lines.append(line)
    return "\n".join(lines)


def turn_page(text, names):
    return re.sub(r"`[^`\n]+`", lambda m: IDENT.sub(lambda k: names.get(k.group(0), k.group(0)), m.group(0)), text)


def main(argv):
    global OWN
    crates = sorted(c for c in os.listdir("crates") if os.path.isdir(os.path.join("crates", c, "src")))
    OWN = re.compile(r"Rattle[.·](?:" + "|".join(crates) + r")(?:[.·]|$)")
    names = own_names("crates")
    if "--list" in argv:
        print("\n".join(f"{a}\t{b}" for a, b in sorted(names.items())))
        return 0
    into = {}
    for a, b in names.items():
        into.setdefault(b, []).append(a)
    for b, olds in sorted(into.items()):
        if len(olds) > 1:
            print(f"fall together: {' '.join(sorted(olds))} -> {b}")
    # Functions of src/ may have a name that is in snake case already.
    code = {a: b for a, b in names.items() if "-" in a or a != a.lower()}
    for path in list(walk("crates", ".antt", ".rt", ".edit")):
        old = text = read(path)
        local = dict(names)
        if path.endswith(".edit"):
            text = turn_edit(text, names, code)
        elif path.endswith(".rt"):
            text = turn(text, code, "//")
        else:
            if of_function(path):
                here = {n for n in declared(path)}
                local.update({n: respelled(n) for n in here if respelled(n) != n})
            taken = set(IDENT.findall("".join(p for k, p in pieces(text, "--") if k == "code")))
            for a, b in sorted(local.items()):
                if a in taken and b in taken:
                    print(f"look: {path}: {a} becomes {b}, which stands there already")
            text = turn(text, local)
        if text != old:
            with open(path, "w", encoding="utf-8") as f:
                f.write(text)
    for path in ["README.md", *walk("docs", ".md")]:
        old = read(path)
        text = turn_page(old, code)
        if text != old:
            with open(path, "w", encoding="utf-8") as f:
                f.write(text)
    return 0


if __name__ == "__main__":
    raise SystemExit(main(sys.argv[1:]))
