#!/usr/bin/env python3
"""Counts the places in crates/*/src of each point of docs/DESIGN-PASS.md.

usage: tools/design_count.py [-v] [ROOT]       at the top of the repository, or of a checkout of it at ROOT; -v lists the places

It goes by text, so a count is of places to look at, and says nothing of whether a place is wrong as it is.
"""

import collections
import glob
import os
import re
import sys

FUNCTION = re.compile(r"^ *(?:pub(?:\(crate\))? )?(?:extern \"C\" )?fn (\w+)[^{]*?(?=\n *(?:requires|ensures)|\{)", re.M | re.S)


def sources(root):
    for path in sorted(glob.glob(os.path.join(root, "crates", "*", "src", "**", "*.rt"), recursive=True)):
        text = "".join(re.sub(r"(^|\s)//.*", r"\1", line) for line in open(path, encoding="utf-8").read().splitlines(keepends=True))
        yield os.path.relpath(path, os.path.join(root, "crates")).replace("/src/lib.rt", "").replace("/src/", "/"), text


def functions(text):
    """Name, head, contract and body of each function."""
    for match in FUNCTION.finditer(text):
        at = match.end()
        contract = ""
        while True:
            clause = re.compile(r"\s*(requires|ensures)(?: \w+)? *\{").match(text, at)
            if not clause:
                break
            end = closing(text, clause.end() - 1)
            contract += text[at:end]
            at = end
        start = text.find("{", at)
        yield match.group(1), match.group(0), contract, text[start:closing(text, start)]


def closing(text, start):
    depth = 0
    for i in range(start, len(text)):
        depth += {"{": 1, "}": -1}.get(text[i], 0)
        if depth == 0:
            return i + 1
    return len(text)


def shape(body):
    """A body without its names and numbers; what is written apart counts as apart."""
    return re.sub(r"\b\w+\b", lambda m: m.group(0) if m.group(0) in ("if", "else", "match", "while", "for", "loop", "return", "let", "mut", "in") else "x", re.sub(r"\s+", " ", body))


def points(root):
    found = collections.OrderedDict((k, []) for k in (
        "1a enums of the shape of Option", "1b structs with a flag beside a value", "1c structs with the number of a refusal beside values", "1d functions that answer the number of a refusal",
        "1e cases that hold the number of a refusal", "1f numbers for kinds", "2 functions of the same shape as another", "3 loops that count by hand", "4 functions that only convert or compare",
        "5a clauses on facts that three or more functions ask for", "5b functions that take a buffer and a place in it", "5c functions that take labels and their tables", "6 local buffers with a length beside them",
        "7 switches on a number"))
    shapes = collections.defaultdict(list)
    asked = collections.defaultdict(list)
    for path, text in sources(root):
        for m in re.finditer(r"\benum (\w+) \{([^}]*)\}", text):
            cases = [c.strip() for c in m.group(2).split(",\n") if c.strip().strip(",")]
            if len(cases) == 2 and sum("(" in c for c in cases) == 1:
                found["1a enums of the shape of Option"].append((path, m.group(1)))
            for c in cases:
                if re.match(r"Refused\(u8\)", c):
                    found["1e cases that hold the number of a refusal"].append((path, m.group(1)))
        for m in re.finditer(r"\bstruct (\w+)[^{;]*\{([^}]*)\}", text):
            if re.search(r"\bok: bool", m.group(2)):
                found["1b structs with a flag beside a value"].append((path, m.group(1)))
            if re.search(r"\brefusal: u8", m.group(2)):
                found["1c structs with the number of a refusal beside values"].append((path, m.group(1)))
        for name, head, contract, body in functions(text):
            place = (path, name)
            if re.search(r"-> u8\s*$", head) and re.search(r"refusal|number_of|kind_number", contract):
                found["1d functions that answer the number of a refusal"].append(place)
            if re.search(r"\bverb: usize|-> usize\s*$", head) and re.search(r"place_of|Performed verb|verb < 16|verb", contract + head) and "verb" in path + head:
                found["1f numbers for kinds"].append(place)
            if body.count("\n") > 2 and "extern" not in head:
                shapes[shape(body)].append(place)
            for loop in re.finditer(r"\b(while|loop)\b", body):
                found["3 loops that count by hand"].append(place)
            if re.fullmatch(r"\{\s*\w+ as \w+\s*\}", body) or re.fullmatch(r"\{\s*(\(\w+\[\d\] == \w+\[\d\]\)\s*&?\s*)+\}", body) or re.fullmatch(r"\{\s*\w+\.\w+ as \w+\s*\}", body):
                found["4 functions that only convert or compare"].append(place)
            for fact in set(re.findall(r"(?<![\w.])([A-Z]\w+)(?= \w+(?:\.\w+)*)", " ".join(re.findall(r"requires[^{]*\{(.*?)\}", contract, re.S)))):
                asked[fact].append(place)
            if re.search(r"out: &mut \[u8\],\s*at: usize", head) or re.search(r"out: &mut \[u8\].*\bat: usize", head, re.S):
                found["5b functions that take a buffer and a place in it"].append(place)
            if re.search(r"labels: usize.*\b(rows|counts|parents): ", head, re.S):
                found["5c functions that take labels and their tables"].append(place)
            for m in re.finditer(r"let mut (\w+) = \[0u8; \d+\];", body):
                if re.search(r"&%s\[\.\.\w+" % m.group(1), body):
                    found["6 local buffers with a length beside them"].append(place)
            if re.search(r"match \w+ \{\s*(?:\d+|b?'.')(?:\.\.=\d+)? =>", body):
                found["7 switches on a number"].append(place)
    for group in shapes.values():
        if len(group) > 1:
            found["2 functions of the same shape as another"] += group
    for fact, places in asked.items():
        if len(places) > 2:
            found["5a clauses on facts that three or more functions ask for"] += [(p, n + " (" + fact + ")") for p, n in places]
    return found


def main():
    words = sys.argv[1:]
    listed = "-v" in words
    root = next((w for w in words if w != "-v"), ".")
    for point, places in points(root).items():
        print("%-60s %4d" % (point, len(places)))
        for path, name in places if listed else []:
            print("    %s::%s" % (path, name))


if __name__ == "__main__":
    main()
