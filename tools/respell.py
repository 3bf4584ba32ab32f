#!/usr/bin/env python3
"""Brings the repository's own names to today's Rattle's spelling, once, after port.py: definitions, lemmas, fields and variables in snake case.

usage: python3 tools/respell.py      at the top of a tree that port.py has turned

A name in camel case, as `everyOf`, becomes `every_of`, part by part between dashes; a variable that ends in one capital, as `bC`, stays.
A field that is joined by dashes, as `.answer-is`, becomes `answer_is`. A lemma that would have a definition's name gets `_lem`.
Functions of src/, exported names, strings, inputs and outputs keep their names.
"""
import os
import re

# names that port.py had given to a lemma or a variable where a definition comes to have the name
LEMMAS = ["same_id", "node_at", "seen_none", "every_of", "block_in", "is_free", "is_one"]
# fields, joined by dashes, that are declared in a record
FIELD = re.compile(r"^(?:  )+(?:pub )?([a-z][a-z0-9_]*(?:-[a-z0-9_]+)+) : ", re.M)
NAME = re.compile(r"(?<![\w'₀-₉])[a-z][A-Za-z0-9_'₀-₉]*(?:-[A-Za-z0-9_'₀-₉]+)*")
CAMEL = re.compile(r"[a-z0-9][A-Z]")


def texts(root, *ends):
    for folder, dirs, files in os.walk(os.path.join(root, "crates")):
        dirs[:] = sorted(d for d in dirs if d not in ("out", "must-fail"))
        for f in sorted(files):
            if f.endswith(ends):
                yield os.path.join(folder, f)


def snake(part):
    if part == "getD":  # the library's word for it today
        return "get_or"
    if not CAMEL.search(part) or re.fullmatch(r"[a-z]+[A-Z]", part):
        return part
    return re.sub(r"(?<=[a-z0-9])([A-Z])", r"_\1", part).lower()


def record_fields(text):
    """The fields with dashes of each record that a file declares."""
    found, inside, depth = set(), False, 0
    for line in text.split("\n"):
        start = re.match(r"( *)(?:pub )?record \S+.*where\s*$", line)
        if start:
            inside, depth = True, len(start.group(1))
        elif inside and line.strip() and not line.strip().startswith("--"):
            if len(line) - len(line.lstrip()) <= depth:
                inside = False
            else:
                m = FIELD.match(line)
                if m:
                    found.add(m.group(1))
    return found


def main():
    root = os.getcwd()
    fields, taken = set(), set()
    for p in texts(root, ".antt"):
        with open(p, encoding="utf-8") as f:
            text = f.read()
        fields |= record_fields(text)
        taken |= set(NAME.findall(text))
    fields = {f for f in fields if f.replace("-", "_") not in taken}

    def turned(m):
        name = m.group(0)
        if name in fields:
            return name.replace("-", "_")
        return "-".join(snake(part) for part in name.split("-"))

    pages = [os.path.join(root, p) for p in ("README.md",)]
    pages += [os.path.join(root, "docs", f) for f in sorted(os.listdir(os.path.join(root, "docs"))) if f.endswith(".md") and f != "PORT.md"]
    for p in [*texts(root, ".antt", ".rt"), *pages]:
        with open(p, encoding="utf-8") as f:
            text = f.read()
        new = text
        if p.endswith(".antt"):
            for name in LEMMAS:
                new = re.sub(r"(?<![\w.'-])" + name + r"(?![\w'-])", name + "_lem", new)
        if p.endswith(".md"):
            new = re.sub(r"`[^`\n]+`", lambda m: NAME.sub(turned, m.group(0)), new)
        else:
            new = "".join(piece if i % 2 else NAME.sub(turned, piece) for i, piece in enumerate(re.split(r'("(?:[^"\\\n]|\\.)*")', new)))
        if new != text:
            with open(p, "w", encoding="utf-8") as f:
                f.write(new)


if __name__ == "__main__":
    main()
