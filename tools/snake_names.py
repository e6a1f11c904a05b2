#!/usr/bin/env python3
"""Brings the repository's own definitions, lemmas, fields, laws and clause labels to snake case: python3 tools/snake_names.py

Run once, at the top of the repository, after the kit's port.py. It reads which names specs/ and proofs/ declare and which laws
and labels src/ has, and respells each one wherever it stands in .antt and .rt files. Types and modules keep their capitals; names
that Rattle makes, functions of src/, strings and prose in comments stay as they are.
"""
import os
import re

# a parameter of definitions, and a name in an import
OTHERS = {"inLimits", "decoded-price"}
# names that would fall together with another one in snake case, or with a tactic of the kit
CHOSEN = {
    "where-fits": "where_fits_is",
    "first_of": "first_line_of",
    "othersOf": "other_lines_of",
}
STOP = r"\s(){}.,;:«»⟦⟧\[\]\"@"
TOKEN = re.compile(rf"[^{STOP}]+")
NAME = rf"[^{STOP}]+"
HEAD = re.compile(rf"(?:(?:abbrev|unfoldable) pub |pub data |pub record |abbrev |unfoldable |data |record |pub ruleset |ruleset |pub )?({NAME})\s*(?:\([^)]*\)\s*)*: (?!=)")
INNER = re.compile(rf"(?:  |    )(?:(?:abbrev|unfoldable) pub |abbrev |pub )?({NAME}) :")
LABEL = re.compile(r"\b(?:ghost|ensures|requires) ([a-z]\w*)\b")


def files():
    for folder, dirs, names in os.walk("crates"):
        dirs[:] = sorted(d for d in dirs if d != "out")
        for name in sorted(names):
            if name.endswith((".antt", ".rt")):
                yield os.path.join(folder, name)


def snake(name):
    if name in CHOSEN:
        return CHOSEN[name]
    words = re.sub(r"(?<=[a-z0-9])([A-Z])", lambda m: "_" + m.group(1).lower(), name)
    return words.replace("-", "_")


def is_own(name):
    """A word that starts low and is not in snake case yet; an operator or a type is none."""
    return name[0].isalpha() and name[0].islower() and (snake(name) != name)


def declared():
    names, inner, labels = set(OTHERS), set(), set()
    for path in files():
        with open(path, encoding="utf-8") as f:
            lines = f.read().split("\n")
        if path.endswith(".rt"):
            for line in lines:
                labels.update(n for n in LABEL.findall(line) if is_own(n))
            continue
        for line in lines:
            if line.startswith(("--", "use ")) or re.search(r":\s*goal\.", line):
                continue
            for pattern, into in ((HEAD, names), (INNER, inner)):
                m = pattern.match(line)
                if m and is_own(m.group(1)):
                    into.add(m.group(1))
    return names, inner, labels


def respell(line, names, inner, labels, comment):
    at = line.find(comment) if comment == "//" or line.lstrip().startswith(comment) else -1
    code, prose = (line, "") if at < 0 else (line[:at], line[at:])

    def one(m):
        word, dotted = m.group(0), m.start() > 0 and code[m.start() - 1] == "."
        if word in labels or word in inner or (word in names and not dotted):
            return snake(word)
        if "-" in word and any(part in labels for part in word.split("-")):
            return "-".join(snake(part) if part in labels else part for part in word.split("-"))
        return word

    def told(m):
        word = m.group(0)
        return snake(word) if word in names and "-" not in word else word

    return TOKEN.sub(one, code) + TOKEN.sub(told, prose)


def main():
    names, inner, labels = declared()
    for kind in (names, inner, labels):
        kept = {}
        for name in sorted(kind):
            if kept.setdefault(snake(name), name) != name:
                raise SystemExit(f"{name} and {kept[snake(name)]} would fall together")
    for path in files():
        with open(path, encoding="utf-8") as f:
            text = f.read()
        comment = "//" if path.endswith(".rt") else "--"
        new = "\n".join(respell(l, names, inner, labels, comment) for l in text.split("\n"))
        if new != text:
            with open(path, "w", encoding="utf-8") as f:
                f.write(new)
    print(f"{len(names | inner | labels)} names respelled")


main()
