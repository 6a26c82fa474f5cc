#!/usr/bin/env python3
"""Brings the names of definitions, lemmas and variables in proof language to snake case, as the library spells its own.

usage: python3 tools/snake_names.py [FOLDER]     rewrites crates/ below FOLDER (.), .antt, .rt and must-fail edits, and the pages
       python3 tools/snake_names.py --list       the names and what they become, and which of them stood already

A dash goes on joining a definition to what is claimed of it. Types, and facts spelled as types, keep their capitals.
Code in .rt files has no name in camel case but types; texts in quotes are left as they are.
"""
import os
import re
import sys

NAME = re.compile(r"(?<![0-9A-Za-z_'])[A-Za-z_][A-Za-z0-9_'₀-₉]*(?:[-·][A-Za-z0-9_'₀-₉]+)*")
QUOTED = re.compile(r'"(?:\\.|[^"\\\n])*"')
CAMEL = re.compile(r"^[a-z][a-z0-9_]*[a-z0-9][A-Z]")
# the library's own words for what older proofs called otherwise
LIBRARY = {"getD": "get_or"}
# record fields whose names are plain words joined by a dash, in the crates that have them; a step of a proof that rt
# names so, as c.shift-a, stays
CRATES = {"quiet", "apart", "blocks", "by_word", "engine"}
FIELDS = ["shift-a", "shift-b", "long-y", "long-o", "of-a", "of-b", "far-a", "far-d", "inside-a", "inside-d", "memory-is", "last-is", "nought-is"]
FIELD = re.compile(r"(?<![\w'-])(?<!\bc\.)(%s)(?![\w'-])" % "|".join(FIELDS))
# a law that would have the name of a definition which its file cites
FIRST = {"crates/by_word/proofs/SmearLaws.antt": ("atA", "at_a", "a_at")}


def snake(part):
    if part in LIBRARY:
        return LIBRARY[part]
    if not CAMEL.match(part) or re.search(r"_[A-Z]", part):
        return part
    part = re.sub(r"([A-Z])([A-Z][a-z])", r"\1_\2", part)
    part = re.sub(r"([a-z0-9])([A-Z])", r"\1_\2", part)
    return part.lower()


def turned(name):
    return "".join(snake(p) if p not in "-·" else p for p in re.split(r"([-·])", name))


def files(top):
    for folder, dirs, names in os.walk(os.path.join(top, "crates")):
        dirs[:] = sorted(d for d in dirs if d != "out")
        for n in sorted(names):
            if n.endswith((".antt", ".rt", ".edit")):
                yield os.path.join(folder, n)


def pages(top):
    for p in ["README.md", "docs/PROMISES.md", "docs/DECISIONS.md"]:
        if os.path.exists(os.path.join(top, p)):
            yield os.path.join(top, p)
    notes = os.path.join(top, "docs", "notes")
    for n in sorted(os.listdir(notes)) if os.path.isdir(notes) else []:
        yield os.path.join(notes, n)


def outside_quotes(text, turn):
    out, last = [], 0
    for m in QUOTED.finditer(text):
        out += [turn(text[last : m.start()]), m.group()]
        last = m.end()
    return "".join(out) + turn(text[last:])


def read(path):
    with open(path, encoding="utf-8") as f:
        return f.read()


def names_of(top):
    found = set()
    for p in files(top):
        if not p.endswith(".edit"):
            outside_quotes(read(p), lambda t: [found.add(m.group()) for m in NAME.finditer(t)] and t or t)
    return found


def main():
    args = [a for a in sys.argv[1:] if a != "--list"]
    top = args[0] if args else "."
    found = names_of(top)
    table = {n: turned(n) for n in found if turned(n) != n}
    if "--list" in sys.argv:
        for n in sorted(table):
            print(n, table[n], "STOOD ALREADY" if table[n] in found else "")
        return
    heads = {h: turned(h) for n in table for h in re.split(r"[-·]", n) if turned(h) != h}

    def turn(text):
        return NAME.sub(lambda m: table.get(m.group(), m.group()), text)

    def turn_page(text):
        return NAME.sub(lambda m: table.get(m.group()) or heads.get(m.group(), m.group()), text)

    for p in files(top):
        old = read(p)
        clear = old
        if os.path.relpath(p, top) in FIRST:
            definition, name, instead = FIRST[os.path.relpath(p, top)]
            if re.search(r"\b%s\b" % definition, old):
                clear = re.sub(r"\b%s\b" % name, instead, old)
        new = turn(clear) if p.endswith(".antt") else outside_quotes(clear, turn)
        if p.endswith(".antt") and os.path.relpath(p, top).split(os.sep)[1] in CRATES:
            new = FIELD.sub(lambda m: m.group().replace("-", "_"), new)
        if new != old:
            with open(p, "w", encoding="utf-8") as f:
                f.write(new)
    for p in pages(top):
        old = read(p)
        new = re.sub(r"`[^`\n]+`", lambda m: turn_page(m.group()), old)
        if new != old:
            with open(p, "w", encoding="utf-8") as f:
                f.write(new)


main()
