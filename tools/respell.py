#!/usr/bin/env python3
"""Respells the repository's own definitions and lemmas: words in snake case, types in camel case, a prime as an apostrophe.

usage: respell.py [--check] [TOP]     TOP is a checkout; --check writes nothing and lists what would turn, and which names fall together

It goes by whole words. It turns specs/ and proofs/, the clauses and ghost lines of src/, and the edits in must-fail/.
The names of functions of src/, strings, and the names that the checker makes for goals and steps keep their spelling.
"""
import collections
import os
import re
import sys

WORD = re.compile(r"[^\s(){}\[\].;,@\"«»`]+")
DECLARED = re.compile(r"^[ \t]*(?:(?:pub|abbrev|unfoldable) +)*([^\s(){}.;,@\"«»:]+(?: +[^\s(){}.;,@\"«»:]+)*) :(?:\s|$)", re.M)
FIELD = re.compile(r"[{;] *([^\s(){}.;,@\"«»:]+) : ")
TYPE = re.compile(r"^[ \t]*(?:pub +)?(?:data|record) +([^\s(){}.;,@\"«»:]+)", re.M)
ALIAS = re.compile(r"(?<=\s)as +([^\s(){}.;,@\"«»:]+)(?=[,}])")
GOAL = re.compile(r":\s*(?:goal|need|tie|given)\.")
KEYWORDS = {"pub", "abbrev", "unfoldable", "let", "use", "mod", "record", "data", "in", "where", "module"}

# Names that the rule below does not read: one that ends in an operator, and a type that the kit's script took for a word.
OVERRIDES = {"with-content-++": "with_content-++", "Goes_on": "GoesOn"}


def files(top, ends):
    for folder, dirs, names in os.walk(os.path.join(top, "crates")):
        dirs[:] = sorted(d for d in dirs if d not in ("out", ".git"))
        for name in sorted(names):
            if name.endswith(ends):
                yield os.path.join(folder, name)


def read(path):
    with open(path, encoding="utf-8") as f:
        return f.read()


def without_comments(text):
    return re.sub(r"--.*", "", text)


def respelled(name):
    if name in OVERRIDES:
        return OVERRIDES[name]
    plain = name.replace("′", "'")
    if plain[:1].isupper():
        parts = plain.split("-")
        return parts[0] + "".join(p[:1].upper() + p[1:] for p in parts[1:])
    return plain.replace("-", "_")


def names_of(path, text):
    found = set()
    for m in DECLARED.finditer(text):
        line = text[m.start() : text.find("\n", m.start())]
        if GOAL.search(line) or "=" in m.group(1).split():
            continue
        for w in m.group(1).split():
            if w not in KEYWORDS:
                found.add(w)
    for pattern in (TYPE, FIELD, ALIAS):
        found.update(m.group(1) for m in pattern.finditer(text))
    return found


def table(top):
    own = set()
    for path in files(top, ".antt"):
        own |= names_of(path, without_comments(read(path)))
    for path in files(top, ".rt"):
        for line in read(path).splitlines():
            if line.startswith("ghost use"):
                own.update(m.group(1) for m in ALIAS.finditer(line))
    turns = {}
    for name in own:
        if name in OVERRIDES or ("-" in name or "′" in name) and re.match(r"^[A-Za-z][\w'′-]*$", name):
            new = respelled(name)
            if new != name:
                turns[name] = new
    return turns


USE = re.compile(r"^[ \t]*(?:ghost )?(?:pub )?use ([^{;\n]*?)\.\{([^}]*)\}", re.M)


def of_libraries(text, crates):
    """The names that a file takes from a library: they keep their spelling there."""
    kept = set()
    for m in USE.finditer(text):
        head = m.group(1).split(".")
        if not (head[0] == "Rattle" and len(head) > 1 and head[1] in crates):
            kept.update(item.split(" as ")[0].strip() for item in m.group(2).split(","))
    return kept


def turn(text, turns):
    return WORD.sub(lambda m: turns.get(m.group(0), m.group(0)), text)


def turn_code(text, turns):
    """In code a name stands in clauses and ghost lines; strings and comments stay."""
    out = []
    for line in text.split("\n"):
        code = line
        at = line.find("//")
        tail = ""
        if at >= 0 and '"' not in line[:at]:
            code, tail = line[:at], line[at:]
        pieces = re.split(r'("(?:[^"\\]|\\.)*")', code)
        out.append("".join(p if p.startswith('"') else turn(p, turns) for p in pieces) + tail)
    return "\n".join(out)


def main():
    words = [w for w in sys.argv[1:] if w != "--check"]
    check = "--check" in sys.argv[1:]
    top = words[0] if words else "."
    turns = table(top)
    by_new = collections.defaultdict(set)
    for old, new in turns.items():
        by_new[new].add(old)
    if check:
        tokens = collections.defaultdict(set)
        for path in files(top, (".antt", ".rt")):
            for m in WORD.finditer(read(path)):
                tokens[m.group(0)].add(path)
        for new, olds in sorted(by_new.items()):
            if len(olds) > 1 or new in tokens:
                print("together:", new, sorted(olds), sorted(os.path.relpath(p, top) for p in tokens.get(new, ()))[:6])
        print(len(turns), "names turn")
        return
    changed = 0
    crates = set(os.listdir(os.path.join(top, "crates")))
    for path in files(top, (".antt", ".rt", ".edit")):
        old = read(path)
        kept = of_libraries(old, crates)
        here = {name: new for name, new in turns.items() if name not in kept}
        new = turn(old, here) if path.endswith(".antt") else turn_code(old, here)
        if new != old:
            with open(path, "w", encoding="utf-8") as f:
                f.write(new)
            changed += 1
    print(len(turns), "names turned in", changed, "files")


main()
