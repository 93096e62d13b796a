#!/usr/bin/env python3
"""Brings the repository's own definitions and lemmas to today's spelling, once, after the porting script.

usage: python3 tools/respell.py [--dry]     at the top of the repository

Own names are those that a file of specs/ or proofs/ declares, and the ghost members of src/. A lowercase name that has
capitals or dashes inside gets underscores in their place. A fact with dashes inside is written in camel case; a lemma that
a library's fact begins, as All-weaker, stays. A name that a file takes from another
library stays there, and so does each answer's name, which is made from the code. A lemma that would get the name of a definition
gets _lem behind it. What would still fall together is printed, and nothing is written then.
"""
import os
import re
import sys

WORD = r"[^\s(){}\[\],;.|\"`]+"
HEAD = re.compile(r"^\s*(?:unfoldable |abbrev |pub |ruleset )*(" + WORD + r"(?: " + WORD + r")*)\s+:\s(.*)")
KIND = re.compile(r"^\s*(?:pub )?(?:data|record)\s+(" + WORD + ")")
FIELD = re.compile(r"\s*ghost (\w+)\s*[:=]")
LIBRARY = ("All", "IsPermutation", "Shuffled")
IMPORT = re.compile(r"use\s+([^\s{;]+)\.\{([^}]*)\}")


def files():
    for top in ("crates", "docs"):
        for folder, dirs, names in os.walk(top):
            dirs[:] = sorted(d for d in dirs if d != "out")
            for name in sorted(names):
                if name.endswith((".antt", ".rt", ".edit", ".md")):
                    yield os.path.join(folder, name)
    yield "README.md"


def spelled(name):
    if name[0].isupper():
        return "".join(part[:1].upper() + part[1:] for part in name.split("-"))
    name = re.sub(r"(?<=[a-z0-9])([A-Z])", lambda m: "_" + m.group(1).lower(), name)
    name = re.sub(r"_([A-Z])", lambda m: "_" + m.group(1).lower(), name)
    return name.replace("-", "_")


def declared(texts):
    found = set()
    for path, text in texts.items():
        for line in text.splitlines():
            if path.endswith(".antt"):
                m = HEAD.match(line)
                if m and not re.match(r"goal\.|Goals\.", m.group(2)):
                    found.update(m.group(1).split())
            elif path.endswith(".rt"):
                m = FIELD.match(line)
                if m:
                    found.add(m.group(1))
    plain = {n for n in found if re.fullmatch(r"[A-Za-z0-9_'-]+", n)}
    return {n for n in plain if n[0].islower() or "-" in n and n.split("-")[0] not in LIBRARY}


def foreign(text):
    """The names that a file takes from other libraries than this repository's."""
    names = set()
    for module, items in IMPORT.findall(text):
        if not re.match(r"Rattle\.(?:%s)\b" % "|".join(OWN), module):
            for item in items.split(","):
                names.update(item.split(" as ")[:1])
    return {n.strip() for n in names}


def turned(path, text, table):
    skip = foreign(text)
    if path.endswith(".md"):
        return re.sub(r"`[^`\n]+`", lambda q: re.sub(r"[A-Za-z0-9_'-]+", lambda m: table.get(m.group(0), m.group(0)), q.group(0)), text)
    return re.sub(r"[\w'-]+", lambda m: m.group(0) if m.group(0) in skip else table.get(m.group(0), m.group(0)), text)


def main():
    global OWN
    OWN = sorted(d for d in os.listdir("crates"))
    texts = {}
    for path in files():
        with open(path, encoding="utf-8") as f:
            texts[path] = f.read()
    every = declared(texts)
    table = {n: spelled(n) for n in every if re.search(r"[a-z0-9][A-Z]|-", n)}
    defined = {spelled(n) for n in every if "-" not in n}
    for old in table:
        if "-" in old and table[old] in defined:
            table[old] += "_lem"
    code = set(re.findall(r"\w+", "".join(t for p, t in texts.items() if p.endswith(".rt"))))
    for old in list(table):
        if "-" not in old and table[old] in every and table[old] not in code:
            table[table[old]] = table[old] + "_lem"
    clashes = []
    for old, new in sorted(table.items()):
        if new in every and new not in table and new not in code:
            clashes.append(f"{old}: {new} stands already")
        if [o for o, n in table.items() if n == new] != [old]:
            clashes.append(f"{old}: {new} is what {sorted(o for o, n in table.items() if n == new)} become")
    for line in clashes:
        print(line)
    print(len(table), "names,", len(clashes), "that fall together with others")
    if clashes or "--dry" in sys.argv:
        for old, new in sorted(table.items()):
            print(old, "->", new)
        return len(clashes)
    for path, text in texts.items():
        new = turned(path, text, table)
        if new != text:
            with open(path, "w", encoding="utf-8") as f:
                f.write(new)
    return 0


if __name__ == "__main__":
    raise SystemExit(main())
