#!/usr/bin/env python3
"""Gives the definitions and lemmas of this repository the spelling of today's Rattle.

usage: tools/respell.py [-n]     at the top of the repository; -n changes nothing, and prints the names

Types and facts are in camel case, all else is in snake case, as NotAbove for Not-above and least_term for least-term.
A dash stays where it joins two names. Functions of src/, goals, strings, inputs and outputs keep their names.
Run once, after /opt/rattle/port/port.py.
"""

import os
import re
import sys

WORD = re.compile(r"[^\W\d][\w'·₀-₉-]*")
DECLARED = re.compile(r"^(\s*)(?:abbrev |unfoldable |pub )*(?:data |record |let )?(" + WORD.pattern + r")(?= *[:({=])")
GOAL = re.compile(r":\s*(?:goal|given|need|needs)\.")
STRING = re.compile(r'(b?"(?:[^"\\]|\\.)*")')
QUOTED = re.compile(r"(`[^`\n]*`)")

# names that the rule by letters would not give: the list of a mathematical name, lemmas whose dash joins two names, a
# lemma that would have the name of its function, and a variable
BY_HAND = {
    "F63": "f63",
    "length-F63": "length-f63",
    "length-in-force": "length-in_force",
    "length-masked": "length-masked",
    "closest-from-below": "closest_from_below_lem",
    "pll-d2": "pll_d2",
}


def files(ends):
    for top in ("crates", "docs", "README.md", "compare/README.md"):
        if os.path.isfile(top):
            if top.endswith(ends):
                yield top
            continue
        for folder, dirs, names in os.walk(top):
            dirs[:] = sorted(d for d in dirs if d not in ("out", "data", "must-fail"))
            for name in sorted(names):
                path = os.path.join(folder, name)
                if path.endswith(ends) and path != "docs/PORT.md":
                    yield path


def read(path):
    with open(path, encoding="utf-8") as f:
        return f.read()


def declared():
    """The names that specs/ and proofs/ declare: definitions, lemmas, fields, constructors and locals, but no goals."""
    found = set(BY_HAND)
    for path in files((".antt",)):
        for line in read(path).splitlines():
            m = DECLARED.match(line)
            if m and not GOAL.search(line):
                found.add(m.group(2))
    return found


def respelled(name):
    if name in BY_HAND:
        return BY_HAND[name]
    parts = re.split(r"[-_]", name)
    if len(parts) < 2 or not all(parts):
        return name
    if parts[0] == "F63":
        return "_".join(["f63"] + parts[1:])
    if name[0].isupper():
        return "".join(p[0].upper() + p[1:] for p in parts)
    return "_".join(parts)


def from_elsewhere(text):
    """The names that a file takes from the library: they stay."""
    taken = set()
    for m in re.finditer(r"use (?:Rattle\.std|borrow|native|logic)[\w.]*\.\{([^}]*)\}", text):
        taken.update(re.findall(WORD, m.group(1)))
    return taken


def turned(text, names, stay):
    return WORD.sub(lambda m: m.group(0) if m.group(0) in stay else names.get(m.group(0), m.group(0)), text)


def in_source(text, names, stay):
    """Comments and strings of a source file stay, but for names with a dash that a comment has."""
    lines = []
    for line in text.split("\n"):
        if line.lstrip().startswith(("//", "--")):
            lines.append(turned(line, names, stay | {"F63"}))
        else:
            lines.append("".join(p if i % 2 else turned(p, names, stay) for i, p in enumerate(STRING.split(line))))
    return "\n".join(lines)


def in_page(text, known):
    """In a page only what stands in backticks is a name; port.py may have turned its declaration already."""
    parts = QUOTED.split(text)
    for i in range(1, len(parts), 2):
        for name in set(WORD.findall(parts[i])):
            if "-" in name and respelled(name) in known:
                parts[i] = turned(parts[i], {name: respelled(name)}, set())
    return "".join(parts)


def main():
    all_names = declared()
    names = {n: respelled(n) for n in all_names}
    names = {a: b for a, b in names.items() if a != b}
    known = all_names | set(names.values())
    if "-n" in sys.argv:
        for a in sorted(names):
            print(a, names[a])
    for path in files((".antt", ".rt", ".md")):
        old = read(path)
        if path.endswith(".md"):
            new = in_page(old, known)
        else:
            stay = from_elsewhere(old)
            here = set(WORD.findall(old))
            for a in sorted(here & set(names)):
                if a in stay:
                    print(f"{path}: {a} is the library's, and stays")
                elif names[a] in here:
                    print(f"{path}: {a} falls together with {names[a]}")
            new = in_source(old, names, stay)
        if new != old and "-n" not in sys.argv:
            with open(path, "w", encoding="utf-8") as f:
                f.write(new)


main()
