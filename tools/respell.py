#!/usr/bin/env python3
"""Respells this repository's own names of definitions and lemmas: words in snake case, types and facts in upper camel case.

usage: python3 tools/respell.py [ROOT]      rewrites crates/**/*.antt and crates/**/*.rt in place

It goes over the whole text of a .rt file; none of the names stands in code or in a string of one, so only clauses, ghost items and comments change.

It was run once, right after the toolchain's port.py, on the tree that port.py left. Names that the checker makes (goals, steps, loops) and names of the
library keep their dashes.
"""
import os
import re
import sys

WORD = r"[^\s(){}\[\];,.\"«»λ:|@↦`]+"
NAME = re.compile(WORD)
DASHED = re.compile(r"^[A-Za-zα-ω][\w']*(?:-[\w']+)+$")
OWN = re.compile(r"^Rattle\.(meaning|tried|positions|sheet|plate|reading|doers|playing|runs|sheetread|cases|script|damages|tables|by_hand)\b")


def files(root, *endings):
    for folder, dirs, names in os.walk(os.path.join(root, "crates")):
        dirs[:] = sorted(d for d in dirs if d != "out")
        for n in sorted(names):
            if n.endswith(endings):
                yield os.path.join(folder, n)


def read(path):
    with open(path, encoding="utf-8") as f:
        return f.read()


def code(text):
    """An antt text without its comments."""
    return "\n".join(line if not line.lstrip().startswith("--") else "" for line in text.split("\n"))


def declared(text):
    """The dashed names that a file declares: signatures, fields, constructors, types, and what parameters, lets and patterns bind."""
    goals = set(re.findall(r"(?m)^(?:abbrev )?(?:pub )?(" + WORD + r") : goal\.\1(?![\w-])", text))
    found, fields = set(), set()
    in_record = None
    for line in code(text).split("\n"):
        words = line.split(" : ")[0].split()
        if " : " in line and all(NAME.fullmatch(w) for w in words):
            found.update(words)
        m = re.match(r" *(?:abbrev )?(?:pub )?(" + WORD + r") :$", line)
        if m:
            found.add(m.group(1))
        m = re.match(r" *(?:pub )?(?:data|record) (" + WORD + r")", line)
        if m:
            found.add(m.group(1))
        for m in re.finditer(r"[({]([^(){}:]+) : ", line):
            found.update(m.group(1).split())
        for m in re.finditer(r"\blet (" + WORD + r")", line):
            found.add(m.group(1))
        for m in re.finditer(r"\blet \(([^=]*)\) =", line):
            found.update(NAME.findall(m.group(1)))
        for m in re.finditer(r"λ ([^.]*)\.", line):
            found.update(NAME.findall(m.group(1)))
    return {n for n in found if DASHED.match(n)} - goals


# names that would fall together with a name of the code, or that no declaration shows
CHOSEN = {
    "Bad-form": "IsBadForm",
    "Too-deep": "IsTooDeep",
    "Out-of-range": "IsOutOfRange",
    "followpos-law": "followpos_law_lem",
    "path-law": "path_law_lem",
    "slip-law": "slip_law_lem",
    "tape-law": "tape_law_lem",
    "one-reading": "one_reading_lem",
    "first-clash": "first_clash_lem",
    "Share-at": "SharesAt",
}
SHOWN_NOWHERE = "a-form all-Asked all-answered b-is form-text linked-more lowest-is more-asked more-replies not-built not-heard play-ends play-stops same-account the-symbol why-not xs-none ys-none"


def respelled(name):
    if name in CHOSEN:
        return CHOSEN[name]
    parts = name.split("-")
    if name[0].isupper():
        return "".join(p[:1].upper() + p[1:] for p in parts)
    return "_".join(parts)


def fields(root):
    found = set()
    for path in files(root, ".antt"):
        inside = False
        for line in code(read(path)).split("\n"):
            if re.match(r"\s*(pub )?record ", line):
                inside = True
            elif inside and not line.strip():
                inside = False
            elif inside and line.startswith(" ") and " : " in line:
                found.update(line.split(" : ")[0].replace("pub ", "").split())
    return found


def table(root):
    names = set(SHOWN_NOWHERE.split())
    for path in files(root, ".antt"):
        names |= declared(read(path))
    return {n: respelled(n) for n in sorted(names)}


def made(text):
    """Names that a file takes from modules that are not this repository's own, or that the checker makes."""
    out = set()
    for module, items in re.findall(r"use ([\w.·+]+)\.\{([^}]*)\}", text):
        if not OWN.match(module) or re.search(r"\.(Goals|Given)$", module):
            out.update(i.strip().split(" as ")[-1] for i in items.split(","))
    return out


def turn(text, names, own_fields, left):
    """The text with the names of the table respelled, but for those in `left`, the checker's goals, and its steps behind `c.`, `w.` and `l.`."""

    def one(m):
        w = m.group(0)
        if w not in names or w in left:
            return w
        before = re.search(r"([^\s(]*)\.$", text[max(0, m.start() - 80):m.start()])
        if before:
            head = before.group(1).split(".")[0]
            if head == "goal" or head in ("c", "w", "l") and w not in own_fields:
                return w
        return names[w]

    return NAME.sub(one, text)


def main(argv):
    root = argv[0] if argv else "."
    names, own_fields = table(root), fields(root)
    for path in files(root, ".antt", ".rt"):
        text = read(path)
        goals = set(re.findall(r"(?m)^(?:abbrev )?(?:pub )?(" + WORD + r") : goal\.\1(?![\w-])", text))
        after = turn(text, names, own_fields, made(text) | goals)
        if after != text:
            with open(path, "w", encoding="utf-8") as f:
                f.write(after)
    print(f"{len(names)} names")


if __name__ == "__main__":
    main(sys.argv[1:])
