#!/usr/bin/env python3
"""Spells the repository's own definitions and lemmas as today's Rattle does: words in snake case.

usage: python3 tools/respell.py [FOLDER]      once, right after the kit's port.py, in the repository's folder
       python3 tools/respell.py --list        only lists each name with its new spelling, and what falls together

A name of a specs/ or proofs/ file that has a dash or an inner capital is respelled wherever it stands as a whole word: in those
files, in the clauses of src/, and in the must-fail edits. Names of the library, of goals and steps that Rattle makes, of types
and of facts keep theirs.
"""
import os
import re
import sys

# Where the plain respelling would meet another name: a lemma that would have its definition's takes `_lem`.
LEMMAS = "answer-by by-verb decimal-after duration-at from-month in-first on-field on-number on-seconds pair-at same-list same-refusal time-at time-of-day with-nanos year-length".split()
OTHER = {name: name.replace("-", "_") + "_lem" for name in LEMMAS}
OTHER |= {"inRangeError": "inside_range_error", "in-range-error": "within_range_error", "getD-behind": "get_or-behind"}
# These the kit's script had respelled already, as the definition is now.
MET = {name: name + "_lem" for name in ("all_digits", "all_pass", "by_row", "is_digit", "start_up")}
# What Rattle names.
MADE = ("invariant-loop", "decreases-loop")
WORD = re.compile(r"[^\s(){}\[\];,.λ⌜⌝\"`:'|]+'*")
SIGNED = re.compile(r"^\s*((?:pub|abbrev|unfoldable|ruleset)\s+)*((?:[^\s(){};,.:λ]+\s+)+):\s+(\S+)")


def files(root, endings, folders):
    for folder, dirs, names in os.walk(os.path.join(root, "crates")):
        dirs[:] = sorted(d for d in dirs if d not in ("out", "target"))
        for name in sorted(names):
            path = os.path.join(folder, name)
            part = os.path.relpath(path, os.path.join(root, "crates")).split(os.sep)
            if name.endswith(endings) and len(part) > 2 and part[1] in folders:
                yield path


def read(path):
    with open(path, encoding="utf-8") as f:
        return f.read()


def spelled(name):
    name = name.replace("-", "_")
    return re.sub(r"(?<=[a-z0-9])([A-Z])", lambda m: "_" + m.group(1).lower(), name)


def declared(root):
    """Each name that a specs/ or proofs/ file declares, with the paths; what is declared at a goal's type is Rattle's name."""
    found, made = {}, set()
    for path in files(root, ".antt", ("specs", "proofs")):
        for line in read(path).splitlines():
            m = SIGNED.match(line)
            if not m or line.lstrip().startswith("--") or line.lstrip().startswith("use "):
                continue
            for name in m.group(2).split():
                if m.group(3).startswith(("tie.Need", "goal.")) or (path.endswith("Proof.antt") and name.endswith("-spec")):
                    made.add(name)
                else:
                    found.setdefault(name, []).append(path)
    return found, made


def renames(root):
    found, made = declared(root)
    table = {}
    for name in found:
        if name in made or name.startswith(MADE) or not re.match(r"[a-z]", name):
            continue
        new = OTHER.get(name, spelled(name))
        if new != name:
            table[name] = new
    return table


def respell(text, table):
    return WORD.sub(lambda m: table.get(m.group(0), m.group(0)), text)


def respell_met(text):
    """A part of a path is no lemma."""
    return WORD.sub(lambda m: m.group(0) if text[m.start() - 1 : m.start()] == "." or text[m.end() : m.end() + 1] == "." else MET.get(m.group(0), m.group(0)), text)


def main(argv):
    listing = "--list" in argv
    rest = [a for a in argv if a != "--list"]
    root = rest[0] if rest else "."
    table = renames(root)
    paths = list(files(root, ".antt", ("specs", "proofs"))) + list(files(root, ".rt", ("src",)))
    edits = list(files(root, ".edit", ("must-fail",)))
    if listing:
        for old, new in sorted(table.items()):
            print(old, new)
        for path in paths:
            words = set(WORD.findall(read(path)))
            for old, new in table.items():
                if old in words and new in words:
                    print(f"falls together in {os.path.relpath(path, root)}: {old} and {new}")
        return 0
    for path in paths + edits:
        text = read(path)
        new = respell(respell_met(text) if path.endswith(".antt") else text, table)
        if new != text:
            with open(path, "w", encoding="utf-8") as f:
                f.write(new)
    print(f"respell: {len(table)} names")
    return 0


if __name__ == "__main__":
    raise SystemExit(main(sys.argv[1:]))
