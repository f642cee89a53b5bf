#!/usr/bin/env python3
"""Brings the names that this repository declares in specs/ and in the lemma files of proofs/ to snake case.

usage: python3 tools/snake_names.py        at the top, once, right after the kit's port.py
       python3 tools/snake_names.py list   prints the names and writes nothing

A name is what a signature, a record's field or a constructor declares. Each token that is such a name is respelled in the code of .antt files, in the
ghost lines of .rt files, in the must-fail edits, and between backticks in README.md and docs/. Names from a library of the kit, names that Rattle makes for
places and goals, and functions of src/ keep their spelling.
"""

import glob
import re
import sys

NAME = r"[^\W\d_][\w']*(?:-[\w']+)+"
TOKEN = re.compile(r"(?<![\w'-])" + NAME + r"(?![\w'-])")
MARKS = r"(?:(?:abbrev|pattern|unfoldable|axiom|record|data|pub)\s+)*"
DECLARES = re.compile(r"^\s*" + MARKS + r"(" + NAME + r")(?=[\s:({\[]|$)")
FROM_KIT = re.compile(r"use (?:Rattle\.std|Rattle\.core|logic|mathlib)[\w.']*\.\{([^}]*)\}")

# Names that would fall together with a word of the kit's.
OTHERWISE = {"bit-and": "bit-bit_and", "bit-or": "bit-bit_or"}


def code(line):
    """The line without its comment."""
    return re.split(r"(?:^|\s)--(?:\s|$)", line)[0]


def declared():
    names = set()
    files = glob.glob("crates/*/specs/**/*.antt", recursive=True) + glob.glob("crates/*/proofs/*.antt")
    for f in files:
        for line in open(f, encoding="utf-8"):
            line = code(line)
            m = DECLARES.match(line)
            if m and (re.search(r"\s:\s", line) or re.match(r"\s*(?:pub )?(?:record|data)\s", line)):
                names.add(m[1])
    return names


def taken_from_kit(text):
    names = set()
    for m in FROM_KIT.finditer(text):
        names |= {n.strip().split(" as ")[0] for n in m[1].split(",")}
    return names


def turn(text, names):
    return TOKEN.sub(lambda m: OTHERWISE.get(m[0], m[0].replace("-", "_")) if m[0] in names else m[0], text)


def turn_proof(text, names):
    """Turns the code of each line, and not its comment."""
    return "\n".join(turn(code(line), names) + line[len(code(line)) :] for line in text.split("\n"))


def turn_source(text, names):
    """Turns ghost lines alone, and clauses: what stands in a comment or a string is left."""
    out = []
    for line in text.split("\n"):
        ghost = re.match(r"\s*(?:ghost |requires|ensures)", line) or re.match(r"\s*\.?\{? *λ", line)
        out.append(turn(line, names) if ghost and not line.lstrip().startswith("//") else line)
    return "\n".join(out)


def turn_page(text, names):
    return re.sub(r"`[^`\n]*`", lambda m: turn(m[0], names), text)


def main():
    names = declared()
    if sys.argv[1:] == ["list"]:
        print("\n".join(sorted(names)))
        return
    for f in sorted(glob.glob("crates/*/specs/**/*.antt", recursive=True) + glob.glob("crates/*/proofs/**/*.antt", recursive=True) + glob.glob("crates/*/src/**/*.rt", recursive=True) + glob.glob("crates/*/must-fail/*.edit") + ["README.md"] + glob.glob("docs/*.md")):
        text = open(f, encoding="utf-8").read()
        mine = names - taken_from_kit(text)
        if f.endswith(".rt"):
            new = turn_source(text, mine)
        elif f.endswith(".md"):
            new = turn_page(text, mine)
        elif f.endswith(".antt"):
            new = turn_proof(text, mine)
        else:
            new = turn(text, mine)
        if new != text:
            open(f, "w", encoding="utf-8").write(new)


if __name__ == "__main__":
    main()
