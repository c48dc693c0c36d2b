#!/usr/bin/env python3
"""Respells the definitions and lemmas of this repository: words in snake case, types and modules in camel case.

usage: tools/respell.py [FOLDER]        FOLDER is the top of a checkout; this one if none is named

The rows of tools/spellings.tsv are a name, a tab and its new spelling. Files are rewritten in place: the files of specs/ and proofs/, the
clauses and comments of src/, the must-fail edits, and the pages that name definitions. A string in code keeps its text, and a name with a
dash turns in specs/, proofs/ and edits alone, outside comments.
"""

import os
import re
import sys

HERE = os.path.dirname(os.path.realpath(__file__))
WORD = re.compile(r"[^\s(){}.;,@\"«»`]+")
STRING = re.compile(r"\"(?:[^\"\\\n]|\\.)*\"")
PAGES = ["README.md", "CONTRIBUTING.md", "docs/DESIGN.md", "docs/DECISIONS.md", "docs/TRUST.md", "docs/PERFORMANCE.md", "docs/DEBUGGING.md", "docs/SCOPE.md"]


def table():
    with open(os.path.join(HERE, "spellings.tsv"), encoding="utf-8") as rows:
        return dict(row.rstrip("\n").split("\t") for row in rows if row.strip() and not row.startswith("#"))


def turn(text, names):
    """Each whole word that the table has."""
    return WORD.sub(lambda m: names.get(m[0], m[0]), text)


def turn_prose(text, plain):
    """Names without a dash, wherever they stand between other signs."""
    return re.sub(r"(?<![\w'-])[a-z]\w*(?![\w'-])", lambda m: plain.get(m[0], m[0]), text)


def antt(text, names, plain):
    out = []
    for line in text.split("\n"):
        code, mark, comment = line.partition("--") if line.lstrip().startswith("--") else line.partition("  -- ")
        out.append(turn(code, names) + mark + turn_prose(comment, plain))
    return "\n".join(out)


def rattle(text, plain):
    out, at = [], 0
    for m in STRING.finditer(text):
        out += [turn_prose(text[at : m.start()], plain), m[0]]
        at = m.end()
    return "".join(out) + turn_prose(text[at:], plain)


def rewrite(path, turned):
    with open(path, encoding="utf-8") as f:
        text = f.read()
    new = turned(text)
    if new != text:
        with open(path, "w", encoding="utf-8") as f:
            f.write(new)


def main(argv):
    top = argv[0] if argv else os.path.dirname(HERE)
    names = table()
    plain = {old: new for old, new in names.items() if re.fullmatch(r"\w+", old)}
    for folder, folders, files in os.walk(os.path.join(top, "crates")):
        folders[:] = [f for f in folders if f != "out"]
        for file in files:
            path = os.path.join(folder, file)
            if file.endswith(".antt"):
                rewrite(path, lambda text: antt(text, names, plain))
            elif file.endswith(".edit"):
                rewrite(path, lambda text: turn_prose(turn(text, names), plain))
            elif file.endswith(".rt"):
                rewrite(path, lambda text: rattle(text, plain))
    for page in PAGES:
        path = os.path.join(top, page)
        if os.path.exists(path):
            rewrite(path, lambda text: turn_prose(text, plain))


if __name__ == "__main__":
    main(sys.argv[1:])
