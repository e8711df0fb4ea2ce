#!/usr/bin/env python3
"""Brings this repository's own definitions and lemmas to the spelling of today's library.

usage: python3 tools/respell.py [FOLDER]    FOLDER is the top of a checkout on which the kit's port.py ran; this checkout without it

- A name with dashes becomes snake case, and upper camel case where it begins with a capital (a fact or a type). The table of names is respelled.tsv beside this script.
- It turns whole words alone, in proofs and definitions (.antt), in clauses and ghost items of sources (.rt), in the edits (.edit) and in code spans of README.md and docs/.
A second run writes nothing more.
"""

import os
import re
import sys

HERE = os.path.dirname(os.path.realpath(__file__))
WORD = re.compile(r'[^\s(){}.;,@"«»:`\[\]]+')
STRING = re.compile(r'b?"(?:[^"\\\n]|\\.)*"')
SPAN = re.compile(r"`[^`\n]*`")


def table():
    with open(os.path.join(HERE, "respelled.tsv"), encoding="utf-8") as f:
        return dict(line.rstrip("\n").split("\t") for line in f if line.strip())


def turn(text, names):
    return WORD.sub(lambda m: names.get(m.group(), m.group()), text)


def turn_outside_strings(text, names):
    parts, at = [], 0
    for m in STRING.finditer(text):
        parts += [turn(text[at : m.start()], names), m.group()]
        at = m.end()
    return "".join(parts + [turn(text[at:], names)])


def respell(path, names):
    with open(path, encoding="utf-8") as f:
        text = f.read()
    if path.endswith(".antt"):
        new = turn(text, names)
    elif path.endswith(".md"):
        new = SPAN.sub(lambda m: turn(m.group(), names), text)
    else:
        new = turn_outside_strings(text, names)
    if new != text:
        with open(path, "w", encoding="utf-8") as f:
            f.write(new)


def main():
    top = sys.argv[1] if len(sys.argv) > 1 else os.path.dirname(HERE)
    names = table()
    for folder, dirs, files in os.walk(os.path.join(top, "crates")):
        dirs[:] = [d for d in dirs if d != "out"]
        for name in files:
            if name.endswith((".antt", ".rt", ".edit")):
                respell(os.path.join(folder, name), names)
    docs = os.path.join(top, "docs")
    for path in [os.path.join(top, "README.md")] + [os.path.join(docs, d) for d in os.listdir(docs) if d != "PORT.md"]:
        respell(path, names)


if __name__ == "__main__":
    main()
