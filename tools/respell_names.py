#!/usr/bin/env python3
"""Brings the repository's own definitions and lemmas to the spelling of today's Rattle: snake case, types and facts in camel case.

usage: python3 tools/respell_names.py        once, at the top of the repository, right after the kit's port.py; a second run would take a lemma for its definition

A definition `expandedLength` becomes `expanded_length`, a lemma `nan-above` becomes `nan_above`. A lemma that would fall together with the definition
that it speaks of gets `_lem`. What begins with a capital keeps its spelling. respelled_names.json has the table: 'all' holds in every file, 'in' in the
file that it names, for lemmas that port.py had turned already, and 'pages' in pages and must-fail edits, which port.py leaves alone.

It goes by whole words. Of a page and of a comment it takes what stands between backquotes, and names in camel case.
"""

import json
import os
import re
import sys

HERE = os.path.dirname(os.path.realpath(__file__))
TOP = os.path.dirname(HERE)
WORD = re.compile(r"[^\s(){}.;,@\"«»\[\]\\:=|λ`]+")
# After a point in an old proof file stands a step of the code, and never a lemma.
STEP = re.compile(r"(?<=\.)[^\s(){}.;,@\"«»\[\]\\:=|λ`]+")


def texts():
    for below in ("crates", "docs", "wip"):
        for folder, folders, files in os.walk(os.path.join(TOP, below)):
            folders[:] = sorted(it for it in folders if it != "out")
            yield from (os.path.join(folder, it) for it in sorted(files) if it.endswith((".antt", ".rt", ".edit", ".md", ".wip")))
    yield os.path.join(TOP, "README.md")


def turned(text, names):
    return WORD.sub(lambda it: names.get(it[0], it[0]), text)


def of_prose(text, names):
    text = re.sub(r"`[^`]*`", lambda it: turned(it[0], names), text)
    camel = {k: v for k, v in names.items() if "-" not in k and not k.islower()}
    return turned(text, camel)


def of_line(line, names, path):
    if path.endswith(".md"):
        return of_prose(line, names)
    mark = re.search(r"(^|\s)--(\s|$)", line) if path.endswith((".antt", ".wip")) else re.search(r"//", line) if path.endswith(".rt") else None
    at = mark.start() if mark else len(line)
    return turned(line[:at], names) + of_prose(line[at:], names)


def main():
    if os.path.exists(os.path.join(TOP, "docs", "PORT.md")):
        return "it has run here: docs/PORT.md says when"
    with open(os.path.join(HERE, "respelled_names.json"), encoding="utf-8") as it:
        table = json.load(it)
    lemmas = {k: v for k, v in table["all"].items() if v.endswith("_lem") and not k.endswith("-lem")}
    for path in texts():
        with open(path, encoding="utf-8") as it:
            text = it.read()
        names = {**table["all"], **table["in"].get(os.path.relpath(path, TOP), {})}
        if path.endswith((".md", ".edit", ".wip")):
            names = {**table["pages"], **names}
        if path.endswith("Proof.antt"):
            text = STEP.sub(lambda it: it[0].replace("-", "_") if it[0] in lemmas else it[0], text)
        new = "\n".join(of_line(it, names, path) for it in text.split("\n"))
        if new != text:
            with open(path, "w", encoding="utf-8") as it:
                it.write(new)


if __name__ == "__main__":
    sys.exit(main())
