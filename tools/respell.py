#!/usr/bin/env python3
"""Respells the names of definitions, fields and constructors by the table respell.tsv beside this script: once, after port.py.

usage: python3 tools/respell.py, at the top of the repository

A row is the old name, the new one and, where it stands, the file that it is for; a row with '*' is for every .antt file. Rows with a file go first,
since they clear a name that a later row gives. Names turn as whole words in .antt and .rt files, edits and Markdown; a name with a dash turns only in
code, as it may be two words of a sentence.
"""

import os
import re

HERE = os.path.dirname(os.path.abspath(__file__))
WORD = re.compile(r"[^\s(){}.;,@\"«»:=\[\]`~]+")
SPAN = re.compile(r"`[^`\n]*`")
MARK = {".antt": "--", ".rt": "//"}


def rows():
    with open(os.path.join(HERE, "respell.tsv"), encoding="utf-8") as f:
        for line in f:
            yield (line.rstrip("\n").split("\t") + ["", ""])[:3]


def turned(text, table):
    return WORD.sub(lambda m: table.get(m.group(), m.group()), text)


def spans(text, table):
    return SPAN.sub(lambda m: turned(m.group(), table), text)


def line_of(line, mark, table, words):
    at = line.find(mark) if mark else -1
    if mark == "--" and at > 0 and line[at - 1] not in " \n":
        at = -1
    code, comment = (line, "") if at < 0 else (line[:at], line[at:])
    return turned(code, table) + spans(turned(comment, words), table)


def files():
    for top in ("crates", "docs", "README.md", "compare/README.md", "host/README.md"):
        if os.path.isfile(top):
            yield top
        for folder, dirs, names in os.walk(top):
            dirs[:] = sorted(d for d in dirs if d not in ("out", "src") or folder.startswith("crates"))
            for name in sorted(names):
                if name.endswith((".antt", ".rt", ".edit", ".md")):
                    yield os.path.join(folder, name)


def main():
    special, plain = [], {}
    for old, new, where in rows():
        if where:
            special.append((old, new, where))
        else:
            plain[old] = new
    words = {o: n for o, n in plain.items() if "-" not in o}
    for path in files():
        kind = os.path.splitext(path)[1]
        with open(path, encoding="utf-8") as f:
            before = f.read()
        text = before
        for old, new, where in special:
            if where == path or where == "*" and kind == ".antt":
                text = turned(text, {old: new})
        if kind == ".md":
            text = spans(text, plain)
        else:
            mark = "#" if kind == ".edit" else MARK[kind]
            text = "\n".join(line_of(l, mark if kind != ".edit" or l.startswith("#") else "", plain, words) for l in text.split("\n"))
        if text != before:
            with open(path, "w", encoding="utf-8") as f:
                f.write(text)


main()
