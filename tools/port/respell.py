#!/usr/bin/env python3
"""Spells this repository's own definitions and lemmas in snake case, by names.tsv beside this file.

usage: respell.py [FOLDER]

FOLDER is the top of the repository (default: the folder above tools/). Run it once, right after the toolchain's
port.py. It turns whole words: all of a .antt file, the clauses and comments of a .rt file, must-fail edits, and the
code spans of the .md files at the top and in docs/. A name that a file imports from the toolchain's libraries stays
in that file. Functions of src/, strings, inputs and outputs keep their names. Run it no second time: some names take the place of others.
"""
import os
import re
import sys

HERE = os.path.dirname(os.path.abspath(__file__))
ROOT = os.path.abspath(sys.argv[1]) if len(sys.argv) > 1 else os.path.dirname(os.path.dirname(HERE))
WORD = re.compile(r"[^\s(){}\[\].;,@\"«»`:]+")
USE = re.compile(r"\buse ([^\s;{]+?)\.?\{([^{}]*)\}")
SPAN = re.compile(r"(`+)(?:(?!\1).)+?\1", re.S)


def rows():
    with open(os.path.join(HERE, "names.tsv"), encoding="utf-8") as f:
        return dict(line.rstrip("\n").split("\t") for line in f if line.strip())


TABLE = rows()
# A lemma whose name a definition takes: its old spelling is also one that functions of src/ have.
LATE = {old: new for old, new in TABLE.items() if new == old + "_lem"}
OWN = {
    line.split(":")[0].split()[0]
    for line in open(os.path.join(ROOT, "crates.txt"), encoding="utf-8")
    if ":" in line and not line.startswith("#")
}


def from_libraries(text):
    names = set()
    for path, items in USE.findall(text):
        steps = path.split(".")
        if steps[0] == "Rattle" and len(steps) > 1 and steps[1] in OWN:
            continue
        names.update(re.split(r" as ", it)[0].strip() for it in items.split(","))
    return names


def turned(text, table, skip):
    def word(m):
        old = m[0]
        if old in skip or old not in table:
            return old
        if old in LATE and (m.start() and text[m.start() - 1] == "." or text[m.end() : m.end() + 1] == "."):
            return old
        return table[old]

    return WORD.sub(word, text)


def camel(table):
    return {old: new for old, new in table.items() if re.fullmatch(r"[a-z]\w*[A-Z]\w*", old)}


def antt(text):
    return turned(text, TABLE, from_libraries(text))


def rt(text):
    skip = from_libraries(text)
    text = turned(text, camel(TABLE), skip)
    early = {old: new for old, new in TABLE.items() if old not in LATE}
    return re.sub(r"//[^\n]*", lambda m: SPAN.sub(lambda s: turned(s[0], early, skip), m[0]), text)


def edit(text):
    file = re.search(r"(?m)^file: *(\S+)", text)
    return antt(text) if file and file[1].endswith(".antt") else turned(text, camel(TABLE), set())


def md(text):
    early = {old: new for old, new in TABLE.items() if old not in LATE}
    return SPAN.sub(lambda s: turned(s[0], early, set()), text)


def main():
    changed = 0
    tops = [os.path.join(ROOT, "crates"), os.path.join(ROOT, "docs"), ROOT]
    for top in tops:
        for folder, folders, files in os.walk(top):
            folders[:] = [] if top == ROOT else sorted(it for it in folders if it != "out")
            for name in sorted(files):
                by = {".antt": antt, ".rt": rt, ".edit": edit, ".md": md}.get(os.path.splitext(name)[1])
                if by is None or name.startswith("PORT"):
                    continue
                path = os.path.join(folder, name)
                with open(path, encoding="utf-8") as f:
                    text = f.read()
                new = by(text)
                if new != text:
                    changed += 1
                    with open(path, "w", encoding="utf-8") as f:
                        f.write(new)
    print(f"respell: {changed} files changed")


main()
