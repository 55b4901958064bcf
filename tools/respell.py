#!/usr/bin/env python3
"""Spells the repository's own definitions and lemmas as today's Rattle does: words in snake case. Run once, at the top, after port.py.

usage: python3 tools/respell.py [FOLDER]

tools/respell.tsv has a line for each name: the old one, the new one and, if they differ from file to file, the files. Functions and types of src/, strings, inputs and outputs keep
their names. A lemma whose name would fall together with that of a definition ends in _lem.
"""

import os
import re
import sys

HERE = os.path.dirname(os.path.realpath(__file__))
TOKEN = re.compile(r"[^\s(){}\[\],.;:\"«»=\\|@`⌜⌝]+")
BACKTICKS = re.compile(r"`[^`]*`")
CAMEL = re.compile(r"[a-z0-9][A-Z]")
ANSWER = re.compile(r"^\s*(?:pub )?(\S+) : (?:\w+\.)+(?:Need-|Inv|Measure|invariant|decreases)")


def tables():
    """The names that are spelled alike in every file, and those of single files."""
    everywhere, single = {}, {}
    with open(os.path.join(HERE, "respell.tsv"), encoding="utf-8") as f:
        for line in f:
            old, new, *files = line.rstrip("\n").split("\t")
            for file in files[0].split() if files else []:
                single.setdefault(file, {})[old] = new
            if not files:
                everywhere[old] = new
    return everywhere, single


def tokens(text, names, keep, fields):
    def new(m):
        name = m.group(0)
        if name not in names or name in keep:
            return name
        dotted = m.start() > 0 and text[m.start() - 1] == "."
        if dotted and not fields and not CAMEL.search(name):
            return name
        return names[name]

    return TOKEN.sub(new, text)


def comment(text, names, keep):
    def words(m):
        name = m.group(0)
        return names[name] if CAMEL.search(name) and name in names else name

    text = BACKTICKS.sub(lambda m: tokens(m.group(0), names, keep, True), text)
    return TOKEN.sub(words, text)


def line_of(line, mark, names, keep, fields):
    """One line: code outside strings, then a comment."""
    out, i, code = [], 0, ""
    parts = re.split(r"(\"(?:[^\"\\]|\\.)*\")", line)
    done = []
    for k, part in enumerate(parts):
        if k % 2:
            done.append(part)
            continue
        m = re.search(r"(?:^|(?<=\s))" + re.escape(mark) + r"(?=\s|$)", part)
        if m:
            rest = part[m.start() :] + "".join(parts[k + 1 :])
            done.append(tokens(part[: m.start()], names, keep, fields))
            done.append(comment(rest, names, keep))
            break
        done.append(tokens(part, names, keep, fields))
    return "".join(done)


def respell(path, names):
    with open(path, encoding="utf-8", newline="") as f:
        text = f.read()
    lines = text.split("\n")
    keep, fields, mark, only = set(), True, "--", names
    parts = path.split(os.sep)
    if path.endswith(".rt"):
        mark, only = "//", {a: b for a, b in names.items() if CAMEL.search(a)}
    elif "proofs" in parts and len(parts) - parts.index("proofs") > 2:
        fields = False
        keep = {m.group(1) for m in map(ANSWER.match, lines) if m}
    made = "\n".join(line_of(l, mark, names if l.startswith("ghost use") else only, keep, fields) for l in lines)
    if made != text:
        with open(path, "w", encoding="utf-8", newline="") as f:
            f.write(made)
    return made != text


def main(argv):
    top = argv[0] if argv else "."
    (names, single), n = tables(), 0
    for folder, dirs, files in os.walk(os.path.join(top, "crates")):
        dirs[:] = sorted(d for d in dirs if d != "out")
        for name in sorted(files):
            if name.endswith((".antt", ".rt")):
                path = os.path.join(folder, name)
                n += respell(path, names | single.get(os.path.relpath(path, top), {}))
    print(f"{n} files respelled")


main(sys.argv[1:])
