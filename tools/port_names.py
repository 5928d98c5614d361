#!/usr/bin/env python3
"""Brings the repository's own names to today's spelling, once, after the kit's port.py.

usage: python3 tools/port_names.py      at the top of the repository

tools/port_names.txt has a line for each name: old, new, and the word `field` where it is a record's field, which is then also renamed after a dot. Definitions and
laws are in snake case; a dash stays where it joins two names of definitions. Where a law would take the name of a definition it ends in `_lem`.
Names of functions in src/ stay. A name that a function's own proof file declares stays in that file: it names a goal.
"""
import os
import re
import sys

HERE = os.path.dirname(os.path.realpath(__file__))
ROOT = os.path.dirname(HERE)
TOKEN = re.compile(r"[^\s(){}\[\];,.«»`]+")
DECLARED = re.compile(r"^(?:pub )?([^\s:{}();,.\[\]]+)(?:\s.*)?\s:(?:\s|$)")


def table():
    names, fields = {}, set()
    with open(os.path.join(HERE, "port_names.txt"), encoding="utf-8") as f:
        for line in f:
            words = line.split()
            names[words[0]] = words[1]
            if len(words) > 2:
                fields.add(words[0])
    return names, fields


NAMES, FIELDS = table()
# In source text a word in snake case is a function's.
CLAUSE_NAMES = {old: new for old, new in NAMES.items() if "-" in old or old != old.lower()}


def renamed(text, kept=frozenset(), names=NAMES, behind=None):
    """behind: the names of modules behind whose dot a name is ours; None stands for any."""

    def turn(m):
        word = m.group(0)
        if word not in names or word in kept:
            return word
        if behind is not None and m.start() > 0 and text[m.start() - 1] == "." and word not in FIELDS:
            before = TOKEN.findall(text[: m.start() - 1])
            if not before or before[-1] not in behind:
                return word
        return names[word]

    return TOKEN.sub(turn, text)


def quoted(text):
    return re.sub(r"`[^`\n]*`", lambda m: renamed(m.group(0)), text)


def antt_line(line, kept=frozenset(), behind=None):
    m = re.search(r"(^|\s)--(\s|$)", line)
    cut = m.start() if m else len(line)
    return renamed(line[:cut], kept, behind=behind) + quoted(line[cut:])


def rt_line(line):
    if line.lstrip().startswith("//"):
        return quoted(line)
    return renamed(line, names=CLAUSE_NAMES)


def antt(path, text):
    kept, behind = set(), None
    if os.path.basename(path) == "Proof.antt":
        behind = set(re.findall(r"(?m)^use .* as (\S+)$", text)) - {"tie"}
        for line in text.split("\n"):
            m = DECLARED.match(line)
            if m and not line.startswith("use "):
                kept.add(m.group(1))
    return "\n".join(antt_line(line, kept, behind) for line in text.split("\n"))


def rt(_, text):
    return "\n".join(rt_line(line) for line in text.split("\n"))


def edit(_, text):
    out, of = [], rt_line
    for line in text.split("\n"):
        if line.startswith("file:"):
            of = antt_line if line.strip().endswith(".antt") else rt_line
            out.append(line)
            continue
        m = re.match(r"(old: |new: )(.*)$", line, re.S)
        out.append(m.group(1) + of(m.group(2)) if m else line)
    return "\n".join(out)


def page(_, text):
    return quoted(text)


BY_KIND = {".antt": antt, ".rt": rt, ".edit": edit}


def main():
    for folder, dirs, files in os.walk(os.path.join(ROOT, "crates")):
        dirs[:] = sorted(d for d in dirs if d != "out")
        for name in sorted(files):
            turn = BY_KIND.get(os.path.splitext(name)[1])
            if turn:
                put(os.path.join(folder, name), turn)
    for name in ("README.md", "docs/DECISIONS.md", "docs/LANDINGS.md", "docs/TRACE.md", "docs/TABLES.md"):
        path = os.path.join(ROOT, name)
        if os.path.exists(path):
            put(path, page)
    return 0


def put(path, turn):
    with open(path, encoding="utf-8") as f:
        old = f.read()
    new = turn(path, old)
    if new != old:
        with open(path, "w", encoding="utf-8") as f:
            f.write(new)


if __name__ == "__main__":
    sys.exit(main())
