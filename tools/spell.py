#!/usr/bin/env python3
"""Brings the names of definitions and lemmas to today's spelling, by the table spelling.tsv beside this script (old, new and, where it has a third column,
the beginning of the paths that it is for). It was run once, behind /opt/rattle/port/port.py: docs/PORT.md.

usage: tools/spell.py [--edits] [FOLDER]     FOLDER: a checkout, this one unasked; --edits: the must-fail edits alone

What turns: whole words of .antt files; in .rt files those of clauses and of 'ghost use' items; in comments and in the code spans of .md files
names in camel case; in edits the words of their old and new lines, by the file that each speaks of. Names that Rattle's source declares
(functions, fields, types, constants) are never turned."""
import os
import re
import sys

HERE = os.path.dirname(os.path.abspath(__file__))
WORD = re.compile(r"[^\s(){}.;,@\"«»\x60]+")
CLAUSE = re.compile(r"\b(?:requires|ensures)(?:\s+\w+)?\s*\{|\bghost\s+use\b")
CAMEL = re.compile(r"[a-z0-9][A-Z]")


def table(path):
    everywhere, some = {}, []
    for line in open(os.path.join(HERE, "spelling.tsv"), encoding="utf-8"):
        if not line.startswith("#"):
            old, new, *where = line.rstrip("\n").split("\t")
            if where:
                some.append((where[0], old, new))
            else:
                everywhere[old] = new
    return everywhere | {old: new for where, old, new in some if path.startswith(where)}


def words(text, names):
    return WORD.sub(lambda m: names.get(m[0], m[0]), text)


def spoken(text, names):
    """A comment or prose: only what can be no English word."""
    return WORD.sub(lambda m: names.get(m[0], m[0]) if CAMEL.search(m[0]) else m[0], text)


def antt(text, names):
    out = []
    for line in text.split("\n"):
        m = re.search(r"(?<!\S)--(?!\S)|(?<!\S)-- ", line)
        at = m.start() if m else len(line)
        out.append(words(line[:at], names) + spoken(line[at:], names))
    return "\n".join(out)


def closing(text, i):
    deep = 0
    for k in range(i, len(text)):
        deep += (text[k] == "{") - (text[k] == "}")
        if not deep:
            return k + 1
    return len(text)


def rt(text, names):
    out, i = [], 0
    for m in CLAUSE.finditer(text):
        if m.start() < i:
            continue
        line = text.rfind("\n", 0, m.start()) + 1
        if "//" in text[line : m.start()]:
            continue
        end = text.find(";", m.end()) + 1 if m[0].startswith("ghost") else closing(text, m.end() - 1)
        out.append(re.sub(r"//[^\n]*", lambda c: spoken(c[0], names), text[i : m.start()]) + words(text[m.start() : end], names))
        i = end
    return "".join(out) + re.sub(r"//[^\n]*", lambda c: spoken(c[0], names), text[i:])


def edit(text, names):
    out, file = [], ""
    for line in text.split("\n"):
        key, _, rest = line.partition(":")
        if key == "file":
            file = rest.strip()
        if key in ("old", "new") and (file.endswith(".antt") or re.search(r"\b(?:ensures|requires|ghost use)\b", rest)):
            line = key + ":" + words(rest, names)
        out.append(line)
    return "\n".join(out)


def md(text, names):
    return re.sub(r"\x60[^\x60\n]*\x60", lambda m: words(m[0], names), text)


def main(argv):
    edits = "--edits" in argv
    rest = [a for a in argv if not a.startswith("--")]
    root = rest[0] if rest else os.path.dirname(HERE)
    turned = 0
    for folder, dirs, files in os.walk(root):
        dirs[:] = sorted(d for d in dirs if d not in ("out", "target", ".git", "peer", "wip"))
        for f in sorted(files):
            path = os.path.join(folder, f)
            short = os.path.relpath(path, root)
            how = edit if f.endswith(".edit") else None if edits else antt if f.endswith(".antt") else rt if f.endswith(".rt") else md if f.endswith(".md") and f not in ("PORT.md", "DESIGN-PASS.md") else None
            if how:
                old = open(path, encoding="utf-8").read()
                new = how(old, table(short))
                if new != old:
                    open(path, "w", encoding="utf-8").write(new)
                    turned += 1
    print(f"{turned} files turned")


if __name__ == "__main__":
    main(sys.argv[1:])
