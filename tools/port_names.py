#!/usr/bin/env python3
"""Spells this repository's own definitions and lemmas as today's Rattle does: tools/port_names.py [FOLDER]

It turns the names of tools/port_names.tsv in FOLDER (this repository unless said), whole words alone: a row is the old name and the new one and, where the
old name also names something else, the files that declare it; such a row turns in those files and where a `use` line brings it in from them. A row that ends
in a dot is a record's field, and turns behind a dot too. What turns are the .antt and .rt files and the wrong programs of crates/, and what stands between backticks in README.md, docs/*.md and include/. Functions, fields and types of
src/ keep their names. It is run once, on what port.py has made of a repository in the older form: a second run would turn names that the first one made.
"""
import os
import re
import sys

HERE = os.path.dirname(os.path.realpath(__file__))
WORD = re.compile(r'(?<![^\s(){}.;,@"«»\[\]`\'])[^\s(){}.;,@"«»\[\]`]+')
SPAN = re.compile(r"`[^`\n]+`")


def rows():
    turned, narrow = {}, {}
    fields = set()
    with open(os.path.join(HERE, "port_names.tsv"), encoding="utf-8") as f:
        for line in f:
            old, new, *files = line.rstrip("\n").split("\t")
            if files == ["."]:
                fields.add(old)
                turned[old] = new
            elif files:
                narrow[old] = (new, files[0].split())
            else:
                turned[old] = new
    return turned, narrow, fields


def words(text, table, fields, everywhere):
    """The text with the words of a table turned. Behind a dot a name with a dash is a label that Rattle made, and stays, unless it is a record's field."""

    def turn(m):
        new = table.get(m[0])
        if new is None or (not everywhere and "-" in m[0] and m[0] not in fields and text[m.start() - 1 : m.start()] == "."):
            return m[0]
        return new

    return WORD.sub(turn, text)


def is_import(line):
    return re.match(r"\s*(pub )?(ghost )?use ", line) is not None


def code(text, table, fields, mark):
    """A file of code, line by line. In a comment a word turns that the file's code has, or that has a capital inside."""
    used = set()
    for line in text.split("\n"):
        used.update(WORD.findall(line.split(mark)[0]))
    said = {old: new for old, new in table.items() if old in used or re.search("[a-z][A-Z]", old)}
    lines = []
    for line in text.split("\n"):
        before, dashes, comment = line.partition(mark)
        lines.append(words(before, table, fields, is_import(before)) + dashes + words(comment, said, fields, True))
    return "\n".join(lines)


def module(path):
    """The path under which other files import a file of proofs/ or specs/."""
    steps = path[: -len(".antt")].split("/")
    return "Rattle." + ".".join(steps[1:])


def imported(text, name, path):
    return re.search(r"use " + re.escape(module(path)) + r"\.\{[^}]*(?<![^\s{,])" + re.escape(name) + r"(?![^\s},])", text) is not None


def turned_file(root, name, turned, narrow, fields):
    with open(os.path.join(root, name), encoding="utf-8") as f:
        text = f.read()
    if name.endswith(".md") or name.endswith(".h"):
        return SPAN.sub(lambda m: words(m[0], turned, fields, True), text)
    for old, (new, files) in narrow.items():
        if name in files or any(imported(text, old, path) for path in files):
            text = re.sub(r"(?<![^\s(){},;\[])" + re.escape(old) + r"(?![^\s(){}.,;\]])", new, text)
    return code(text, turned, fields, "//" if name.endswith(".rt") else "--")


def names(root):
    for folder, dirs, files in os.walk(os.path.join(root, "crates")):
        dirs[:] = sorted(d for d in dirs if d != "out")
        for f in sorted(files):
            if f.endswith((".antt", ".rt", ".edit")):
                yield os.path.relpath(os.path.join(folder, f), root)
    yield "README.md"
    for folder in ("docs", "include"):
        for f in sorted(os.listdir(os.path.join(root, folder))):
            if f.endswith((".md", ".h")) and not f.startswith("PORT"):
                yield folder + "/" + f


def main(argv):
    root = argv[0] if argv else os.path.dirname(HERE)
    turned, narrow, fields = rows()
    count = 0
    for name in names(root):
        with open(os.path.join(root, name), encoding="utf-8") as f:
            was = f.read()
        now = turned_file(root, name, turned, narrow, fields)
        if now != was:
            count += 1
            with open(os.path.join(root, name), "w", encoding="utf-8") as f:
                f.write(now)
    print(f"port_names: {count} files changed")


if __name__ == "__main__":
    main(sys.argv[1:])
