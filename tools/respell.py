#!/usr/bin/env python3
"""Gives the repository's own definitions and lemmas the spelling of today's Rattle: words in snake case.

usage: tools/respell.py        at the top, once, after port.py

A name of the definitions or proofs that begins in lower case turns from readPage to read_page; types keep their
capitals, and a middle dot at the end of a name is an apostrophe. Names of src/, strings and must-fail edits stay.
Outside crates/, pages, tests and comments follow. Each struct and enum of src/ is plain, so it derives Clone and Copy,
as every value was copied before.
"""

import os
import re

WORD = re.compile(r"[^\s(){}.;,@\"«»]+")
HUMP = re.compile(r"(?<![A-Za-z0-9])[a-z][a-z0-9]*[A-Z]")
STRING = re.compile(r'("(?:[^"\\\n]|\\.)*")')
COMMENT = re.compile(r"(?<![^\s(){}.;,@\"«»])--[^\n]*")
OUTSIDE = ("README.md", "docs", "oracle", "bindings", "include", "examples", "tools/README.md")
PAGES = (".md", ".rs", ".h", ".c", ".py", ".txt")


def files(root, endings):
    for folder, folders, names in os.walk(root):
        folders[:] = sorted(it for it in folders if it not in ("out", "target", ".git", "promql-parser", "prometheus"))
        for name in sorted(names):
            if name.endswith(endings):
                yield os.path.join(folder, name)


def read(path):
    with open(path, encoding="utf-8") as file:
        return file.read()


def snake(name):
    """readPage-copied is read_page-copied; a part that begins with a capital is a type's and stays."""
    turned = lambda part: re.sub(r"(?<=[a-z0-9])[A-Z]", lambda it: "_" + it[0].lower(), part)
    return "-".join(turned(part) if part[:1].islower() else part for part in name.split("-"))


def own_names():
    names = set()
    for path in files("crates", (".antt",)):
        code = STRING.sub(" ", COMMENT.sub("", read(path)))
        names.update(it for it in WORD.findall(code) if HUMP.search(it))
    return {it: snake(it) for it in names}


def main():
    table = own_names()
    parts = re.compile(r"(?<![\w'-])[a-z][a-z0-9]*[A-Z][\w'-]*|(?<![\w'])[a-z][a-z0-9]*[A-Z][\w']*")
    single = {part: snake(part) for name in table for part in name.split("-") if HUMP.match(part)}
    known = {**single, **table}

    def turn(text):
        def word(match):
            found = match[0]
            if found in known:
                return known[found]
            return "-".join(known.get(part, part) for part in found.split("-"))

        return re.sub(r"(?<=\w)·(?!\w)", "'", parts.sub(word, text))

    def write(path, text, new):
        if new != text:
            with open(path, "w", encoding="utf-8") as file:
                file.write(new)

    for path in files("crates", (".antt", ".rt")):
        text = read(path)
        new = "".join(it if it.startswith('"') else turn(it) for it in STRING.split(text))
        if path.endswith(".rt"):
            new = new.replace("#[derive(Drop)]", "#[derive(Clone, Copy)]")
        write(path, text, new)
    for root in OUTSIDE:
        for path in [root] if os.path.isfile(root) else files(root, PAGES):
            text = read(path)
            write(path, text, turn(text))


if __name__ == "__main__":
    main()
