#!/usr/bin/env python3
"""repeats.py [--base REVISION] [--least N] [--most N]: places in .rt and .antt files that share N lines (default 8).

Lines are alike if they differ in names and numbers only. Imports, comments, blank lines and what a check prints by
itself (signatures of goals, `search rules`, `omega arith`) do not count. With --base only pairs are
shown of which one side was changed since that revision; --most says how many pairs. A row is a place to look at: where
the argument is the same, one law serves."""
import argparse
import re
import subprocess
from collections import defaultdict

from repository import root

WORD = re.compile(r"[^\s(){}.;,]+")
KEYWORDS = set("≡ → λ × = : ∷ ++ + - * / % ≤ < let in where module data record pub abbrev unfoldable unfolding rw simp "
               "omega grind arith cc search rules fn if else while match return requires ensures enum struct self".split())
SKIPPED = ("--", "//", "use ", "ghost use", "pub mod", "mod ", "unfolding ")
PRINTED = re.compile(r" : goal\.\S+$|search rules$|omega arith$")


def git(*words):
    said = subprocess.run(["git", *words], capture_output=True, text=True, cwd=root(), check=True)
    return [line for line in said.stdout.split("\n") if line]


def shape(line):
    """A line with every name and number as `x`."""
    return WORD.sub(lambda match: match.group(0) if match.group(0) in KEYWORDS else "x", " ".join(line.split()))


def lines_of(path):
    """The lines of a file that count: number and shape."""
    kept = []
    for number, line in enumerate((root() / path).read_text(encoding="utf-8").split("\n"), 1):
        line = line.strip()
        if len(line) >= 4 and not line.startswith(SKIPPED) and not PRINTED.search(line):
            kept.append((number, shape(line)))
    return kept


def shared(one, other, i, j):
    """How many lines are alike from place i of one file and place j of the other."""
    count = 0
    while i + count < len(one) and j + count < len(other) and one[i + count][1] == other[j + count][1]:
        count += 1
    return count


def pairs(lines, least):
    """The pairs of places that share `least` lines or more; of a run only its beginning."""
    index, seen = defaultdict(list), set()
    for path, kept in lines.items():
        for i in range(len(kept) - least + 1):
            index[tuple(form for _, form in kept[i:i + least])].append((path, i))
    for places in index.values():
        for other, j in places[1:] if len(places) <= 12 else []:
            path, i = places[0]
            if path == other and abs(i - j) < least:
                continue
            if (path, i - 1, other, j - 1) not in seen:
                yield path, i, other, j
            seen.add((path, i, other, j))


def main():
    parser = argparse.ArgumentParser(usage=__doc__)
    parser.add_argument("--base")
    parser.add_argument("--least", type=int, default=8)
    parser.add_argument("--most", type=int, default=15)
    options = parser.parse_args()
    lines = {path: lines_of(path) for path in git("ls-files", "*.rt", "*.antt")}
    changed = set(git("diff", "--name-only", options.base)) if options.base else set(lines)
    rows = []
    for path, i, other, j in pairs(lines, options.least):
        if {path, other} & changed:
            one, two = lines[path], lines[other]
            n = shared(one, two, i, j)
            rows.append((n, f"{path}:{one[i][0]}-{one[i + n - 1][0]} ~ {other}:{two[j][0]}-{two[j + n - 1][0]}"))
    print(f"{len(rows)} pairs of places share {options.least} or more lines, in {len(lines)} files")
    for count, row in sorted(rows, reverse=True)[:options.most]:
        print(f"{count:4} {row}")


if __name__ == "__main__":
    main()
