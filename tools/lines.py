#!/usr/bin/env python3
"""lines.py [--check] [FILE..]: breaks the wide lines of antt files (default: all of crates/).

A line of Answers.antt or Invariants.antt that is wider than 120 characters, and one of any other antt file that is
wider than 160, is broken at its outermost place: after `in` and `=`, before an arrow or an operator, between arguments,
and inside a bracket only where the bracket alone is too wide. A tuple or a record that is broken gets a line for each of
its parts. Nothing else changes. Run `rt fmt` in the crate's folder afterwards: it sets the indentation. With --check the
files that would change are printed, and the exit status is 1."""
import re
import sys
from pathlib import Path

from repository import antt_files, report

WIDE_IN_PROOFS, WIDE_ELSEWHERE = 120, 160
WIDTH = 116  # a little below the limit: `rt fmt` may put ` (` at the end of a line
LEAST = 24  # what is broken does not begin in the last columns of a line
TOKEN = re.compile(r'"(?:\\.|[^"\\])*"|--(?=\s|$).*|[(){},;]|[^\s(){},;"]+')
OPERATORS = [{"→", "↔"}, {"×"}, {"≡", "≤", "<", "↦"}, {"∙", "++", "∷", "+", "-", "*", "&&", "||"}]
SIGNS = set().union(*OPERATORS)


class Token:
    """A word or bracket, whether a space stands before it, and whether a line may begin with it."""

    def __init__(self, text, spaced):
        self.text, self.spaced, self.breakable = text, spaced, spaced


def tokens_of(line):
    """The tokens of a line, with the places where it must not be broken marked."""
    tokens, end = [], 0
    for match in TOKEN.finditer(line):
        tokens.append(Token(match.group(0), match.start() > end))
        end = match.end()
    in_binders = False
    for before, token in zip(tokens, tokens[1:]):
        in_binders = in_binders or before.text == "λ" or before.text.startswith("∀")
        if in_binders or token.text.startswith(".") or token.text in ("=", ":", ")", "}", ",", ";", "in", "where"):
            token.breakable = False
        if before.text in ("let", "record", "pub", "abbrev", "unfoldable", "(", "{") or before.text in OPERATORS[3]:
            token.breakable = False
        if in_binders and before.text.endswith("."):
            in_binders = False
            token.breakable = False
    return tokens


def shown(tokens):
    return "".join((" " if token.spaced and place else "") + token.text for place, token in enumerate(tokens))


def lead(tokens):
    """What stands before the first place where these tokens can be broken."""
    for place, token in enumerate(tokens):
        if place and token.breakable:
            return shown(tokens[:place])
    return shown(tokens)


def groups(tokens, begins):
    """The tokens in groups: a new one begins at each outermost token for which `begins` holds."""
    found, depth = [[]], 0
    for place, token in enumerate(tokens):
        if depth <= 0 and place and begins(tokens[place - 1], token):
            found.append([])
        found[-1].append(token)
        depth += (token.text in "({") - (token.text in ")}")
    return [group for group in found if group]


def arguments(tokens):
    """The outermost parts of an expression: by its lowest operator, else by its arguments."""
    rules = [lambda before, token, signs=signs: token.text in signs and token.breakable for signs in OPERATORS]
    rules.append(lambda before, token: token.breakable)
    for rule in rules:
        found = groups(tokens, rule)
        if len(found) > 1:
            return found
    return [tokens]


def bracket(tokens):
    """The bracket that holds most of these tokens: its place, and that of its end (which may stand on a later line)."""
    best = (0, 0)
    depth, start = 0, 0
    for place, token in enumerate(tokens):
        if token.text in "({":
            start = place if depth == 0 else start
            depth += 1
        elif token.text in ")}":
            depth -= 1
            if depth == 0 and place - start > best[1] - best[0]:
                best = (start, place)
    return (start, len(tokens)) if depth > 0 else best


class Page:
    """Lines that are being filled: what is too wide for the present line begins the next one."""

    def __init__(self, indent, first):
        self.lines, self.indent, self.first = [""], indent, first

    def room(self):
        here = self.first if len(self.lines) == 1 else self.indent
        return WIDTH - here - len(self.lines[-1])

    def fits(self, text):
        return len(text) + 1 <= self.room()

    def add(self, text, spaced=True):
        self.lines[-1] += (" " if spaced and self.lines[-1] else "") + text

    def turn(self):
        if self.lines[-1]:
            self.lines.append("")


def fill(page, tokens):
    """Puts an expression on the page: whole where it fits, else part by part."""
    text = shown(tokens)
    if page.fits(text):
        return page.add(text, tokens[0].spaced)
    if len(text) <= WIDTH - page.indent and tokens[0].breakable:
        page.turn()
        return page.add(text)
    if tokens[0].breakable and page.room() < max(LEAST, len(lead(tokens))):
        page.turn()
    parts = arguments(tokens)
    if len(parts) > 1:
        for place, part in enumerate(parts):
            if (place > 1 or part[0].text in SIGNS) and not page.fits(shown(part)):
                page.turn()
            fill(page, part)
        return None
    return fill_bracket(page, tokens)


def fill_bracket(page, tokens):
    """Puts an expression that is one bracket, with words before and after it, on the page."""
    start, end = bracket(tokens)
    if end == start:
        return page.add(shown(tokens), tokens[0].spaced)
    page.add(shown(tokens[:start + 1]), tokens[0].spaced)
    inside, closing = tokens[start + 1:end], tokens[end:]
    items = groups(inside, lambda before, token: before.text in (",", ";"))
    if len(items) > 1:
        for item in items:
            page.turn()
            fill(page, item)
        page.turn()
        return page.add(shown(closing))
    inside[0].spaced = False
    fill_steps(page, inside)
    page.add(shown(closing), False)
    return None


def fill_steps(page, tokens):
    """Puts a chain of `let .. in` on the page, a line each, and what follows it."""
    nested, steps = 0, [[]]
    depth = 0
    for token in tokens:
        steps[-1].append(token)
        depth += (token.text in "({") - (token.text in ")}")
        nested += (token.text == "let") - (token.text == "in") if depth == 0 else 0
        if token.text == "in" and depth == 0 and nested == 0:
            steps.append([])
    for place, step in enumerate(step for step in steps if step):
        if place:
            page.turn()
        fill(page, step)


def wrapped(words, width):
    lines = ["--"]
    for word in words:
        if len(lines[-1]) + 1 + len(word) > width:
            lines.append("--")
        lines[-1] += " " + word
    return lines


def broken_comment(line, indent):
    """A comment on as few lines as it needs, of about the same width."""
    words, widest = line.split()[1:], WIDE_IN_PROOFS - indent
    lines = wrapped(words, widest)
    narrow = next(width for width in range(1, widest + 1) if len(wrapped(words, width)) <= len(lines))
    return [" " * indent + text for text in wrapped(words, narrow)]


def broken_use(line):
    """A wide `use` as several of the same module."""
    module, _, names = line.rstrip("}").partition("{")
    found = [module + "{"]
    for name in names.split(", "):
        if len(found[-1]) + len(name) + 3 > WIDE_IN_PROOFS:
            found.append(module + "{")
        found[-1] += (", " if not found[-1].endswith("{") else "") + name
    return [text + "}" for text in found]


def broken(line):
    """The lines that a wide line becomes."""
    indent = len(line) - len(line.lstrip())
    if re.match(r"(pub )?use .*\{.*\}$", line):
        return broken_use(line)
    if line.lstrip().startswith("-- "):
        return broken_comment(line, indent)
    if " -- " in line or line.startswith("infix"):
        return [line]
    tokens = tokens_of(line)
    page = Page(indent + 4, indent)
    head = groups(tokens, lambda before, token: before.text == "=")
    if indent == 0 and len(head) > 1 and ":" not in [token.text for token in head[0]]:
        page.add(shown(head[0]))
        page.turn()
        tokens = tokens[len(head[0]):]
    fill_steps(page, tokens)
    lines = [text for text in page.lines if text]
    return [" " * (page.indent if place else indent) + text for place, text in enumerate(lines)]


def rewritten(text, proof):
    limit = WIDE_IN_PROOFS if proof else WIDE_ELSEWHERE
    lines = []
    for line in text.split("\n"):
        lines += broken(line) if len(line) > limit else [line]
    return "\n".join(lines)


def main():
    names = [name for name in sys.argv[1:] if name != "--check"]
    changes = {}
    for path in antt_files(names):
        text = Path(path).read_text(encoding="utf-8")
        new = rewritten(text, path.endswith(("Answers.antt", "Invariants.antt")))
        if new != text:
            changes[path] = new
    report(changes, "--check" in sys.argv[1:])


if __name__ == "__main__":
    main()
