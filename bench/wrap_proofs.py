#!/usr/bin/env python3
"""Breaks lines of proofs and definitions that are longer than 100 columns, at spaces alone.

A line is broken at the space that stands in the fewest brackets, and among these where a reader would
break it: behind `in`, `=` or `;`, before an arrow or another operator, before an argument in brackets.
What comes behind stands four columns further in; `rt fmt` has the last word on that, and has to be run
in each crate afterwards. Imports stay as they are. A line without such a space stays long.

usage: bench/wrap_proofs.py FOLDER..
"""
import os
import sys

WIDTH = 100
OPENING, CLOSING = "([{", ")]}"
# Words after which, and before which, no line is broken.
KEEPS_NEXT = set("→ ∙ ⊎ × ≡ ++ ↔ ∷ + * - +ℤ -ℤ *ℤ | : let λ record elim { ( [ pub open use ≤ <".split())
KEEPS_LAST = set(": = } ] ) { in where ≤ < ↦ % / ^".split())
ARITHMETIC = set("++ ∷ + - * +ℤ -ℤ *ℤ".split())


def spaces(text):
    """The places of the spaces with the number of brackets around each; none within a text in quotes."""
    found, depth, is_quoted, at = [], 0, False, 0
    while at < len(text):
        letter = text[at]
        if is_quoted:
            at += letter == "\\"
            is_quoted = letter != '"'
        elif letter == '"':
            is_quoted = True
        elif letter in OPENING:
            depth += 1
        elif letter in CLOSING:
            depth -= 1
        elif letter == " ":
            found.append((at, depth))
        at += 1
    return found


def word_before(text, at):
    return text[:at].rsplit(" ", 1)[-1]


def word_behind(text, at):
    return text[at + 1:].split(" ", 1)[0]


def cost(text, at, depth):
    """How bad it is to break the text there; None where it may not be broken."""
    last, following = word_before(text, at), word_behind(text, at)
    if last in ("in", "do"):
        return 0 if depth <= 0 else 1
    if last == "=":
        return 1 if depth <= 0 and not text.startswith("let ") else 9
    if last.endswith(";"):
        return -2
    if following in ("→", "∙", "|"):
        return 2
    if following in ("⊎", "×", "↔") or last.endswith(","):
        return 3
    if following == "≡":
        return 4
    if following in ARITHMETIC:
        return 5
    if last in KEEPS_NEXT or following in KEEPS_LAST or following.startswith("}"):
        return None
    return 6 if last.endswith(".") or following[0] in "(λ" else 7


def best_place(text, room):
    """The space where the text is broken so that its front has room; None where there is none."""
    costs = []
    for at, depth in spaces(text):
        price = cost(text, at, depth) if 12 <= at <= room else None
        if price is not None:
            early = 0 if at >= room * 0.35 else 1 if price <= 1 else 3
            costs.append((depth * 4 + price + early, -at))
    return -min(costs)[1] if costs else None


def outer_place(text, word):
    """The first space outside of all brackets behind that word."""
    return next((at for at, depth in spaces(text) if depth == 0 and word_before(text, at) == word), None)


def broken(indent, text):
    """The lines of a text that begins at that column."""
    if indent + len(text) <= WIDTH:
        return [" " * indent + text]
    at = outer_place(text, "in" if text.startswith("let ") else "=")
    if text.startswith("let ") and at is not None:
        return broken(indent, text[:at]) + broken(indent, text[at + 1:])
    if at is not None and text[at + 1:].startswith("let ") and indent + at <= WIDTH:
        return [" " * indent + text[:at], *broken(indent + 4, text[at + 1:])]
    lines, first = [], indent
    while indent + len(text) > WIDTH:
        at = best_place(text, WIDTH - indent)
        if at is None:
            break
        lines.append(" " * indent + text[:at])
        indent, text = first + 4, text[at + 1:]
    return [*lines, " " * indent + text]


def broken_comment(indent, text):
    lines, line = [], "--"
    for word in text.split()[1:]:
        if indent + len(line) + 1 + len(word) > WIDTH:
            lines.append(" " * indent + line)
            line = "--"
        line += " " + word
    return [*lines, " " * indent + line]


def lines_for(line):
    text = line.strip()
    indent = len(line) - len(line.lstrip())
    if len(line) <= WIDTH or text.startswith(("use ", "pub use ")):
        return [line]
    if text.startswith("-- "):
        return broken_comment(indent, text)
    return [line] if " -- " in text else broken(indent, text)


def main():
    before = after = 0
    for top in sys.argv[1:]:
        for folder, _, names in os.walk(top):
            for name in names:
                if not name.endswith(".antt"):
                    continue
                path = os.path.join(folder, name)
                with open(path, encoding="utf-8") as file:
                    old = file.read().split("\n")
                new = [part for line in old for part in lines_for(line)]
                before += sum(len(line) > WIDTH for line in old)
                after += sum(len(line) > WIDTH for line in new)
                if new != old:
                    with open(path, "w", encoding="utf-8") as file:
                        file.write("\n".join(new))
    print(f"{before} long lines before, {after} after")


main()
