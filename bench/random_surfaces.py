#!/usr/bin/env python3
"""Compares the lines SURFACE of `check` of the built program with a plain reading of the rule.

usage: random_surfaces.py ITFCHECK COUNT [SEED]

Each transfer has one to four objects with a SURFACE: borders of some squares of a grid (rings, holes,
rings that touch, several parts), with an edge more or less, or a few edges of three times three
places; some with a half arc, some with a line of no length alone or with no line. The rows of the
lines come before or behind their objects, in any order. The report has to be that of
plain_surfaces.py. It stops at the first difference, and leaves its files.
"""
import os
import subprocess

import plain_surfaces
from random_drawings import compare_many, fail, metres

MODEL = """TRANSFER Bench; DOMAIN Koord = COORD2 0.000 0.000 1000.000 1000.000;
MODEL Bench TOPIC Land = TABLE House =
Form: SURFACE WITH (STRAIGHTS, ARCS) VERTEX Koord; NO IDENT END House; END Land. END Bench.
FORMAT FREE; CODE BLANK = DEFAULT, UNDEFINED = DEFAULT, CONTINUE = DEFAULT; TID = ANY; END.
"""
SIZE = 4


def border(squares):
    """The sides of unit squares between a chosen one and one that is not, in steps of 1000."""
    def has(i, j):
        return (i, j) in squares

    sides = [((i, j), (i, j + 1)) for i in range(SIZE + 1) for j in range(SIZE)
             if has(i - 1, j) != has(i, j)]
    sides += [((i, j), (i + 1, j)) for i in range(SIZE) for j in range(SIZE + 1)
              if has(i, j - 1) != has(i, j)]
    return [tuple((1000 * x, 1000 * y) for x, y in side) for side in sides]


def some_squares(chance):
    """Some squares of the grid; mostly each beside an earlier one."""
    everything = [(i, j) for i in range(SIZE) for j in range(SIZE)]
    if chance.random() < 0.3:
        part = chance.choice([0.2, 0.5, 0.8])
        return {square for square in everything if chance.random() < part}
    found = {chance.choice(everything)}
    for _ in range(chance.randint(0, 12)):
        i, j = chance.choice(sorted(found))
        x, y = chance.choice([(i + 1, j), (i - 1, j), (i, j + 1), (i, j - 1)])
        if (x, y) in everything:
            found.add((x, y))
    return found


def place(chance):
    return (1000 * chance.randrange(3), 1000 * chance.randrange(3))


def edges(chance):
    """The edges of one object."""
    if chance.random() < 0.15:
        found = [(place(chance), place(chance)) for _ in range(chance.randint(1, 7))]
        return [edge for edge in found if edge[0] != edge[1]]
    found = border(some_squares(chance))
    slip = chance.random()
    if slip < 0.08 and found:
        found.remove(chance.choice(found))
    elif slip < 0.15 and found:
        found.append((found[0][0], (1000 * chance.randrange(SIZE), 1500)))
    chance.shuffle(found)
    return [edge if chance.random() < 0.5 else edge[::-1] for edge in found]


def rows_of(chance, found):
    """The rows of an object's lines, each as the places of its vertices, with the word of each."""
    rows = []
    for start, end in found:
        if rows and rows[-1][-1][1] == start and chance.random() < 0.7:
            rows[-1].append(("LIPT", end))
        else:
            rows.append([("STPT", start), ("LIPT", end)])
    if chance.random() < 0.1:
        at = place(chance)
        rows.append([("STPT", at), ("LIPT", at)])
    if chance.random() < 0.05:
        rows.append([("STPT", (0, 0)), ("ARCP", (5000, 2000)), ("LIPT", (9000, 9000))])
    return rows


class Written:
    """A transfer, and for each object its line, and its edges and half arcs with their lines."""

    def __init__(self, chance):
        self.lines = ["SCNT", "////", "MTID Bench", "MODL Bench", "TOPI Land"]
        objects = [rows_of(chance, edges(chance)) for _ in range(chance.randint(1, 4))]
        self.objects, self.count = [0] * len(objects), len(objects)
        self.edges = [[] for _ in objects]
        self.arcs = [0] * len(objects)
        rows = [(number, row) for number, rows in enumerate(objects) for row in rows]
        if chance.random() < 0.5:
            chance.shuffle(rows)
        self.count += len(rows)
        parts = [self.add_objects, lambda: self.add_rows(rows)]
        if chance.random() < 0.5:
            parts.reverse()
        for part in parts:
            part()
        self.text = "\n".join(self.lines + ["ETOP", "EMOD", "ENDE", ""])

    def add_objects(self):
        self.lines.append("TABL House")
        for number in range(len(self.objects)):
            self.lines.append("OBJE %d" % (number + 1))
            self.objects[number] = len(self.lines)
        self.lines.append("ETAB")

    def add_rows(self, rows):
        self.lines.append("TABL House_Form")
        for number, (owner, row) in enumerate(rows, 1):
            self.lines.append("OBJE %d %d" % (number, owner + 1))
            self.add_row(owner, row)
            self.lines.append("ELIN")
        self.lines.append("ETAB")

    def add_row(self, owner, row):
        last = None
        for word, at in row:
            self.lines.append("%s %s" % (word, metres(at)))
            if word == "ARCP":
                self.arcs[owner] += 1
            elif word == "LIPT" and last != at and not any(w == "ARCP" for w, _ in row):
                self.edges[owner].append(((last, at), len(self.lines)))
            last = at


def wanted(written):
    """All right lines for the surface."""
    held, skipped = 0, 0
    for number, found in enumerate(written.edges):
        if written.arcs[number]:
            skipped += 1
            continue
        if not found:
            continue
        kind, *names = plain_surfaces.decide([edge for edge, _ in found])
        if kind == "MEETING":
            return ["MEETING %d %d" % (found[a][1], found[b][1]) for a, b in names[0]]
        if kind == "ODD":
            return ["ODD %d" % found[names[0]][1]]
        if kind == "PARTS":
            return ["PARTS %d" % written.objects[number]]
        held += 1
    return ["PROVED %d %d" % (held, skipped)]


def compare(program, folder, chance, tally):
    written = Written(chance)
    with open(folder + "/T", "w") as file:
        file.write(written.text)
    lines = wanted(written)
    tally[lines[0].split()[0]] += 1
    verdict = "ACCEPTED %d" % written.count if lines[0].startswith("PROVED") else "REJECTED"
    reports = [["SURFACE Land House Form " + line, "VERDICT " + verdict] for line in lines]
    words = [os.path.abspath(program), "check", "M", "T", "C"]
    done = subprocess.run(words, cwd=folder, stdout=subprocess.PIPE, check=False)
    report = done.stdout.decode().splitlines()
    if report not in reports:
        fail(folder, "check", report, reports)


if __name__ == "__main__":
    compare_many(compare, MODEL)
