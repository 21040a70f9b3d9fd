#!/usr/bin/env python3
"""Compares the command `polygons` of the built program with a plain reading of the polygons.

usage: random_polygons.py ITFCHECK COUNT [SEED]

The drawings are those of random_drawings.py. Where `check` accepts one, the file of the polygons has
to be that of plain_polygons.py, byte for byte, and the polygons, read again, have to be a partition
of the same lines: each straight is a side of one or two of them, of two in opposite directions, and
their areas add up to that which the outer rings of the drawing enclose. Where it rejects one, the
report has to be that of `check`, and there is no such file. It stops at the first difference, and
leaves its files.
"""
import os
import subprocess
from collections import Counter

import plain_partition
import plain_polygons
from random_drawings import MODEL, compare_many, drawing, fail, run, transfer


def text_of(rings, objects):
    lines = ["ITFPOLY 1", "AREAS 1", "AREA Land Parcel Form %d" % len(objects)]
    for line, of_point in zip(objects, rings):
        lines += ["POINT %d %d" % (line, len(of_point)), *plain_polygons.lines_of(of_point)]
    return "\n".join(lines + ["END", ""])


def read_rings(text):
    """The rings of all points."""
    rings, lines = [], iter(text.split("\n"))
    for line in lines:
        if line.startswith("RING "):
            corners = [next(lines).split() for _ in range(int(line.split()[1]))]
            rings.append([(int(x), int(y)) for x, y in corners])
    return rings


def sides_of(ring):
    return list(zip(ring, ring[1:] + ring[:1]))


def twice_area(sides):
    return sum(a[0] * b[1] - b[0] * a[1] for a, b in sides)


def is_partition(rings, straights):
    """Whether the rings part what the straights enclose."""
    sides = Counter(side for ring in rings for side in sides_of(ring))
    if max(sides.values(), default=0) > 1:
        return False
    if {frozenset(side) for side in sides} != {frozenset(straight) for straight in straights}:
        return False
    cells = plain_partition.Cells(straights)
    outer = cells.union.root(cells.outer)
    walks = plain_polygons.walks_of(straights)
    faces = plain_polygons.faces_of(straights, cells)
    border = [walk[::-1] for walk, face in zip(walks, faces) if face == outer]
    return twice_area(sides) == twice_area(border)


def polygons(program, folder):
    """The report, and the text that is written if there is one."""
    path = folder + "/P"
    if os.path.exists(path):
        os.remove(path)
    words = [os.path.abspath(program), "polygons", "M", "T", "P"]
    done = subprocess.run(words, cwd=folder, stdout=subprocess.PIPE, check=False)
    text = None
    if os.path.exists(path):
        with open(path) as file:
            text = file.read()
    return done.stdout.decode().splitlines(), text


def compare(program, folder, chance, tally):
    straights, placed = drawing(chance)
    text, _, objects = transfer(straights, placed)
    with open(folder + "/T", "w") as file:
        file.write(text)
    checked = run(program, folder, "check")
    report, found = polygons(program, folder)
    if report != checked:
        fail(folder, "the report", report, checked)
    wanted = None
    if plain_partition.decide(straights, placed)[0] == "PROVED":
        wanted = text_of(plain_polygons.polygons(straights, placed), objects)
    tally["polygons" if wanted else "rejected"] += 1
    if found != wanted:
        fail(folder, "the polygons", found, wanted)
    if found and not is_partition(read_rings(found), straights):
        fail(folder, "the polygons, read again", "written", "no partition of the lines")


if __name__ == "__main__":
    compare_many(compare, MODEL)
