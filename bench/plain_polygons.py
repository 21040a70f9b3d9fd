#!/usr/bin/env python3
"""The polygons of an area of straights a second time, in plain Python.

Written from docs/polygons.md alone, and not from the code of the crates: faces are those of
plain_partition.py, and rings are walked corner by corner.

usage: plain_polygons.py DRAWING

DRAWING has a line `S x y x y` for each straight and `P x y` for each point, and is a partition.
Prints for each point its rings, each with its corners. random_polygons.py imports parts of it.
"""
import sys
from collections import defaultdict

from plain_partition import Cells, read_drawing
from second_checker import clockwise


def walks_of(straights):
    """The ways along the straights, by their numbers: to the end that comes first, and back."""
    walks = []
    for straight in straights:
        low, high = sorted(straight)
        walks += [(high, low), (low, high)]
    return walks


def faces_of(straights, cells):
    """The face on the left of each walk."""
    faces = []
    for straight in straights:
        left, right = cells.sides(tuple(sorted(straight)))
        faces += [right, left]
    return faces


def way(start, end):
    return (end[0] - start[0], end[1] - start[1])


def next_of(walks):
    """Of each walk the one with which a ring goes on: the first clockwise after it."""
    leaving = defaultdict(list)
    for number, (start, _) in enumerate(walks):
        leaving[start].append(number)
    found = []
    for number, (start, end) in enumerate(walks):
        back = way(end, start)
        others = [other for other in leaving[end] if other != number ^ 1]
        found.append(min(others, key=lambda other: clockwise(back, way(*walks[other])),
                         default=number ^ 1))
    return found


def rings_of(walks, nexts, faces, face):
    """The rings of a face, in order: the walks of each."""
    rings, done = [], set()
    for number in range(len(walks)):
        if faces[number] != face or number in done:
            continue
        ring = [number]
        while nexts[ring[-1]] != number:
            ring.append(nexts[ring[-1]])
        done.update(ring)
        rings.append(ring)
    least = min(walks[number][0] for ring in rings for number in ring)
    first = next(ring for ring in rings if any(walks[number][0] == least for number in ring))
    return [first] + [ring for ring in rings if ring is not first]


def polygons(straights, points):
    """For each point its rings, as lists of corners."""
    cells, walks = Cells(straights), walks_of(straights)
    faces, nexts = faces_of(straights, cells), next_of(walks)
    return [
        [[walks[number][0] for number in ring]
         for ring in rings_of(walks, nexts, faces, cells.face(at))]
        for at in points
    ]


def lines_of(rings):
    """The lines of the text for the rings of one point."""
    for ring in rings:
        yield "RING %d" % len(ring)
        yield from ("%d %d" % corner for corner in ring)


def main():
    straights, points = read_drawing(sys.argv[1])
    for number, rings in enumerate(polygons(straights, points)):
        print("POINT %d %d" % (number, len(rings)), *lines_of(rings), sep="\n")


if __name__ == "__main__":
    main()
