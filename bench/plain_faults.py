#!/usr/bin/env python3
"""A plain second way to tell all faults of a drawing of straights.

Written from docs/faults.md and docs/partition-rule.md alone, by plain_partition.py: all pairs of
straights are tried, those that meet badly are left out, and the faces of the others are cells of
upright slabs. A face is open where it holds the middle of a straight that is left out.

usage: plain_faults.py DRAWING      a drawing as plain_partition.py takes it

Prints a line for each fault: MEETING, ON, OUTSIDE, TWO, EMPTY, CUT, OUTER, OPEN and UNJUDGED, by
numbers of curves and points from 0.
"""
import sys
from fractions import Fraction

import plain_partition
from plain_partition import read_drawing, turn


def meeting_place(s, t):
    """A place that both straights hold: an end, or their crossing, rounded down."""
    (a, b), (c, d) = s, t
    ends = [end for end in (a, b) if plain_partition.is_on(t, end)]
    ends += [end for end in (c, d) if plain_partition.is_on(s, end)]
    if ends:
        return set(ends)
    part = Fraction(turn(c, d, a), turn(c, d, a) - turn(c, d, b))
    return {tuple((a[i] + part * (b[i] - a[i])) // 1 for i in (0, 1))}


class Faults:
    """All faults of a drawing, list by list."""

    def __init__(self, straights, points):
        self.straights, self.points = straights, points
        self.meetings = sorted(plain_partition.bad_pairs(straights))
        out = {curve for pair in self.meetings for curve in pair}
        self.kept = [curve for curve in range(len(straights)) if curve not in out]
        self.on = [hit for hit in map(self.first_on, range(len(points))) if hit]
        self.cells = plain_partition.Cells([straights[curve] for curve in self.kept])
        self.outer = self.cells.union.root(self.cells.outer)
        self.open_faces = {self.cells.face(middle(straights[curve])) for curve in out}
        self.faces = {point: self.cells.face(at) for point, at in enumerate(points)
                      if not any(plain_partition.is_on(straights[c], at) for c in self.kept)}
        self.sides = {curve: self.cells.sides(straights[curve]) for curve in self.kept}

    def first_on(self, point):
        for curve, straight in enumerate(self.straights):
            if plain_partition.is_on(straight, self.points[point]):
                return point, curve
        return None

    def is_judged(self, face):
        return face != self.outer and face not in self.open_faces

    def outside(self):
        if self.outer in self.open_faces:
            return []
        return [point for point, face in self.faces.items() if face == self.outer]

    def two(self):
        first = {}
        for point, face in self.faces.items():
            if first.setdefault(face, point) != point and self.is_judged(face):
                yield first[face], point

    def least_sides(self, wanted):
        """The least side of each face that is wanted."""
        told = set()
        for curve, sides in self.sides.items():
            for face, side in zip(sides, ("LEFT", "RIGHT")):
                if wanted(face) and face not in told:
                    told.add(face)
                    yield curve, side

    def empty(self):
        held = set(self.faces.values())
        return self.least_sides(lambda face: self.is_judged(face) and face not in held)

    def open(self):
        return self.least_sides(lambda face: face != self.outer and face in self.open_faces)

    def cuts(self):
        return [curve for curve, (left, right) in self.sides.items()
                if left == right and left not in self.open_faces]

    def unjudged(self):
        return [point for point, face in self.faces.items() if face in self.open_faces]


def middle(straight):
    return tuple(Fraction(straight[0][i] + straight[1][i], 2) for i in (0, 1))


def main():
    straights, points = read_drawing(sys.argv[1])
    faults = Faults(straights, points)
    for word, found in (("MEETING", faults.meetings), ("ON", faults.on), ("TWO", faults.two()),
                        ("EMPTY", faults.empty()), ("OPEN", faults.open())):
        for names in found:
            print(word, *names)
    for word, found in (("OUTSIDE", faults.outside()), ("CUT", faults.cuts()),
                        ("UNJUDGED", faults.unjudged())):
        for name in found:
            print(word, name)
    if faults.outer in faults.open_faces:
        print("OUTER")


if __name__ == "__main__":
    main()
