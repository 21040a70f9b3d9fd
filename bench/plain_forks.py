#!/usr/bin/env python3
"""The bends of straights that fork from half arcs a second time, in plain Python.

Written from docs/partition-rule.md ("What an overlap permits") in whole numbers, and not from the
code of the crate `forks`: each straight is held against each half arc, each part against each
point.

usage: plain_forks.py DRAWING TOLERANCE

DRAWING has a line `W x y x y` for the window, `S x y x y` for each straight, `H x y x y x y` for
each half arc, with its start, its end and its third point, and `P x y` for each point. Prints the
curves of the bent drawing in the same form, each behind the number of the curve that it is or of
which it is a part.
"""
import math
import sys

from random_pairs import HalfArc, Straight


def dot(v, w):
    return v[0] * w[0] + v[1] * w[1]


def times(v, w):
    return v[0] * w[1] - v[1] * w[0]


def way(p, q):
    return (q[0] - p[0], q[1] - p[1])


def fork(arc, p, q, tolerance):
    """The bend of the straight from p to q beside p, where it forks from the half arc there."""
    far_end = arc.ends[1] if arc.ends[0] == p else arc.ends[0]
    seen = HalfArc(p, far_end, arc.third)
    v = way(p, q)
    root = math.isqrt(dot(v, v))
    if not seen.judged or tolerance < 8 or root < 32 * tolerance:
        return None
    if dot(way(p, far_end), v) <= 0:
        return None
    sign = 1 if seen.bend > 0 else -1
    centre = (sign * seen.a, sign * seen.b)
    toward, across = dot(v, centre), times(v, centre)
    if 16 * abs(toward) > abs(across):
        return None
    if toward > 0 and toward // abs(seen.bend) >= dot(v, v):
        return None
    u = (v[1], -v[0]) if across > 0 else (-v[1], v[0])
    return tuple(p[i] + (8 * tolerance * v[i] + (tolerance - 2) * u[i]) // root for i in (0, 1))


def zone(arc, straight, tolerance):
    """Whether the straight is bent beside its start, and where; None where it does not fork."""
    if not isinstance(arc, HalfArc) or not isinstance(straight, Straight):
        return None
    start, end = straight.ends
    if (start in arc.ends) == (end in arc.ends):
        return None
    at_from = start in arc.ends
    p, q = (start, end) if at_from else (end, start)
    bend = fork(arc, p, q, tolerance)
    return None if bend is None else (at_from, bend)


def is_inside(window, p):
    (left, under), (right, over) = window
    return left <= p[0] <= right and under <= p[1] <= over


def bend_at(curves, straight, at_from, window, tolerance):
    """The bend at an end: that of the first half arc with one in the window."""
    for arc in curves:
        found = zone(arc, straight, tolerance)
        if found and found[0] == at_from and is_inside(window, found[1]):
            return found[1]
    return None


def pieces_of(curves, straight, points, window, tolerance):
    """The places of a straight's parts, or its own where a point lies on one of them."""
    start, end = straight.ends
    bends = [bend_at(curves, straight, at_from, window, tolerance) for at_from in (True, False)]
    places = [start] + [bend for bend in bends if bend] + [end]
    parts = [Straight(a, b) for a, b in zip(places, places[1:])]
    if any(part.holds(p) for part in parts for p in points):
        return [straight]
    return parts


def bent(curves, points, window, tolerance):
    """The curves of the bent drawing, each with the number of the curve that it stands for."""
    found = []
    for number, curve in enumerate(curves):
        if isinstance(curve, Straight):
            pieces = pieces_of(curves, curve, points, window, tolerance)
        else:
            pieces = [curve]
        found.extend((number, piece) for piece in pieces)
    return found


def main():
    curves, points, window = [], [], None
    for line in open(sys.argv[1]):
        kind, *numbers = line.split()
        numbers = [int(n) for n in numbers]
        places = list(zip(numbers[::2], numbers[1::2]))
        if kind == "W":
            window = places
        elif kind == "S":
            curves.append(Straight(*places))
        elif kind == "H":
            curves.append(HalfArc(*places))
        elif kind == "P":
            points += places
    for number, curve in bent(curves, points, window, int(sys.argv[2])):
        third = [curve.third] if isinstance(curve, HalfArc) else []
        places = [str(n) for p in [*curve.ends, *third] for n in p]
        print(number, "H" if third else "S", *places)


if __name__ == "__main__":
    main()
