"""A plain second way to find the rings of the faces of a drawing.

Written from docs/faults.md alone. A side of a curve is passed with its face on the left: the left
side from the first end to the second one, the right side back. It is followed by the curve that
leaves the end where it arrives first clockwise from the way back. Curves leave an end in the order
of their directions there, and of two with one direction that comes later which bends further to the
left. All this is reckoned in fractions.
"""
import collections
import functools
from fractions import Fraction


def cross(p, q):
    return p[0] * q[1] - p[1] * q[0]


def centre(a, b, c):
    """The centre of the circle through three places."""
    (bx, by), (cx, cy) = ((p[0] - a[0], p[1] - a[1]) for p in (b, c))
    twice = 2 * (bx * cy - by * cx)
    b_square, c_square = bx * bx + by * by, cx * cx + cy * cy
    return (a[0] + Fraction(cy * b_square - by * c_square, twice),
            a[1] + Fraction(bx * c_square - cx * b_square, twice))


def leaving(start, end, *third):
    """The direction in which a curve leaves its start, and how far it bends to the left there."""
    if not third:
        return (end[0] - start[0], end[1] - start[1]), 0
    middle = centre(start, end, third[0])
    x, y = start[0] - middle[0], start[1] - middle[1]
    chord, to_third = ((p[0] - start[0], p[1] - start[1]) for p in (end, third[0]))
    # A half arc does not hold its third point, so with that on the left it turns to the left.
    turns = 1 if cross(chord, to_third) > 0 else -1
    return (-turns * y, turns * x), turns / Fraction(x * x + y * y)


def is_lower(direction):
    return direction[1] < 0 or direction[1] == 0 and direction[0] < 0


def in_order(one, other):
    """The order of two ways that leave a place, counterclockwise from the right."""
    (p, p_bend), (q, q_bend) = one[0], other[0]
    if is_lower(p) != is_lower(q):
        return is_lower(p) - is_lower(q)
    turned = cross(p, q)
    if turned:
        return -1 if turned > 0 else 1
    return (p_bend > q_bend) - (p_bend < q_bend)


class Rings:
    """The rings of the faces of these curves, each two or three places, by their numbers."""

    def __init__(self, curves):
        self.curves = curves
        around = collections.defaultdict(list)
        for curve, (a, b, *third) in curves.items():
            around[a].append((leaving(a, b, *third), (curve, "LEFT")))
            around[b].append((leaving(b, a, *third), (curve, "RIGHT")))
        self.next = {}
        for ways in around.values():
            ways.sort(key=functools.cmp_to_key(in_order))
            for (_, before), (_, side) in zip(ways[-1:] + ways, ways):
                self.next[back(side)] = before
        self.all = list(self.walked())

    def walked(self):
        """All rings in the order of their least sides, from these on."""
        passed = set()
        for start in sorted(self.next):
            ring, side = [], start
            while side not in passed:
                passed.add(side)
                ring.append(side)
                side = self.next[side]
            if ring:
                yield ring

    def of_face(self, sides, face):
        """The rings of a face, where `sides` has the faces on the left and right of each curve."""
        for ring in self.all:
            curve, side = ring[0]
            if sides[curve][side == "RIGHT"] == face:
                yield [self.corner(*side) for side in ring]

    def corner(self, curve, side):
        """Where the side begins, and of a half arc its third point."""
        a, b, *third = self.curves[curve]
        return [b if side == "RIGHT" else a, *third]


def back(side):
    return side[0], "RIGHT" if side[1] == "LEFT" else "LEFT"
