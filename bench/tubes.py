#!/usr/bin/env python3
"""Reads the rule of tubes of half arcs twice and compares the two readings on random half arcs.

The first reading follows the words of the rule; plain_arcs.py and second_checker.py use it. The
second one follows the definitions of crates/tubes/specs/HalfArcTubes.antt, with whole numbers
alone. Both give the inner and the outer points of the tube at a level, or none.

    bench/tubes.py [COUNT] [SEED]
"""
import functools
import math
import random
import sys
from fractions import Fraction


# ---- by the words of the rule
class NoTube(Exception):
    pass


def circle(s, m, e):
    mx, my, ex, ey = m[0] - s[0], m[1] - s[1], e[0] - s[0], e[1] - s[1]
    d = mx * ey - my * ex
    mm, ee = mx * mx + my * my, ex * ex + ey * ey
    return d, mm * ey - ee * my, mx * ee - ex * mm


def has_circle(s, m, e):
    near = all(abs(p[i] - q[i]) < 2**26 for p, q in ((s, m), (s, e), (m, e)) for i in (0, 1))
    return near and circle(s, m, e)[0] != 0


@functools.lru_cache(maxsize=1024)
def by_words(a, b, t, level):
    if not has_circle(a, b, t):
        raise NoTube("circle")
    if (a[0] - t[0]) * (b[0] - t[0]) + (a[1] - t[1]) * (b[1] - t[1]) <= 0:
        raise NoTube("half a turn")
    d, ca, cb = circle(a, b, t)

    def f(p):
        x, y = p[0] - a[0], p[1] - a[1]
        return Fraction(d * (x * x + y * y) - ca * x - cb * y, d)

    def point(p, q, n):
        dx, dy = q[0] - p[0], q[1] - p[1]
        length = math.isqrt(dx * dx + dy * dy)
        # the side away from the third point: on the right of the way where that is on the left
        w = (dy, -dx) if d > 0 else (-dy, dx)
        # the whole part of (p + q) / 2 + n w / length
        return tuple(
            ((p[i] + q[i]) * length + 2 * n * w[i]) // (2 * length) for i in (0, 1)
        )

    def count(p, q):
        if p == q:
            raise NoTube("one point")
        if f(point(p, q, -2)) >= 0:
            raise NoTube("count")
        k = 0
        for bit in range(26, -1, -1):
            if f(point(p, q, k + 2**bit - 2)) < 0:
                k += 2**bit
        return k

    inner = [a, b]
    for _ in range(level + 1):
        finer = [a]
        for p, q in zip(inner, inner[1:]):
            finer += [point(p, q, count(p, q) - 2), q]
        inner = finer
    outer = [point(p, q, 5 * count(p, q) // 2 + 4) for p, q in zip(inner, inner[1:])]
    if any(abs(p[i] - a[i]) >= 2**28 for p in inner + outer for i in (0, 1)):
        raise NoTube("near")

    def along(p):
        return (b[0] - a[0]) * p[0] + (b[1] - a[1]) * p[1]

    row = [inner[0]] + [p for pair in zip(outer, inner[1:]) for p in pair]
    if any(along(p) >= along(q) for p, q in zip(row, row[1:])):
        raise NoTube("along")

    def side(p, q, r):
        turn = (q[0] - p[0]) * (r[1] - p[1]) - (q[1] - p[1]) * (r[0] - p[0])
        return -turn if d > 0 else turn

    if any(side(p, q, o) <= 0 for p, q, o in zip(inner, inner[1:], outer)):
        raise NoTube("outer side")
    if any(side(o, u, v) >= 0 for o, u, v in zip(outer, outer[1:], inner[1:])):
        raise NoTube("inner side")
    for p, q in zip(outer, outer[1:]):
        square = (p[0] - q[0]) ** 2 + (p[1] - q[1]) ** 2
        if 4 * f(p) <= square or 4 * f(q) <= square:
            raise NoTube("outer edge")
    centre = (a[0] + Fraction(ca, 2 * d), a[1] + Fraction(cb, 2 * d))
    for o, end in ((outer[0], a), (outer[-1], b)):
        if sum((o[i] - end[i]) * (centre[i] - end[i]) for i in (0, 1)) > 0:
            raise NoTube("end")
    return inner[1:], outer


# ---- by the definitions
def by_definitions(h, level):
    a, b, t = h
    if not has_circle(a, b, t):
        return None
    bend, ca, cb = circle(a, b, t)
    wide, tall = b[0] - a[0], b[1] - a[1]
    tx, ty = t[0] - a[0], t[1] - a[1]
    if not 0 < tx * (tx - wide) + ty * (ty - tall):
        return None

    def power(p):
        x, y = p[0] - a[0], p[1] - a[1]
        return bend * (bend * (x * x + y * y) - (ca * x + cb * y))

    def distance(p, q):
        return (p[0] - q[0]) * (p[0] - q[0]) + (p[1] - q[1]) * (p[1] - q[1])

    def beside(p, q, n):
        length = math.isqrt(distance(p, q))
        turned_x = q[1] - p[1] if bend > 0 else p[1] - q[1]
        turned_y = p[0] - q[0] if bend > 0 else q[0] - p[0]
        return (
            ((p[0] + q[0]) * length + 2 * n * turned_x) // (2 * length),
            ((p[1] + q[1]) * length + 2 * n * turned_y) // (2 * length),
        )

    def is_inside(p, q, k):
        return 0 < -power(beside(p, q, k - 2))

    def with_bits(test, bits, k):
        if bits == 0:
            return k
        more = k + 2 ** (bits - 1)
        return with_bits(test, bits - 1, more if test(more) else k)

    def count(p, q):
        if math.isqrt(distance(p, q)) == 0 or not is_inside(p, q, 0):
            return None
        return with_bits(lambda k: is_inside(p, q, k), 27, 0)

    def refine(p, points):
        made = []
        for q in points:
            k = count(p, q)
            if k is None:
                return None
            made += [beside(p, q, k - 2), q]
            p = q
        return made

    inner = [b]
    for _ in range(level + 1):
        inner = refine(a, inner)
        if inner is None:
            return None
    outer, p = [], a
    for q in inner:
        k = count(p, q)
        if k is None:
            return None
        outer.append(beside(p, q, 5 * k // 2 + 4))
        p = q
    if any(abs(p[i] - a[i]) >= 2**28 for p in inner + outer for i in (0, 1)):
        return None

    def along(p):
        return wide * (p[0] - a[0]) + tall * (p[1] - a[1])

    def outward(p, q, z):
        return -bend * ((q[0] - p[0]) * (z[1] - p[1]) - (q[1] - p[1]) * (z[0] - p[0]))

    v = a
    for o, w in zip(outer, inner):
        if not (along(v) < along(o) < along(w) and 0 < outward(v, w, o)):
            return None
        v = w
    for o, u, w in zip(outer, outer[1:], inner):
        far = bend * bend * distance(o, u)
        if not (outward(o, u, w) < 0 and far < 4 * power(o) and far < 4 * power(u)):
            return None
    o, u = outer[0], outer[-1]
    from_ahead = bend * (ca * (o[0] - a[0]) + cb * (o[1] - a[1]))
    to_ahead = bend * (
        (ca - 2 * bend * wide) * (u[0] - b[0]) + (cb - 2 * bend * tall) * (u[1] - b[1])
    )
    if from_ahead > 0 or to_ahead > 0:
        return None
    return inner, outer


def worked():
    a, b, t = (510000, 500000), (500000, 510000), (490000, 500000)
    want = [(507071, 507071), b], [(510301, 504266), (504266, 510301)]
    assert by_words(a, b, t, 0) == want
    assert by_definitions((a, b, t), 0) == want


def some_half_arc(rng):
    reach = 2 ** rng.randint(2, 26)
    base = rng.choice((0, 10**18 - 2**27, -(10**18) + 2**27))
    if rng.random() < 0.5:
        return [(base + rng.randrange(reach), base + rng.randrange(reach)) for _ in range(3)]
    turn, start = rng.uniform(0.05, 3.3), rng.uniform(0, 2 * math.pi)
    sign = rng.choice((-1, 1))
    rest = rng.uniform(turn, 2 * math.pi)

    def at(angle):
        way = start + sign * angle
        return base + round(reach / 3 * math.cos(way)), base + round(reach / 3 * math.sin(way))

    return [at(0), at(turn), at(rest)]


def main():
    count = int(sys.argv[1]) if len(sys.argv) > 1 else 2000
    seed = int(sys.argv[2]) if len(sys.argv) > 2 else 1
    worked()
    rng = random.Random(seed)
    tubes = [0] * 6
    reasons = {}
    for _ in range(count):
        h = some_half_arc(rng)
        level = rng.randint(0, 5)
        try:
            want = by_words(*h, level)
            tubes[level] += 1
        except NoTube as reason:
            want = None
            reasons[str(reason)] = reasons.get(str(reason), 0) + 1
        if by_definitions(h, level) != want:
            sys.exit(f"the readings differ: {h} at level {level}")
    print(f"{count} half arcs, tubes by level {tubes}, none because of {reasons}")


if __name__ == "__main__":
    main()
