#!/usr/bin/env python3
"""Makes partitions to measure with.

usage: drawings.py grid N FOLDER        N by N squares, two N (N + 1) straights
       drawings.py parcels N FOLDER     about N parcels with crooked borders of three straights each,
                                        a building of six straights in every second one
       drawings.py arcs N FOLDER        the same, but three of five borders are arcs
       drawings.py cover N FOLDER       the same, but one of 12 borders is an arc
       drawings.py strokes N FOLDER     one parcel, a ring of N straights that lead to and fro above
                                        one another and end in no order: a sweep has all of them but
                                        two live at once
       drawings.py arcs-bad N FOLDER    the same as arcs, and cover-bad as cover, and one line more
                                        that goes through an arc
       drawings.py arcs-undecided N FOLDER    the same as arcs, and cover-undecided as cover, and one
                                        ring more with a half arc of more than half a turn, which
                                        has a tube at no level
       drawings.py arcs-forks N FOLDER    the same as arcs, and cover-forks as cover, and 500 circles
                                        more, from each of which a straight leaves along its tangent;
                                        the model permits an overlap, without which they are undecided
       drawings.py fan N FOLDER         N straights in triangles that share one vertex, all round: two
                                        of three straights end there
       drawings.py uprights N FOLDER    about N straights, upright but for two of each pair of columns
       drawings.py comb N FOLDER        one parcel, a comb of level teeth, N straights in all, half of
                                        which a sweep has live at once

Each straight of strokes, fan, uprights and comb has a parcel on one side and none on the other, since
one with the same region on both is at fault. So two straights or more end at each vertex, and N
straights have at most N events.

FOLDER gets `model` and `transfer`, which `check` accepts where nothing else is said, and the same as
32-bit numbers in units of a millimetre: `straights`, x and y of the start, x and y of the end,
`arcs`, x and y of the start, of the place on the arc and of the end, `chords`, the straights and the
two chords of each arc, and `points`, x and y. The same arguments give the same bytes.
"""
import os
import random
import struct
import sys

MODEL = """TRANSFER Bench; DOMAIN Koord = COORD2 0.000 0.000 900000.000 900000.000;
MODEL Bench TOPIC Land = TABLE Parcel =
Form: AREA WITH (STRAIGHTS, ARCS) VERTEX Koord; NO IDENT END Parcel; END Land. END Bench.
FORMAT FREE; CODE BLANK = DEFAULT, UNDEFINED = DEFAULT, CONTINUE = DEFAULT; TID = ANY; END.
"""


def grid(size):
    """The lines and the points of N by N squares with sides of 10 m."""
    def at(i, j):
        return (10000 * i, 10000 * j)

    lines = [[at(i, j), at(i + 1, j)] for j in range(size + 1) for i in range(size)]
    lines += [[at(i, j), at(i, j + 1)] for i in range(size + 1) for j in range(size)]
    points = [(10000 * i + 5000, 10000 * j + 5000) for j in range(size) for i in range(size)]
    return lines, points


def crooked(chance, start, end):
    """A line from start to end over two places a little beside it."""
    def beside(part):
        return tuple(
            start[axis] + (end[axis] - start[axis]) * part // 3 + chance.randint(-900, 900)
            for axis in (0, 1)
        )

    return [start, beside(1), beside(2), end]


def bent(chance, start, end):
    """An arc from start to end, over a place up to 3 m beside the middle of its chord."""
    wide, high = end[0] - start[0], end[1] - start[1]
    length = (wide * wide + high * high) ** 0.5
    off = chance.choice([-1, 1]) * chance.randint(800, 3000)
    over = (round((start[0] + end[0]) / 2 - off * high / length),
            round((start[1] + end[1]) / 2 + off * wide / length), "arc")
    return [start, over, end]


def border(chance, share, start, end):
    """A line from start to end, in a share of all cases an arc."""
    return (bent if share and chance.random() < share else crooked)(chance, start, end)


def building(chance, x, y):
    """An L about a place, and a point in it."""
    wide, high = chance.randint(5000, 8000), chance.randint(5000, 8000)
    part, cut = chance.randint(1000, 3000), chance.randint(1000, 3000)
    ring = [(-wide, -high), (wide, -high - 300), (wide + 200, cut), (part, cut + 100),
            (part - 100, high), (-wide - 300, high + 200)]
    ring = [(x + a, y + b) for a, b in ring]
    return ring + ring[:1], (x - 1000, y - 1000)


def parcels(count, share=0.0):
    """Parcels of about 40 by 40 m, and buildings; that share of the borders are arcs."""
    chance = random.Random(1)
    size = max(1, round(count ** 0.5))
    step = 40000
    nodes = [[(step * (i + 1) + chance.randint(-4000, 4000), step * (j + 1) + chance.randint(-4000, 4000))
              for i in range(size + 1)] for j in range(size + 1)]
    lines, points = [], []
    for j in range(size + 1):
        for i in range(size):
            lines.append(border(chance, share, nodes[j][i], nodes[j][i + 1]))
    for j in range(size):
        for i in range(size + 1):
            lines.append(border(chance, share, nodes[j + 1][i], nodes[j][i]))
    for j in range(size):
        for i in range(size):
            x, y = step * (i + 1) + step // 2, step * (j + 1) + step // 2
            points.append((x - 12000, y - 12000))
            if (i + j) % 2 == 0:
                ring, point = building(chance, x, y)
                lines.append(ring)
                points.append(point)
    return lines, points


def strokes(count):
    """A ring that leads to and fro between the left half of the drawing and the right one, 50 mm
    higher each time, and back on the left. Each straight is a line of its own."""
    chance = random.Random(1)
    pairs = max(2, (count - 2) // 2)
    starts, ends = list(range(pairs)), list(range(pairs))
    chance.shuffle(starts)
    chance.shuffle(ends)
    middle = 50 * max(count, 1_000_000)
    ring = []
    for i in range(pairs):
        ring += [(50 * starts[i] + 50, 100 * i), (middle + 50 * ends[i], 100 * i + 50)]
    ring += [(0, 100 * pairs), (0, 0)]
    return [list(line) for line in zip(ring, ring[1:] + ring[:1])], [(25, 50)]


def with_bad(lines):
    """The lines, and one that goes through the first arc at the place over which it leads."""
    start, over, end = next(line for line in lines if len(line[1]) == 3)
    middle = ((start[0] + end[0]) // 2, (start[1] + end[1]) // 2)
    beyond = (2 * over[0] - middle[0], 2 * over[1] - middle[1])
    return lines + [[middle, beyond]]


def with_undecided(lines):
    """The lines, and a ring of three quarters of a circle and its chord, within the first parcel."""
    x, y = 70500, 50000
    return lines + [[(x + 1000, y), (x + 960, y + 280, "arc"), (x, y - 1000), (x + 1000, y)]]


def with_forks(lines, points):
    """The lines, and 500 circles beside them, each with a corner of two straights on it."""
    lines, points = list(lines), list(points)
    for number in range(500):
        x, y = 50_000_000, 100_000 * (number + 1)
        right, top = (x + 10000, y), (x, y + 10000)
        lines.append([right, (*top, "arc"), (x - 10000, y), (x, y - 10000, "arc"), right])
        lines.append([right, (x + 9900, y + 20000), top])
        points += [(x, y), (x + 7000, y + 14000)]
    return lines, points


def fan(count):
    """Triangles from one vertex to neighbouring places on a square about it."""
    middle, half = 50_000_000, 40_000_000
    triangles = max(4, count // 3)
    step = 8 * half // (2 * triangles)

    def around(place):
        side, along = divmod(place, 2 * half)
        x, y = [(along - half, -half), (half, along - half), (half - along, half), (-half, half - along)][side]
        return (middle + x, middle + y)

    lines, points = [], []
    for i in range(triangles):
        one, other = around(2 * i * step), around((2 * i + 1) * step)
        lines.append([(middle, middle), one, other, (middle, middle)])
        points.append(((middle + one[0] + other[0]) // 3, (middle + one[1] + other[1]) // 3))
    random.Random(1).shuffle(lines)
    return lines, points


def uprights(count):
    """Pairs of columns, each of as many upright straights of 50 mm as there are columns, with a parcel
    in each pair. Each straight is a line of its own."""
    high = max(1, round(count ** 0.5))
    lines, points = [], []
    for pair in range(max(1, round(count / (2 * high + 2)))):
        x = 200 * pair
        for y in range(0, 50 * high, 50):
            lines += [[(x, y), (x, y + 50)], [(x + 100, y), (x + 100, y + 50)]]
        lines += [[(x, y), (x + 100, y)] for y in (0, 50 * high)]
        points.append((x + 50, 25))
    random.Random(1).shuffle(lines)
    return lines, points


def comb(count):
    """A parcel with level teeth of many lengths on one upright back."""
    chance = random.Random(1)
    teeth = max(1, (count - 3) // 4)
    tops = list(range(teeth))
    chance.shuffle(tops)
    lines = []
    for i in range(teeth):
        y, top = 100 * i, 50_000_000 + 50 * tops[i]
        lines.append([(1000, y), (top, y), (top, y + 50), (1000, y + 50), (1000, y + 100)])
    chance.shuffle(lines)
    lines.append([(1000, 100 * teeth), (0, 100 * teeth), (0, 0), (1000, 0)])
    return lines, [(500, 50)]


def curves_of(line):
    """The straights and the arcs of a line, in order."""
    vertices = iter(line[1:])
    start = line[0]
    for vertex in vertices:
        over = vertex
        end = next(vertices) if len(over) == 3 else over
        yield (start, end) if end is over else (start, over[:2], end)
        start = end


def vertex_text(vertex):
    return "%s %s\n" % ("ARCP" if len(vertex) == 3 else "LIPT", metres(vertex))


def metres(point):
    return "%d.%03d %d.%03d" % (*divmod(point[0], 1000), *divmod(point[1], 1000))


def main():
    kind, count, folder = sys.argv[1], int(sys.argv[2]), sys.argv[3]
    kinds = {
        "grid": grid,
        "parcels": parcels,
        "arcs": lambda count: parcels(count, 3 / 5),
        "cover": lambda count: parcels(count, 1 / 12),
        "strokes": strokes,
        "fan": fan,
        "uprights": uprights,
        "comb": comb,
    }
    kind, _, fault = kind.partition("-")
    lines, points = kinds[kind](count)
    model = MODEL
    if fault == "forks":
        lines, points = with_forks(lines, points)
        model = MODEL.replace("VERTEX Koord;", "VERTEX Koord WITHOUT OVERLAPS > 0.050;")
    else:
        lines = {"": list, "bad": with_bad, "undecided": with_undecided}[fault](lines)
    curves = [curve for line in lines for curve in curves_of(line)]
    os.makedirs(folder, exist_ok=True)
    with open(f"{folder}/model", "w") as file:
        file.write(model)
    with open(f"{folder}/straights", "wb") as file:
        for curve in curves:
            if len(curve) == 2:
                file.write(struct.pack("<4i", *curve[0], *curve[1]))
    with open(f"{folder}/arcs", "wb") as file:
        for curve in curves:
            if len(curve) == 3:
                file.write(struct.pack("<6i", *curve[0], *curve[1], *curve[2]))
    with open(f"{folder}/chords", "wb") as file:
        for curve in curves:
            for start, end in zip(curve, curve[1:]):
                file.write(struct.pack("<4i", *start, *end))
    with open(f"{folder}/points", "wb") as file:
        for point in points:
            file.write(struct.pack("<2i", *point))
    with open(f"{folder}/transfer", "w") as file:
        file.write("SCNT\n////\nMTID Bench\nMODL Bench\nTOPI Land\nTABL Parcel_Form\n")
        for number, line in enumerate(lines, 1):
            file.write("OBJE %d\nSTPT %s\n" % (number, metres(line[0])))
            file.writelines(vertex_text(vertex) for vertex in line[1:])
            file.write("ELIN\n")
        file.write("ETAB\nTABL Parcel\n")
        for number, point in enumerate(points, 1):
            file.write("OBJE %d %s\n" % (number, metres(point)))
        file.write("ETAB\nETOP\nEMOD\nENDE\n")


if __name__ == "__main__":
    main()
