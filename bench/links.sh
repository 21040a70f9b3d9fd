#!/usr/bin/env bash
# Holds the `LINK` lines of the built program against a plain second reading: a place is in a parcel
# by the crossings of its ring in whole numbers, and beyond an arc by the sign of a determinant. The
# parcels are those of drawings.py, of straights and with one arc in twelve borders; points refer to
# them, and some lie in a neighbour, in the building or round it, at a vertex, on a straight, or far
# away. First come small covers whose points share coordinates with vertices, then a large one. Then it
# runs `points` on the large one with no point out of its place, beside `check`. Prints ratios, no
# absolute times, and stops at the first report that differs.
#
# usage: bench/links.sh [ITFCHECK [PARCELS [POINTS [SMALL]]]]
#        (crates/itfcheck/out/itfcheck, 50,000 parcels, 200,000 points and 40 small covers of each kind)
. "$(dirname "${BASH_SOURCE[0]}")/begin.sh"
. "$top/bench/measure.sh"
itfcheck=$(built_program "$@")
parcels=${2:-50000} points=${3:-200000} small=${4:-40}
cd "$work"

cat > links.py <<'PY'
"""Covers with points that refer to their parcels, and which of them are misplaced."""
import random
import subprocess
import sys

from drawings import metres, parcels

MODEL = """TRANSFER Bench; DOMAIN Koord = COORD2 0.000 0.000 900000.000 900000.000;
Around = COORD2 -9000.000 -9000.000 999000.000 999000.000;
MODEL Bench TOPIC Land = TABLE Parcel = Form: AREA WITH (STRAIGHTS, ARCS) VERTEX Koord; NO IDENT END Parcel;
TABLE Number = Of: OPTIONAL -> Parcel; Place: OPTIONAL Around; NO IDENT END Number; END Land. END Bench.
FORMAT FREE; CODE BLANK = DEFAULT, UNDEFINED = DEFAULT, CONTINUE = DEFAULT; TID = ANY; END.
"""
RULE = "LINK Land Number Place Of Form\n"


def turn(a, b, c):
    return (b[0] - a[0]) * (c[1] - a[1]) - (b[1] - a[1]) * (c[0] - a[0])


def within_circle(a, b, c, place):
    """Above 0 within the circle through three places, 0 on it."""
    (ax, ay), (bx, by), (cx, cy) = ((x - place[0], y - place[1]) for x, y in (a, b, c))
    found = ((ax * ax + ay * ay) * (bx * cy - by * cx) - (bx * bx + by * by) * (ax * cy - ay * cx)
             + (cx * cx + cy * cy) * (ax * by - ay * bx))
    return found if turn(a, b, c) > 0 else -found


def has(start, end, place):
    """Whether a straight has a place."""
    return (turn(start, end, place) == 0
            and min(start[0], end[0]) <= place[0] <= max(start[0], end[0])
            and min(start[1], end[1]) <= place[1] <= max(start[1], end[1]))


def crosses(start, end, place):
    """Whether a straight crosses the ray from a place to the right."""
    if (start[1] <= place[1]) == (end[1] <= place[1]):
        return False
    return (turn(start, end, place) > 0) == (end[1] > start[1])


def reversed_line(line):
    """The line from its end to its start; an arc keeps the place over which it leads."""
    return line[::-1]


class Ring:
    """Straights and arcs round a region; an arc is its start, its place between and its end."""

    def __init__(self, lines):
        self.straights, self.arcs = [], []
        for line in lines:
            if len(line) == 3 and len(line[1]) == 3:
                self.arcs.append((line[0], line[1][:2], line[2]))
            else:
                self.straights += zip(line, line[1:])
        self.chords = [(start, end) for start, _, end in self.arcs]

    def on(self, place):
        """Whether a straight or an arc has a place."""
        return (any(has(start, end, place) for start, end in self.straights)
                or any(place in (start, end) or within_circle(start, over, end, place) == 0
                       and turn(start, end, place) * turn(start, end, over) > 0
                       for start, over, end in self.arcs))

    def on_chord(self, place):
        """Whether a place is on the chord of an arc, of which this reading says nothing."""
        return any(has(start, end, place) for start, end in self.chords)

    def inside(self, place):
        """Whether a place on no line and no chord is inside."""
        found = False
        for start, end in self.straights + self.chords:
            found ^= crosses(start, end, place)
        for start, over, end in self.arcs:
            found ^= (turn(start, end, place) * turn(start, end, over) > 0
                      and within_circle(start, over, end, place) > 0)
        return found


class Parcel:
    """A ring, and the ring of the building in it, if there is one."""

    def __init__(self, ring, hole=None):
        self.ring, self.hole = ring, hole

    def holds(self, place):
        return (not self.ring.on(place) and self.ring.inside(place)
                and not (self.hole and (self.hole.on(place) or self.hole.inside(place))))

    def corners(self):
        return [start for start, _ in self.ring.straights + self.ring.chords]


def cover(count, share):
    """The lines and points of drawings.py, and its parcels and buildings in the order of the points."""
    lines, points = parcels(count, share)
    size = max(1, round(count ** 0.5))
    level = size * (size + 1)
    rings = iter(lines[2 * level:])
    found = []
    for j in range(size):
        for i in range(size):
            ring = Ring([lines[j * size + i], reversed_line(lines[level + j * (size + 1) + i + 1]),
                         reversed_line(lines[(j + 1) * size + i]), lines[level + j * (size + 1) + i]])
            hole = Ring([next(rings)]) if (i + j) % 2 == 0 else None
            found.append(Parcel(ring, hole))
            if hole:
                found.append(Parcel(hole))
    return lines, points, found


def place_near(chance, parcel, corners):
    """A place about a parcel, of which small covers give it coordinates of vertices."""
    xs, ys = zip(*parcel.corners())
    x = chance.randint(min(xs) - 3000, max(xs) + 3000)
    y = chance.randint(min(ys) - 3000, max(ys) + 3000)
    if corners and chance.random() < 0.3:
        x = chance.choice(corners)[0]
    if corners and chance.random() < 0.3:
        y = chance.choice(corners)[1]
    return x, y


def middle(chance, parcel):
    """A place on a straight of a parcel, near its middle, or one of its vertices."""
    if not parcel.ring.straights:
        return chance.choice(parcel.corners())
    start, end = chance.choice(parcel.ring.straights)
    even = (start[0] + end[0]) % 2 == 0 and (start[1] + end[1]) % 2 == 0
    return ((start[0] + end[0]) // 2, (start[1] + end[1]) // 2) if even else start


def chosen(chance, found, corners, good):
    """A parcel by its number, or none, and a place, or none."""
    number = chance.randrange(len(found))
    kind = chance.random()
    if good or kind < 0.7:
        while True:
            place = place_near(chance, found[number], corners)
            if not found[number].ring.on_chord(place) and found[number].holds(place):
                return number, place
    if kind < 0.75:
        return number, middle(chance, found[number])
    if kind < 0.8:
        return number, (chance.choice((-1, 0, 1, 450000000, 900000000, 900000001)),
                        chance.choice((-1, 0, 900000000, 900000001)))
    if kind < 0.85:
        return (None, place_near(chance, found[number], corners)) if chance.random() < 0.5 else (number, None)
    while True:
        place = place_near(chance, found[(number + chance.choice((-1, 0, 1))) % len(found)], corners)
        if not found[number].ring.on_chord(place):
            return number, place


def write(name, lines, points, numbers):
    """Writes a transfer; the line of the first number."""
    text = ["SCNT", "////", "MTID Bench", "MODL Bench", "TOPI Land", "TABL Parcel_Form"]
    for number, line in enumerate(lines, 1):
        text += ["OBJE %d" % number, "STPT " + metres(line[0])]
        text += [("ARCP " if len(place) == 3 else "LIPT ") + metres(place) for place in line[1:]]
        text.append("ELIN")
    text += ["ETAB", "TABL Parcel"]
    text += ["OBJE p%d %s" % (number, metres(point)) for number, point in enumerate(points)]
    text += ["ETAB", "TABL Number"]
    first = len(text) + 1
    for number, (parcel, place) in enumerate(numbers):
        text.append("OBJE n%d %s %s" % (number, "@" if parcel is None else "p%d" % parcel,
                                        "@ @" if place is None else signed(place)))
    text += ["ETAB", "ETOP", "EMOD", "ENDE", ""]
    with open(name, "w") as file:
        file.write("\n".join(text))
    return first


def signed(place):
    return " ".join(("-" if value < 0 else "") + "%d.%03d" % divmod(abs(value), 1000) for value in place)


def report_of(words, status):
    done = subprocess.run(words, capture_output=True, text=True)
    if done.returncode != status:
        sys.exit(f"{words}: status {done.returncode}\n{done.stdout[:2000]}")
    return done.stdout.splitlines()


def held(program, lines, points, found, numbers):
    """The report has exactly the lines of the second reading; how many points are misplaced."""
    first = write("transfer", lines, points, numbers)
    pairs = [(first + k, *one) for k, one in enumerate(numbers) if None not in one]
    wrong = [line for line, parcel, place in pairs if not found[parcel].holds(place)]
    report = report_of([program, "points", "model", "transfer", "links"], 1 if wrong else 0)
    wanted = ["LINK 1 %d" % line for line in wrong] + ["LINKS 1 %d" % len(pairs)]
    wanted.append("VERDICT REJECTED" if wrong else "VERDICT ACCEPTED %d" % (len(lines) + len(points) + len(numbers)))
    if not report[0].startswith("AREA Land Parcel Form PROVED ") or report[1:] != wanted:
        odd = sorted(set(report[1:]) ^ set(wanted))[:10]
        sys.exit(f"the report differs from the second reading: {report[0]}, {odd}")
    return len(wrong)


def main():
    program, count, many, small = sys.argv[1], *map(int, sys.argv[2:5])
    for name, text in (("model", MODEL), ("links", RULE)):
        with open(name, "w") as file:
            file.write(text)
    done = wrong = 0
    for share in (0, 1 / 12):
        for seed in range(small):
            lines, points, found = cover(9 + seed % 8, share)
            chance = random.Random(seed)
            corners = [corner for parcel in found for corner in parcel.corners()]
            numbers = [chosen(chance, found, corners, False) for _ in range(60)]
            wrong += held(program, lines, points, found, numbers)
            done += 1
    print(f"{done} small covers, 60 points each: {wrong} misplaced, as the second reading says")
    for name, share in (("straights", 0), ("one border in twelve an arc", 1 / 12)):
        lines, points, found = cover(count, share)
        chance = random.Random(1)
        wrong = held(program, lines, points, found, [chosen(chance, found, [], False) for _ in range(many)])
        print(f"{len(found)} parcels, {name}: {wrong} of {many} points misplaced, as the second reading says",
              flush=True)
    # With all points in their places, for the measurement.
    lines, points, found = cover(count, 0)
    write("transfer", lines, points, [chosen(chance, found, [], True) for _ in range(many)])


main()
PY
PYTHONPATH="$top/bench" python3 links.py "$itfcheck" "$parcels" "$points" "$small"
read -r check check_peak linked linked_peak <<< "$(measure_in_turn \
    "$itfcheck check model transfer certificate" "$itfcheck points model transfer links")"
awk -v c="$check" -v l="$linked" -v cm="$check_peak" -v lm="$linked_peak" -v n="$points" 'BEGIN {
    printf "points takes %.2f times check, %.0f bytes a point more\n", l / c, (lm - cm) * 1024 / n
}'
