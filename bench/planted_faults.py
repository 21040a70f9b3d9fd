#!/usr/bin/env python3
"""Plants faults in parcels, and wants the built `itffaults` to tell each of them and no other.

usage: planted_faults.py ITFFAULTS ITFCHECK [PARCELS [EACH]]     10,000 parcels and 20 faults of each
                                                                 kind where nothing is said

Each fault has a parcel without a building for itself: two lines that cross, a line that ends within,
no object, two objects, an object on the border; and objects stand outside of all parcels. Since the
parcel of two lines that cross is open, its object is unjudged. It prints how long `itffaults` takes
with each kind alone and with all, as CPU time, in times of `check` of the parcels without a fault,
and stops at the first file that is not as it was planted, which it leaves with the others.
"""
import os
import random
import resource
import subprocess
import sys
import tempfile

import drawings
from drawings import metres

KINDS = ("MEETING", "ON", "OUTSIDE", "TWO", "EMPTY", "CUT")
COUNTS = KINDS + ("OPEN", "UNJUDGED")


class Parcels:
    """Parcels, and where each has its border and its object: lines and points by their places."""

    def __init__(self, count):
        self.size = max(1, round(count ** 0.5))
        self.lines, self.points = drawings.parcels(count)
        self.objects, place = {}, 0
        for j in range(self.size):
            for i in range(self.size):
                self.objects[i, j] = place
                place += 2 if (i + j) % 2 == 0 else 1

    def plain(self):
        """The parcels without a building."""
        return [cell for cell in self.objects if sum(cell) % 2]

    def border(self, cell):
        """The line that bounds a parcel from below, the first of its border, which runs to the right."""
        return cell[1] * self.size + cell[0]


def middle(cell):
    return tuple(40000 * (part + 1) + 20000 for part in cell)


def around(cell, x, y):
    return middle(cell)[0] + x, middle(cell)[1] + y


class Planted:
    """A transfer with faults of these kinds, so many of each, and the file that tells them."""

    def __init__(self, parcels, kinds, each):
        self.parcels, self.told = parcels, {kind: [] for kind in COUNTS}
        self.lines = list(parcels.lines)
        self.points = [(at, None) for at in parcels.points]     # a place, and what is told of it
        self.lost, self.crossing, self.ending = [], [], []
        cells = iter(random.Random(2).sample(parcels.plain(), each * (len(KINDS) - 1)))
        for kind in kinds:
            for number in range(each):
                getattr(self, kind.lower())(number if kind == "OUTSIDE" else next(cells))
        self.text()

    def meeting(self, cell):
        self.crossing.append((cell, len(self.lines)))
        self.lines += [[around(cell, -5000, 0), around(cell, 5000, 0)],
                       [around(cell, 0, -5000), around(cell, 0, 5000)]]

    def on(self, cell):
        border = self.parcels.border(cell)
        self.points.append((self.lines[border][1], ("ON", border)))

    def outside(self, number):
        self.points.append(((100 + number, 200), ("OUTSIDE", None)))

    def two(self, cell):
        self.points.append((middle(cell), ("TWO", self.parcels.objects[cell])))

    def empty(self, cell):
        self.lost.append(cell)

    def cut(self, cell):
        self.ending.append(len(self.lines))
        self.lines.append([around(cell, -3000, 0), around(cell, 3000, 1000)])

    def text(self):
        """Writes the transfer, and tells its faults with their lines."""
        lines, starts = ["SCNT", "////", "MTID Bench", "MODL Bench", "TOPI Land", "TABL Parcel_Form"], []
        for number, line in enumerate(self.lines, 1):
            starts.append(len(lines) + 3)       # the number of the line that ends the first straight
            lines += ["OBJE %d" % number, "STPT " + metres(line[0])]
            lines += ["LIPT " + metres(vertex) for vertex in line[1:]] + ["ELIN"]
        lines += ["ETAB", "TABL Parcel"]
        lost, rows = {self.parcels.objects[cell] for cell in self.lost}, {}
        for number, (at, _) in enumerate(self.points):
            if number not in lost:
                rows[number] = len(lines) + 1
                lines.append("OBJE %d %s" % (number + 1, metres(at)))
        self.transfer = "\n".join(lines + ["ETAB", "ETOP", "EMOD", "ENDE", ""])
        self.tell(starts, rows)

    def tell(self, starts, rows):
        def first(line):
            return "%s %s" % tuple(metres(at) for at in self.lines[line][:2])

        for number, (at, fault) in enumerate(self.points):
            kind, other = fault or (None, None)
            if kind == "ON":
                self.told[kind].append((rows[number], starts[other], metres(at)))
            elif kind == "OUTSIDE":
                self.told[kind].append((rows[number], metres(at)))
            elif kind == "TWO":
                self.told[kind].append((rows[other], rows[number],
                                        metres(self.points[other][0]), metres(at)))
        for cell, line in self.crossing:
            border, owner = self.parcels.border(cell), self.parcels.objects[cell]
            self.told["MEETING"].append((starts[line], starts[line + 1], metres(middle(cell))))
            self.told["OPEN"].append((starts[border], "LEFT", first(border)))
            self.told["UNJUDGED"].append((rows[owner], metres(self.points[owner][0])))
        for cell in self.lost:
            border = self.parcels.border(cell)
            self.told["EMPTY"].append((starts[border], "LEFT", first(border)))
        self.told["CUT"] = [(starts[line], first(line)) for line in self.ending]

    def file(self):
        lines = ["ITFFAULTS 1", "AREAS 1", "AREA Land Parcel Form"]
        for kind in COUNTS:
            key = (lambda fault: fault[1]) if kind == "TWO" else (lambda fault: fault)
            lines += [" ".join(map(str, (kind, *fault))) for fault in sorted(self.told[kind], key=key)]
        counts = " ".join(str(len(self.told[kind])) for kind in COUNTS)
        return "\n".join(lines + ["COUNTS " + counts, "END", ""])


def without_rings(text):
    """The lines of a file without those of rings."""
    lines = text.splitlines(keepends=True)
    return "".join(line for line in lines if line[0].isalpha() and not line.startswith("RING "))


def timed(*words):
    """The status, and the best CPU time of three runs."""
    times = []
    for _ in range(3):
        before = resource.getrusage(resource.RUSAGE_CHILDREN)
        status = subprocess.run(words, stdout=subprocess.DEVNULL, check=False).returncode
        after = resource.getrusage(resource.RUSAGE_CHILDREN)
        times.append(after.ru_utime + after.ru_stime - before.ru_utime - before.ru_stime)
    return status, min(times)


def main():
    itffaults, itfcheck = map(os.path.abspath, sys.argv[1:3])
    count, each = [int(word) for word in sys.argv[3:]] + [10000, 20][len(sys.argv) - 3:]
    parcels, folder = Parcels(count), tempfile.mkdtemp()
    os.chdir(folder)
    with open("M", "w") as file:
        file.write(drawings.MODEL)
    base = None
    for kinds in ((), *((kind,) for kind in KINDS), KINDS):
        planted = Planted(parcels, kinds, each)
        with open("T", "w") as file:
            file.write(planted.transfer)
        if base is None:
            status, base = timed(itfcheck, "check", "M", "T", "C")
            if status != 0:
                sys.exit("the parcels are not accepted: %s" % folder)
        status, time = timed(itffaults, "M", "T", "F")
        with open("want", "w") as file:
            file.write(planted.file())
        with open("F") as file:
            if without_rings(file.read()) != planted.file() or status != (1 if kinds else 0):
                sys.exit("F is not as it was planted (%s): see %s" % (" ".join(kinds), folder))
        print("%.2f times check: %d of %s" % (time / base, each, ", ".join(kinds) or "no kind"))


if __name__ == "__main__":
    main()
