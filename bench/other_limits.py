#!/usr/bin/env python3
"""Runs `polygons`, `canonical`, `points`, `check` of SURFACEs and `itffaults` on transfers that are as
dear as a text of their size can be.

usage: other_limits.py ITFCHECK ITFFAULTS [MIB]      texts of some 16 MiB where nothing is said

CPU time is that of a byte that is read or written, as a multiple of what `check` takes for a byte of
a grid and its certificates, and memory is a multiple of the bytes that are read; the best of two
runs. The aims are those of limits.sh: 10 times the time, and 8 times the text in memory; in one run
more, with 8 bytes of address space for each byte that is read, the same answer, or status 8 with
nothing put or changed. It stops at an answer that is another one.
"""
import os
import subprocess
import sys
import tempfile

import drawings
from runs import AT_START, held, once

AIM_TIME, AIM_MEMORY = 10, 8
MEASURE = "import runs, sys; print(*runs.once(sys.argv[1:], 'report'))"
BENCH = os.path.dirname(os.path.abspath(__file__))
MODEL = """TRANSFER W; DOMAIN K = COORD2 0.000 0.000 900000.000 900000.000; MODEL M TOPIC T = TABLE A =
F: %s WITH (STRAIGHTS, ARCS) VERTEX K; NO IDENT END A; %sEND T. END M. FORMAT FREE;
CODE BLANK = DEFAULT, UNDEFINED = DEFAULT, CONTINUE = DEFAULT; TID = ANY; END.
"""
NUMBERS = "TABLE N = OF: -> A; AT: K; NO IDENT END N; "
FRONT, TAIL = "SCNT\n////\nMTID\nMODL M\nTOPI T\n", "ETOP\nEMOD\nENDE\n"


def metres(at):
    return "%d.%03d %d.%03d" % (*divmod(at[0], 1000), *divmod(at[1], 1000))


def line_text(number, places, owner=""):
    """A line of straights, of an object where one is named."""
    vertices = "".join("LIPT %s\n" % metres(at) for at in places[1:])
    return "OBJE %d%s\nSTPT %s\n%sELIN\n" % (number, owner, metres(places[0]), vertices)


def area_of(text, points, more=""):
    """The transfer of an AREA with the text of its lines, and other tables."""
    rows = "".join("OBJE %d %s\n" % (k, metres(at)) for k, at in enumerate(points, 1))
    return "%sTABL A_F\n%sETAB\nTABL A\n%sETAB\n%s%s" % (FRONT, text, rows, more, TAIL)


def area(lines, points, more=""):
    """The same, with lines of straights."""
    return area_of("".join(line_text(k, line) for k, line in enumerate(lines, 1)), points, more)


def circles(count):
    """The transfer of circles about one place, with one object, and a straight that crosses the
    outermost one."""
    x = y = 450000000
    texts = []
    for k in range(1, count + 1):
        r = 1000 + 200 * k
        places = [(x + r, y), (x, y + r), (x - r, y), (x, y - r), (x + r, y)]
        words = ("STPT", "ARCP", "LIPT", "ARCP", "LIPT")
        texts.append("OBJE %d\n%sELIN\n" % (k, "".join("%s %s\n" % (word, metres(at))
                                                       for word, at in zip(words, places))))
    texts.append(line_text(count + 1, [(x - 50, y + r - 70), (x + 30, y + r + 300)]))
    return area_of("".join(texts), [(x, y)])


def surfaces(rings):
    """The transfer of a SURFACE, with one ring of each object."""
    rows = "".join("OBJE %d\n" % k for k in range(1, len(rings) + 1))
    text = "".join(line_text(k, ring, " %d" % k) for k, ring in enumerate(rings, 1))
    return "%sTABL A\n%sETAB\nTABL A_F\n%sETAB\n%s" % (FRONT, rows, text, TAIL)


def square(x, y, side):
    return [(x, y), (x + side, y), (x + side, y + side), (x, y + side), (x, y)]


def grid(size):
    return drawings.grid(size)


def put(name, text):
    with open(name, "w") as file:
        file.write(text)


class Case:
    """A command on the files M, T and a third one, which it reads or writes."""

    def __init__(self, name, program, command, model, transfer, status, third=None):
        self.name, self.words = name, [program, *command, "M", "T", "X"]
        self.status, self.is_read = status, third is not None
        put("M", model)
        put("T", transfer)
        if os.path.exists("X"):
            os.unlink("X")
        if self.is_read:
            put("X", third)

    def once(self):
        """The status, CPU seconds, peak bytes, and the first line of the report."""
        done = subprocess.run([sys.executable, "-c", MEASURE, *self.words], stdout=subprocess.PIPE,
                              check=True, env={**os.environ, "PYTHONPATH": BENCH})
        status, cpu, peak = done.stdout.split()
        return int(status), float(cpu), int(peak)

    def measured(self):
        """Bytes read, bytes written, the best time and peak, and what a run with little memory does."""
        runs = [self.once() for _ in range(2)]
        if any(status != self.status for status, _, _ in runs):
            sys.exit("%s: %s, %r" % (self.name, runs, held("report")[:200]))
        report, written = held("report"), held("X")
        read = sum(map(os.path.getsize, ["M", "T"] + ["X"] * self.is_read))
        put_bytes = len(report) + (0 if self.is_read or written is None else len(written))
        limited = self.limited(read, report, written)
        return read, put_bytes, min(run[1] for run in runs), min(run[2] for run in runs), limited

    def limited(self, read, report, written):
        if not self.is_read and os.path.exists("X"):
            os.unlink("X")
        status, _, _ = once(self.words, "report", AT_START + AIM_MEMORY * read)
        if (status, held("report"), held("X")) == (self.status, report, written):
            return "answered within 8 times"
        if status == 8 and held("report") == b"" and (self.is_read or held("X") is None):
            return "status 8 within 8 times"
        sys.exit("%s within 8 times: status %d" % (self.name, status))

    def tell(self, ordinary):
        read, written, cpu, peak, limited = self.measured()
        times, memory = cpu / (read + written) / ordinary, peak / read
        over = [word for word, is_over in (("TIME", times > AIM_TIME), ("MEMORY", memory > AIM_MEMORY))
                if is_over]
        print("%s, %.1f MB read, %.1f written: status %d, %.2f s; %.2f times the time of a byte, %.2f times"
              " the text in memory, %s%s" % (self.name, read / 1e6, written / 1e6, self.status, cpu, times,
                                             memory, limited, "; ABOVE THE AIM: " + ", ".join(over)
                                             if over else ""), flush=True)


def cases(itfcheck, itffaults, size):
    """The cases, each made when its turn comes."""
    plain, parcels = MODEL % ("AREA", ""), MODEL % ("AREA", NUMBERS)
    cells = int((size / 190) ** 0.5)
    lines, points = grid(cells)
    yield Case("itffaults, a grid", itffaults, [], plain, area(lines, points), 0)
    yield Case("itffaults, no object", itffaults, [], plain, area(lines, []), 1)
    beyond = [(10000 * cells + 100000 + k, 5) for k in range(len(points))]
    yield Case("itffaults, objects outside", itffaults, [], plain, area(lines, beyond), 1)
    inside = [(1000 + k // 1000, 1000 + k % 1000) for k in range(len(points))]
    yield Case("itffaults, objects in one cell", itffaults, [], plain, area(lines, inside), 1)
    ends = [[(a[0] * 2, a[1] * 2), (b[0] * 2 - 1000 * (b[0] > a[0]), b[1] * 2 - 1000 * (b[1] > a[1]))]
            for a, b in lines]
    yield Case("itffaults, straights alone", itffaults, [], plain, area(ends, []), 1)
    star = [[(0, 100 * k), (800000000, 80000000 - 100 * k)] for k in range(1000)]
    yield Case("itffaults, 1,000 lines through each other", itffaults, [], plain, area(star, []), 1)
    star = [[(0, 100 * k), (800000000, 80000000 - 100 * k)] for k in range(4000)]
    yield Case("itffaults, 4,000 lines through each other", itffaults, [], plain, area(star, []), 1)
    fro = [[(1000, 2000)] + [(2000, 1000), (1000, 2000)] * (size // 30)]
    yield Case("itffaults, one line to and fro", itffaults, [], plain, area(fro, []), 1)
    for count in (1000, 2000, 4000):
        yield Case("itffaults, %d circles about one place, one of them crossed" % count, itffaults, [],
                   plain, circles(count), 1)
    hub, count = (100000, 400000), size // 200
    fan = [[hub, (900000, 10 * k)] for k in range(count)]
    yield Case("itffaults, points where straights end", itffaults, [], plain, area(fan, [hub] * count), 1)
    holes = int((size / 200) ** 0.5)
    rings = [square(2000 * i + 1000, 2000 * j + 1000, 1000) for j in range(holes) for i in range(holes)]
    within = [(x + 500, y + 500) for (x, y), *_ in rings]
    holed = area([square(0, 0, 2000 * holes + 1000)] + rings, [(500, 500)] + within)
    yield Case("polygons, one with %d holes" % len(rings), itfcheck, ["polygons"], plain, holed, 0)
    yield Case("canonical, the same", itfcheck, ["canonical"], plain, holed, 0)
    houses = MODEL % ("SURFACE", "")
    yield Case("check, %d SURFACEs of four" % len(rings), itfcheck, ["check"], houses, surfaces(rings), 0)
    teeth = size // 36
    comb = [(20 * i, 500000 + 10 * (i % 2)) for i in range(teeth)] + [(20 * teeth, 0), (0, 0)]
    comb = surfaces([comb + comb[:1]])
    yield Case("check, one SURFACE of %d vertices" % teeth, itfcheck, ["check"], houses, comb, 0)
    numbers = "".join("OBJE %d %d %s\n" % (k, 1 + k % len(points), metres(points[k % len(points)]))
                      for k in range(size // 40))
    linked = area(lines, points, "TABL N\n%sETAB\n" % numbers)
    rule = "LINK T N AT OF F\n"
    rules = rule * (65536 // len(rule))
    yield Case("points, 64 KiB of one rule", itfcheck, ["points"], parcels, linked, 0, rules)


def main():
    itfcheck, itffaults = map(os.path.abspath, sys.argv[1:3])
    size = (int(sys.argv[3]) if len(sys.argv) > 3 else 16) << 20
    os.chdir(tempfile.mkdtemp())
    whole = Case("grid", itfcheck, ["check"], MODEL % ("AREA", ""), area(*grid(300)), 0)
    read, written, cpu, _, _ = whole.measured()
    ordinary = cpu / (read + written)
    print("check of a grid: %.1f ns a byte" % (1e9 * ordinary))
    for case in cases(itfcheck, itffaults, size):
        case.tell(ordinary)


if __name__ == "__main__":
    main()
