#!/usr/bin/env python3
"""Compares the lines SURFACE of the built program with a plain reading, over all small sets of edges.

usage: small_surfaces.py ITFCHECK [MOST]      MOST: edges of a set, else 4

Of the 36 straights between three times three places all sets of up to that many are tried, each as the
one object of a table of its own, a thousand tables in one model. The answers have to be those of
plain_surfaces.py. It stops at the first difference.
"""
import itertools
import os
import subprocess
import sys
import tempfile

import plain_surfaces
from random_drawings import metres

PLACES = [(1000 * x, 1000 * y) for x in range(3) for y in range(3)]
EDGES = list(itertools.combinations(PLACES, 2))
TABLES = 1000


def model(count):
    tables = "".join(
        "TABLE H%d = F: SURFACE WITH (STRAIGHTS) VERTEX Koord; NO IDENT END H%d;\n" % (n, n)
        for n in range(count))
    return ("TRANSFER Bench; DOMAIN Koord = COORD2 0.000 0.000 1000.000 1000.000;\n"
            "MODEL Bench TOPIC Land =\n" + tables + "END Land. END Bench.\nFORMAT FREE;\n"
            "CODE BLANK = DEFAULT, UNDEFINED = DEFAULT, CONTINUE = DEFAULT; TID = ANY; END.\n")


def transfer(sets):
    """The text, and for each set the line of its object and those of its edges."""
    lines, places = ["SCNT", "////", "MTID Bench", "MODL Bench", "TOPI Land"], []
    for number, edges in enumerate(sets):
        lines += ["TABL H%d" % number, "OBJE 1", "ETAB", "TABL H%d_F" % number]
        owner, of_edges = len(lines) - 2, []
        for row, (start, end) in enumerate(edges, 1):
            lines += ["OBJE %d 1" % row, "STPT " + metres(start), "LIPT " + metres(end), "ELIN"]
            of_edges.append(len(lines) - 1)
        lines.append("ETAB")
        places.append((owner, of_edges))
    return "\n".join(lines + ["ETOP", "EMOD", "ENDE", ""]), places


def wanted(edges, owner, lines):
    """All right answers."""
    if not edges:
        return ["PROVED 0 0"]
    kind, *names = plain_surfaces.decide(edges)
    if kind == "MEETING":
        return ["MEETING %d %d" % (lines[a], lines[b]) for a, b in names[0]]
    if kind == "ODD":
        return ["ODD %d" % lines[names[0]]]
    return ["PARTS %d" % owner] if kind == "PARTS" else ["PROVED 1 0"]


def compare(program, folder, sets):
    text, places = transfer(sets)
    for name, content in (("M", model(len(sets))), ("T", text)):
        with open(f"{folder}/{name}", "w") as file:
            file.write(content)
    done = subprocess.run([program, "check", "M", "T", "C"], cwd=folder, stdout=subprocess.PIPE)
    report = done.stdout.decode().splitlines()
    for number, (edges, place) in enumerate(zip(sets, places)):
        answers = ["SURFACE Land H%d F %s" % (number, told) for told in wanted(edges, *place)]
        if number >= len(report) or report[number] not in answers:
            sys.exit(f"{edges}: {report[number:number + 1]}, and the plain way: {answers}")


def main():
    program, most = os.path.abspath(sys.argv[1]), int((sys.argv + ["4"])[2])
    sets = [edges for size in range(most + 1) for edges in itertools.combinations(EDGES, size)]
    with tempfile.TemporaryDirectory() as folder:
        for first in range(0, len(sets), TABLES):
            compare(program, folder, sets[first:first + TABLES])
    print(f"{len(sets)} sets of edges, no difference")


if __name__ == "__main__":
    main()
