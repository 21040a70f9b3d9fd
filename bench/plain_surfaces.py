#!/usr/bin/env python3
"""The boundary of a surface of straights a second time, in plain Python.

Written from the rule alone, and not from the code of the crates: no two edges meet badly, each end
is that of an even number of edges, and the places over or under which an odd number of edges stands
are all joined. Pairs and cells are those of plain_partition.py.

usage: plain_surfaces.py EDGES

EDGES has a line `S x y x y` for each edge. Prints HOLDS; MEETING and all pairs that meet badly; ODD
and the least edge with an end of odd degree; or PARTS. random_surfaces.py imports parts of it.
"""
import sys
from collections import Counter

from plain_partition import Cells, bad_pairs


def inside(edges):
    """The faces of the places over an odd number of edges."""
    cells = Cells(edges)
    return {
        cells.union.root((slab, below))
        for slab in range(len(cells.breaks) + 1)
        for below in range(1, len(cells.across(slab)) + 1, 2)
    }


def decide(edges):
    """The answer: its kind and its names; for MEETING all pairs that may be named."""
    pairs = bad_pairs(edges)
    if pairs:
        return ("MEETING", pairs)
    degree = Counter(end for edge in edges for end in edge)
    odd = [number for number, edge in enumerate(edges) if any(degree[end] % 2 for end in edge)]
    if odd:
        return ("ODD", odd[0])
    return ("HOLDS",) if len(inside(edges)) == 1 else ("PARTS",)


def main():
    edges = []
    with open(sys.argv[1]) as file:
        for line in file:
            numbers = tuple(map(int, line.split()[1:]))
            edges.append((numbers[:2], numbers[2:]))
    kind, *names = decide(edges)
    if kind == "MEETING":
        names = ["%d-%d" % pair for pair in names[0]]
    print(kind, *names)


if __name__ == "__main__":
    main()
