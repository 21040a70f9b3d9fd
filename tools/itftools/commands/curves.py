"""Prints the curves and points of the areas of a transfer, as second checkers read them.

Each area is a line `AREA topic table attribute` and a line `W` with the window of its vertices and
the overlap that it permits; then a line for each of its curves, `S` for a straight and `H` for a
half arc, and one for each point, `P`, all in units of the last decimal. It reads the model and the
transfer in its own plain way, and checks neither: a transfer that itfcheck rejects may be read as if
it were good. bench/second_checker.py reads this text.
"""
from itftools.reading.transfer import read_areas

SUMMARY = "the curves and points of areas, as text for second checkers"
EXAMPLE = "itf curves village.ili village.itf > drawing"


def parts(area):
    """The lines of an area."""
    yield " ".join(("AREA",) + area.words)
    yield "W %d %d %d %d %d" % (*area.window, area.overlap)
    for index in range(len(area.lines)):
        start, end, third = area.curve(index)
        places = (start, end) if third is None else (start, end, third)
        yield " ".join(["S" if third is None else "H"] + ["%d %d" % place for place in places])
    for index in range(len(area.rows)):
        yield "P %d %d" % area.point(index)


def arguments(parser):
    parser.add_argument("model", metavar="MODEL")
    parser.add_argument("transfer", metavar="TRANSFER")


def run(given):
    for area in read_areas((given.model, given.transfer)):
        print("\n".join(parts(area)))
    return 0
