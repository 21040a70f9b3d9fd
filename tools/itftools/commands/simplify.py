"""Writes a copy of a transfer in which arcs with a fork, and arcs of some millimetres, are chains of straights.

It is for areas that are undecided.
A fork is a vertex that two curves leave in nearly one direction (8 |cross| <= dot of the two directions),
one of them an arc at least: no level of the check can part them. The arc of the less radius becomes the
chain of the inner corners of its tube, at the least level that is within the bound of the arc. Each
replaced arc is a line of the output: topic, table, attribute, the line of its ARCP in TRANSFER and its
number of lines in COPY, radius, and how far the chain is from the arc at most. An arc of less than 20 mm,
which no level encloses, becomes two straights. An arc that nothing brings within the bound is told, and
stays. All other lines are copied byte by byte.

What a verdict on the copy is worth: COPY accepted says that the areas are partitions when each arc that is
listed is drawn as its chain, at most so far from it as is told. Of TRANSFER itself nothing is proved by it:
its arcs may still meet what their chains do not. COPY rejected says nothing against TRANSFER where a chain
is named: it may cross what its arc does not. Deliver, file and certify TRANSFER, never COPY, and call
TRANSFER undecided. Arcs of SURFACEs stay. A transfer with a finding in a line or point of an area is
refused.
"""
from itftools.files import apart, written_bytes
from itftools.numbers import decimal, units
from itftools.reading.model import model_in
from itftools.reading.transfer import Form, logical_lines, part_of
from itftools.shapes.chains import chain_within, forked, tiny
from itftools.shapes.regions import circle

SUMMARY = "a copy in which arcs that hinder a verdict are chains of straights, for undecided areas"
EXAMPLE = "itf simplify village.ili village.itf -o copy.itf"
NOTE = b"copy by itf simplify: %d arcs are chains of straights; a verdict on this is on the copy"


def arguments(parser):
    parser.add_argument("model", metavar="MODEL")
    parser.add_argument("transfer", metavar="TRANSFER")
    parser.add_argument("-o", metavar="COPY", required=True)
    parser.add_argument("--bound", default="0.020", help="in units of the coordinates (default: 0.020)")


class Chain:
    """An arc that is replaced: its lines, its corners but start and end, and how far they are from it."""

    def __init__(self, area, first, halves, way):
        self.area, self.line, self.end_line = area, area.lines[first], area.lines[first + 1]
        self.corners = halves[0][1:] + halves[1][1:-1]
        self.radius, self.way = circle(area.curve(first))[2], way

    def texts(self):
        return [b"LIPT " + " ".join(decimal(value, self.area.scale) for value in corner).encode("ascii")
                for corner in self.corners]

    def told(self):
        scale = self.area.scale
        return "%s %d as %d lines, radius %.*f, moved by at most %.*f" % (
            " ".join(self.area.words), self.line, len(self.corners) + 1, scale, self.radius / 10 ** scale,
            scale + 1, self.way / 10 ** scale)


def run(given):
    apart([given.o], [given.model, given.transfer])
    model = model_in(given.model)
    with open(given.transfer, "rb") as file:
        Form(logical_lines(file, model.goes_on), model).text()
    chains, stay = {}, 0
    for area in model.areas:
        bound = units(given.bound, area.scale)
        small = tiny(area)
        for first in sorted(forked(area) | small):
            found = [chain_within(area.curve(index), bound, first in small) for index in (first, first + 1)]
            if None in found:
                stay += 1
                print("%s %d stays: no chain is within %s" % (" ".join(area.words), area.lines[first], given.bound))
                continue
            chain = Chain(area, first, [chain for chain, _ in found], max(way for _, way in found))
            chains[chain.line] = chain
            print(chain.told())
    with open(given.transfer, "rb") as file:
        written_bytes(given.o, copied(file.read(), chains, model.goes_on))
    print("%d arcs replaced, %d with a fork stay; a verdict on the copy is on the copy" % (len(chains), stay))
    print("of TRANSFER nothing is proved by it: see `itf simplify --help`")
    return 0


def copied(text, chains, goes_on):
    """The bytes of a transfer with chains in the place of the lines of their ARCP, continued ones too."""
    lines, made, number, in_head = text.split(b"\n"), [], 0, True
    while number < len(lines):
        line = lines[number]
        number += 1
        end = b"\r" if line.endswith(b"\r") else b""
        if in_head and line.rstrip(b" \t\r") == b"////":
            made.append(NOTE % len(chains) + end)
            in_head = False
        chain = chains.get(number)
        if chain is None:
            made.append(line)
            continue
        made += [corner + end for corner in chain.texts()]
        while part_of(line.decode("latin-1").rstrip("\r"), goes_on)[1]:
            line = lines[number]
            number += 1
    return b"\n".join(made)
