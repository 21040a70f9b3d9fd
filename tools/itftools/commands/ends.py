"""Lists the free ends of boundary lines of the areas of a transfer: ends at which no other line begins
or ends. A gap of a millimetre between two lines shows as two of them, side by side.

One line each: topic, table, attribute, the line of the transfer, x and y, and if another end of a
line lies within REACH the nearest one: its line, x, y and the distance. They are hints and no faults: a
line may end within a region, where it is a CUT, or on another line, where it is a MEETING. It proves
nothing.
"""
from itftools.numbers import decimal, units
from itftools.reading.transfer import read_areas
from itftools.shapes.ends import free_ends

SUMMARY = "the free ends of boundary lines: a gap shows as two of them side by side"
EXAMPLE = "itf ends village.ili village.itf --reach 0.1"


def told(area, place, line, nearest):
    """The words of a free end."""
    def at(one):
        return " ".join(decimal(number, area.scale) for number in one)

    words = f"{' '.join(area.words)} {line} {at(place)}"
    if nearest is None:
        return words
    way, other, end = nearest
    return f"{words} {other} {at(end)} {way / 10 ** area.scale:.{area.scale}f}"


def arguments(parser):
    parser.add_argument("model", metavar="MODEL")
    parser.add_argument("transfer", metavar="TRANSFER")
    parser.add_argument("--reach", default="0.1", help="in units of the coordinates (default: 0.1)")


def run(given):
    for area in read_areas((given.model, given.transfer)):
        for end in free_ends(area, units(given.reach, area.scale)):
            print(told(area, *end))
    return 0
