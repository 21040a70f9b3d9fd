"""Draws the areas of a transfer, and marks in them what a report of itfcheck names.

REPORT is the output of `itfcheck check` or `itfcheck verify` for this model and this transfer,
saved to a file, or `-` for standard input; or the file of `itffaults` with all faults, of which
there is no SVG. Without REPORT `itfcheck check` is run. FOLDER gets one SVG for each AREA attribute,
named TOPIC.TABLE.ATTRIBUTE.svg, `areas.geojson` with all of them, and `faults.dxf`, for a CAD, with the
faults and findings alone.

It proves nothing. It reads the model and the transfer in its own plain way, takes each answer from
the report as it stands, and checks none. A transfer with a structure fault is not drawn. Of one
with findings the places of the findings are marked, and what cannot be read is left out.

Coordinates in areas.geojson are those of the transfer, x and y. No coordinate reference system is
named there: the GIS has to be told the one of the delivery. A straight is exact; a half arc is a
polyline with a vertex at least every 5 degrees of its circle. Each SVG has arcs as arcs.
"""
from itftools.commands.common import checked_names, read_arguments
from itftools.delivery import Delivery
from itftools.drawing.pictures import Drawing, ListedDrawing

SUMMARY = "an SVG of each area with its fault, and faults for a GIS and a CAD"
EXAMPLE = "itf draw --faults village.ili village.itf pictures"


def arguments(parser):
    read_arguments(parser)
    parser.add_argument("folder", metavar="FOLDER")
    parser.add_argument("--faults", action="store_true", dest="faults_alone",
                        help="no SVG of an area without a fault, and no lines but those that are named")
    parser.add_argument("--whole", action="store_true", help="the whole area, and not the fault's surroundings")


def run(given):
    with checked_names(given) as names:
        if not given.report:
            names.faults = None         # a picture has the fault that the report names
        delivery = Delivery(names, areas="faults" if given.faults_alone else "all")
    if delivery.told.verdict is None and delivery.has_list:
        ListedDrawing(delivery).write(given.folder)
    else:
        Drawing(delivery, given.faults_alone).write(given.folder, given.whole)
    return 0
