"""Writes the layers of a delivery for a GIS: faults, lines, points of objects with the columns of their
table, and parcels of the areas that the report proves.

The ending of the output says the form: .gpkg a GeoPackage with all layers and their styles for QGIS;
.geojson or .csv the faults alone, one feature or row each, in a table the shape as WKT. What has no
place comes as a row without one. REPORT and FAULTS as of `itf page`; without them the programs are run.
"""
import os

from itftools.commands.common import delivery_arguments, delivery_of
from itftools.files import apart, written
from itftools.layers.csv import csv_text
from itftools.layers.geojson import geojson_text
from itftools.layers.gpkg import package
from itftools.layers.layers import layers_of, of_facts
from itftools.reading import polygons
from itftools.refusal import Refusal

SUMMARY = "GeoPackage with styles, GeoJSON or CSV, of faults, lines, points and parcels"
EXAMPLE = "itf layers village.ili village.itf -o village.gpkg"


def arguments(parser):
    delivery_arguments(parser)
    parser.add_argument("-o", metavar="OUT", required=True, help="OUT.gpkg, OUT.geojson or OUT.csv")
    parser.add_argument("--polygons", metavar="P", help="take the parcels from this file of `itfcheck polygons`")


def run(given):
    form = os.path.splitext(given.o)[1].lower()
    if form not in (".gpkg", ".geojson", ".csv"):
        raise Refusal("the output ends in none of .gpkg, .geojson, .csv: " + given.o)
    apart([given.o], [given.model, given.transfer, given.report, given.faults, given.polygons])
    delivery = delivery_of(given, with_objects=form == ".gpkg")
    if form == ".gpkg":
        package(layers_of(delivery, polygons_in(given.polygons)), delivery.crs, given.o)
    else:
        written(given.o, (geojson_text if form == ".geojson" else csv_text)(of_facts(delivery), delivery.crs))
    print("%d faults and places that are not judged, reference system %s (%s)" % (
        len(delivery.facts), delivery.crs or "unknown", delivery.crs_from))
    return 0


def polygons_in(name):
    """The areas of a file of polygons that are not skipped, by their names."""
    if name is None:
        return {}
    with open(name, encoding="latin-1") as file:
        return {tuple(names): objects for names, objects in polygons.read(file.read()) if objects is not None}
