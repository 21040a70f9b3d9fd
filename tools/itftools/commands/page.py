"""Makes one page of a check for a browser: verdict, table, map and list of faults.

REPORT is the output of `itfcheck check` for this model and this transfer, FAULTS the file of `itffaults`
for the same two, or `-` where there is none: then the page has the faults that the report names, and
says that there may be more. Without REPORT and FAULTS the two programs are run. The page is one HTML file
that asks nothing of a network. --json gets a summary for programs, --gpkg the layers of `itf layers`. The
reference system is LV95 or LV03 where all places lie in Switzerland, unless --crs names it.

It proves nothing. It refuses a line that it does not know, and files that are not of one delivery, as
far as their lines show it.
"""
import json

from itftools.commands.common import delivery_arguments, delivery_of
from itftools.files import apart, written
from itftools.layers.gpkg import package
from itftools.layers.layers import layers_of
from itftools.saying.page import html, page_data
from itftools.saying.summary import summary
from itftools.saying.words import LANGUAGES

SUMMARY = "one HTML page of a check: verdict, table, map and list of faults"
EXAMPLE = "itf page village.ili village.itf -o page.html"


def arguments(parser):
    delivery_arguments(parser)
    parser.add_argument("-o", metavar="PAGE", required=True, help="the page, an HTML file")
    parser.add_argument("--json", metavar="FILE", help="a summary for programs")
    parser.add_argument("--gpkg", metavar="FILE", help="a GeoPackage, as of `itf layers`")
    parser.add_argument("--lang", choices=LANGUAGES, default="de", help="the first language (default: de)")


def run(given):
    apart([given.o, given.json, given.gpkg], [given.model, given.transfer, given.report, given.faults])
    delivery = delivery_of(given, with_objects=bool(given.gpkg))
    told = write_page(delivery, given.o, given.lang, given.json)
    if given.gpkg:
        package(layers_of(delivery), delivery.crs, given.gpkg)
    print("%s: %d faults and places that are not judged, reference system %s (%s)" % (
        told["verdict"], len(told["faults"]), delivery.crs or "unknown", delivery.crs_from))
    return 0


def write_page(delivery, page, language, json_name=None):
    """Writes the page, and the summary where it is wanted; the summary."""
    told = summary(delivery)
    if json_name:
        written(json_name, json.dumps(told, indent=1, ensure_ascii=True) + "\n")
    written(page, html(page_data(delivery, told, language)))
    return told
