"""Says in words what a report of itfcheck names: table, object, attribute, place and line.

REPORT is the output of `itfcheck check`, `verify`, `points` or another command for this model and this
transfer, saved to a file, or `-` for standard input; or the file of `itffaults`, of which each fault is
told. Without REPORT the programs are run. With --links it tells each rule of a report of `points` too.
Each line of REPORT is printed, and under it, indented, what it names. Of OUTSIDE and TWO the nearest
free ends are told, that is ends of boundary lines at which no other one begins or ends; of EMPTY and TWO
the size of the region; of LINK where the point lies. Of a model or a transfer that is refused it tells
what could stand at that place, and what may be the cause. What begins with `hint:` is this tool's own,
and no finding.

It proves nothing. It reads the model and the transfer in its own plain way, takes each answer from
the report as it stands, and checks none.
"""
from itftools.commands.common import checked_names, read_arguments
from itftools.delivery import Delivery
from itftools.saying.tell import Teller

SUMMARY = "a report in words: table, object, attribute, place, line, and likely causes"
EXAMPLE = "itf tell village.ili village.itf"


def arguments(parser):
    read_arguments(parser)
    parser.add_argument("--links", metavar="LINKS", help="the file of the links that `points` read")


def run(given):
    with checked_names(given) as names:
        for line in Teller(Delivery(names), given.links).told():
            print(line)
    return 0
