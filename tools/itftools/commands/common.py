"""What several subcommands have in common: the words that name a delivery."""
import contextlib
import tempfile

from itftools.delivery import Delivery, Names
from itftools.program import checked
from itftools.refusal import Refusal

SYSTEMS = ("guess", "none", "2056", "21781")


def read_arguments(parser):
    parser.add_argument("model", metavar="MODEL")
    parser.add_argument("transfer", metavar="TRANSFER")
    parser.add_argument("report", metavar="REPORT", nargs="?",
                        help="the output of `itfcheck check`, or a file of `itffaults`; without, the programs are run")


def delivery_arguments(parser):
    parser.add_argument("model", metavar="MODEL")
    parser.add_argument("transfer", metavar="TRANSFER")
    parser.add_argument("report", metavar="REPORT", nargs="?", help="the output of `itfcheck check`")
    parser.add_argument("faults", metavar="FAULTS", nargs="?", help="the file of `itffaults`, or -")
    parser.add_argument("--crs", choices=SYSTEMS, default="guess",
                        help="reference system: LV95 is 2056, LV03 is 21781 (default: guess)")


@contextlib.contextmanager
def checked_names(given):
    """The names of a delivery's files; the programs are run where REPORT is not given."""
    faults = getattr(given, "faults", None)
    if given.report:
        yield Names(given.model, given.transfer, given.report, None if faults == "-" else faults)
        return
    with tempfile.TemporaryDirectory(prefix="itf.") as folder:
        yield Names(given.model, given.transfer, *checked(given.model, given.transfer, folder))


def delivery_of(given, with_objects=False):
    """The delivery that the words name, of a check, with the hints of pages and layers."""
    if given.report and not given.faults:
        raise Refusal("REPORT and FAULTS are given together, or neither; FAULTS may be -")
    with checked_names(given) as names:
        return Delivery(names, given.crs, with_objects).of_check().with_hints()
