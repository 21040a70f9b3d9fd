"""The command `itf`: its subcommands in one table. Each is a module of itftools.commands."""
import argparse
import importlib
import os
import sys

from itftools import __version__
from itftools.refusal import Refusal
from itftools.statuses import NOT_DONE, TOLD, WRONG_WORDS

# Each module has SUMMARY, EXAMPLE, `arguments(parser)`, and `run(given)`, which gives the status.
COMMANDS = ("page", "layers", "tell", "batch", "simplify", "file", "recheck", "draw", "ends", "curves")


class Parser(argparse.ArgumentParser):
    """Words that are wrong have the status that they have of itfcheck."""

    def error(self, message):
        self.print_usage(sys.stderr)
        self.exit(WRONG_WORDS, "%s: %s\n" % (self.prog, message))


def parser():
    whole = Parser(
        prog="itf", description="Tools about itfcheck for people. They prove nothing.",
        epilog=TOLD)
    whole.add_argument("--version", action="version", version="itftools " + __version__)
    every = whole.add_subparsers(dest="command", metavar="COMMAND")
    every.required = True
    for name in COMMANDS:
        module = importlib.import_module("itftools.commands." + name)
        one = every.add_parser(name, help=module.SUMMARY, description=module.__doc__,
                               epilog="example: %s\n\n%s" % (module.EXAMPLE, TOLD),
                               formatter_class=argparse.RawDescriptionHelpFormatter)
        module.arguments(one)
        one.set_defaults(run=module.run)
    return whole


def main(words=None):
    if not (sys.argv[1:] if words is None else words):
        parser().print_help(sys.stderr)
        return WRONG_WORDS
    given = parser().parse_args(words)
    try:
        return given.run(given)
    except BrokenPipeError:
        os.dup2(os.open(os.devnull, os.O_WRONLY), sys.stdout.fileno())
        return NOT_DONE
    except (OSError, Refusal) as why:
        print("itf %s: not done: %s" % (given.command, why), file=sys.stderr)
        return NOT_DONE
    except MemoryError:
        print("itf %s: not done: memory ran out" % given.command, file=sys.stderr)
        return NOT_DONE
    except (IndexError, KeyError, ValueError) as why:
        print("itf %s: not done: a file has a line that is none: %r" % (given.command, why), file=sys.stderr)
        return NOT_DONE
