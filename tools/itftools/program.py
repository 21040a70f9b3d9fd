"""Finds the two programs, `itfcheck` and `itffaults`, and runs them. What they answer is not looked into.

A program is the file that the variable ITFCHECK or ITFFAULTS names; else the one beside the package; else
the one that the script of the checkout or archive in which the package stands would run; else the first on
the PATH. The script itself is not taken, since it may build for an hour.
"""
import os
import shutil
import subprocess

from itftools.files import checksum
from itftools.refusal import Refusal
from itftools.statuses import JUDGED

PACKAGE = os.path.dirname(os.path.abspath(__file__))
CHECKOUT = os.path.dirname(os.path.dirname(PACKAGE))


def find(name):
    """The path of a program."""
    named = os.environ.get(name.upper())
    if named:
        if not os.access(named, os.X_OK) or os.path.isdir(named):
            raise Refusal("%s names no program: %s" % (name.upper(), named))
        return named
    for place in (os.path.join(PACKAGE, name), chosen(os.path.join(CHECKOUT, name))):
        if os.access(place, os.X_OK) and os.path.isfile(place):
            return place
    found = shutil.which(name)
    if found is None:
        raise Refusal("no program %s: call ./%s at the top of the checkout once, which builds it, or set %s to the path of"
                      " a built one" % (name, name, name.upper()))
    return found


def chosen(script):
    """The path of the program that the script of that path would run, or one of nothing. It builds none."""
    if not os.access(script, os.X_OK) or os.path.isdir(script):
        return ""
    ended = subprocess.run([script, "--program"], stdin=subprocess.DEVNULL, stdout=subprocess.PIPE,
                           stderr=subprocess.DEVNULL)
    return os.fsdecode(ended.stdout[:-1]) if ended.returncode == 0 else ""


class Program:
    """A program, by its path; `checksum` is that of its file."""

    def __init__(self, name):
        self.name, self.path = name, find(name)
        self.checksum = checksum(self.path)

    def run(self, *words):
        """The status and the output. A status below 0 is the signal that ended the program."""
        words = [os.path.join(".", word) if word.startswith("-") else word for word in words]
        ended = subprocess.run([self.path, *words], stdin=subprocess.DEVNULL, stdout=subprocess.PIPE,
                               stderr=subprocess.DEVNULL)
        return ended.returncode, ended.stdout


def checked(model, transfer, folder):
    """Runs both programs, and writes their texts into a folder: the names of report and faults.

    The second is None where there is no file of faults: the model was refused, or a limit is passed.
    """
    report, faults = os.path.join(folder, "report"), os.path.join(folder, "faults")
    status, text = Program("itfcheck").run("check", model, transfer, os.path.join(folder, "certificate"))
    if not text:
        raise Refusal("itfcheck wrote no report: its status was %d" % status)
    with open(report, "wb") as file:
        file.write(text)
    if status in JUDGED:
        status, _ = Program("itffaults").run(model, transfer, faults)
        if not os.path.exists(faults):
            raise Refusal("itffaults wrote no file: its status was %d" % status)
    return report, faults if os.path.exists(faults) else None
