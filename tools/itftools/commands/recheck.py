"""Looks again at a folder of `itf file`: its checksums, its report, and its certificates by `verify`.

It runs `itfcheck verify`, which proves the areas from model, transfer and certificates, and whose report
has to be that of the folder; of a delivery that was not accepted `check` is run instead. With --certcheck it runs that
program too, which is another reading of the certificates. It says whether the program is the one that
made the folder; another one has to give the same report all the same.

Status: 0 all is as it was filed, 1 something differs, with a line that says what.
"""
import json
import os
import re
import subprocess
import tempfile

from itftools.commands.file import FORMAT, MANIFEST, SUMS
from itftools.files import checksum
from itftools.program import Program
from itftools.refusal import Refusal

SUMMARY = "looks again at a folder of `itf file`: checksums, report, certificates"
EXAMPLE = "itf recheck 2026-12-02-village"
LINE = re.compile(r"([0-9a-f]{64})  ([A-Za-z0-9._-]+)")


def arguments(parser):
    parser.add_argument("folder", metavar="FOLDER")
    parser.add_argument("--certcheck", metavar="PROGRAM", help="a built tools/certcheck, to run as well")


def run(given):
    names = sums_of(given.folder)
    print("%d files have their checksums" % len(names))
    with open(os.path.join(given.folder, MANIFEST), encoding="utf-8") as file:
        about = json.load(file)
    if about.get("format") != FORMAT:
        raise Refusal("manifest.json is of another form")
    program = Program("itfcheck")
    same = "the program that made the folder" if program.checksum == about["itfcheck_sha256"] else "another program"
    report = answer(given.folder, program, about["verdict"] == "ACCEPTED")
    with open(os.path.join(given.folder, "report.txt"), "rb") as file:
        filed = file.read()
    if report != (areas_alone(filed) if about["verdict"] == "ACCEPTED" else filed):
        raise Refusal("the report is another one now, by " + same)
    print("the report is the same, by " + same)
    if given.certcheck:
        again(given, about)
    return 0


def sums_of(folder):
    """The names in SHA256SUMS; a Refusal where a file differs, is lost, or is not in it."""
    with open(os.path.join(folder, SUMS), encoding="ascii") as file:
        lines = file.read().splitlines()
    names = set()
    for line in lines:
        found = LINE.fullmatch(line)
        if not found:
            raise Refusal("%s has a line that is none: %s" % (SUMS, line[:100]))
        if checksum(os.path.join(folder, found.group(2))) != found.group(1):
            raise Refusal("%s is not as it was filed" % found.group(2))
        names.add(found.group(2))
    surplus = sorted(set(os.listdir(folder)) - names - {SUMS})
    if surplus:
        raise Refusal("%s has no line for %s" % (SUMS, surplus[0]))
    return names


def answer(folder, program, is_accepted):
    """What the program says today; of an accepted delivery by its certificates."""
    model, transfer = os.path.join(folder, "model.ili"), os.path.join(folder, "transfer.itf")
    if is_accepted:
        return program.run("verify", model, transfer, os.path.join(folder, "certificate.txt"))[1]
    with tempfile.TemporaryDirectory(prefix="itf.") as work:
        return program.run("check", model, transfer, os.path.join(work, "certificate"))[1]


def areas_alone(report):
    """A report of `check` as `verify` has it, without the lines of SURFACEs."""
    return b"".join(line for line in report.splitlines(True) if not line.startswith(b"SURFACE "))


def again(given, about):
    """Another reading of the certificates."""
    if about["verdict"] != "ACCEPTED":
        raise Refusal("there are no certificates: the delivery was not accepted")
    names = [os.path.join(given.folder, name) for name in ("model.ili", "transfer.itf", "certificate.txt")]
    ended = subprocess.run([given.certcheck, *names], stdout=subprocess.PIPE, stderr=subprocess.STDOUT)
    told = ended.stdout.decode("latin-1").strip()
    if ended.returncode != 0 or told != "PROVED":
        raise Refusal("certcheck says: %s (status %d)" % (told[:200], ended.returncode))
    print("certcheck finds the areas proved")
