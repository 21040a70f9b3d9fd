"""Files a delivery that was accepted: model, transfer, report, certificates, page and the program itself,
with a manifest that `sha256sum -c` reads, in one folder.

The transfer is checked anew into the folder, which is new: FOLDER, or DATE-NAME beside the transfer. A
transfer that is not accepted is filed with --any alone, and then without certificates. `manifest.json`
tells what each file is, and `SHA256SUMS` has the checksum of each. The folder takes its name when it is
whole. `itf recheck FOLDER` looks at all of it again. With --program the program itself is filed too.
"""
import json
import os
import shutil
import time

from itftools import __version__
from itftools.batching.judging import verdict_of
from itftools.commands.page import write_page
from itftools.delivery import Delivery, Names
from itftools.files import checksum, written
from itftools.program import Program
from itftools.refusal import Refusal
from itftools.saying.words import LANGUAGES

SUMMARY = "one folder with all files of an accepted delivery and their checksums"
EXAMPLE = "itf file village.ili village.itf"
SUMS, MANIFEST, FORMAT = "SHA256SUMS", "manifest.json", "itf-file/1"


def arguments(parser):
    parser.add_argument("model", metavar="MODEL")
    parser.add_argument("transfer", metavar="TRANSFER")
    parser.add_argument("-o", metavar="FOLDER", help="a new folder (default: DATE-NAME beside the transfer)")
    parser.add_argument("--any", action="store_true", help="also where the transfer is not accepted")
    parser.add_argument("--program", action="store_true", help="file the program itself too")
    parser.add_argument("--lang", choices=LANGUAGES, default="de", help="of the page (default: de)")


def run(given):
    name = os.path.splitext(os.path.basename(given.transfer))[0]
    folder = given.o or os.path.join(os.path.dirname(given.transfer), time.strftime("%Y-%m-%d-") + name)
    if os.path.exists(folder):
        raise Refusal("%s is there already" % folder)
    work = folder.rstrip("/") + ".part"
    os.mkdir(work)
    try:
        verdict = fill(given, work)
        os.rename(work, folder)
    except BaseException:
        shutil.rmtree(work)
        raise
    print("%s: %s" % (folder, verdict))
    return 0


def fill(given, work):
    """Makes all files of a delivery in a folder; the verdict."""
    model, transfer = os.path.join(work, "model.ili"), os.path.join(work, "transfer.itf")
    shutil.copyfile(given.model, model)
    shutil.copyfile(given.transfer, transfer)
    program, report = Program("itfcheck"), os.path.join(work, "report.txt")
    certificate, faults = os.path.join(work, "certificate.txt"), os.path.join(work, "faults.txt")
    status, text = program.run("check", model, transfer, certificate)
    with open(report, "wb") as file:
        file.write(text)
    verdict = verdict_of(status, report).verdict
    if verdict != "ACCEPTED" and not given.any:
        raise Refusal("the transfer is not accepted: %s (file it with --any)" % verdict)
    Program("itffaults").run(model, transfer, faults)
    listed = faults if os.path.exists(faults) else None
    delivery = Delivery(Names(model, transfer, report, listed)).with_hints()
    write_page(delivery, os.path.join(work, "page.html"), given.lang)
    if given.program:
        shutil.copy(program.path, os.path.join(work, "itfcheck"))
    about = {"format": FORMAT, "date": time.strftime("%Y-%m-%dT%H:%M:%S%z"), "verdict": verdict, "status": status,
             "model": os.path.basename(given.model), "transfer": os.path.basename(given.transfer),
             "itfcheck_sha256": program.checksum, "itftools": __version__}
    written(os.path.join(work, MANIFEST), json.dumps(about, indent=1, sort_keys=True) + "\n")
    written(os.path.join(work, SUMS), "".join("%s  %s\n" % (checksum(os.path.join(work, name)), name)
                                             for name in sorted(os.listdir(work))))
    return verdict
