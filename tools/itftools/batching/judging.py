"""Judges one delivery of a batch, and keeps what came of it in a folder of its own.

The folder takes its name when it is whole, with `result.json` in it. A verdict is taken where the
program ended with the status of that verdict and its report is whole and says the same, and where the
transfer did not change meanwhile. All else is NOT JUDGED, with the reason, and never a verdict.
"""
import contextlib
import json
import os
import platform
import shutil
import subprocess
import sys
import time
from collections import Counter

from itftools import __version__
from itftools.batching.sources import UNPACKED
from itftools.facts import Facts
from itftools.files import sums, text_in, written
from itftools.refusal import Refusal
from itftools.statuses import JUDGED

NOT_JUDGED = "NOT JUDGED"
RESULT, WORK = "result.json", ".work"
TOOL = [sys.executable, "-m", "itftools"]
HERE = os.path.dirname(os.path.dirname(os.path.dirname(os.path.abspath(__file__))))


class Judge:
    """What all deliveries of a batch have in common: the model, the programs, the folder and the pages."""

    def __init__(self, model, programs, out, language, with_pages=True, timeout=None):
        self.model, self.programs, self.out = model, programs, out
        self.language, self.with_pages, self.timeout = language, with_pages, timeout
        self.common = {"model_sha256": sums(model)[1], "tools": __version__, "pages": with_pages,
                       **{name + "_sha256": program.checksum for name, program in programs.items()}}

    def kept(self, source):
        """The result that is kept of a delivery, or None where it is to be judged (again)."""
        name = os.path.join(self.out, source.folder, RESULT)
        try:
            with open(name, encoding="utf-8") as file:
                result = json.load(file)
            is_same = all(result.get(key) == value for key, value in self.common.items())
            if (not is_same or result["verdict"] == NOT_JUDGED or result["again"]
                    or result["name"] != printable(source.name)):
                return None
            work = self.work(source)
            os.makedirs(work, exist_ok=True)
            try:
                _, checksum = sums(source.copy(work))
            finally:
                shutil.rmtree(work)
            return result if result["sha256"] == checksum else None
        except (OSError, ValueError, KeyError):
            return None

    def work(self, source):
        """A folder for a delivery while it is judged, by this process of this machine."""
        return os.path.join(self.out, WORK, "%s~%d~%s" % (platform.node(), os.getpid(), source.folder))

    def judge(self, source):
        """Judges a delivery and keeps what came of it; its result."""
        work = self.work(source)
        shutil.rmtree(work, ignore_errors=True)
        os.makedirs(work)
        began = time.time()
        result = {"name": printable(source.name), "folder": source.folder, **self.common, "verdict": NOT_JUDGED,
                  "status": None, "objects": None, "counts": {}, "bytes": None, "sha256": None, "why": "", "notes": [],
                  "again": False}
        try:
            self.into(result, source, work)
        except Exception as why:        # whatever it is, it is no verdict, and the next delivery is judged
            result["verdict"], result["why"] = NOT_JUDGED, printable(str(why) or repr(why))
        shutil.rmtree(os.path.join(work, UNPACKED), ignore_errors=True)
        result["seconds"] = round(time.time() - began, 2)
        written(os.path.join(work, RESULT), json.dumps(result, indent=1, sort_keys=True) + "\n")
        self.keep(work, os.path.join(self.out, source.folder))
        return result

    def into(self, result, source, work):
        transfer = source.copy(work)
        result["bytes"], result["sha256"] = sums(transfer)
        report, certificate = os.path.join(work, "report"), os.path.join(work, "certificate")
        with open(report, "wb") as file:
            status = self.run("itfcheck", file, "check", self.model, transfer, certificate)
        result["status"] = status
        told = verdict_of(status, report)
        faults = os.path.join(work, "faults")
        ended = self.run("itffaults", subprocess.DEVNULL, self.model, transfer, faults)
        if ended not in (0, 1, 2):
            result["notes"].append("no list of all faults: %s" % ended_with(ended))
            result["again"] = ended < 0         # ended by a signal, perhaps with the whole batch
        if (result["bytes"], result["sha256"]) != sums(transfer):
            raise Refusal("the transfer changed while it was judged")
        listed = faults if ended in (0, 1, 2) and os.path.exists(faults) else "-"
        self.count(result, report, listed)
        if self.with_pages:
            self.page(result, transfer, report, listed, work)
        result["verdict"], result["objects"] = told.verdict, told.objects

    def run(self, name, output, *words):
        """The status with which a program ended; a Refusal after too long a time."""
        words = [os.path.abspath(word) if word.startswith("-") else word for word in words]
        try:
            return subprocess.run([self.programs[name].path, *words], stdin=subprocess.DEVNULL, stdout=output,
                                  stderr=subprocess.DEVNULL, timeout=self.timeout).returncode
        except subprocess.TimeoutExpired:
            raise Refusal("%s did not end within %g seconds" % (name, self.timeout))

    @staticmethod
    def count(result, report, listed):
        """How many faults, and places that are not judged, there are of each kind."""
        try:
            facts = Facts(text_in(report), None if listed == "-" else text_in(listed))
        except (Refusal, ValueError, KeyError, IndexError) as why:
            result["notes"].append("the faults are not counted: %s" % printable(str(why)))
            return
        result["counts"] = dict(sorted(Counter(fact.kind for fact in facts.facts).items()))

    def page(self, result, transfer, report, listed, work):
        """The page is made by a process of its own; where there is none, the verdict stays."""
        paths = os.pathsep.join(filter(None, [HERE, os.environ.get("PYTHONPATH")]))
        words = [self.model, transfer, report, listed, "-o", os.path.join(work, "page.html"), "--lang", self.language]
        try:
            made = subprocess.run([*TOOL, "page", *words], stdin=subprocess.DEVNULL, stdout=subprocess.DEVNULL,
                                  stderr=subprocess.PIPE, env={**os.environ, "PYTHONPATH": paths}, timeout=self.timeout)
        except subprocess.TimeoutExpired:
            result["notes"].append("no page: it was not made within %g seconds" % self.timeout)
            return
        if made.returncode != 0:
            lines = made.stderr.decode("utf-8", "replace").strip().splitlines()
            result["again"] = result["again"] or made.returncode < 0
            result["notes"].append("no page: " + printable(lines[-1] if lines else ended_with(made.returncode)))

    @staticmethod
    def keep(work, folder):
        """Puts a whole folder in the place of an earlier one."""
        old = work + ".old"
        shutil.rmtree(old, ignore_errors=True)
        if os.path.exists(folder):
            os.replace(folder, old)
        os.replace(work, folder)
        shutil.rmtree(old, ignore_errors=True)


def tidy(out):
    """Removes what processes of this machine left behind that run no more; that of others stays."""
    folder = os.path.join(out, WORK)
    for name in os.listdir(folder) if os.path.isdir(folder) else ():
        node, number, _ = (name.split("~", 2) + ["", ""])[:3]
        if node == platform.node() and number.isdecimal() and not is_running(int(number)):
            shutil.rmtree(os.path.join(folder, name), ignore_errors=True)
    with contextlib.suppress(OSError):          # it is not there, or not empty
        os.rmdir(folder)


def is_running(number):
    """Whether another process with this number runs."""
    if number == os.getpid():
        return False
    try:
        os.kill(number, 0)
    except ProcessLookupError:
        return False
    except OSError:
        pass
    return True


def verdict_of(status, report):
    """The whole report, where the program ended with the status of its verdict; else a Refusal."""
    if status not in JUDGED:
        with open(report, encoding="latin-1") as file:
            first = file.readline(200).strip()
        raise Refusal("%s%s" % (ended_with(status), ": " + first if first else ""))
    told = Facts(text_in(report))
    if told.verdict != JUDGED[status]:
        raise Refusal("status %d, and the report says %s" % (status, told.verdict or "FAULT"))
    return told


def ended_with(status):
    return "ended by signal %d" % -status if status < 0 else "status %d" % status


def printable(text):
    return "".join(letter if letter.isprintable() else "\ufffd" for letter in text)[:300]
