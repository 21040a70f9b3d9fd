"""Checks many transfers by one model, several at a time, and can be stopped and resumed.

SOURCE is a folder, whose transfers *.itf and those of the folders in it are checked; a zip file with
transfers; a transfer; or a list, a file with the name of a transfer in each line, from the folder of the
list. OUT gets a folder for each delivery with report, faults, certificate (where it is accepted), page and
result.json, and summary.jsonl, summary.csv, junit.xml and index.html for all.

With --resume a delivery is not judged again that was judged by the same programs, with the same model,
and of which the transfer has the same bytes. A delivery that could not be judged has no verdict: it is
NOT JUDGED, with the reason, and is tried again. With --print nothing is checked: it prints a command for
each delivery, for a queue of many machines that share OUT; afterwards `itf batch .. --resume` makes the
summaries.

Status: the worst, of which 0 is the best (all accepted), then come 2 (one is undecided) and 1 (one is
rejected), then 3 to 9 as of itfcheck, and 70 where a program failed otherwise: from 3 on one delivery at
least was not judged. 3 also: the model is refused, and nothing was checked. 70 also: the batch itself failed,
with a line on standard error. 130: it was stopped. 4 also: the words are wrong.
"""
import os
import shlex
import signal
import sys
from concurrent.futures import ThreadPoolExecutor, as_completed

from itftools.batching.judging import NOT_JUDGED, Judge, tidy
from itftools.batching.progress import Progress
from itftools.batching.sources import Source, sources_of
from itftools.batching.summaries import status_of, told, worst, write_all
from itftools.program import Program
from itftools.refusal import Refusal
from itftools.saying.words import LANGUAGES
from itftools.statuses import MODEL_REFUSED, NO_STATUS, STOPPED

SUMMARY = "many transfers, several at a time, with a page each and summaries; can be resumed"
EXAMPLE = "itf batch village.ili deliveries -o night -j 4"


def arguments(parser):
    parser.add_argument("model", metavar="MODEL")
    parser.add_argument("sources", metavar="SOURCE", nargs="+")
    parser.add_argument("-o", metavar="OUT", required=True,
                        help="a folder; it has to be new or empty but with --resume")
    parser.add_argument("-j", metavar="N", type=int, default=1, help="so many at a time (default: 1)")
    parser.add_argument("--resume", action="store_true", help="keep what was judged before")
    parser.add_argument("--print", action="store_true", dest="is_print", help="print a command for each delivery")
    parser.add_argument("--part", metavar="NAME", help="judge the one SOURCE as this delivery, without summaries")
    parser.add_argument("--no-pages", action="store_true", help="make no page of a delivery")
    parser.add_argument("--timeout", metavar="SECONDS", type=float, help="end a program after so long")
    parser.add_argument("--lang", choices=LANGUAGES, default="de", help="of the pages (default: de)")


def run(given):
    """A failure of the batch itself has a status that no verdict has."""
    try:
        return judged(given)
    except (OSError, Refusal) as why:
        print("itf batch: not done: %s" % why, file=sys.stderr)
        return NO_STATUS


def judged(given):
    sources = sources_of(given.sources)
    if given.is_print:
        return print_commands(given, sources)
    if given.part:
        if len(sources) != 1:
            raise Refusal("--part is for one delivery")
        sources = [Source(given.part, sources[0].path, sources[0].member)]
    programs = {name: Program(name) for name in ("itfcheck", "itffaults")}
    status, answer = programs["itfcheck"].run("compile", given.model)
    if status != 0:
        sys.stdout.write(answer.decode("latin-1"))
        return status if status >= MODEL_REFUSED else NO_STATUS
    folder(given.o, given.resume or given.part)
    judge = Judge(given.model, programs, given.o, given.lang, not given.no_pages, given.timeout)
    if given.part:
        result = judge.kept(sources[0]) or judge.judge(sources[0])
        print("%s: %s" % (result["name"], told(result)))
        return status_of(result)
    return batch(given, judge, sources)


def folder(out, may_be_full):
    if os.path.isdir(out) and os.listdir(out) and not may_be_full:
        raise Refusal("the folder %s is not empty: give --resume, or another name" % out)
    os.makedirs(out, exist_ok=True)


def print_commands(given, sources):
    for source in sources:
        if source.member is not None:
            raise Refusal("--print takes no zip file: unpack %s" % source.path)
        model, path, out = map(os.path.abspath, (given.model, source.path, given.o))
        words = ["itf", "batch", model, path, "-o", out, "--part", source.name, "--lang", given.lang]
        print(" ".join(map(shlex.quote, words + ["--no-pages"] * given.no_pages)))
    return 0


def batch(given, judge, sources):
    """Judges all, at most so many at a time, and writes the summaries, also where it is stopped."""
    tidy(given.o)
    results, is_stopped = {}, False
    signal.signal(signal.SIGTERM, stop)
    try:
        if given.resume:
            for source in sources:
                result = judge.kept(source)
                if result:
                    results[source.name] = result
            print("%d of %d were judged before" % (len(results), len(sources)), flush=True)
        progress = Progress(len(sources), len(results))
        for source, result in each(judge, [source for source in sources if source.name not in results], given.j):
            results[source.name] = result
            progress.told("%s: %s" % (result["name"], told(result)))
    except KeyboardInterrupt:
        is_stopped = True
    found = [results[source.name] for source in sources if source.name in results]
    tidy(given.o)
    write_all(given.o, found, given.lang, os.path.basename(given.model))
    counts = ["%d %s" % (sum(one["verdict"] == verdict for one in found), verdict.lower())
              for verdict in ("ACCEPTED", "UNDECIDED", "REJECTED", NOT_JUDGED)]
    print("%s%d of %d deliveries: %s; worst status %d" % (
        "stopped: " if is_stopped else "", len(found), len(sources), ", ".join(counts), worst(found)))
    return STOPPED if is_stopped else worst(found)


def each(judge, sources, at_once):
    """Pairs of a delivery and its result, as they are judged: one by one, or several at a time."""
    if at_once < 2:
        for source in sources:
            yield source, judge.judge(source)
        return
    pool = ThreadPoolExecutor(at_once)
    waiting = {pool.submit(judge.judge, source): source for source in sources}
    try:
        for done in as_completed(waiting):
            yield waiting[done], done.result()
    finally:
        for one in waiting:
            one.cancel()
        pool.shutdown()


def stop(number, frame):
    raise KeyboardInterrupt
