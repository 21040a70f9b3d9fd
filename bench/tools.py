"""The tests of tools.sh, which sets the paths: deliveries with worked expectations, killed batches, two machines.

usage: tools.py ITF DELIVERIES
"""
import csv
import json
import os
import random
import shutil
import signal
import sqlite3
import subprocess
import sys
import time

import deliveries
from common import data, text_of

ITF = sys.argv[1]
# Kind, lines, and place where it is told, worked out from the drawings.
BENT = [("MEETING", [49, 53], ["100.00", "15.00"]), ("ON", [58, 17], ["35.00", "10.00"]),
        ("OUTSIDE", [63], ["5.00", "5.00"]), ("TWO", [59, 60], ["57.50", "15.25"]), ("EMPTY", [17], None),
        ("CUT", [45], None), ("OPEN", [38], None), ("UNJUDGED", [62], ["92.00", "15.00"]),
        ("TWO", [96, 97], ["15.00", "18.00"]), ("EMPTY", [80], None)]
SURVEY = text_of(data("survey.itf"))
PARCELS = text_of(data("parcels.itf"))
POINT = "OBJE 1 77 150.000 150.000\n"


def swapped(text, old, new):
    if text.count(old) != 1:
        fail("%r stands %d times" % (old, text.count(old)))
    return text.replace(old, new)


def cases():
    """Name, model, transfer, verdict, and the facts that are wanted."""
    faults, survey, parcels = (text_of(data(name + ".ili")) for name in ("faults", "survey", "parcels"))
    yield "faults", faults, text_of(data("faults.itf")), "REJECTED", BENT
    yield "good", parcels, PARCELS, "ACCEPTED", []
    yield "no object", parcels, swapped(PARCELS, POINT, ""), "REJECTED", [("EMPTY", [9], None)]
    yield "two", parcels, swapped(PARCELS, POINT, POINT + "OBJE 2 78 160 160\n"), "REJECTED", [
        ("TWO", [16, 17], ["160.000", "160.000"])]
    yield "tid", parcels, swapped(PARCELS, POINT, POINT + POINT), "REJECTED", [
        ("FINDING_tid", [17, 16], ["150.000", "150.000"]), ("FINDING_ident", [17, 16], ["150.000", "150.000"])]
    yield "findings", survey, swapped(swapped(SURVEY, "1200005.000 0 8", "9900005.000 0 26"), "Neuaufnahme", "N" * 31), (
        "REJECTED"), [("FINDING_text", [9], None), ("FINDING_range", [25], ["2600005.000", "9900005.000"]),
                      ("FINDING_enum", [25], ["2600005.000", "9900005.000"])]
    yield "word", parcels, PARCELS.replace("ETAB", "XTAB", 1), "REJECTED", [("STRUCTURE_word", [14], None)]
    yield "end", parcels, swapped(PARCELS, "EMOD\nENDE\n", ""), "REJECTED", [("STRUCTURE_end", [19], None)]
    yield "model", "TRANSFER x; MODEL y TOPIC z = END", PARCELS, "NONE", []
    yield "surfaces", *deliveries.surfaces(), "REJECTED", [
        ("SURFACE_MEETING", None, None), ("SURFACE_ODD", None, ["600030.000", "200000.000"]), ("SURFACE_PARTS", None, None)]
    yield "hostile", *deliveries.hostile_faults(), "REJECTED", [("OUTSIDE", None, None)] * 13 + [("EMPTY", None, None)] * 13


def fail(*why):
    sys.exit("tools.py: " + " ".join(map(str, why)))


def run(*words, **more):
    return subprocess.run(words, stdout=subprocess.PIPE, stderr=subprocess.PIPE, universal_newlines=True, **more)


def put(name, text):
    with open(name, "w", encoding="utf-8", newline="\n") as file:
        file.write(text)


def lines_told(report, faults):
    """The faults that stand in the files themselves, by their first words."""
    found = []
    kinds = ("MEETING", "ON", "OUTSIDE", "TWO", "EMPTY", "CUT", "OPEN", "UNJUDGED")
    has_list = os.path.exists(faults)
    for line in text_of(report).splitlines():
        words = line.split(" ")
        if words[0] in ("FINDING", "STRUCTURE"):
            found.append("%s_%s %s" % (words[0], words[2], words[1]))
        elif words[0] == "SURFACE" and words[4] != "PROVED":
            found.append("SURFACE_%s %s" % (words[4], words[5]))
        elif words[0] == "AREA" and words[4] != "PROVED" and not has_list:
            found.append("%s %s" % (words[4], words[5]))
    for line in text_of(faults).splitlines() if has_list else ():
        words = line.split(" ")
        if words[0] in kinds:
            found.append("%s %s" % tuple(words[:2]))
    return sorted(found)


def numbers_of(name):
    """How often each fault stands in a layer of a GeoPackage, but for its lines, which it may have several of."""
    base, found = sqlite3.connect(name), {}
    for layer in ("points", "regions", "lines", "without_place"):
        for number, in base.execute("SELECT DISTINCT fault FROM faults_" + layer):
            found.setdefault(number, []).append(layer)
    twice = [row for layer in ("points", "regions", "without_place") for row in base.execute(
        "SELECT fault FROM faults_%s GROUP BY fault HAVING count(*) > 1" % layer)]
    base.close()
    if twice:
        fail(name, "has a fault twice:", twice)
    return sorted(found)


def held(name, model, transfer, verdict, wanted):
    """One delivery: what is told is what was worked out, and stands everywhere."""
    put("M", model)
    put("T", transfer)
    with open("R", "w") as report:
        subprocess.run([os.environ["ITFCHECK"], "check", "M", "T", "C"], stdout=report)
    if os.path.exists("F"):
        os.remove("F")
    run(os.environ["ITFFAULTS"], "M", "T", "F")
    files = ["R", "F" if os.path.exists("F") else "-"]
    for words in (["page", "M", "T", *files, "-o", "page.html", "--json", "page.json", "--gpkg", "page.gpkg"],
                  ["layers", "M", "T", *files, "-o", "l.geojson"], ["layers", "M", "T", *files, "-o", "l.csv"]):
        done = run(ITF, *words)
        if done.returncode:
            fail(name, done.stderr)
    with open("page.json", encoding="utf-8") as file:
        told = json.load(file)
    found = [(one["kind"], [row["line"] for row in one["rows"]], one["at"]) for one in told["faults"]]
    same = len(found) == len(wanted) and all(
        one[0] == other[0] and other[1] in (None, one[1]) and other[2] in (None, one[2])
        for one, other in zip(sorted(found, key=str), sorted(wanted, key=str)))
    if told["verdict"] != verdict or not same:
        fail(name, told["verdict"], found, "and wanted are", verdict, wanted)
    everywhere(name, told)
    print("%s: %s, %d told" % (name, verdict, len(found)))


def everywhere(name, told):
    """Each fault of the files stands in the JSON, and each of the JSON in page and layers, once."""
    count = len(told["faults"])
    mine = sorted("%s %d" % (one["kind"], (one["rows"] or [{"line": 0}])[0]["line"]) for one in told["faults"])
    if mine != lines_told("R", "F"):
        fail(name, mine, "and the files have", lines_told("R", "F"))
    page = text_of("page.html")
    front = '<script type="application/json" id="data">'
    block = json.loads(page[page.index(front) + len(front):].split("</script>")[0])
    with open("l.geojson", encoding="utf-8") as file:
        features = json.load(file)["features"]
    with open("l.csv", encoding="utf-8", newline="") as file:
        rows = list(csv.DictReader(file))
    every = list(range(1, count + 1))
    for what, numbers in (("page", [one["id"] for one in block["faults"]]), ("GeoPackage", numbers_of("page.gpkg")),
                          ("GeoJSON", [one["properties"]["fault"] for one in features]),
                          ("CSV", [int(row["fault"]) for row in rows])):
        if numbers != every:
            fail(name, what, "has", numbers)


# Batches.

def delivered(count):
    """A folder of deliveries of which each third is at fault, and each 50th is cut off."""
    os.mkdir("in")
    for number in range(count):
        text = swapped(PARCELS, POINT, "") if number % 3 == 0 else PARCELS.replace("77", str(number), 1)
        put("in/%04d.itf" % number, text[:-20] if number % 50 == 7 else text)


def batch(out, *more):
    return [ITF, "batch", data("parcels.ili"), "in", "-o", out, "--no-pages", *more]


def summary(out):
    """The summary without times."""
    with open(os.path.join(out, "summary.jsonl"), encoding="utf-8") as file:
        return [{key: value for key, value in json.loads(line).items() if key != "seconds"} for line in file]


def killed(count):
    """A batch that is killed 20 times, at any time, and resumed, has the summary of one that was not."""
    before = time.time()
    ended = run(*batch("whole", "-j", "4"))
    seconds = time.time() - before
    if ended.returncode != 1 or len(summary("whole")) != count:
        fail(ended.returncode, ended.stderr, ended.stdout[-500:])
    choice = random.Random(1)
    for _ in range(20):
        started = subprocess.Popen(batch("parts", "-j", "4", "--resume"), stdout=subprocess.PIPE,
                                   stderr=subprocess.DEVNULL, start_new_session=True)
        for _ in range(choice.randrange(count // 12 + 2)):      # the lines that it says before it is killed
            started.stdout.readline()
        time.sleep(choice.uniform(0, 0.1))
        os.killpg(started.pid, choice.choice((signal.SIGKILL, signal.SIGTERM)))
        started.communicate()
    ended = run(*batch("parts", "-j", "4", "--resume"))
    if summary("parts") != summary("whole"):
        fail("the summary of a batch that was killed is another one:", ended.stderr)
    left = [name for name in os.listdir("parts") if name.startswith(".")]
    if left:
        fail("left behind:", left)
    print("%d deliveries, 20 kills, the same summary; without kills it took %.1f s, %s" % (
        count, seconds, ended.stdout.splitlines()[0]))


def two_machines(count):
    """Two machines take the printed commands from both ends; the last call makes the summaries."""
    lines = run(*batch("shared", "--print")).stdout.splitlines()
    environment = {**os.environ, "PATH": os.path.dirname(ITF) + os.pathsep + os.environ["PATH"]}
    other = ["unshare", "-u", "sh", "-c", "hostname other; exec sh"]
    if run("unshare", "-u", "true").returncode:
        other = ["sh"]
        print("this machine has one name alone")
    machines = [subprocess.Popen(words, stdin=subprocess.PIPE, stdout=subprocess.DEVNULL, env=environment,
                                 universal_newlines=True) for words in (["sh"], other)]
    for machine, part in zip(machines, (lines[::2], lines[1::2])):
        machine.stdin.write("\n".join(part) + "\n")
        machine.stdin.close()
    for machine in machines:
        machine.wait()
    ended = run(*batch("shared", "--resume"))
    if "%d of %d were judged before" % (count, count) not in ended.stdout or summary("shared") != summary("whole")[:count]:
        fail("two machines:", ended.stdout[:300], ended.stderr)
    print("%d deliveries on two machines, the same summary" % count)


def main():
    for case in cases():
        held(*case)
    count = int(sys.argv[2])
    delivered(count)
    killed(count)
    for number in range(40, count):
        os.remove("in/%04d.itf" % number)
    two_machines(min(40, count))
    shutil.rmtree("in")


main()
