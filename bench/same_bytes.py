#!/usr/bin/env python3
"""Compares two builds of the programs, byte by byte, over random deliveries of all kinds.

usage: same_bytes.py ITFCHECK ITFFAULTS OTHER_ITFCHECK OTHER_ITFFAULTS COUNT [options]

    --seed SEED        1 where none is given; delivery n of a seed is the same each time
    --jobs N           so many deliveries at once, 1 where none is given
    --only NAME..      calls these alone: compile, check, polygons, canonical, points, itffaults, trial
    --keep FOLDER      keeps there the first difference of each kind, with its inputs (a folder of
                       its own in the system's for temporary files where none is given)
    --expected bent    files and reports of the other `itffaults` may tell an area with bent forks
                       (BENT) that the first one leaves UNSETTLED, with the same lines above

The deliveries are those of random_drawings.py, random_faults.py, random_arcs.py, random_surfaces.py,
canonical.py, trial_files.py and drawings.py, the transfers of the worked rows, and here: drawings
with an overlap, forks in order and at random, points that refer to parcels, keys and references,
and changed bytes of all of these. Of each it compares status, report and file of `compile`, `check`,
`verify` (also of a changed certificate), `polygons`, `canonical`, `points`, `trial` and `itffaults`.
It prints how many deliveries of each kind there were and what `check` said, and of each output how
many were compared and differ. The status is 1 where a difference is not an expected one.
"""
import argparse
import collections
import math
import multiprocessing
import os
import random
import shutil
import subprocess
import sys
import tempfile

import canonical
import drawings
import random_arcs
import random_bytes
import random_drawings
import random_faults
import random_forks
import random_surfaces
from random_drawings import metres

BENCH = os.path.dirname(os.path.abspath(__file__))
SECONDS = 120
NAMES = ("compile", "check", "polygons", "canonical", "points", "itffaults", "trial")


class Delivery:
    """The files of a delivery, and the number of a trial if there is one."""

    def __init__(self, model, transfer, links=b"", trial=None):
        self.model, self.transfer, self.links = as_bytes(model), as_bytes(transfer), as_bytes(links)
        self.trial = trial

    def files(self):
        return {"M": self.model, "T": self.transfer, "L": self.links}


def as_bytes(text):
    return text if isinstance(text, bytes) else text.encode()


# ---- deliveries


def plain(chance):
    straights, placed = random_drawings.drawing(chance)
    return Delivery(random_drawings.MODEL, random_drawings.transfer(straights, placed)[0])


def faulty(chance):
    straights, placed = random_faults.drawing(chance)
    return Delivery(random_drawings.MODEL, random_drawings.transfer(straights, placed)[0])


def arcs(chance):
    return Delivery(random_arcs.ARCS_TOO, random_arcs.transfer(*random_arcs.drawing(chance))[0])


def overlap_model(chance, window=1000):
    """A model that permits an overlap of some units."""
    overlap = chance.choice(["0.005", "0.008", "0.020", "0.050", "0.300"])
    text = random_arcs.ARCS_TOO.replace("VERTEX Koord;", "VERTEX Koord WITHOUT OVERLAPS > %s;" % overlap)
    return text.replace("1000.000 1000.000", "%d.000 %d.000" % (window, window))


def arcs_with_overlap(chance):
    return Delivery(overlap_model(chance), random_arcs.transfer(*random_arcs.drawing(chance))[0])


def fork(chance, centre):
    """A circle, a corner of two straights of which one leaves it along the tangent, and points."""
    radius, turn = chance.choice([2000, 10000, 10000, 30000]), chance.uniform(0, 2 * math.pi)

    def at(angle, far):
        return random_arcs.rounded(*random_arcs.moved(centre, turn + angle, far))

    ends = [at(k * math.pi / 2, radius) for k in range(4)]
    off = chance.choice([0, 0.005, 0.01, 0.02, -0.005, 0.05])
    corner = random_arcs.rounded(*random_arcs.moved(
        ends[0], turn + math.pi / 2 - off, radius * chance.choice([1.5, 2, 3])))
    lines = [(ends[0], ends[1], ends[2]), (ends[2], ends[3], ends[0]),
             (ends[0], corner), (corner, ends[1])]
    beside = tuple((a + 2 * b + c) // 4 for a, b, c in zip(ends[0], corner, ends[1]))
    points = [centre, beside]
    slip = chance.random()
    if slip < 0.1:
        lines.append((centre, at(chance.uniform(0, 7), radius * chance.choice([0.5, 1.5]))))
    elif slip < 0.2:
        points.pop(chance.randrange(2))
    elif slip < 0.3:
        points.append(chance.choice([ends[1], at(1, radius // 2), at(1, radius), at(4, 3 * radius)]))
    elif slip < 0.35:
        lines.remove(chance.choice(lines))
    return lines, points


def forks(chance):
    """Circles with a fork each, far from one another, under a model with or without an overlap."""
    lines, points = [], []
    for place in chance.sample([(x, y) for x in range(3) for y in range(3)], chance.randint(1, 3)):
        one, inside = fork(chance, tuple(180000 + 250000 * part for part in place))
        lines += one
        points += inside
    chance.shuffle(lines)
    chance.shuffle(points)
    lines = [line if chance.random() < 0.5 else line[::-1] for line in lines if random_arcs.is_line(line)]
    points = list(filter(random_arcs.is_in_window, points))
    model = overlap_model(chance) if chance.random() < 0.9 else random_arcs.ARCS_TOO
    return Delivery(model, random_arcs.transfer([[line] for line in lines], points)[0])


def crowded_forks(chance):
    """The lines of random_forks.py, with points at random."""
    tolerance = chance.choice([5, 8, 20, 50, 300])
    lines = random_forks.lines_of(chance, tolerance)
    low, high = 0, random_forks.SPAN
    lines = [line for line in lines if all(low <= c <= high for place in line for c in place)]
    points = [chance.choice([line[0] for line in lines] or [(low, low)]) for _ in range(chance.randrange(2))]
    points += [(chance.randrange(high), chance.randrange(high)) for _ in range(chance.randrange(4))]
    return Delivery(overlap_model(chance, 2100), random_arcs.transfer([[line] for line in lines], points)[0])


LINKED = """TRANSFER Bench; DOMAIN Koord = COORD2 0.000 0.000 900000.000 900000.000;
Around = COORD2 -9000.000 -9000.000 999000.000 999000.000;
MODEL Bench TOPIC Land = TABLE Parcel = Form: AREA WITH (STRAIGHTS, ARCS) VERTEX Koord; NO IDENT END Parcel;
TABLE House = Form: SURFACE WITH (STRAIGHTS, ARCS) VERTEX Koord; NO IDENT END House;
TABLE Number = Of: OPTIONAL -> Parcel; In: OPTIONAL -> House; Place: OPTIONAL Around;
NO IDENT END Number; END Land. END Bench.
FORMAT FREE; CODE BLANK = DEFAULT, UNDEFINED = DEFAULT, CONTINUE = DEFAULT; TID = ANY; END.
"""
RULES = ["LINK Land Number Place Of Form", "LINK Land Number Place In Form", "LINK Land Number Place Of Form",
         "LINK Land Number Of Place Form", ""]


def signed(value):
    return ("-" if value < 0 else "") + "%d.%03d" % divmod(abs(value), 1000)


def number_row(chance, number, points, houses):
    """A point that refers to a parcel and to a house, most often in or beside these."""
    parcel, house = chance.randrange(len(points)), chance.randrange(max(1, len(houses)))
    near = chance.choice([0, 3000, 30000])
    x, y = points[parcel] if chance.random() < 0.8 or not houses else chance.choice(houses[house])
    place = "%s %s" % (signed(x + chance.randint(-near, near)), signed(y + chance.randint(-near, near)))
    words = ["p%d" % parcel, "h%d" % house if houses else "@", place]
    if chance.random() < 0.1:
        words[chance.randrange(2)] = chance.choice(["@", "@", "p0", "none"])
    if chance.random() < 0.05:
        words[2] = "@ @"
    return "OBJE n%d %s" % (number, " ".join(words))


def links(chance):
    """Parcels of drawings.py and squares as houses, points that refer to them, and rules of links."""
    lines, points = drawings.parcels(chance.choice([4, 9, 16]), chance.choice([0, 0, 1 / 12, 0.6]))
    houses = [random_arcs.square((chance.randrange(200000), chance.randrange(200000)), 9000)
              for _ in range(chance.randrange(4))]
    if chance.random() < 0.1:
        lines = drawings.with_bad(lines + [[(0, 0), (9, 9, "arc"), (20, 0)]])
    text = ["SCNT", "////", "MTID Bench", "MODL Bench", "TOPI Land", "TABL Parcel_Form"]
    for number, line in enumerate(lines, 1):
        text += ["OBJE %d" % number, "STPT " + metres(line[0])]
        text += [("ARCP " if len(place) == 3 else "LIPT ") + metres(place) for place in line[1:]] + ["ELIN"]
    text += ["ETAB", "TABL Parcel"]
    text += ["OBJE p%d %s" % (number, metres(point)) for number, point in enumerate(points)]
    text += ["ETAB", "TABL House"] + ["OBJE h%d" % number for number in range(len(houses))]
    text += ["ETAB", "TABL House_Form"]
    for number, ring in enumerate(houses):
        text += ["OBJE %d h%d" % (number, number), "STPT " + metres(ring[0][0])]
        text += ["LIPT " + metres(end) for _, end in ring] + ["ELIN"]
    corners = [[start for start, _ in ring] for ring in houses]
    text += ["ETAB", "TABL Number"]
    text += [number_row(chance, number, points, corners) for number in range(chance.randrange(30))]
    rules = chance.sample(RULES, chance.randint(1, 3))
    return Delivery(LINKED, "\n".join(text + ["ETAB", "ETOP", "EMOD", "ENDE", ""]), "\n".join(rules) + "\n")


def surfaces(chance):
    return Delivery(random_surfaces.MODEL, random_surfaces.Written(chance).text)


KEYED = """TRANSFER Bench; DOMAIN Koord = COORD2 0.00 0.00 9.00 9.00; Kind = (one, two, three);
MODEL Bench TOPIC Land = TABLE Owner = Name: TEXT*30; Born: OPTIONAL DATE; Kind: OPTIONAL Kind; %s END Owner;
TABLE Deed = Of: -> Owner; Sum: OPTIONAL [0.00 .. 999.99]; Way: OPTIONAL POLYLINE WITH (STRAIGHTS) VERTEX Koord;
Place: OPTIONAL Koord; %s END Deed; END Land. END Bench.
FORMAT FREE; CODE BLANK = DEFAULT, UNDEFINED = DEFAULT, CONTINUE = DEFAULT; TID = ANY; END.
"""


def lists(chance, names):
    """Some IDENT lists of these names, or none."""
    some = [chance.sample(names, chance.randint(1, len(names))) for _ in range(chance.randrange(4))]
    return "IDENT " + "".join("%s;" % ", ".join(one) for one in some) if some else "NO IDENT"


def keys(chance):
    """Rows of which some repeat an identification or a value of a list, and references."""
    few = chance.choice([3, 12, 1000])

    def word(*choices):
        return "@" if chance.random() < 0.05 else chance.choice(choices)

    def spelled(number):
        return chance.choice(["a%d", "name_%d", "A_word_longer_than_fourteen_bytes_%d"][: 1 + few % 3]) % number

    text = ["SCNT", "////", "MTID Bench", "MODL Bench", "TOPI Land"]
    owners = ["TABL Owner"]
    for number in range(chance.randrange(30)):
        name = spelled(number if chance.random() < 0.9 else chance.randrange(few))
        owners.append("OBJE %s %s %s %s" % (
            name, word(spelled(chance.randrange(few)), "x"), word("19700101", "20000229", "19700132"),
            word("0", "1", "2", "3")))
    deeds = ["TABL Deed"]
    for number in range(chance.randrange(30)):
        deeds.append("OBJE d%d %s %s %s" % (
            number if chance.random() < 0.9 else 0, word(spelled(chance.randrange(max(few, 12)))),
            word("1.50", "01.50", "1.5", "%d.00" % chance.randrange(few), "1000.00"),
            chance.choice(["1.00 2.00", "1.0 2.0", "@ @", "10.00 1.00"])))
        if chance.random() < 0.7:
            deeds += ["STPT 1.00 1.00", "LIPT %d.00 2.00" % chance.randrange(10), "ELIN"]
    parts = [owners + ["ETAB"], deeds + ["ETAB"]]
    if chance.random() < 0.5:
        parts.reverse()
    text += parts[0] + parts[1] + ["ETOP", "EMOD", "ENDE", ""]
    model = KEYED % (lists(chance, ["Name", "Born", "Kind"]), lists(chance, ["Of", "Sum", "Way", "Place"]))
    return Delivery(model, "\n".join(text))


def spellings(chance):
    model, form = canonical.model_of(chance)
    return Delivery(model, canonical.transfer(chance, form))


def made(*words):
    """The model and the transfer that a script of this folder writes."""
    with tempfile.TemporaryDirectory() as folder:
        names = [folder + "/model", folder + "/transfer"]
        places = names if words[0] == "trial_files.py" else [folder]
        subprocess.run([sys.executable, os.path.join(BENCH, words[0]), *words[1:], *places], check=True)
        return [random_bytes.held(folder, name) for name in names]


def trial(chance):
    size = chance.randint(1, 12)
    return Delivery(*made("trial_files.py", str(size)), trial=chance.choice(["0", "x", str(size), str(size)]))


def covers(chance):
    """The smaller drawings of drawings.py, also with a fault."""
    kind = chance.choice(["grid", "parcels", "arcs", "cover", "strokes", "fan", "uprights", "comb",
                          "arcs-bad", "cover-bad", "arcs-undecided"])
    return Delivery(*made("drawings.py", kind, str(chance.randint(20 if "cover" in kind else 4, 60))))


class Rows:
    """The transfers of the worked rows, read once."""

    def __init__(self):
        self.held = None

    def __call__(self, chance):
        self.held = self.held or list(canonical.worked_rows())
        _, model, transfer = chance.choice(self.held)
        return Delivery(model, transfer, b"LINK Land Number Place Of Form\n")


def changed(chance):
    """A delivery of another kind with changed bytes in its transfer, its model or its links."""
    found = chance.choice([plain, forks, links, surfaces, keys, spellings, worked_rows])(chance)
    part = chance.choice(["transfer", "transfer", "transfer", "model", "links"])
    setattr(found, part, random_bytes.changed(chance, getattr(found, part)))
    return found


worked_rows = Rows()
# Each kind of deliveries, how often it comes, and what makes one.
KINDS = {
    "straights": (16, plain),
    "straights with faults": (18, faulty),
    "arcs": (7, arcs),
    "arcs, an overlap": (7, arcs_with_overlap),
    "forks": (20, forks),
    "forks at random": (10, crowded_forks),
    "links": (14, links),
    "surfaces": (14, surfaces),
    "keys and references": (16, keys),
    "spellings": (14, spellings),
    "worked rows": (20, worked_rows),
    "covers": (4, covers),
    "trials": (3, trial),
    "changed bytes": (24, changed),
}


# ---- running


class Step:
    """A call of one of the two programs of a build, and the file that it writes, if it does."""

    def __init__(self, name, words, output=None, program=0):
        self.name, self.words, self.output, self.program = name, words, output, program


def steps(delivery, only):
    """The calls on a delivery, or those of some names; `verify` goes with `check`."""
    found = [
        Step("compile", ["compile", "M"]),
        Step("check", ["check", "M", "T", "C"], "C"),
        Step("verify", ["verify", "M", "T", "C"]),
        Step("verify, changed", ["verify", "M", "T", "X"]),
        Step("polygons", ["polygons", "M", "T", "P"], "P"),
        Step("canonical", ["canonical", "M", "T", "O"], "O"),
        Step("points", ["points", "M", "T", "L"]),
        Step("itffaults", ["M", "T", "F"], "F", 1),
    ]
    if delivery.trial is not None:
        found.append(Step("trial", ["trial", delivery.trial, "Q"], "Q"))
    return [step for step in found if not only or step.words[0] in only or step.name in only
            or "check" in only and step.name.startswith("verify")]


class Build:
    """The two programs of a build, and the folder that it works in."""

    def __init__(self, programs, folder):
        self.programs, self.folder = [os.path.abspath(one) for one in programs], folder

    def begin(self, files):
        """Makes the folder anew, with these files."""
        shutil.rmtree(self.folder, ignore_errors=True)
        os.mkdir(self.folder)
        for name, content in files.items():
            random_bytes.put(self.folder, name, content)

    def call(self, step):
        """Status and report of a call, and the file that it leaves."""
        try:
            done = subprocess.run([self.programs[step.program], *step.words], cwd=self.folder,
                                  stdin=subprocess.DEVNULL, capture_output=True, timeout=SECONDS, check=False)
            told = done.returncode, done.stdout + done.stderr
        except subprocess.TimeoutExpired:
            told = "no end", b""
        return told, random_bytes.held(self.folder, step.output) if step.output else None


def area_parts(text):
    """What stands before the areas of a file of faults, in each, and from COUNTS on."""
    lines = (text or b"").split(b"\n")
    end = next((n for n, line in enumerate(lines) if line.startswith(b"COUNTS ")), len(lines))
    parts = [[]]
    for line in lines[:end]:
        if line.startswith(b"AREA "):
            parts.append([])
        parts[-1].append(line)
    return parts, lines[end:]


def is_bent_alone(one, other):
    """Whether the other file differs by areas alone that it tells with bent forks, where this one
    leaves them unsettled, and what it tells of the drawn lines is the same."""
    (parts, end), (others, other_end) = area_parts(one), area_parts(other)
    if len(parts) != len(others):
        return False
    pairs = [(a, b) for a, b in zip(parts, others) if a != b]
    for a, b in pairs:
        if b"UNSETTLED" not in a or b"BENT" not in b or a[:a.index(b"UNSETTLED")] != b[:b.index(b"BENT")]:
            return False
    return bool(pairs) and end[1:] == other_end[1:]


def is_report_of_bent(one, other):
    """Whether the other report differs by what stands of such areas, and by the verdict, alone."""
    lines, others = one.split(b"\n"), other.split(b"\n")
    return len(lines) == len(others) and all(
        a == b or a.startswith(b"VERDICT ") and b.startswith(b"VERDICT ")
        or a.startswith(b"AREA ") and a.split(b" ")[:4] == b.split(b" ")[:4] and b.endswith(b" BENT")
        for a, b in zip(lines, others))


class Outcome:
    """What came of a delivery: what `check` said, the calls, and those that differ."""

    def __init__(self, number, kind):
        self.number, self.kind, self.said = number, kind, collections.Counter()
        self.calls, self.differ, self.expected = [], [], []


def answers(report, faults):
    """What `check` said in short, and whether areas were told with bent forks."""
    for line in report.split(b"\n"):
        words = line.split(b" ")
        if words[0] in (b"AREA", b"SURFACE") and len(words) > 4:
            yield words[4].decode("latin-1") if words[0] == b"AREA" else "SURFACE " + words[4].decode("latin-1")
        elif words[0] == b"VERDICT":
            yield b" ".join(words[:2]).decode("latin-1")
        elif words[0] in (b"FAULT", b"STRUCTURE", b"FINDING"):
            yield words[0].decode()
    if faults and b"\nBENT\n" in faults:
        yield "BENT"


class Comparison:
    """Two builds, which are run on the same deliveries."""

    def __init__(self, programs, words):
        self.programs, self.seed, self.only = programs, words.seed, words.only
        self.expected, self.keep = words.expected, words.keep

    def delivery(self, number):
        """The delivery of that number, its kind, and the chance that goes on."""
        chance = random.Random("%d %d" % (self.seed, number))
        kind = chance.choices(list(KINDS), [share for share, _ in KINDS.values()])[0]
        return kind, KINDS[kind][1](chance), chance

    def compare(self, number):
        kind, delivery, chance = self.delivery(number)
        outcome = Outcome(number, kind)
        with tempfile.TemporaryDirectory() as folder:
            builds = [Build(self.programs[:2], folder + "/one"), Build(self.programs[2:], folder + "/other")]
            for build in builds:
                build.begin(delivery.files())
            for step in steps(delivery, self.only):
                self.compare_step(builds, step, outcome)
                if step.name == "verify":
                    filed = random_bytes.held(builds[0].folder, "C") or b"ITFCERT 2\n"
                    wrong = random_bytes.changed(chance, filed)
                    for build in builds:
                        random_bytes.put(build.folder, "X", wrong)
        return outcome

    def compare_step(self, builds, step, outcome):
        """Runs a step of both builds and notes what differs."""
        (told, file), (other_told, other_file) = [build.call(step) for build in builds]
        pairs = [(step.name + ": status, report", told, other_told)]
        if step.output:
            pairs.append((step.name + ": file", file, other_file))
        if step.name == "check":
            outcome.said.update(set(answers(told[1], None)))
        elif step.name == "itffaults":
            outcome.said.update(set(answers(b"", other_file)))
        is_expected = (step.name == "itffaults" and self.expected == "bent" and is_bent_alone(file, other_file)
                       and is_report_of_bent(told[1], other_told[1]))
        for name, one, other in pairs:
            outcome.calls.append(name)
            if one != other:
                (outcome.expected if is_expected else outcome.differ).append(name)
                self.keep_first(builds, outcome.kind, name, is_expected, one, other)

    def keep_first(self, builds, kind, name, is_expected, one, other):
        """Keeps the folders of both builds, and what they said, where it is the first of its kind."""
        words = "%s%s, %s" % ("expected, " if is_expected else "", kind, name)
        place = os.path.join(self.keep, words.replace(":", "").replace(",", "").replace(" ", "-"))
        try:
            os.makedirs(place)
        except FileExistsError:
            return
        for build, what, side in zip(builds, (one, other), ("one", "other")):
            shutil.copytree(build.folder, os.path.join(place, side))
            if isinstance(what, tuple):
                random_bytes.put(place, side + ".report", b"%s\n" % str(what[0]).encode() + what[1])


def table(head, rows):
    """A table with a first column of words and further ones of numbers."""
    wide = max(len(row[0]) for row in [head, *rows])
    for first, *others in [head, *rows]:
        print(first.ljust(wide) + "".join("%12s" % one for one in others))


def told(outcomes, keep):
    """Prints what came of all deliveries; whether no difference is left that is not expected."""
    kinds, calls, said = collections.Counter(), collections.Counter(), collections.Counter()
    for count, outcome in enumerate(outcomes):
        if count and count % 1000 == 0:
            differ = sum(kinds[kind, "differ"] for kind in KINDS)
            print("%d deliveries, of which %d differ" % (count, differ), file=sys.stderr, flush=True)
        kinds.update([(outcome.kind, "all")])
        kinds.update([(outcome.kind, "differ")] if outcome.differ else [])
        kinds.update([(outcome.kind, "expected")] if outcome.expected else [])
        calls.update((name, "all") for name in outcome.calls)
        calls.update((name, "differ") for name in outcome.differ)
        calls.update((name, "expected") for name in outcome.expected)
        said.update(outcome.said)
        if outcome.differ:
            print("delivery %d: %s" % (outcome.number, ", ".join(outcome.differ)), flush=True)
    columns = ("all", "differ", "expected")
    table(("deliveries", *columns), [(kind, *(kinds[kind, one] for one in columns)) for kind in KINDS]
          + [("together", *(sum(kinds[kind, one] for kind in KINDS) for one in columns))])
    print()
    names = list(dict.fromkeys(name for name, _ in calls))
    table(("outputs", *columns), [(name, *(calls[name, one] for one in columns)) for name in names])
    print()
    table(("deliveries of which is said", ""), sorted(said.items()))
    if any(calls[name, one] for name in names for one in columns[1:]):
        print("\nthe first difference of each kind is in", keep)
    return not any(calls[name, "differ"] for name in names)


def main():
    parser = argparse.ArgumentParser(description=__doc__, formatter_class=argparse.RawDescriptionHelpFormatter)
    parser.add_argument("programs", nargs=4)
    parser.add_argument("count", type=int)
    parser.add_argument("--seed", type=int, default=1)
    parser.add_argument("--jobs", type=int, default=1)
    parser.add_argument("--only", nargs="+", choices=NAMES)
    parser.add_argument("--keep")
    parser.add_argument("--expected", choices=["bent"])
    words = parser.parse_args()
    words.keep = words.keep or tempfile.mkdtemp(prefix="same_bytes")
    comparison = Comparison(words.programs, words)
    with multiprocessing.Pool(words.jobs) as pool:
        is_same = told(pool.imap(comparison.compare, range(words.count)), words.keep)
    sys.exit(0 if is_same else 1)


if __name__ == "__main__":
    main()
