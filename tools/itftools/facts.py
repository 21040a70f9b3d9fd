"""The seam: a report, and a file of all faults if there is one, as one list of facts.

Pages, words, pictures and layers take facts, and none of them reads a report. What has no place (an area
that is not decided, a finding, a SURFACE) is a fact too, so that nothing is dropped in silence. Facts say
what the files say: no fact of this module is this module's own judgement. docs/report.md and
docs/faults.md tell what the lines mean.
"""
from itftools.reading.faults import WHOLE, FaultsFile
from itftools.reading.report import Report
from itftools.refusal import Refusal

# Kinds that tell of no fault: what was not judged or not proved, and notes.
NOT_JUDGED = {"OPEN", "UNJUDGED", "UNDECIDED", "SURFACE_UNDECIDED", "UNSETTLED", "OUTER", "MANY", "NOTPROVED",
              "HINT"}
NOTES = ("OUTER", "MANY")
LIST_HEAD = "ITFFAULTS "
OTHER = "report and faults are not of one delivery: "


class Fact:
    """One thing that is told: its kind, the part in which it is, and what its line names.

    `kind` is that of the line for an AREA; `SURFACE_` and it for a SURFACE, `FINDING_` and the code
    for a finding, `STRUCTURE_` and the code for a line at fault; LINK, LINKLINE and CANONICAL of
    those commands. `lines` are lines of the transfer, `places` pairs of words of the file of faults.
    """

    def __init__(self, kind, part=None, lines=(), side=None, places=(), extra=None):
        self.kind, self.part, self.lines, self.side = kind, part, list(lines), side
        self.places, self.rings, self.extra = list(places), [], extra or {}

    def is_fault(self):
        return self.kind not in NOT_JUDGED

    def all_lines(self):
        """Its lines, and that of the object of a SURFACE where a file of faults names it."""
        return self.lines + ([self.extra["object_line"]] if "object_line" in self.extra else [])

    def key(self):
        return self.kind, tuple(self.lines), self.side

    def text(self):
        """The line of a report that names it, or would."""
        words = [self.part.kind, *self.part.names] if self.part else []
        kind = self.kind.partition("_")[2] if self.kind.startswith("SURFACE_") else self.kind
        return " ".join([*words, kind, *map(str, self.lines), *([self.side] if self.side else [])])


class Entry:
    """A line of a report as it stands, or one that a file of faults adds, with the fact that it tells, if any."""

    def __init__(self, text, fact=None, part=None):
        self.text, self.fact, self.part = text, fact, part
        self.words = text.split(" ")


class Part:
    """An AREA or a SURFACE: its names, what the report answers, and its notes."""

    def __init__(self, kind, names, answer):
        self.kind, self.names, self.answer, self.notes = kind, tuple(names), answer, []
        self.is_listed = False          # whether a file of faults lists its faults
        self.object_counts = None       # of a SURFACE in a file of version 2: held, faulty, unsettled, skipped

    def all_listed(self):
        """Whether each fault is a fact, or lies in a region that is told to be open."""
        return self.is_listed and not any(note == "MANY" or note.startswith("UNSETTLED") for note in self.notes)


class Facts:
    """All that a report tells, and a file of faults, if there is one; or such a file alone."""

    def __init__(self, report=None, faults=None):
        self.facts, self.parts, self.entries = [], [], []
        self.verdict = self.objects = self.stop = None
        self.commands = set()           # first words of lines that other commands than `check` write
        file = None if faults is None else FaultsFile(faults)
        self.version = file and file.version
        if report is None:
            self.alone(file)
        else:
            self.of_report(Report(report), file)

    def of_report(self, report, file):
        self.verdict, self.objects, self.stop = report.verdict, report.objects, report.stop
        self.commands = {word for word in ("TRIAL", "TABLE", "MODEL") if report.has(word)}
        self.parts = [Part(words[0], words[1:4], words[4:]) for word in ("AREA", "SURFACE")
                      for words in report.of(word)]
        of_line = {id(words): fact for words, fact in self.without_part(report)}
        if file is not None:
            self.listed(file)
        for part in self.parts:
            if not part.is_listed:
                self.facts += of_answer(part)
        self.as_entries(report, of_line)

    def without_part(self, report):
        """Makes the facts of lines that are of no part; pairs of a line's words and its fact."""
        for word in MADE:
            for words in report.of(word):
                self.facts.append(MADE[word](words[1:]))
                yield words, self.facts[-1]

    def as_entries(self, report, of_line):
        """The lines of the report in their order, behind those of a part its facts where they are listed."""
        parts = {(part.kind, part.names): part for part in self.parts}
        for text, words in report.entries:
            part = parts.get((words[0], tuple(words[1:4])))
            its = [fact for fact in self.facts if fact.part is part] if part else []
            if part and (part.is_listed and its):
                self.entries.append(Entry(text, None, part))
                self.entries += [Entry(fact.text(), fact, part) for fact in its]
            else:
                self.entries.append(Entry(text, its[0] if its else of_line.get(id(words)), part))

    def alone(self, file):
        """The facts of a file of faults without a report."""
        for words in file.structures:
            self.facts.append(structure(words))
        self.facts += [finding(words) for words in file.findings]
        self.entries = [Entry(" ".join([kind, *words]), fact) for fact, (kind, words) in zip(
            self.facts, [("STRUCTURE", its) for its in file.structures] + [("FINDING", its) for its in file.findings])]
        pairs = [(Part("AREA", area.names, []), area, self.of_area) for area in file.areas]
        pairs += [(Part("SURFACE", one.names, one.answer or []), one, self.of_surface) for one in file.surfaces]
        for part, its, take in pairs:
            first = len(self.facts)
            self.parts.append(part)
            take(part, its)
            if part.answer:
                self.facts += of_answer(part)
            told = [Entry(fact.text(), fact, part) for fact in self.facts[first:]]
            self.entries += told or [Entry(" ".join([part.kind, *part.names, *part.answer]), None, part)]

    def listed(self, file):
        """Takes over what a file of faults lists; it has to be of the same delivery as the report."""
        if file.findings or file.structures:
            told = [str(one.lines[0]) for one in self.facts if one.kind.startswith(("FINDING_", "STRUCTURE_"))]
            if told != [words[0] for words in file.structures + file.findings]:
                raise Refusal(OTHER + "their findings differ")
            for part in self.parts:
                part.is_listed = True
            return
        parts = {kind: {part.names: part for part in self.parts if part.kind == kind} for kind in ("AREA", "SURFACE")}
        if sorted(parts["AREA"]) != sorted(area.names for area in file.areas):
            raise Refusal(OTHER + "their areas differ")
        if file.surfaces and sorted(parts["SURFACE"]) != sorted(one.names for one in file.surfaces):
            raise Refusal(OTHER + "their surfaces differ")
        for area in file.areas:
            self.of_area(parts["AREA"][area.names], area)
        for surface in file.surfaces:
            self.of_surface(parts["SURFACE"][surface.names], surface)

    def of_area(self, part, area):
        part.is_listed = True
        here = [of_list(part, one) for one in area.faults]
        part.notes += [one.kind for one in area.faults if one.kind in NOTES]
        if area.is_bent:
            part.notes.append("BENT")
        if area.unsettled:
            part.notes.append("UNSETTLED " + " ".join(area.unsettled))
            here += unsettled(part, area.unsettled)
        told = {fact.key() for fact in here}
        if part.answer[:1] == ["PROVED"] and any(fact.is_fault() or fact.kind == "OPEN" for fact in here) or (
                part.answer and part.answer[0] not in ("PROVED", "UNDECIDED", "NOTPROVED") and not here):
            raise Refusal(OTHER + " ".join(part.names))
        # What check names is told, whether the list has it or not.
        self.facts += [fact for fact in of_answer(part) if fact.key() not in told] if part.answer else []
        self.facts += here

    def of_surface(self, part, surface):
        if surface.answer is not None:          # version 1 has the answer of the report
            if part.answer != surface.answer:
                raise Refusal(OTHER + "SURFACE " + " ".join(part.names))
            return
        part.is_listed, part.object_counts = True, surface.counts
        skipped = int(part.answer[2]) if part.answer[:1] == ["PROVED"] else None
        faulty = surface.counts[1]
        if skipped is not None and faulty > skipped or part.answer and skipped is None and not faulty:
            raise Refusal(OTHER + "SURFACE " + " ".join(part.names))
        self.facts += [of_object(part, line, one) for line, one in surface.objects]


def of_list(part, one):
    """The fact of a line in a file of faults. Two lines that cannot be told apart are UNDECIDED."""
    extra = {"bent": True} if one.is_bent else {}
    if one.kind == "UNSETTLED":
        return Fact("UNDECIDED", part, one.lines, None, one.places, {"how": "apart", **extra})
    fact = Fact(one.kind, part, one.lines, (one.sides or [None])[0], one.places, extra)
    fact.rings = one.rings
    return fact


def of_object(part, line, one):
    """The fact of an object of a SURFACE in a file of version 2."""
    kind = "SURFACE_" + ("UNDECIDED" if one.kind == "UNSETTLED" else one.kind)
    extra = {"object_line": line}
    if one.sides:
        extra["sides"] = one.sides
    return Fact(kind, part, one.lines, (one.sides or [None])[0], one.places, extra)


def of_answer(part):
    """The one fault that an answer names."""
    kind, words = part.answer[0], part.answer[1:]
    if kind in ("PROVED", "NOTPROVED"):
        return []
    name = kind if part.kind == "AREA" else "SURFACE_" + kind
    return [Fact(name, part, numbers(words), words[1] if kind == "EMPTY" else None)]


def unsettled(part, answer):
    """The pair that keeps an area undecided, and that no region was judged where a fault is told."""
    if answer[0] == "UNDECIDED":
        return [Fact("UNDECIDED", part, numbers(answer[1:]))]
    return [Fact("UNSETTLED", part)]


def numbers(words):
    return [int(word) for word in words if WHOLE.fullmatch(word)]


def structure(words):
    return Fact("STRUCTURE_" + words[1], lines=[int(words[0])])


def finding(words):
    """The fact of a FINDING line."""
    lines, extra = [int(words[0])], {"code": words[1], "column": int(words[2])}
    if words[1] in ("tid", "ident"):
        lines.append(int(words[3]))
    elif words[1] == "reference":
        extra["word"] = " ".join(words[3:])
    return Fact("FINDING_" + words[1], lines=lines, extra=extra)


def not_proved(words):
    return Fact("NOTPROVED", extra={"rule": " ".join(words[1:]), "number": int(words[0])})


# Lines of no part, in the order in which their facts stand.
MADE = {"STRUCTURE": structure, "FINDING": finding, "NOTPROVED": not_proved,
        "LINKLINE": lambda words: Fact("LINKLINE", extra={"rule": int(words[0])}),
        "LINK": lambda words: Fact("LINK", lines=[int(words[1])], extra={"rule": int(words[0])}),
        "CANONICAL": lambda words: Fact("CANONICAL")}
