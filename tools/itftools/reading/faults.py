"""Reads a file of all faults, which `itffaults` wrote, into plain words, by docs/faults.md: versions 1 and 2.

No line is passed over: one that is of no form, or stands where it must not, is a Refusal that names its
number, and so are a file that was cut off and counts that are not those of their lists.

Version 2, for areas and SURFACEs with half arcs, has what version 1 has but for this:

    AREA topic table attribute DRAWN    or BENT, in place of the line BENT
    UNSETTLED line line x y             two lines that cannot be told apart, behind the meetings;
                                        no area is unsettled as a whole
    COUNTS meetings unsettled on outside two empty cuts open unjudged
    SURFACE topic table attribute       and behind it of each object at fault
    OBJECT line                         the line of the object, then one line of what is wrong with it:
    MEETING line line x y               or UNSETTLED line line x y, ODD line x y,
    PARTS line side x y line side x y
    SURFACES held faulty unsettled skipped
"""
import re

from itftools.refusal import Refusal

# The words behind a kind: L a line of the transfer, S a side, P the two numbers of a place.
FORMS = {"MEETING": "LLP", "UNSETTLED": "LLP", "ON": "LLP", "OUTSIDE": "LP", "TWO": "LLPP", "EMPTY": "LSPP",
         "CUT": "LPP", "OPEN": "LSPP", "UNJUDGED": "LP"}
OF_OBJECTS = {"MEETING": "LLP", "UNSETTLED": "LLP", "ODD": "LP", "PARTS": "LSPLSP"}
COUNTED = {1: ("MEETING", "ON", "OUTSIDE", "TWO", "EMPTY", "CUT", "OPEN", "UNJUDGED"),
           2: ("MEETING", "UNSETTLED", "ON", "OUTSIDE", "TWO", "EMPTY", "CUT", "OPEN", "UNJUDGED")}
# The order of lines in an area; what is told once alone is in ONCE.
ORDER = ("MEETING", "UNSETTLED", "ON", "BENT", "OUTSIDE", "TWO", "EMPTY", "CUT", "OUTER", "OPEN", "UNJUDGED",
         "MANY", "SETTLED")
ONCE = ("BENT", "OUTER", "MANY", "SETTLED")
HEADS = {"ITFFAULTS 1": 1, "ITFFAULTS 2": 2}
WHOLE = re.compile("[0-9]+")
NUMBER = re.compile(r"-?[0-9]+(\.[0-9]+)?")
CHECKS = re.compile("UNDECIDED [0-9]+ [0-9]+|FIRST ((MEETING|ON|TWO) [0-9]+ [0-9]+|(OUTSIDE|CUT) [0-9]+"
                    "|EMPTY [0-9]+ (LEFT|RIGHT))")


class Listed:
    """One line of a fault: its kind, lines, sides and places as they stand there, and its rings.

    `number` is that of its line in the file, `is_bent` whether it is told of lines that are bent.
    """

    def __init__(self, kind, number, form="", words=()):
        self.kind, self.number, self.rings, self.is_bent = kind, number, [], False
        self.lines, self.sides, self.places, rest = [], [], [], list(words)
        for letter in form:
            if letter == "L":
                self.lines.append(int(taken(rest, WHOLE)))
            elif letter == "S":
                self.sides.append(taken(rest, re.compile("LEFT|RIGHT")))
            else:
                self.places.append((taken(rest, NUMBER), taken(rest, NUMBER)))
        if rest:
            raise ValueError


class AreaFaults:
    """What the file lists of one area, the notes OUTER, BENT and MANY among its faults, in order."""

    def __init__(self, names):
        self.names, self.faults = tuple(names), []
        self.unsettled = None           # the words of check's answer, where no level settles it
        self.is_counted = self.is_bent = False
        self.rank = 0

    def kinds(self):
        return [one.kind for one in self.faults]


class SurfaceFaults:
    """A SURFACE: of version 1 the answer of the report, of version 2 pairs of an object's line and its fault."""

    def __init__(self, names, answer=None):
        self.names, self.answer, self.objects, self.counts = tuple(names), answer, [], None


class FaultsFile:
    """All that a file of faults tells."""

    def __init__(self, text):
        lines = text.split("\n")
        self.version = HEADS.get(lines[0])
        if self.version is None or lines[-2:] != ["END", ""]:
            raise Refusal("this is no file of faults, or it was not written to its end")
        self.areas, self.surfaces, self.count, self.at = [], [], None, 1
        self.findings, self.structures, self.finding_count = [], [], None
        self.lines = lines[:-2]
        while self.at < len(self.lines):
            self.take()
        self.end()

    def end(self):
        if self.areas and not self.areas[-1].is_counted or self.open_surface():
            self.bad("an area has no COUNTS, or a surface no SURFACES")
        if self.count is not None and self.count != len(self.areas):
            self.bad("it has not as many areas as it says")
        if self.finding_count not in (None, len(self.findings)):
            self.bad("it has not as many findings as it says")
        if [self.count, self.finding_count].count(None) + (not self.structures) != 2:
            self.bad("it tells neither of areas, of findings, nor of a line at fault, or of several of these")

    def bad(self, why):
        raise Refusal("the file of faults is damaged at line %d: %s" % (min(self.at, len(self.lines) + 1), why))

    def next(self):
        """The words of the next line, without a word where the file ends."""
        words = self.lines[self.at].split(" ") if self.at < len(self.lines) else [""]
        self.at += 1
        return words

    def take(self):
        """Takes a line, and those that belong to it."""
        words = self.next()
        try:
            area = self.areas[-1] if self.areas and not self.areas[-1].is_counted else None
            if area:
                self.in_area(area, words)
            elif self.open_surface():
                self.in_surface(self.open_surface(), words)
            else:
                self.outside(words)
        except ValueError:
            self.bad("this line is unknown here: " + " ".join(words)[:100])

    def outside(self, words):
        """A line that is of no area and of no surface."""
        word = words[0]
        if word == "AREAS" and self.at == 2:
            self.count = only_number(words)
        elif word == "AREA" and self.count is not None and not self.surfaces:
            self.areas.append(self.area(words))
        elif word == "SURFACE" and self.count is not None:
            self.surfaces.append(self.surface(words))
        elif word == "FINDINGS" and self.at == 2:
            self.finding_count = only_number(words)
        elif word == "FINDING" and self.finding_count is not None:
            self.findings.append(words[1:])
        elif word == "STRUCTURE" and self.at == 2:
            self.structures.append(words[1:])
        else:
            raise ValueError

    def area(self, words):
        names = words[1:4]
        if len(words) != (4 if self.version == 1 else 5) or words[4:] not in ([], ["DRAWN"], ["BENT"]):
            raise ValueError
        made = AreaFaults(names)
        made.is_bent = words[4:] == ["BENT"]
        return made

    def surface(self, words):
        if self.version == 1 and len(words) > 4:
            return SurfaceFaults(words[1:4], words[4:])
        if self.version == 2 and len(words) == 4:
            return SurfaceFaults(words[1:])
        raise ValueError

    def open_surface(self):
        """The surface of which objects are still told, or None."""
        is_open = self.surfaces and self.surfaces[-1].answer is None and self.surfaces[-1].counts is None
        return self.surfaces[-1] if is_open else None

    def in_surface(self, surface, words):
        if words[0] == "OBJECT":
            line, number = only_number(words), self.at + 1
            words = self.next()
            form = OF_OBJECTS[words[0]] if words[0] in OF_OBJECTS else "?"
            if form == "?":
                raise ValueError
            surface.objects.append((line, Listed(words[0], number, form, words[1:])))
        elif words[0] == "SURFACES":
            surface.counts = [int(taken([word], WHOLE)) for word in words[1:]]
            told = [one.kind == "UNSETTLED" for _, one in surface.objects]
            if len(surface.counts) != 4 or surface.counts[1:3] != [told.count(False), told.count(True)]:
                self.bad("the numbers of SURFACES are not those of its objects")
        else:
            raise ValueError

    def in_area(self, area, words):
        word, number = words[0], self.at
        if word == "COUNTS":
            self.counted(area, words)
        elif word == "RING" and area.faults and area.faults[-1].kind in ("EMPTY", "OPEN"):
            area.faults[-1].rings.append([self.corner() for _ in range(only_number(words))])
        elif words == ["UNSETTLED"] and self.version == 1:
            self.put(area, "SETTLED")
            area.unsettled = self.checks_answer()
        elif words == ["BENT"] and self.version == 1:
            self.put(area, "BENT")
            area.is_bent = True
        elif words in (["OUTER"], ["MANY"]):
            self.put(area, word)
            area.faults.append(Listed(word, number))
        elif word in COUNTED[self.version]:
            self.put(area, word)
            area.faults.append(Listed(word, number, FORMS[word], words[1:]))
            area.faults[-1].is_bent = area.is_bent
        else:
            raise ValueError

    def put(self, area, word):
        """Lines of an area stand in one order, and some of them once."""
        rank = ORDER.index(word)
        if rank < area.rank or rank == area.rank and word in ONCE:
            raise ValueError
        area.rank = rank

    def checks_answer(self):
        words = self.next()
        if not CHECKS.fullmatch(" ".join(words)):
            raise ValueError
        return words

    def corner(self):
        """A place where a side begins, and of a half arc a third place of its circle."""
        words = self.next()
        if len(words) not in (2, 4) or not all(map(NUMBER.fullmatch, words)):
            self.bad("this is no corner of a ring")
        return words

    def counted(self, area, words):
        """The counts of an area have to be those of its lists."""
        kinds, there = COUNTED[self.version], area.kinds()
        counts = [int(taken([word], WHOLE)) for word in words[1:]]
        if len(counts) != len(kinds):
            raise ValueError
        for kind, count in zip(kinds, counts):
            if there.count(kind) != count and "MANY" not in there:
                self.bad("%d of %s are counted, and %d are told" % (count, kind, there.count(kind)))
        if any(one.kind in ("EMPTY", "OPEN") and not one.rings for one in area.faults):
            self.bad("a region has no ring")
        area.is_counted = True


def taken(words, form):
    """The first of some words, which has this form; it is taken off."""
    if not words or not form.fullmatch(words[0]):
        raise ValueError
    return words.pop(0)


def only_number(words):
    """The one number behind a word."""
    if len(words) != 2:
        raise ValueError
    return int(taken(words[1:], WHOLE))
