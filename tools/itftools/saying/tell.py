"""The lines of a report, each with what it names in words: table, object, attribute, place and line.

It takes facts, and reads no report. It proves nothing, and checks none of what it tells.
"""
import math

from itftools.reading.links import Links, value_of, why_none
from itftools.reading.rows import column_of
from itftools.reading.transfer import physical_lines, scaled
from itftools.saying import causes
from itftools.saying.sentences import AREAS, FAULTS, FINDINGS, ROLES, STRUCTURES, SURFACES, VERDICTS
from itftools.shapes.chains import SHORT, forks
from itftools.shapes.curves import length
from itftools.shapes.hints import hints_of
from itftools.shapes.named import Named
from itftools.shapes.regions import (Index, around, curve_at, free_ends_of_fault, owner_of, region_of,
                                     region_of_fault)

MOST_HINTS = 10         # of a kind
MOST_ENDS = 20          # faults of a file of which the free ends are told
MANY = 20               # facts of an area from which on its curves get an index
TELLING_WORDS = {
    "hintCross": "seem to cross", "hintNear": "come near each other", "hintHalf": "is about half a turn or more"}


class Teller:
    """What the lines of a report name in one model and one transfer."""

    def __init__(self, delivery, links_name=None):
        self.delivery, self.model, self.rows = delivery, delivery.model, delivery.rows
        self.links, self.told_ends = Links(links_name), 0
        facts = delivery.facts
        pairs = [(fact.extra["rule"], self.rows[fact.lines[0]]) for fact in facts if fact.kind == "LINK"]
        if self.model:
            self.links.look_up(self.model, delivery.transfer_name, pairs)
        for area in delivery.areas:
            if sum(fact.part is not None and fact.part.names == area.words for fact in facts) > MANY:
                area.index = Index(area)

    def told(self):
        """The lines of the report, each with those that tell what it names, indented."""
        for entry in self.delivery.told.entries:
            yield entry.text
            yield from ("    " + told for told in self.of_entry(entry))

    def of_entry(self, entry):
        words, fact = entry.words, entry.fact
        others = {"FAULT": self.stop, "TABLE": self.table, "TRIAL": self.trial, "LINKS": self.link_counts,
                  "VERDICT": lambda words: [VERDICTS[words[1]]]}
        if words[0] in others:
            return others[words[0]](words)
        if words[0] in ("AREA", "SURFACE"):
            return self.of_part(fact) if fact else self.of_answer(words)
        makers = {"FINDING": self.finding, "STRUCTURE": self.structure, "LINK": self.link, "LINKLINE": self.link_line,
                  "NOTPROVED": self.not_proved, "CANONICAL": self.canonical}
        return makers[words[0]](fact) if fact else ()

    def line(self, number, what=""):
        return f"line {number}: {shown(self.rows[number].text())}" + what

    # Findings, and a line at fault.

    def finding(self, fact):
        row, code = self.rows[fact.lines[0]], fact.extra["code"]
        name, value = column_of(self.model, row, fact.extra["column"])
        yield self.of_value(row, code, name, value, fact)
        if fact.extra.get("allowed"):
            yield f"allowed: {fact.extra['allowed']}"
        if code == "count" and len(row.fields) - 1 > needed(self.model, row):
            yield "a blank within a text divides it into two fields"
        if row.place:
            yield "at " + " ".join(row.place)
        yield self.line(row.number)
        if code == "count" and self.is_continued(row.number):
            yield "hint: the line is continued, and a CONT begins a new field: it divides one that goes on"
        for cause in self.causes_of(code, row, value):
            yield "hint: " + cause
        if code in ("tid", "ident"):
            yield self.line(fact.lines[1], ", which is the first with it")

    def of_value(self, row, code, name, value, fact):
        """Where a finding is, what it says, and of which value."""
        told = f"{row.topic}.{row.table}, object {row.object}"
        if name is not None:
            told += f", attribute {name}"
        told += f": {FINDINGS[code]}"
        if code == "reference":
            return told + f": {fact.extra['value']}"
        if code == "count":
            return told + f": {len(row.fields) - 1}, and {needed(self.model, row)} are needed"
        return told + f": {' '.join(value)}" if value and code not in ("tid", "ident") else told

    def is_continued(self, number):
        """Whether a line of the transfer ends in the continue code."""
        with open(self.delivery.transfer_name, "rb") as file:
            line = next((text for at, text in physical_lines(file) if at == number), "")
        return line.rstrip(" \t").endswith(self.model.goes_on)

    def causes_of(self, code, row, value):
        if code == "text":
            return causes.of_text(" ".join(value))
        if code == "range":
            return causes.of_range(self.model, list(value) or row.fields[1:])
        return ()

    def structure(self, fact):
        number, code = fact.lines[0], fact.kind.partition("_")[2]
        yield STRUCTURES[code]
        text = self.delivery.physical.get(number)
        if text is not None:
            yield f"line {number}: {shown(text)}"
        for cause in causes.of_transfer(self.model, self.delivery.transfer_name, number, code, text or ""):
            yield "hint: " + cause

    # Areas and SURFACEs.

    def of_answer(self, words):
        """An answer that names no fault."""
        known = AREAS if words[0] == "AREA" else SURFACES
        if words[4:] and words[4] in known:
            yield known[words[4]]
        if words[4:5] == ["PROVED"]:
            what = (f"straights and half arcs: {words[6]}; points of objects: {words[7]}" if words[0] == "AREA" else
                    f"objects that are judged: {words[5]}; skipped, since they have an arc: {words[6]}")
            yield what

    def of_part(self, fact):
        if fact.kind.startswith("SURFACE_"):
            yield from self.surface(fact)
        elif fact.lines:
            yield from self.of_area(fact, self.delivery.by_words[fact.part.names])
        else:
            yield AREAS[fact.kind]

    def of_area(self, fact, area):
        named = Named(area, fact)
        yield "two lines cannot be told apart" if fact.extra.get("how") == "apart" else AREAS[fact.kind]
        if fact.extra.get("bent"):
            yield "told of the area with bent lines: coordinates are those of bent parts"
        if named.place or fact.places and named.kind in ("MEETING", "UNDECIDED"):
            yield "at " + " ".join(fact.at)
        for index in dict.fromkeys(named.curves):
            yield from self.curve(area, index)
        for index in named.points:
            yield from self.point(area, index)
        yield from self.region(fact, area, named)
        if fact.kind == "UNDECIDED" and fact.extra.get("how") != "apart":
            yield from self.hindrances(area)
        if fact.kind in ("OUTSIDE", "TWO"):
            yield from self.ends_of(fact, area, named)

    def region(self, fact, area, named):
        """The size of a region, and its box: by the rings of a file of faults, else traced here."""
        if fact.rings:
            xs, ys = zip(*(place for ring in fact.rings for place in ring))
            box, size = (min(xs), min(ys), max(xs), max(ys)), "%.3f" % fact.extra["size"]
            corners = [" ".join(self.delivery.text_of(box[k:k + 2])) for k in (0, 2)]
        else:
            region = region_of_fault(area, named)
            if not region:
                return
            size, box = region.size_told(), region.box
            corners = [self.place(area, box[k:k + 2]) for k in (0, 2)]
        yield "the region has a size of %s, from %s to %s" % (size, *corners)

    def ends_of(self, fact, area, named):
        self.told_ends += 1
        if self.told_ends > MOST_ENDS:
            return
        ends = free_ends_of_fault(area, named)
        if not ends:
            yield "no boundary line has a free end"
        for end in ends:
            told = (f"free end at {self.place(area, end.place)}, {self.place(area, (end.way,))} away,"
                    f" of the straight or half arc of line {area.lines[end.curve]}")
            if end.next:
                told += (f"; the nearest other end is {self.place(area, (math.dist(end.place, end.next),))}"
                         f" from it, at {self.place(area, end.next)}")
            yield told
        what = "the point is misplaced" if fact.kind == "OUTSIDE" else "an object is surplus"
        yield "where none is near, a whole boundary is missing, or " + what

    def hindrances(self, area):
        """What is likely to keep an area undecided; hints, since floats decide them."""
        found = [("a fork at %s: the lines %d and %d leave it in nearly one direction" % (
            self.place(area, place), *sorted((area.lines[one], area.lines[other]))))
            for place, one, other in forks(area)]
        yield from some("forks", found)
        yield from some("short arcs", [
            "a half arc of %.1f mm at %s, of line %d" % (way * 1000, self.place(area, area.curve(index)[0]),
                                                         area.lines[index])
            for index in sorted(area.thirds) for way in [length(area.curve(index)) / 10 ** area.scale] if way < SHORT])
        yield from some("arcs that cross or come near a line, or are of half a turn", [
            "%s %s at %s" % (lines_of(area, first, second), TELLING_WORDS[how],
                             self.place(area, (round(at[0]), round(at[1]))))
            for how, _, at, first, second in hints_of(area) if how in TELLING_WORDS])
        yield "hint: `itf simplify` writes a copy in which such arcs are chains of straights, to look further"

    def curve(self, area, index):
        start, end, third = area.curve(index)
        row = self.rows[area.lines[index]]
        what = "a straight" if third is None else "half an arc"
        yield (f"boundary line of object {row.object} of {row.topic}.{row.table}: {what} from"
               f" {self.place(area, start)} to {self.place(area, end)}")
        yield self.line(row.number)

    def point(self, area, index):
        row = self.rows[area.rows[index]]
        yield f"object {row.object} of {row.topic}.{row.table}, at {self.place(area, area.point(index))}"
        yield self.line(row.number)

    def surface(self, fact):
        yield SURFACES[fact.kind.partition("_")[2]]
        for number in dict.fromkeys(fact.all_lines()):
            row = self.rows[number]
            place = f", at {' '.join(row.place)}" if row.place else ""
            yield f"object {row.object} of {row.topic}.{row.table}{place}"
            yield self.line(number)

    # Links, and what has no fact.

    def link_line(self, fact):
        number = fact.extra["rule"]
        yield "this line of the links states no rule, which is LINK topic table point reference area"
        rule = self.links.rule(number)
        if rule:
            yield f"line {number} of the links: {shown(' '.join(rule))}"
            yield shown(why_none(self.model, rule))

    def link(self, fact):
        yield "the point of this object does not lie in the region of the object to which it refers"
        number, row = fact.extra["rule"], self.rows[fact.lines[0]]
        rule = self.links.rule(number)
        place = f", at {' '.join(row.place)}" if row.place else ""
        if rule:
            yield f"line {number} of the links: {shown(' '.join(rule))}"
            place = f", {rule[3]} at {' '.join(value_of(self.model, row, rule[3]))}"
        yield f"object {row.object} of {row.topic}.{row.table}{place}"
        yield self.line(row.number)
        if rule:
            (topic, table, object_), line, fields = self.links.referred[number, row.number]
            yield f"it refers, by {rule[4]}, to object {object_} of {topic}.{table}"
            yield f"line {line}: {shown(' '.join(fields))}"
            yield self.where(row, rule, self.delivery.by_words[topic, table, rule[5]], line)

    def where(self, row, rule, area, number):
        """Where the point of a rule lies in an area, by its object; the line is of that referred to."""
        place = tuple(scaled(row.number, word, area.scale) for word in value_of(self.model, row, rule[3]))
        if number not in area.rows:
            return f"the object referred to has no point in {rule[5]}"
        curve = curve_at(area, place)
        if curve is not None:
            return f"the point lies on the straight or half arc of line {area.lines[curve]}"
        region = region_of(area, around(place * 2), place=place) if len(area.lines) else None
        if region is None:
            return "the point lies in no region"
        return f"the point lies in the region of the object of line {area.rows[owner_of(area, region)]}"

    @staticmethod
    def link_counts(words):
        yield f"rules: {words[1]}; points that were looked at: {words[2]}"

    @staticmethod
    def canonical(_):
        yield "the continue code of the model is the letter T, with which no transfer has such a text"

    @staticmethod
    def place(area, place):
        return " ".join(f"{value / 10 ** area.scale:.{area.scale}f}" for value in place)

    def not_proved(self, fact):
        number, (rule, place) = fact.extra["number"], fact.extra["rule"].split(" ")
        areas = self.model.areas[number:number + 1]
        yield (f"area {number} ({' '.join(areas[0].words) if areas else 'which the model has not'})"
               f" breaks rule {rule} of certificates at {place}")

    @staticmethod
    def table(words):
        yield f"{words[1]}.{words[2]}: {ROLES[words[3]]}; columns: {words[4]}, lines: {words[5]}"

    @staticmethod
    def trial(words):
        yield f"curves: {words[2]}, ends of curves: {words[3]}, points: {words[4]}"

    def stop(self, words):
        yield FAULTS[words[1]] + (f": {words[2]}" if words[1] in ("READ", "LIMIT") else "")
        if words[1] != "MODEL":
            return
        with open(self.delivery.model_name, "rb") as file:
            text = file.read()
        lines = text.decode("latin-1").split("\n")
        line, column = int(words[3]), int(words[4])
        if line <= len(lines):
            front = f"line {line}: "
            yield front + shown(lines[line - 1].rstrip("\r"))
            if column <= 200:
                yield " " * (len(front) + column - 1) + "^"
        for cause in causes.of_model(text, words[2], line, column, " ".join(words[5:])):
            yield "hint: " + cause
        yield f"the fault is of the kind {words[2]}: docs/model-language.md has an example"


def some(what, found):
    """Hints of one kind, not too many, and how many there are."""
    for hint in found[:MOST_HINTS]:
        yield "hint: " + hint
    if len(found) > MOST_HINTS:
        yield "hint: so many %s in all: %d" % (what, len(found))


def lines_of(area, first, second):
    if first == second:
        return "the half arc of line %d" % area.lines[first]
    return "the lines %d and %d" % (area.lines[first], area.lines[second])


def needed(model, row):
    """How many fields an object of this row's table has, its identification included."""
    return 1 + sum(count for _, _, count in model.topics[row.topic][row.table].columns)


def shown(text):
    """A line as it may stand in a terminal, and not longer than 200 letters."""
    return "".join(letter if letter.isprintable() else "?" for letter in text[:200])
