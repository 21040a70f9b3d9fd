"""Gives each fact of a delivery the rows that its lines name, a place, and the lines to be marked.

It proves nothing: places are those of the file of faults, of the transfer, or, of arcs, about where.
"""
import math
from bisect import bisect_left
from collections import Counter

from itftools.numbers import units
from itftools.reading.rows import column_of
from itftools.refusal import Refusal
from itftools.saying.words import shown
from itftools.shapes.curves import trace
from itftools.shapes.meetings import crossing, meeting, nearest
from itftools.shapes.rings import bulge, outline, ring_size, within

LIMITED = ("range", "text", "enum", "decimals", "number")      # findings of which the limits are told


class Placing:
    """What a delivery has, for its facts.

    A fact gets `at`, a place in words or None, `unit`, the same in units, `marks`, polylines in units,
    `named`, what is told of its rows, and more of `extra`.
    """

    def __init__(self, delivery):
        self.model, self.rows, self.edges = delivery.model, delivery.rows, delivery.edges
        self.physical, self.by_words, self.scale = delivery.physical, delivery.by_words, delivery.scale
        self.step, self.text_of = delivery.step, delivery.text_of

    def place(self, fact):
        fact.at, fact.unit, fact.marks, fact.named = None, None, [], []
        if fact.kind.startswith("STRUCTURE_"):
            line = fact.lines[0]
            fact.named = [{"line": line, "text": shown(self.physical.get(line, ""))}]
            return
        fact.named = [self.named(self.rows[line]) for line in dict.fromkeys(fact.all_lines())]
        if fact.kind.startswith("FINDING_"):
            self.finding(fact)
        elif fact.kind == "LINK":
            row = self.rows[fact.lines[0]]
            fact.names, fact.at = (row.topic, row.table, ""), row.place
        elif fact.kind.startswith("SURFACE_"):
            self.surface(fact)
        elif fact.lines:
            self.of_area(fact)
        if fact.at:
            fact.unit = tuple(units(word, self.scale) for word in fact.at)

    @staticmethod
    def named(row):
        return {"line": row.number, "text": shown(row.text()), "topic": shown(row.topic),
                "table": shown(row.table), "tid": shown(row.object)}

    def finding(self, fact):
        row = self.rows[fact.lines[0]]
        name, value = column_of(self.model, row, fact.extra["column"])
        fact.names = (row.topic, row.table, name or "")
        fact.extra["attribute"] = name or ""
        word = fact.extra.pop("word", None) if fact.kind == "FINDING_reference" else " ".join(value)
        fact.extra["value"] = shown(word or "")
        limit = self.model.topics.get(row.topic, {}).get(row.table)
        if limit and fact.extra["code"] in LIMITED and limit.limits.get(name):
            fact.extra["allowed"] = limit.limits[name]
        fact.at = row.place

    # SURFACEs.

    def surface(self, fact):
        topic, table, attribute = fact.part.names
        row = self.rows[fact.extra.get("object_line", fact.lines[0])]
        helper = (topic, "%s_%s" % (table, attribute))
        owner, parts = row.object, []
        for number in fact.lines:
            line = self.edges.line_at(number)
            if line and line.where == helper:
                owner = line.owner
                parts += [edge for at, edge in line.edges() if at == number]
        # The named edges say whose lines they are; all lines of that object are shown.
        fact.marks = [line.drawn() for line in self.edges.of_owner(helper, owner)]
        fact.extra["tid"] = shown(owner)
        place = self.place_of_surface(fact, parts)
        if fact.places:
            fact.at = tuple(fact.places[0])
        elif place:
            fact.at = self.text_of(place)
        elif row.place:
            fact.at = row.place

    @staticmethod
    def place_of_surface(fact, parts):
        if fact.kind in ("SURFACE_MEETING", "SURFACE_UNDECIDED") and len(parts) == 2:
            fact.marks = [list(part) for part in parts]
            if fact.kind == "SURFACE_UNDECIDED":
                return parts[0][0]
            place, how = meeting(*parts)
            fact.extra.update(how if not fact.places else {})
            return place
        if fact.kind == "SURFACE_ODD" and parts:
            ends = Counter(end for line in fact.marks for edge in zip(line, line[1:]) for end in edge)
            return next((end for end in parts[0] if ends[end] % 2), parts[0][1])
        return fact.marks[0][0] if fact.marks else None

    # AREAs.

    def of_area(self, fact):
        area = self.by_words[fact.part.names]
        kind = {"MEETING": self.meeting, "UNDECIDED": self.meeting, "HINT": self.hint, "ON": self.points,
                "OUTSIDE": self.points, "TWO": self.points, "UNJUDGED": self.points}.get(fact.kind, self.region)
        kind(fact, area, self.step(area))

    def hint(self, fact, area, step):
        fact.marks = [path(curve_in(area, line), step) for line in dict.fromkeys(fact.lines)]
        fact.at = self.text_of(fact.units)

    def meeting(self, fact, area, step):
        curves = [curve_in(area, line) for line in dict.fromkeys(fact.lines)]
        fact.marks = [path(one, step) for one in curves]
        places = [tuple(place) for place in fact.places]
        if fact.extra.get("how") == "apart":
            fact.at = places[0]
        elif fact.kind == "MEETING" and not any(one[2] for one in curves):
            place, how = meeting(*(scaled(one[:2], step) for one in curves))
            fact.extra.update(how)
            fact.at = places[0] if places else self.text_of(place)
        else:
            # Of arcs the file of faults has no exact place: they are told by their polylines.
            fact.extra["how"] = "arc" if len(curves) > 1 else "arcAlone"
            fact.at = self.text_of(crossing(*fact.marks) or nearest(*fact.marks))

    def points(self, fact, area, step):
        points = [tuple(place) for place in fact.places] or [
            self.text_of(scaled([point_in(area, line)], step)[0])
            for line in fact.lines[:2 if fact.kind == "TWO" else 1]]
        fact.at = points[-1]
        for line in fact.lines[:2 if fact.kind == "TWO" else 1]:
            point_in(area, line)
        if fact.kind == "ON":
            fact.marks = [path(curve_in(area, fact.lines[1]), step)]
        if fact.kind == "TWO":
            fact.extra["first"] = points[0]

    def region(self, fact, area, step):
        """EMPTY, OPEN and CUT: of lines that are bent the ends are those of the file."""
        one = path(curve_in(area, fact.lines[0]), step)
        if fact.extra.get("bent") and len(fact.places) == 2:
            ends = [tuple(units(word, self.scale) for word in place) for place in fact.places]
            one = ends if (one[0], one[-1]) != tuple(ends) else one
        fact.marks = [one]
        middle = one[(len(one) - 1) // 2:][:2]
        fact.at = self.text_of(tuple((middle[0][k] + middle[-1][k]) // 2 for k in (0, 1)))
        if fact.rings:
            self.rings(fact)

    def rings(self, fact):
        """Rings in units, arcs as polylines; size, mean width, and a place within."""
        corners = [[[tuple(units(word, self.scale) for word in corner[k:k + 2]) for k in range(0, len(corner), 2)]
                    for corner in ring] for ring in fact.rings]
        size = sum(ring_size([corner[0] for corner in ring]) / 2 + sum(map(bulge, ring, ring[1:] + ring[:1]))
                   for ring in corners)
        fact.rings = [outline(ring) for ring in corners]
        outer = max(fact.rings, key=lambda ring: ring_size(ring))
        border = sum(math.dist(p, q) for ring in fact.rings for p, q in zip(ring, ring[1:] + ring[:1]))
        unit = 10 ** self.scale
        fact.extra["size"] = round(size / unit ** 2, 3)
        fact.extra["width"] = round(2 * size / border / unit, 4) if border else 0
        fact.rings.sort(key=lambda ring: ring is not outer)
        fact.at = self.text_of(within(fact.rings) or outer[0])


def scaled(places, step):
    return [(round(x * step), round(y * step)) for x, y in places]


def curve_in(area, line):
    """The curve that a line of the transfer ends, of an area."""
    return area.curve(index_in(area.lines, line, "curve"))


def point_in(area, line):
    return area.point(index_in(area.rows, line, "point"))


def index_in(lines, line, what):
    index = bisect_left(lines, line)
    if index == len(lines) or lines[index] != line:
        raise Refusal("the transfer has no %s in line %d: is the report of this transfer?" % (what, line))
    return index


def path(one, step):
    """A curve as a polyline in units."""
    between = [tuple(one[0][k] + way[k] for k in (0, 1)) for way in trace(one)] if one[2] else []
    return scaled([one[0], *between, one[1]], step)
