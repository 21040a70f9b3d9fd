"""Which objects lie on both sides of the line that a fault of a region names, and beside the region.

For pages and layers alone; hints, which prove nothing. Regions are traced here, among the curves near
the faults, by floats; curves that meet badly are left out, as a file of all faults leaves them out.
"""
from collections import defaultdict

from itftools.shapes.curves import box_of, extent
from itftools.shapes.regions import Part, around, reach, region_in

MOST_BESIDE = 8         # objects beside a region that are named
MOST_CURVES = 400       # of a region's boundary that are gone along
FEW = 64                # a curve in more squares is looked at for every box
ROOM = 3                # squares round a fault in which curves are looked at
SMALL = 5000            # an area of fewer curves is looked at as a whole


class Beyond(Exception):
    """A region leaves what is looked at."""


class Near:
    """The curves and points of an area near some boxes, by the squares of a grid.

    `near` gives those that may touch a box, and says Beyond where not all of it was looked at.
    """

    def __init__(self, area, boxes, but):
        self.area = area
        sizes = sorted(max(box[2] - box[0], box[3] - box[1], 1) for box in boxes)
        self.size = max(4 * sizes[len(sizes) // 2], 1)
        self.is_whole = len(area.lines) < SMALL
        self.squares, self.points, self.wide = defaultdict(list), defaultdict(list), []
        self.known = set()
        if not self.is_whole:
            for box in boxes:
                self.add_room(box)
        for index in range(len(area.lines)):
            if index not in but:
                self.add_curve(index)
        for index in range(len(area.rows)):
            square = area.px[index] // self.size, area.py[index] // self.size
            if self.is_whole or square in self.known:
                self.points[square].append(index)

    def ranges(self, box):
        left, low, right, high = (int(value // self.size) for value in box)
        return range(left, right + 1), range(low, high + 1)

    def add_room(self, box):
        columns, rows = self.ranges(box)
        if len(columns) * len(rows) <= FEW:
            self.known.update((x, y) for x in range(columns[0] - ROOM, columns[-1] + ROOM + 1)
                              for y in range(rows[0] - ROOM, rows[-1] + ROOM + 1))

    def add_curve(self, index):
        area, size, known = self.area, self.size, self.known
        left, right, low, high = (area.x0[index] // size, area.x1[index] // size, area.y0[index] // size,
                                  area.y1[index] // size)
        if index not in area.thirds and -2 < left - right < 2 and -2 < low - high < 2:      # in four squares at most
            if self.is_whole or (left, low) in known or (right, high) in known or (left, high) in known or (
                    right, low) in known:
                for square in {(left, low), (right, high), (left, high), (right, low)}:
                    self.squares[square].append(index)
            return
        columns, rows = self.ranges(reach(area, index))
        if len(columns) * len(rows) > FEW:
            self.wide.append(index)
            return
        for square in ((x, y) for x in columns for y in rows):
            if self.is_whole or square in self.known:
                self.squares[square].append(index)

    def within(self, box):
        """The squares of a box."""
        columns, rows = self.ranges(box)
        if len(columns) * len(rows) > 40 * FEW and self.is_whole:
            return list(self.squares.keys() | self.points.keys())
        squares = [(x, y) for x in columns for y in rows] if len(columns) * len(rows) <= 40 * FEW else None
        if squares is None or not (self.is_whole or self.known.issuperset(squares)):
            raise Beyond
        return squares

    def near(self, box):
        found = set(self.wide)
        for square in self.within(box):
            found.update(self.squares.get(square, ()))
        return sorted(found)

    def points_near(self, box):
        left, low, right, high = box
        for square in self.within(box):
            for index in self.points.get(square, ()):
                x, y = self.area.point(index)
                if left <= x <= right and low <= y <= high:
                    yield index


class Sides:
    """Looks for the objects beside faults of one area; `bad` are its facts of lines that meet badly."""

    def __init__(self, area, facts, bad):
        self.area, self.index_of = area, {}
        lines = {line for fact in [*facts, *bad] for line in fact.lines}
        for index, line in enumerate(area.lines):
            if line in lines:
                self.index_of[line] = index
        self.but = but = {self.index_of[line] for fact in bad for line in fact.lines}
        boxes = [box_of(area.curve(self.index_of[fact.lines[0]])) for fact in facts]
        self.near = Near(area, boxes, but)
        self.limits = extent(area)

    def of(self, fact):
        """What stands in `extra` of a fault: `sides_of_line`, and of EMPTY and OPEN `beside`."""
        index = self.index_of[fact.lines[0]]
        if fact.extra.get("bent") or index in self.but:
            return {}
        before, self.area.index = self.area.index, self.near
        try:
            regions = {side: self.region(index, side == "LEFT") for side in ("LEFT", "RIGHT")}
            told = {"sides_of_line": [one for side in regions for one in self.told(regions[side], side)]}
            if fact.kind == "CUT":
                told["sides_of_line"] = self.told(regions["LEFT"], "BOTH")
            elif regions[fact.side]:
                told["beside"] = self.beside(regions[fact.side])
            return told
        finally:
            self.area.index = before

    def region(self, index, forward):
        """The region on the left of a half-edge; False where it is the outside, None where it is not known."""
        box = around(box_of(self.area.curve(index)))
        try:
            while True:
                part = Part(self.area, box)
                found = region_in(part, (index, forward), None)
                if found or part.holds(self.limits):
                    return found or False
                wide, high = box[2] - box[0] + 2, box[3] - box[1] + 2
                box = (box[0] - wide, box[1] - high, box[2] + wide, box[3] + high)
        except Beyond:
            return None

    def told(self, region, side):
        """The objects in a region, or what is there in their place, with the side."""
        if not region:
            return [{"side": side, "what": "unknown" if region is None else "outside"}]
        try:
            owners = self.owners(region)
        except Beyond:
            return [{"side": side, "what": "unknown"}]
        return [{"side": side, "what": "object", "line": line} for line in owners] or [{"side": side, "what": "none"}]

    def owners(self, region):
        """The lines of the objects whose points lie in a region, some of them."""
        rim = {half_edge for cycle in region.cycles for half_edge in cycle}
        part = Part(self.area, around(region.box))
        return [self.area.rows[index] for index in self.near.points_near(region.box)
                if part.to_left(self.area.point(index)) in rim][:MOST_BESIDE]

    def beside(self, region):
        """The objects beyond the boundary of a region, each once."""
        found, seen = [], set()
        border = [half_edge for cycle in region.cycles for half_edge in cycle]
        seen.update(border)
        for index, forward in border[:MOST_CURVES]:
            twin = index, not forward
            if twin in seen:
                continue
            other = self.region(index, not forward)
            seen.update({twin} if not other else {one for cycle in other.cycles for one in cycle})
            if other is False:
                found.append({"what": "outside"})
            elif other:
                found += [{key: value for key, value in one.items() if key != "side"}
                          for one in self.told(other, "") if one["what"] == "object"]
        unique = []
        for one in found:
            if one not in unique:
                unique.append(one)
        return unique[:MOST_BESIDE]
