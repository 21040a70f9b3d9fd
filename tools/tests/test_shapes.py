"""Shapes that pages and layers need: parcels beside a fault, and outlines of SURFACE objects."""
import unittest

from common import Refusal          # noqa: F401  (it sets the path)
from itftools.facts import Fact, Part
from itftools.reading.area import Area
from itftools.shapes.outlines import rings_of_lines
from itftools.shapes.sides import Sides

SQUARE = [(0, 0), (10, 0), (10, 10), (0, 10), (0, 0)]


def strip(points):
    """Three squares side by side, 10 wide; the lines of their curves, and points of objects by their lines."""
    area, lines = Area("T", "P", "F", 1, 0), {}
    for number, (start, end) in enumerate([((x, y), (x + 10, y)) for x in (0, 10, 20) for y in (0, 10)]
                                          + [((x, 0), (x, 10)) for x in (0, 10, 20, 30)]):
        area.add_curve(100 + number, start, end)
        lines[start, end] = 100 + number
    for line, place in points.items():
        area.add_point(line, place)
    return area, lines


class Beside(unittest.TestCase):
    def sides(self, points, kind, edge, side):
        area, lines = strip(points)
        fact = Fact(kind, Part("AREA", area.words, []), [lines[edge]], side)
        return Sides(area, [fact], []).of(fact)

    def test_an_empty_region_between_two(self):
        told = self.sides({201: (5, 5), 203: (25, 5)}, "EMPTY", ((10, 0), (20, 0)), "LEFT")
        self.assertEqual(told["sides_of_line"], [{"side": "LEFT", "what": "none"}, {"side": "RIGHT", "what": "outside"}])
        self.assertEqual(sorted(map(str, told["beside"])), sorted(map(str, [
            {"what": "outside"}, {"what": "object", "line": 201}, {"what": "object", "line": 203}])))

    def test_an_object_on_the_other_side(self):
        told = self.sides({201: (5, 5), 203: (25, 5)}, "EMPTY", ((10, 0), (10, 10)), "RIGHT")
        self.assertEqual(told["sides_of_line"], [{"side": "LEFT", "what": "object", "line": 201},
                                                 {"side": "RIGHT", "what": "none"}])

    def test_a_line_with_one_region_on_both_sides(self):
        area, _ = strip({201: (5, 5), 202: (15, 5), 203: (25, 5)})
        area.add_curve(300, (12, 5), (13, 5))
        fact = Fact("CUT", Part("AREA", area.words, []), [300])
        self.assertEqual(Sides(area, [fact], []).of(fact), {"sides_of_line": [{"side": "BOTH", "what": "object", "line": 202}]})

    def test_lines_that_meet_badly_are_left_out(self):
        area, lines = strip({201: (5, 5), 203: (25, 5)})
        area.add_curve(300, (21, 9), (29, 12))
        bad = Fact("MEETING", Part("AREA", area.words, []), [300, lines[(20, 10), (30, 10)]])
        fact = Fact("EMPTY", bad.part, [lines[(10, 0), (20, 0)]], "LEFT")
        told = Sides(area, [fact], [bad]).of(fact)
        self.assertEqual([one for one in told["beside"] if one["what"] == "object"], [{"what": "object", "line": 201}])

    def test_many_squares_are_looked_at_near_the_fault_alone(self):
        """Of a large area the same is told, though curves and points far away are left out."""
        area, size = Area("T", "P", "F", 1, 0), 60
        number = 100
        for i in range(size + 1):
            for j in range(size):
                for start, end in (((10 * j, 10 * i), (10 * j + 10, 10 * i)), ((10 * i, 10 * j), (10 * i, 10 * j + 10))):
                    area.add_curve(number, start, end)
                    number += 1
        objects = {}
        for i in range(size):
            for j in range(size):
                if (i, j) != (30, 30):
                    objects[i, j] = number
                    area.add_point(number, (10 * i + 5, 10 * j + 5))
                    number += 1
        edge = next(area.lines[k] for k in range(len(area.lines)) if area.curve(k)[:2] == ((300, 300), (310, 300)))
        fact = Fact("EMPTY", Part("AREA", area.words, []), [edge], "LEFT")
        told = Sides(area, [fact], []).of(fact)
        self.assertEqual(told["sides_of_line"], [{"side": "LEFT", "what": "none"},
                                                 {"side": "RIGHT", "what": "object", "line": objects[30, 29]}])
        self.assertEqual({one["line"] for one in told["beside"]},
                         {objects[30, 29], objects[29, 30], objects[31, 30], objects[30, 31]})


class Outlines(unittest.TestCase):
    def test_rings_of_lines(self):
        hole = [(2, 2), (2, 4), (4, 4), (4, 2), (2, 2)]
        for lines, wanted in (
                ([SQUARE], [SQUARE[:-1]]),
                ([SQUARE[:3], SQUARE[2:]], [SQUARE[:-1]]),
                ([SQUARE[:3], SQUARE[2:][::-1]], [SQUARE[:-1]]),
                ([SQUARE[::-1]], [SQUARE[:-1]]),
                ([SQUARE, hole], [SQUARE[:-1], hole[:-1]]),
                ([hole[::-1], SQUARE], [SQUARE[:-1], hole[:-1]])):
            found = rings_of_lines(lines)
            self.assertEqual([from_least(ring) for ring in found], [from_least(ring) for ring in wanted], lines)

    def test_a_hole_that_touches(self):
        """A triangle within, with a corner on the border: two rings."""
        border = [(0, 0), (10, 0), (10, 10), (0, 10), (0, 0)]
        found = rings_of_lines([border, [(0, 0), (3, 6), (6, 3), (0, 0)]])
        self.assertEqual(sorted(map(len, found)), [3, 4])

    def test_what_does_not_close_is_none(self):
        self.assertIsNone(rings_of_lines([SQUARE[:4]]))
        self.assertIsNone(rings_of_lines([]))


def from_least(ring):
    first = ring.index(min(ring))
    return ring[first:] + ring[:first]


if __name__ == "__main__":
    unittest.main()
