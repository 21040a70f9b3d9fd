"""A delivery with a worked file of faults of version 2: each of its lines stands in page, JSON and layers, once."""
import csv
import json
import sqlite3
import unittest

from common import Case, itf, text_of

END = " FORMAT FREE; CODE BLANK = DEFAULT, UNDEFINED = DEFAULT, CONTINUE = DEFAULT; TID = ANY; END.\n"
MODEL = """TRANSFER Rows; DOMAIN Koord = COORD2 0.000 0.000 1000.000 1000.000;
MODEL Land TOPIC T =
TABLE Parcel = Form: AREA WITH (STRAIGHTS, ARCS) VERTEX Koord WITHOUT OVERLAPS > 0.050; NO IDENT END Parcel;
TABLE Roof = Form: SURFACE WITH (STRAIGHTS, ARCS) VERTEX Koord; NO IDENT END Roof; END T. END Land.""" + END
# Two lines that cross, a circle of two arcs, an arc; roofs 7, which is open, and 8, of two parts, one with an arc.
TRANSFER = """SCNT
////
MTID Rows
MODL Land
TOPI T
TABL Parcel_Form
OBJE 1
STPT 0 0
LIPT 20 20
ELIN
OBJE 2
STPT 0 20
LIPT 20 0
ELIN
OBJE 3
STPT 60 50
ARCP 50 60
LIPT 40 50
ARCP 50 40
LIPT 60 50
ELIN
OBJE 4
STPT 80 50
ARCP 90 60
LIPT 100 50
ELIN
ETAB
TABL Parcel
ETAB
TABL Roof
OBJE 7
OBJE 8
OBJE 9
ETAB
TABL Roof_Form
OBJE 1 7
STPT 100 100
LIPT 110 100
LIPT 110 110
ELIN
OBJE 2 8
STPT 200 100
LIPT 210 100
LIPT 200 110
LIPT 200 100
ELIN
OBJE 3 8
STPT 300 100
ARCP 305 103
LIPT 310 100
LIPT 300 100
ELIN
OBJE 4 9
STPT 400 100
ARCP 405 105
LIPT 410 100
LIPT 400 100
ELIN
ETAB
ETOP
EMOD
ENDE
"""
REPORT = """AREA T Parcel Form MEETING 9 13
SURFACE T Roof Form ODD 39
VERDICT REJECTED
"""
FAULTS = """ITFFAULTS 2
AREAS 1
AREA T Parcel Form DRAWN
MEETING 9 13 10.000 10.000
UNSETTLED 24 25 90.000 60.000
EMPTY 17 LEFT 60.000 50.000 50.000 60.000
RING 4
60.000 50.000 40.000 50.000
50.000 60.000 60.000 50.000
40.000 50.000 60.000 50.000
50.000 40.000 40.000 50.000
COUNTS 1 1 0 0 0 1 0 0 0
SURFACE T Roof Form
OBJECT 31
ODD 39 110.000 110.000
OBJECT 32
PARTS 43 LEFT 200.000 100.000 51 RIGHT 300.000 100.000
OBJECT 33
UNSETTLED 55 56 400.000 100.000
SURFACES 0 2 1 0
END
"""
# Kind, lines with that of the object, place, and whether it is a fault.
WANTED = [("MEETING", [9, 13], ["10.000", "10.000"], True), ("UNDECIDED", [24, 25], ["90.000", "60.000"], False),
          ("EMPTY", [17], None, True), ("SURFACE_ODD", [39, 31], ["110.000", "110.000"], True),
          ("SURFACE_PARTS", [43, 51, 32], ["200.000", "100.000"], True),
          ("SURFACE_UNDECIDED", [55, 56, 33], ["400.000", "100.000"], False)]


class Version2(Case):
    def made(self, command, *words):
        names = [self.write(name, text) for name, text in (("M", MODEL), ("T", TRANSFER), ("R", REPORT), ("F", FAULTS))]
        status, _, errors = itf(command, *names, *words)
        self.assertEqual((status, errors), (0, ""))

    def test_each_line_stands_everywhere(self):
        self.made("page", "-o", self.path("p.html"), "--json", self.path("p.json"), "--gpkg", self.path("p.gpkg"))
        self.made("layers", "-o", self.path("l.csv"))
        with open(self.path("p.json"), encoding="utf-8") as file:
            told = json.load(file)
        found = [fault for fault in told["faults"] if fault["kind"] != "HINT"]
        self.assertEqual(len(found), len(WANTED))
        for fault, (kind, lines, at, judged) in zip(found, WANTED):
            with self.subTest(kind=kind):
                self.assertEqual((fault["kind"], [row["line"] for row in fault["rows"]], fault["judged"]), (kind, lines, judged))
                if at:
                    self.assertEqual(fault["at"], at)
        self.assertAlmostEqual(found[2]["info"]["size"], 314.159, delta=0.001)
        self.assertEqual(found[4]["info"]["sides"], ["LEFT", "RIGHT"])
        self.assertEqual([part["object_counts"] for part in told["parts"]], [None, [0, 2, 1, 0]])
        numbers = [fault["id"] for fault in told["faults"]]
        base = sqlite3.connect(self.path("p.gpkg"))
        layers = {number for layer in ("points", "lines", "regions", "without_place")
                  for number, in base.execute("SELECT fault FROM faults_" + layer)}
        base.close()
        self.assertEqual(sorted(layers), numbers)
        with open(self.path("l.csv"), encoding="utf-8", newline="") as file:
            self.assertEqual([int(row["fault"]) for row in csv.DictReader(file)], numbers)
        page = text_of(self.path("p.html"))
        for number in numbers:
            self.assertEqual(page.count('{"id":%d,' % number), 1)

    def test_tell_says_each(self):
        names = [self.write(name, text) for name, text in (("M", MODEL), ("T", TRANSFER), ("F", FAULTS))]
        status, out, errors = itf("tell", *names)
        self.assertEqual((status, errors), (0, ""))
        for line in ("AREA T Parcel Form MEETING 9 13", "AREA T Parcel Form UNDECIDED 24 25", "    two lines cannot be told apart",
                     "AREA T Parcel Form EMPTY 17 LEFT", "SURFACE T Roof Form ODD 39", "SURFACE T Roof Form PARTS 43 51 LEFT",
                     "SURFACE T Roof Form UNDECIDED 55 56"):
            self.assertIn(line, out.splitlines())


if __name__ == "__main__":
    unittest.main()
