#!/usr/bin/env bash
# Tests `itf draw` on small drawings, with reports of the built program: that SVG and GeoJSON are
# well-formed, that they mark the curves, points and sides that the reports name, that arcs are the
# right part of the right circle, and that nothing is drawn where a report tells no area. It
# measures nothing, and stops at the first picture that is wrong.
#
# usage: bench/draw.sh [ITFCHECK]      (crates/itfcheck/out/itfcheck where none is given)
. "$(dirname "${BASH_SOURCE[0]}")/begin.sh"
itfcheck=$(built_program "$@")
cd "$work"

python3 - "$itfcheck" "$top/tools/itf" "$top/crates/itffaults/data" <<'PY'
import json
import math
import os
import re
import shutil
import subprocess
import sys
import xml.etree.ElementTree as tree

SPACE = "{http://www.w3.org/2000/svg}"
MODEL = """TRANSFER Rows; DOMAIN Koord = COORD2 0.000 0.000 1000.000 1000.000;
MODEL Land TOPIC Cover =
TABLE Parcel = Form: AREA WITH (STRAIGHTS, ARCS) VERTEX Koord; NO IDENT END Parcel;
END Cover. END Land.
FORMAT FREE; CODE BLANK = DEFAULT, UNDEFINED = DEFAULT, CONTINUE = DEFAULT; TID = ANY; END.
"""
# The same area after columns of each kind, by a domain, with its own codes.
WIDE = """TRANSFER Rows; DOMAIN !! places
Koord = COORD2 0.000 0.000 1000.000 1000.000; Hoch = COORD3 0 0 0 9 9 9;
Flaeche = AREA WITH (STRAIGHTS, ARCS) VERTEX Koord WITHOUT OVERLAPS > 0.050
  LINEATTR = Art: OPTIONAL (a, b (c, d)); NO IDENT END;
MODEL Land TOPIC Cover = DOMAIN Name = TEXT*12; DOMAIN Ziffer = [0 .. 9];
TABLE Owner = L: OPTIONAL POLYLINE WITH (STRAIGHTS) VERTEX Koord; NO IDENT END Owner;
TABLE Parcel = Zu: OPTIONAL -> Owner; N: OPTIONAL Name //a; b//; H: OPTIONAL Hoch;
  K: OPTIONAL Koord; L: OPTIONAL POLYLINE WITH (STRAIGHTS) VERTEX Hoch; Z: OPTIONAL Ziffer;
  S: OPTIONAL SURFACE WITH (STRAIGHTS) VERTEX Koord; G: OPTIONAL DEGREES 0 1;
  Form: OPTIONAL Flaeche; E: OPTIONAL (x, y); NO IDENT END Parcel;
END Cover. END Land.
FORMAT FREE; CODE BLANK = DEFAULT, UNDEFINED = 0x23, CONTINUE = 38; TID = I16; END.
"""
SQUARE = ["100 100", "200.000 100", "200 200", "100 200", "100 100"]


def line(number, places, words=""):
    """A line of straights; a place that begins with A is an ARCP."""
    vertices = "".join("%s %s\n" % (("ARCP", place[1:]) if place[0] == "A" else ("LIPT", place))
                       for place in places[1:])
    return f"OBJE {number}{words}\nSTPT {places[0]}\n{vertices}ELIN\n"


def transfer(lines, objects):
    return ("SCNT\n////\nMTID Rows\nMODL Land\nTOPI Cover\nTABL Parcel_Form\n" + lines
            + "ETAB\nTABL Parcel\n" + objects + "ETAB\nETOP\nEMOD\nENDE\n")


def put(name, text):
    with open(name, "w") as file:
        file.write(text)


def run(*words):
    return subprocess.run(words, capture_output=True, text=True, check=False)


def hold(condition, *told):
    if not condition:
        sys.exit("wrong: " + " ".join(map(str, told)))


def pictures(name, model, text, answer, changed=None, words=()):
    """The SVG, the features and the corner of the map, once the program has given the answer."""
    put("M", model)
    put("T", text)
    report = run(sys.argv[1], "check", "M", "T", "C").stdout
    hold(f"AREA Cover Parcel Form {answer}\n" in report, name, report)
    put("R", report.replace(answer, changed or answer))
    done = run(sys.argv[2], "draw", *words, "M", "T", "R", "out")
    hold(done.returncode == 0, name, done.stderr)
    with open("out/Cover.Parcel.Form.svg") as file:
        source = file.read()
    hold("proves nothing" in source and f"Form {changed or answer}<" in source, name, "legend")
    with open("out/areas.geojson") as file:
        features = json.load(file)["features"]
    print(f"{name}: {changed or answer}")
    corner = re.search(r"x counted from (\S+)\s+and y downwards from (\S+)\. ", source).groups()
    return tree.fromstring(source), features, tuple(map(float, corner))


def of_class(svg, kind):
    return [part for part in svg.iter() if part.get("class") == kind]


def titles(svg, kind):
    """The tooltips of the parts of a class."""
    found = (part.find(SPACE + "title") for part in of_class(svg, kind))
    return [title.text for title in found if title is not None]


def faults(features):
    """Part and line of each fault."""
    told = [feature["properties"] for feature in features]
    return [(one["part"], one.get("line")) for one in told if one["kind"] == "fault"]


def circle(path):
    """Centre, first angle and turned angle of an arc command, by the rule of the SVG page."""
    x0, y0, r, _, _, large, sweep, x1, y1 = map(float, re.findall(r"[-0-9.e]+", path))
    half = ((x0 - x1) / 2, (y0 - y1) / 2)
    root = math.sqrt(max(0, (r * r) / (half[0] ** 2 + half[1] ** 2) - 1))
    root = -root if large == sweep else root
    centre = (root * half[1] + (x0 + x1) / 2, -root * half[0] + (y0 + y1) / 2)
    first = math.atan2(y0 - centre[1], x0 - centre[0])
    turned = (math.atan2(y1 - centre[1], x1 - centre[0]) - first) % (2 * math.pi)
    return centre, r, first, turned if sweep else turned - 2 * math.pi


def straights():
    """Each fault of a square, and two lines that cross."""
    svg, features, _ = pictures("a square", MODEL, transfer(line(1, SQUARE), ""), "EMPTY 9 LEFT")
    hold(titles(svg, "curve") == ["line 9", "line 10", "line 11", "line 12"], titles(svg, "curve"))
    hold(titles(svg, "fault") == ["line 9"] and titles(svg, "side") == ["LEFT"], "marks")
    hold(faults(features) == [("region", None), ("curve", 9), ("side", None)], faults(features))
    hold(features[-1]["geometry"]["coordinates"] == [[150, 100], [150, 110]], features[-1])
    turned = transfer(line(1, SQUARE[::-1]), "")
    _, features, _ = pictures("a square the other way", MODEL, turned, "EMPTY 9 RIGHT")
    hold(features[-1]["geometry"]["coordinates"] == [[100, 150], [110, 150]], features[-1])
    for answer, objects, marks, part in [
            ("TWO 16 17", ["150 150", "160 160"], ["line 16", "line 17"],
             [("region", None), ("point", 16), ("point", 17)]),
            ("OUTSIDE 17", ["150 150", "300 300"], ["line 17"], [("point", 17)]),
            ("ON 16 12", ["100 150"], ["line 16"], [("curve", 12), ("point", 16)])]:
        rows = "".join(f"OBJE {number} {place}\n" for number, place in enumerate(objects))
        svg, features, _ = pictures("a square", MODEL, transfer(line(1, SQUARE), rows), answer)
        hold(titles(svg, "ring") == marks and faults(features) == part, answer, faults(features))
        hold(titles(svg, "fault") == ["line 12"][:answer[:2] == "ON"], answer)
    crossed = line(1, ["100 100", "300 200"]) + line(2, ["100 200", "300 101"])
    crossed = transfer(crossed, "")
    svg, features, _ = pictures("two lines that cross", MODEL, crossed, "MEETING 9 13")
    hold(titles(svg, "fault") == ["line 9", "line 13"], titles(svg, "fault"))
    hold(faults(features) == [("curve", 9), ("curve", 13), ("place", None)], faults(features))
    hold(features[-1]["geometry"]["coordinates"] == [200.50251, 150.25126], features[-1])


def arcs():
    """A circle of two arcs, and arcs of which one part is more than half a circle."""
    ring = ["600 500", "A500 600", "400 500", "A500 400", "600 500"]
    whole = transfer(line(1, ring), "OBJE 1 500 500\n")
    quarters = [(9, 0, 90), (10, 90, 90), (11, 180, 90), (12, 270, 90)]
    long = transfer(line(1, ["600 500", "A420 440", "440 420"])
                    + line(2, ["600 500", "A420 560", "440 580"]), "OBJE 1 500 500\n")
    first, second = (math.degrees(math.atan2(b, a)) for a, b in ((-4, -3), (-3, -4)))
    parts = [(9, 0, first % 360), (10, first, second - first),
             (14, 0, -(first % 360)), (15, -first, first - second)]
    for name, text, wanted, answer, changed, marks in [
            ("a circle", whole, quarters, "PROVED 0 4 1", None, []),
            ("a circle", whole, quarters, "PROVED 0 4 1", "UNDECIDED 9 12", ["line 9", "line 12"]),
            ("long arcs", long, parts, "MEETING 9 14", "PROVED 0 4 1", [])]:
        svg, features, corner = pictures(name, MODEL, text, answer, changed)
        hold(titles(svg, "undecided") == marks and titles(svg, "fault") == [], name, "marks")
        for (number, begin, turned), part, feature in zip(wanted, of_class(svg, "curve"), features):
            centre, radius, angle, way = circle(part.get("d"))
            place = (corner[0] + centre[0], corner[1] - centre[1])
            hold(math.dist(place, (500, 500)) < 1e-6 and abs(radius - 100) < 1e-6, name, place)
            off = math.radians(begin) + angle
            hold(abs(math.remainder(off, 2 * math.pi)) < 1e-6, name, number, "begins elsewhere")
            hold(abs(math.radians(turned) + way) < 1e-6, name, number, "is another part")
            hold(feature["properties"]["line"] == number, name, feature)
            polyline(feature["geometry"]["coordinates"], begin, turned)


def polyline(places, begin, turned):
    """On the circle, from its start by steps of at most five degrees to its end."""
    count = len(places) - 1
    hold(count >= abs(turned) / 5, "too few vertices", count)
    for k, (x, y) in enumerate(places):
        angle = math.radians(begin + turned * k / count)
        wanted = (500 + 100 * math.cos(angle), 500 + 100 * math.sin(angle))
        hold(math.dist((x, y), wanted) < 1e-4, "not on the arc", x, y)


def columns():
    """A point after columns of each kind, on lines that go on, with other codes."""
    rows = ("OBJE 1 # &\r\nCONT ab\t# # # # # 5 &\nCONT # 300 310.5 #\nELIN\n"
            "OBJE 2 # # # # # # # 5 # # # #\n")
    text = transfer(line(1, SQUARE, " 1").replace("LIPT 200 200", "LIPT &\nCONT 200 200"), rows)
    _, features, _ = pictures("continued lines", WIDE, text, "OUTSIDE 17")
    hold(features[-1]["geometry"]["coordinates"] == [300, 310.5], features[-1])
    hold(features[2]["properties"]["line"] == 12 and len(features) == 6, features[2])


def surroundings():
    """Of many squares, of which one has no point, the picture shows those about it, or all."""
    size, first = 60, 60 * 30 + 30
    lines = [[f"{i} {j}", f"{i + 1} {j}"] for j in range(size + 1) for i in range(size)]
    lines += [[f"{i} {j}", f"{i} {j + 1}"] for i in range(size + 1) for j in range(size)]
    rows = [f"OBJE {k} {k % size}.5 {k // size}.5\n" for k in range(size * size) if k != first]
    text = transfer("".join(line(k, places) for k, places in enumerate(lines)), "".join(rows))
    answer = f"EMPTY {4 * first + 9} LEFT"
    near, features, _ = pictures("many squares", MODEL, text, answer)
    hold(400 < len(of_class(near, "curve")) < 1200, len(of_class(near, "curve")))
    whole, _, _ = pictures("many squares", MODEL, text, answer, words=["--whole"])
    shown = "".join(part.get("d") for part in of_class(whole, "curve")).count("M")
    kinds = [feature["properties"]["kind"] for feature in features]
    hold(shown == kinds.count("curve") == len(lines) and len(rows) == kinds.count("point"), shown)
    for svg in (near, whole):
        hold(titles(svg, "fault") == [f"line {4 * first + 9}"], titles(svg, "fault"))


def regions():
    """The region of EMPTY and TWO, with its holes left out, and its size."""
    inner = line(2, ["120 120", "120 140", "140 140", "140 120", "120 120"])
    round_ = line(3, ["180 160", "A160 180", "140 160", "A160 140", "180 160"])
    rows = "OBJE 1 130 130\nOBJE 2 160 160\n"
    circle = math.pi * 20 * 20
    outer = 100 * 100 - 20 * 20 - circle
    for name, objects, answer, wanted, rings in [
            ("a square with two holes", rows, "EMPTY 9 LEFT", outer, 3),
            ("two points beside holes", rows + "OBJE 3 110 110\nOBJE 4 190 190\n", "TWO 32 33",
             outer, 3),
            ("two points in a circle", rows + "OBJE 3 110 110\nOBJE 4 165 165\n", "TWO 31 33",
             circle, 1)]:
        text = transfer(line(1, SQUARE) + inner + round_, objects)
        svg, features, _ = pictures(name, MODEL, text, answer)
        region = features[[one["properties"].get("part") for one in features].index("region")]
        hold(abs(region["properties"]["size"] - wanted) < 1e-5, name, region["properties"])
        rings_of = region["geometry"]["coordinates"]
        hold(len(rings_of) == rings and all(ring[0] == ring[-1] for ring in rings_of), name)
        hold(sum(map(shoelace, rings_of)) - wanted < 5, name, [shoelace(ring) for ring in rings_of])
        told = [part.text for part in of_class(svg, "legend")]
        hold(any(f"its size is {wanted:.2f}"[:-1] in line for line in told), name, told)
        hold(titles(svg, "region")[0].startswith("size"), name)
    far = transfer(line(1, ["0 0", "1000 0", "1000 1000", "0 1000", "0 0"])
                   + line(2, ["500 500", "501 500", "501 501", "500 501", "500 500"]),
                   "OBJE 1 500.5 500.5\n")
    _, features, _ = pictures("a region far from its fault", MODEL, far, "EMPTY 9 LEFT")
    hold([one["properties"].get("size") for one in features if "size" in one["properties"]]
         == [999999.0], "size")


def shoelace(ring):
    return sum(a[0] * b[1] - b[0] * a[1] for a, b in zip(ring, ring[1:])) / 2


def names():
    """Names of curves and points that lie near each other do not lie on one another."""
    ring = ["600 500", "A500 600", "400 500", "A500 400", "600 500"]
    thin = transfer(line(1, SQUARE) + line(2, ["200 100", "200.002 150", "200 200"]), "OBJE 1 150 150\n")
    many = "".join(f"OBJE {k} {450 + k % 10 * 0.3:.3f} {500 + k // 10 * 0.2:.3f}\n" for k in range(60))
    crossed = line(1, ["100 100", "300 200"]) + line(2, ["100 200", "300 101"])
    for name, text, answer, named in [
            ("a sliver", thin, "EMPTY 10 RIGHT", ["10"]),
            ("sixty points", transfer(line(1, ring), many), "TWO 16 17", ["16", "17"]),
            ("two lines that cross", transfer(crossed, ""), "MEETING 9 13", ["9", "13"])]:
        svg, _, _ = pictures(name, MODEL, text, answer)
        boxes = [(float(part.get("x")), float(part.get("y")), 11.2 * len(part.text), part.text)
                 for kind in ("name", "number") for part in of_class(svg, kind)]
        hold([box[3] for box in boxes][:len(named)] == named, name, boxes[:4])
        for k, (x, y, wide, _) in enumerate(boxes):
            for x1, y1, wide1, _ in boxes[:k]:
                hold(x >= x1 + wide1 or x1 >= x + wide or abs(y - y1) >= 16, name, boxes)


def findings():
    """The places of findings, and what cannot be read left out."""
    objects = ("OBJE 1 150 150\nOBJE 1 160 160\nOBJE 2 1\nOBJE 3 150 1150\n")
    text = transfer(line(1, SQUARE) + line(2, ["300 300", "310 x", "320 300", "330 300"]), objects)
    put("M", MODEL)
    put("T", text)
    report = run(sys.argv[1], "check", "M", "T", "C").stdout
    put("R", report)
    done = run(sys.argv[2], "draw", "M", "T", "R", "out")
    hold(done.returncode == 0 and "1 findings have no place" in done.stdout, done)
    with open("out/areas.geojson") as file:
        features = json.load(file)["features"]
    told = {one["properties"]["line"]: (one["properties"]["answer"], one["geometry"]["coordinates"])
            for one in features if one["properties"]["kind"] == "finding"}
    wanted = {16: ("FINDING 16 number 1", [300, 300]), 23: ("FINDING 23 tid 0 22", [160, 160]),
              25: ("FINDING 25 range 1", [150, 1150])}
    hold(told == wanted, told, report)
    curves = [one["properties"]["line"] for one in features if one["properties"]["kind"] == "curve"]
    hold(curves == [9, 10, 11, 12, 18], curves)
    with open("out/Cover.Parcel.Form.svg") as file:
        svg = tree.fromstring(file.read())
    hold(titles(svg, "ring") == ["line 16", "line 23"], titles(svg, "ring"))
    done = run(sys.argv[2], "draw", "--whole", "M", "T", "R", "out")
    with open("out/Cover.Parcel.Form.svg") as file:
        svg = tree.fromstring(file.read())
    hold(titles(svg, "ring") == ["line 16", "line 23", "line 25"], titles(svg, "ring"))
    hold([part.text for part in of_class(svg, "name")] == ["16 number", "23 tid", "25 range"], "names")
    print("the places of 3 findings")


def faults_alone():
    """With --faults no curve and no point but those of faults, and no picture of a good area."""
    model = MODEL.replace("NO IDENT END Parcel;", "NO IDENT END Parcel;\nTABLE Zone = Form: AREA WITH"
                          " (STRAIGHTS) VERTEX Koord; NO IDENT END Zone;")
    zone = "TABL Zone_Form\n" + line(1, SQUARE) + "ETAB\nTABL Zone\nOBJE 1 150 150\nETAB\n"
    text = transfer(line(1, SQUARE), "").replace("ETOP\n", zone + "ETOP\n")
    shutil.rmtree("out")
    _, features, _ = pictures("one of two areas", model, text, "EMPTY 9 LEFT", words=["--faults"])
    hold(sorted(os.listdir("out")) == ["Cover.Parcel.Form.svg", "areas.geojson", "faults.dxf"], os.listdir("out"))
    hold({one["properties"]["kind"] for one in features} == {"fault"}, features)
    hold(faults(features) == [("region", None), ("curve", 9), ("side", None)], faults(features))


def entities():
    """The kind, the layer and the other values of each entity of faults.dxf, vertices within."""
    with open("out/faults.dxf", newline="\r\n") as file:
        words = file.read().split("\r\n")
    hold(words[:4] == ["0", "SECTION", "2", "ENTITIES"], words[:4])
    hold(words[-5:] == ["0", "ENDSEC", "0", "EOF", ""], words[-5:])
    found = []
    for code, value in zip(words[4:-5:2], words[5:-5:2]):
        if code == "0":
            found.append([value])
        else:
            found[-1].append((int(code), value))
    return found


def places(found):
    return [(float(dict(one[1:])[10]), float(dict(one[1:])[20])) for one in found if 10 in dict(one[1:])]


def for_a_cad():
    """The faults in faults.dxf."""
    pictures("a square", MODEL, transfer(line(1, SQUARE), ""), "EMPTY 9 LEFT")
    found = entities()
    kinds = [one[0] for one in found]
    hold(kinds == ["POLYLINE"] + ["VERTEX"] * 4 + ["SEQEND", "POLYLINE", "VERTEX", "VERTEX", "SEQEND", "TEXT"], kinds)
    hold(all(one[1] == (8, "ITFCHECK_EMPTY") for one in found), found)
    hold(places(found) == [(100, 100), (200, 100), (200, 200), (100, 200), (100, 100), (200, 100), (100, 100)], found)
    hold(found[-1][-1] == (1, "Cover Parcel Form EMPTY 9 LEFT"), found[-1])
    crossed = line(1, ["100 100", "300 200"]) + line(2, ["100 200", "300 101"])
    pictures("two lines that cross", MODEL, transfer(crossed, ""), "MEETING 9 13")
    found = entities()
    hold([one[0] for one in found].count("CIRCLE") == 1, found)
    hold(places(found)[-1] == (200.50251, 150.25126), found[-1])
    arc = transfer(line(1, ["600 500", "A500 600", "400 500"]), "OBJE 1 500 600\n")
    pictures("a point on an arc", MODEL, arc, "ON 14 9", )
    found = entities()
    hold([one[0] for one in found].count("VERTEX") == 19, found)
    hold(all(abs(math.dist(place, (500, 500)) - 100) < 1e-4 for place in places(found)), found)
    pictures("a good square", MODEL, transfer(line(1, SQUARE), "OBJE 1 150 150\n"), "PROVED 0 4 1")
    hold(entities() == [], entities())


# The faults of the delivery with one of each kind, as docs/faults.md has them.
ALL = """ITFFAULTS 1
AREAS 1
AREA Cover Parcel Form
MEETING 49 53 100.00 15.00
ON 58 17 35.00 10.00
OUTSIDE 63 5.00 5.00
TWO 59 60 52.00 15.00 57.50 15.25
EMPTY 17 LEFT 30.00 10.00 40.00 10.00
RING 4
30.00 10.00
40.00 10.00
40.00 20.00
30.00 20.00
CUT 45 72.00 12.00 75.00 12.00
OPEN 38 LEFT 90.00 10.00 110.00 10.00
RING 4
90.00 10.00
110.00 10.00
110.00 20.00
90.00 20.00
UNJUDGED 62 92.00 15.00
COUNTS 1 1 1 1 1 1 1 1
SURFACE Cover Building Form PROVED 1 0
END
"""

KINDS = ("MEETING", "ON", "OUTSIDE", "TWO", "EMPTY", "CUT", "OPEN", "UNJUDGED")


def all_faults():
    """Of a file with all faults each one is drawn, and there is no picture."""
    put("ALL", ALL)
    files = [os.path.join(sys.argv[3], name) for name in ("faults.ili", "faults.itf")]
    done = run(sys.argv[2], "draw", *files, "ALL", "all")
    hold(done.returncode == 0 and sorted(os.listdir("all")) == ["areas.geojson", "faults.dxf"], done)
    with open("all/areas.geojson") as file:
        features = json.load(file)["features"]
    told = {}
    for feature in features:
        told.setdefault(feature["properties"]["answer"], []).append(feature)
    kinds = [line.split(" ")[0] for line in ALL.splitlines()[3:] if line.split(" ")[0] in KINDS]
    hold([answer.split(" ")[0] for answer in told] == kinds, told)
    sizes = {answer.split(" ")[0]: feature["properties"]["size"]
             for answer, found in told.items() for feature in found
             if feature["properties"]["part"] == "region"}
    hold(sizes == {"TWO": 100.0, "EMPTY": 100.0}, sizes)
    hold(told["MEETING 49 53"][-1]["geometry"]["coordinates"] == [100, 15], told["MEETING 49 53"])
    put("ALL", ALL.replace("END\n", ""))
    done = run(sys.argv[2], "draw", *files, "ALL", "none")
    hold(done.returncode == 1 and "not written to its end" in done.stderr, done)
    print("a file with all faults")


def refusals():
    """Nothing is drawn, and the reason is told."""
    good = transfer(line(1, SQUARE), "OBJE 1 150 150\n")
    told = "AREA Cover Parcel Form PROVED 0 4 1\nVERDICT ACCEPTED 2\n"
    for text, report, reason in [
            (good, "STRUCTURE 9 end\nVERDICT REJECTED\n", "structure fault"),
            (good, "FINDING 99 count 0\nVERDICT REJECTED\n", "no such line 99"),
            (good, told.replace("PROVED 0 4 1", "MEETING 9 13"), "no curve in line 13"),
            (good, told.replace("PROVED 0 4 1", "OUTSIDE 9"), "no point in line 9"),
            (good, told.replace("PROVED 0 4 1", "ROUND 9"), "an answer that is none"),
            (good, told.replace("Parcel", "Street"), "no area for this"),
            (good, "", "the report is empty"),
            (good.replace("EMOD\n", ""), told, "line 19: structure fault word"),
            (good.replace("LIPT 200 200", "LIPT 200 200 \\"), told, "structure fault continue"),
            (good.replace("ENDE\n", ""), told, "structure fault end"),
            (good.replace("150 150", "150"), told, "count")]:
        put("M", MODEL)
        put("T", text)
        put("R", report)
        done = run(sys.argv[2], "draw", "M", "T", "R", "none")
        hold(done.returncode == 1 and reason in done.stderr, reason, done)
        hold(not os.path.exists("none"), reason, "yet files are written")
    hold(run(sys.argv[2], "draw", "M", "T").returncode == 4, "usage")
    print("nothing is drawn of 11 others")


straights()
arcs()
columns()
surroundings()
regions()
names()
findings()
faults_alone()
for_a_cad()
all_faults()
refusals()
PY
