#!/usr/bin/env bash
# Tests `itf tell` with reports of the built program: transfers and models with one fault each,
# of which the words have to name the table, the object, the attribute, the place and the line. It
# measures nothing, and stops at the first text that is wrong.
#
# usage: bench/tell.sh [ITFCHECK]      (crates/itfcheck/out/itfcheck where none is given)
. "$(dirname "${BASH_SOURCE[0]}")/begin.sh"
itfcheck=$(built_program "$@")
cd "$work"

python3 - "$itfcheck" "$top/tools/itf" "$top/crates/itfcheck/data" <<'PY'
import subprocess
import sys

PROGRAM, ITF, DATA = sys.argv[1:]
MODEL = open(f"{DATA}/parcels.ili", "rb").read()
TRANSFER = open(f"{DATA}/parcels.itf", "rb").read()
# Columns of each kind, lines of a table, of a SURFACE and of an AREA with a LINEATTR.
WIDE = b"""TRANSFER Rows; DOMAIN Koord = COORD2 0.00 0.00 1000.00 1000.00;
MODEL Land TOPIC Cover =
TABLE Owner = Name: TEXT*9; Place: OPTIONAL Koord; Way: OPTIONAL POLYLINE WITH (STRAIGHTS) VERTEX Koord;
 Floors: [0 .. 9]; NO IDENT END Owner;
TABLE House = Of: -> Owner; Roof: SURFACE WITH (STRAIGHTS, ARCS) VERTEX Koord
  LINEATTR = Kind: (a, b); NO IDENT END; NO IDENT END House;
TABLE Parcel = Form: AREA WITH (STRAIGHTS) VERTEX Koord LINEATTR = Datum: DATE; NO IDENT END;
 NO IDENT END Parcel;
END Cover. END Land.
FORMAT FREE; CODE BLANK = DEFAULT, UNDEFINED = DEFAULT, CONTINUE = DEFAULT; TID = ANY; END.
"""
ROWS = b"""SCNT
////
MTID Rows
MODL Land
TOPI Cover
TABL Owner
OBJE 5 Meier 10 20 3
STPT 1 2
LIPT 3 4
ELIN
ETAB
TABL House
OBJE 8 5
ETAB
TABL House_Roof
OBJE 1 8 0
STPT 50 60
ARCP 60 70
LIPT 70 60
ELIN
ETAB
TABL Parcel_Form
OBJE 3 20200101
STPT 0 0
LIPT 9 9
ELIN
ETAB
ETOP
EMOD
ENDE
"""
DONE = 0


def put(name, text):
    with open(name, "wb") as file:
        file.write(text)


def tell(model, transfer, report, *links):
    put("R", report)
    return subprocess.run([ITF, "tell", model, transfer, "R", *links], capture_output=True, text=True)


def told(what, model, transfer, first, *wanted):
    """The report begins with its line, and the words hold each text."""
    global DONE
    put("M", model)
    put("T", transfer)
    report = subprocess.run([PROGRAM, "check", "M", "T", "C"], capture_output=True).stdout
    done = tell("M", "T", report)
    lines = done.stdout.split("\n")
    if done.returncode or lines[0] != first or not all(f"    {one}" in lines for one in wanted):
        sys.exit(f"{what}: {report.decode()}{done.stdout}{done.stderr}wanted {first}, {wanted}")
    DONE += 1
    print(f"{what}: {first}")


def linked(what, transfer, links, line, *wanted):
    """The report of `points` has a line, and the words hold each text."""
    global DONE
    put("M", LINKED)
    put("T", transfer)
    put("L", links)
    report = subprocess.run([PROGRAM, "points", "M", "T", "L"], capture_output=True).stdout
    done = tell("M", "T", report, "--links", "L")
    lines = done.stdout.split("\n")
    if done.returncode or line not in lines or not all(f"    {one}" in lines for one in wanted):
        sys.exit(f"{what}: {report.decode()}{done.stdout}{done.stderr}wanted {line}, {wanted}")
    DONE += 1
    print(f"{what}: {line}")


def swapped(text, old, new):
    if text.count(old) != 1:
        sys.exit(f"{old} stands {text.count(old)} times")
    return text.replace(old, new)


def small(what, old, new, first, *wanted):
    told(what, MODEL, swapped(TRANSFER, old, new), first, *wanted)


def wide(what, old, new, first, *wanted):
    told(what, WIDE, swapped(ROWS, old, new), first, *wanted)


told("a good transfer", MODEL, TRANSFER, "AREA Cover Parcel Form PROVED 0 4 1",
     "straights and half arcs: 4; points of objects: 1")
# Areas.
POINT = b"OBJE 1 77 150.000 150.000\n"
small("no object", POINT, b"", "AREA Cover Parcel Form EMPTY 9 LEFT",
      "boundary line of object 1 of Cover.Parcel_Form: a straight from 100.000 100.000 to 200.000 100.000",
      "line 9: LIPT 200.000 100.000",
      "the region has a size of 10000.000000, from 100.000 100.000 to 200.000 200.000")
small("two objects", POINT, POINT + b"OBJE 2 78 160 160\n", "AREA Cover Parcel Form TWO 16 17",
      "object 2 of Cover.Parcel, at 160.000 160.000", "line 17: OBJE 2 78 160 160",
      "the region has a size of 10000.000000, from 100.000 100.000 to 200.000 200.000", "no boundary line has a free end")
small("a gap of 40 cm", b"LIPT 100.000 200.000\n", b"LIPT 100 200\nELIN\nOBJE 2\nSTPT 99.6 200\n",
      "AREA Cover Parcel Form OUTSIDE 19", "object 1 of Cover.Parcel, at 150.000 150.000",
      "free end at 99.600 200.000, 70.994 away, of the straight or half arc of line 15;"
      " the nearest other end is 0.400 from it, at 100.000 200.000")
small("a point on a line", b"77 150.000", b"77 100", "AREA Cover Parcel Form ON 16 12",
      "object 1 of Cover.Parcel, at 100.000 150.000", "line 12: LIPT 100.000 100.000")
small("two lines that cross", b"LIPT 100.000 200.000\n", b"LIPT 150 50\n", "AREA Cover Parcel Form MEETING 9 11",
      "at 166.667 100.000", "line 11: LIPT 150 50")
small("a line that ends within", b"ELIN\n", b"ELIN\nOBJE 2\nSTPT 100 100\nLIPT 120 130\nELIN\n",
      "AREA Cover Parcel Form CUT 16",
      "boundary line of object 2 of Cover.Parcel_Form: a straight from 100.000 100.000 to 120.000 130.000")
small("an arc of two halves", b"LIPT 200.000 200.000\n", b"ARCP 249.9 149.9\nLIPT 200.000 200.000\n",
      "AREA Cover Parcel Form PROVED 0 5 1")
small("a tiny arc", b"LIPT 200.000 200.000\n", b"LIPT 200 199.990\nARCP 200.005 199.995\nLIPT 200 200\n",
      "AREA Cover Parcel Form UNDECIDED 11 11",
      "boundary line of object 1 of Cover.Parcel_Form: half an arc from 200.000 199.990 to 200.005 199.995")
# Findings, by the names of columns.
small("a point too far up", b"150.000 150.000", b"150 1150", "FINDING 16 range 2",
      "Cover.Parcel, object 1, attribute Form: the number is out of its bounds: 150 1150", "at 150 1150",
      "line 16: OBJE 1 77 150 1150")
small("an object twice", POINT, POINT + POINT, "FINDING 17 tid 0 16",
      "Cover.Parcel, object 1: the identification was given before",
      "line 16: OBJE 1 77 150.000 150.000, which is the first with it",
      "Cover.Parcel, object 1, attribute Nr: the values that have to differ (IDENT) were given before")
small("a blank in a text", b" 77 ", b" 7 7 ", "FINDING 16 count 0",
      "Cover.Parcel, object 1: the object has too few or too many fields: 5, and 4 are needed",
      "a blank within a text divides it into two fields")
wide("a number", b"20 3\n", b"20 x\n", "FINDING 7 number 3",
     "Cover.Owner, object 5, attribute Floors: this is no number: x", "at 10 20")
wide("a vertex of a line of a table", b"LIPT 3 4\n", b"LIPT 3 y\n", "FINDING 9 number 4",
     "Cover.Owner, object 5, attribute Way: this is no number", "at 1 2", "line 9: LIPT 3 y")
wide("the first vertex", b"STPT 1 2\n", b"STPT x 2\n", "FINDING 8 number 4",
     "Cover.Owner, object 5, attribute Way: this is no number")
wide("a reference", b"OBJE 8 5\n", b"OBJE 8 6\n", "FINDING 13 reference 1 6",
     "Cover.House, object 8, attribute Of: the object that is referred to is not there: 6", "line 13: OBJE 8 6")
wide("an attribute of the lines of a SURFACE", b"1 8 0\n", b"1 8 2\n", "FINDING 16 enum 2",
     "Cover.House_Roof, object 1, attribute Kind: this is no number of a value of the enumeration: 2", "at 50 60")
wide("an arc of a SURFACE", b"ARCP 60 70\n", b"ARCP 99 60\n", "FINDING 19 arc 3",
     "Cover.House_Roof, object 1, attribute Roof: no circle goes through start, middle and end of this arc in this order",
     "at 70 60")
wide("an attribute of the lines of an AREA", b"3 20200101\n", b"3 20201301\n", "FINDING 23 date 1",
     "Cover.Parcel_Form, object 3, attribute Datum: this is no date (eight digits, year, month, day): 20201301", "at 0 0")
# SURFACEs.
HOUSES = b"""TRANSFER Rows; DOMAIN Koord = COORD2 0.00 0.00 1000.00 1000.00;
MODEL Land TOPIC Cover = TABLE House = Form: SURFACE WITH (STRAIGHTS) VERTEX Koord; NO IDENT END House;
END Cover. END Land.
FORMAT FREE; CODE BLANK = DEFAULT, UNDEFINED = DEFAULT, CONTINUE = DEFAULT; TID = ANY; END.
"""
HOUSE = b"""SCNT
////
MTID Rows
MODL Land
TOPI Cover
TABL House
OBJE 1
ETAB
TABL House_Form
OBJE 9 1
STPT 100 100
LIPT 200 100
LIPT 200 200
LIPT 100 100
ELIN
ETAB
ETOP
EMOD
ENDE
"""
told("a surface", HOUSES, HOUSE, "SURFACE Cover House Form PROVED 1 0",
     "objects that are judged: 1; skipped, since they have an arc: 0")
told("an open surface", HOUSES, swapped(HOUSE, b"LIPT 100 100\n", b""), "SURFACE Cover House Form ODD 12",
     "object 9 of Cover.House_Form, at 200 100", "line 12: LIPT 200 100")
told("a surface of two parts", HOUSES, swapped(HOUSE, b"ELIN\nETAB", b"ELIN\nOBJE 8 1\nSTPT 300 100\nLIPT 400 100\n"
     b"LIPT 400 200\nLIPT 300 100\nELIN\nETAB"), "SURFACE Cover House Form PARTS 7", "object 1 of Cover.House",
     "line 7: OBJE 1")
wide("an arc where there may be none", b"LIPT 9 9\n", b"ARCP 9 8\nLIPT 9 9\n", "FINDING 25 arcs 2",
     "Cover.Parcel_Form, object 3, attribute Form: an arc, where the model allows straights alone", "at 9 8")
# Links: which points must lie in the area of the object to which their row refers.
LINKED = b"""TRANSFER Rows; DOMAIN Koord = COORD2 0.00 0.00 1000.00 1000.00; Rough = COORD2 0.0 0.0 1000.0 1000.0;
MODEL Land TOPIC Cover = TABLE Parcel = Form: OPTIONAL AREA WITH (STRAIGHTS, ARCS) VERTEX Koord; NO IDENT END Parcel;
TABLE Number = Of: -> Parcel; Nr: TEXT*9; Place: Koord; Near: OPTIONAL Rough; NO IDENT END Number; END Cover. END Land.
FORMAT FREE; CODE BLANK = DEFAULT, UNDEFINED = DEFAULT, CONTINUE = DEFAULT; TID = ANY; END.
"""
NUMBERS = b"""SCNT
////
MTID Rows
MODL Land
TOPI Cover
TABL Parcel_Form
OBJE 1
STPT 100 100
LIPT 200 100
LIPT 200 200
LIPT 100 200
LIPT 100 100
ELIN
OBJE 2
STPT 120 120
ARCP 130 130
LIPT 120 140
ARCP 110 130
LIPT 120 120
ELIN
ETAB
TABL Parcel
OBJE 1 150 150
OBJE 2 120 130
OBJE 3 @ @
ETAB
TABL Number
OBJE 7 1 n 160 160 @ @
ETAB
ETOP
EMOD
ENDE
"""
RULE = b"LINK Cover Number Place Of Form\n"
linked("a point in its area", NUMBERS, RULE, "LINKS 1 1", "rules: 1; points that were looked at: 1")
for place, words in ((b"127 137", "in the region of the object of line 24"), (b"113 123", "in the region of the object of line 24"),
                     (b"200 160", "on the straight or half arc of line 10"), (b"126 138", "on the straight or half arc of line 17"),
                     (b"201 160", "in no region"), (b"0 0", "in no region")):
    text = swapped(NUMBERS, b"n 160 160", b"n " + place)
    linked(place.decode(), text, b"\n" + RULE, "LINK 2 28",
           "line 2 of the links: LINK Cover Number Place Of Form",
           f"object 7 of Cover.Number, Place at {place.decode()}", f"line 28: OBJE 7 1 n {place.decode()} @ @",
           "it refers, by Of, to object 1 of Cover.Parcel", "line 23: OBJE 1 150 150", f"the point lies {words}")
linked("an object without a point", swapped(NUMBERS, b"OBJE 7 1", b"OBJE 7 3"), RULE, "LINK 1 28",
       "it refers, by Of, to object 3 of Cover.Parcel", "the object referred to has no point in Form")
for rule, words in ((b"LINK Cover Number Place Of", "5 words, the first LINK: six are needed, the first LINK"),
                    (b"LINKS Cover Number Place Of Form", "6 words, the first LINKS: six are needed, the first LINK"),
                    (b"LINK Land Number Place Of Form", "Land is no topic"),
                    (b"LINK Cover Parcel_Form Place Of Form", "Parcel_Form is no declared table of Cover"),
                    (b"LINK Cover Number Nr Of Form", "Nr is no coordinate of two axes of Number"),
                    (b"LINK Cover Number Place Nr Form", "Nr is no reference of Number"),
                    (b"LINK Cover Number Place Of Place", "Place is no AREA of Parcel"),
                    (b"LINK Cover Number Near Of Form", "Near has 1 decimals, and Form has 2")):
    linked("no rule", NUMBERS, RULE + b" \r\n" + rule, "LINKLINE 3", words, f"line 3 of the links: {rule.decode()}",
           "this line of the links states no rule, which is LINK topic table point reference area")
# Structures, and what the first line may be.
small("a byte order mark", b"SCNT", b"\xef\xbb\xbfSCNT", "STRUCTURE 1 word",
      "hint: the file begins with a byte order mark of UTF-8: save it without")
told("UTF-16", MODEL, TRANSFER.decode().encode("utf-16"), "STRUCTURE 1 word",
     "hint: the file is in UTF-16: save it in a code of one byte a letter")
told("CR alone", MODEL, TRANSFER.replace(b"\n", b"\r"), "STRUCTURE 1 word",
     "hint: the lines end with CR alone: save the file with LF or CR LF")
small("small letters", b"SCNT", b"scnt", "STRUCTURE 1 word", "hint: words are in capitals: SCNT")
told("an empty first line", MODEL, b"\n" + TRANSFER, "STRUCTURE 1 word",
     "hint: the first line is empty: SCNT has to stand in it")
small("no end of the head", b"////\n", b"", "STRUCTURE 20 end", "hint: no line is ////, which ends the head of a transfer")
small("another model", b"MODL Land", b"MODL Stadt", "STRUCTURE 4 name", "line 4: MODL Stadt")
small("a line that goes on", b"LIPT 100.000 100.000\n", b"LIPT 100.000 100.000 \\\n", "STRUCTURE 12 continue",
      "line 12: LIPT 100.000 100.000 \\")
small("small letters in a line", b"ETAB\nTABL Parcel\n", b"etab\nTABL Parcel\n", "STRUCTURE 14 word", "line 14: etab")
small("an empty text", TRANSFER, b"", "STRUCTURE 1 end")
small("another kind of file", TRANSFER, b"PK\x03\x04 zipped", "STRUCTURE 1 word", "line 1: PK?? zipped")
small("a part of a transfer", b"EMOD\nENDE\n", b"", "STRUCTURE 19 end")
small("a text that ends with the continue code", b"OBJE 1 77 150.000 150.000", b"OBJE 1 150 150 a\\",
      "STRUCTURE 16 continue")
told("a transfer without objects", MODEL, b"SCNT\n////\nMTID x\nMODL Land\nEMOD\nENDE\n",
     "AREA Cover Parcel Form PROVED 0 0 0", "straights and half arcs: 0; points of objects: 0",
     "accepted; compare the number of objects with what was ordered")
# A circle below a straight, as on the page of the report.
CIRCLE = (b"STPT 600 500\nARCP 500 600\nLIPT 400 500\nARCP 500 400\nLIPT 600 500\nELIN\nOBJE 2\n"
          b"STPT 450 Y\nLIPT 550 Y\nLIPT 550 700\nLIPT 450 700\nLIPT 450 Y\nELIN\n")
LINES = TRANSFER[TRANSFER.index(b"STPT"):TRANSFER.index(b"ETAB")]
for row, answer in ((b"601.000", "PROVED 1 8 2"), (b"600.015", "PROVED 5 8 2"), (b"600.005", "UNDECIDED 9 16"),
                    (b"599.995", "UNDECIDED 9 16"), (b"599.000", "MEETING 9 16")):
    text = swapped(swapped(TRANSFER, LINES, CIRCLE.replace(b"Y", row)), POINT,
                   b"OBJE 1 77 500 500\nOBJE 2 78 500 650\n")
    told("a circle below a straight", MODEL, text, "AREA Cover Parcel Form " + answer)
# Models and files.
told("a name of no domain", swapped(MODEL, b"TEXT*12", b"Zahl"), TRANSFER, "FAULT MODEL unknown 7 11 Zahl",
     "the model is refused", "line 7:       Nr: Zahl;", "                  ^")
# What is told of other reports.
for report, wanted in ((b"", "the report is empty"), (b"FINDING 99 range 2\nVERDICT REJECTED\n", "no such line 99"),
                       (b"AREA Cover Parcel Form MEETING 9 10\n", "no VERDICT line")):
    put("M", MODEL)
    put("T", TRANSFER)
    done = tell("M", "T", report)
    if done.returncode != 1 or wanted not in done.stderr:
        sys.exit(f"{report}: {done}")
done = tell("M", "T", b"NOTPROVED 0 7 3\nVERDICT NOTPROVED\n")
if "area 0 (Cover Parcel Form) breaks rule 7 of certificates at 3" not in done.stdout:
    sys.exit(f"NOTPROVED: {done}")
for words, line in ((["trial", "2", "C"], "curves: 12, ends of curves: 9, points: 4"),
                    (["compile", "M"], "Cover.Parcel_Form: the table with the lines of an AREA; columns: 0, lines: 1"),
                    (["compile", "none"], "this file cannot be read: model"), (["compile"], "the arguments are no command")):
    report = subprocess.run([PROGRAM, *words], capture_output=True).stdout
    done = tell("M", "T", report)
    if done.returncode or f"    {line}\n" not in done.stdout:
        sys.exit(f"{words}: {done}")
    DONE += 1
print(f"{DONE} reports")
PY
