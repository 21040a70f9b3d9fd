#!/usr/bin/env bash
# Refuses each growth of the built programs in turn: a library in front of the C library's `malloc`,
# `calloc` and `realloc` refuses the N-th of their calls, or the N-th and all after it, for N from
# 1 until a run asks for fewer. `realloc` counts where it asks for more. Each run has to end with
# status 8, nothing written and no file made or changed, or with what the run with no refusal
# answers, byte for byte. It measures nothing, and stops at the first run that does neither.
#
# usage: bench/growths.sh [ITFCHECK ITFFAULTS]      (crates/NAME/out/NAME where none is given)
. "$(dirname "${BASH_SOURCE[0]}")/begin.sh"
itfcheck=$(built_program "$@")
itffaults=$(built_faults "$@")
cd "$work"

cat > refuse.c <<'C'
/* Refuses the allocation of the number REFUSE, and with REFUSE_ON all after it; where it did so
   first, a byte goes to descriptor 9. */
#include <errno.h>
#include <malloc.h>
#include <stddef.h>
#include <stdlib.h>
#include <unistd.h>

extern void *__libc_malloc(size_t);
extern void *__libc_calloc(size_t, size_t);
extern void *__libc_realloc(void *, size_t);

static long left;
static int on, begun;

static int refused(void) {
    if (!begun) {
        const char *number = getenv("REFUSE");
        begun = 1;
        left = number ? atol(number) : 0;
        on = getenv("REFUSE_ON") != NULL;
    }
    if (left < 0) {
        errno = on ? ENOMEM : errno;
        return on;
    }
    if (left == 0 || --left > 0) return 0;
    left = -1;
    (void)!write(9, "r", 1);
    errno = ENOMEM;
    return 1;
}

void *malloc(size_t size) { return refused() ? NULL : __libc_malloc(size); }

void *calloc(size_t count, size_t size) { return refused() ? NULL : __libc_calloc(count, size); }

void *realloc(void *old, size_t size) {
    if ((old == NULL || size > malloc_usable_size(old)) && refused()) return NULL;
    return __libc_realloc(old, size);
}
C
cc -O2 -shared -fPIC -o refuse.so refuse.c

PYTHONPATH="$top/bench" python3 - "$itfcheck" "$itffaults" <<'PY'
import os, subprocess, sys
from runs import held, put

MODEL = """TRANSFER Rows; DOMAIN Koord = COORD2 0.000 0.000 1000.000 1000.000;
MODEL Land TOPIC Cover =
TABLE Owner = Name: TEXT*12; Art: (private, public (town, state)); NO IDENT END Owner;
TABLE Parcel = Nr: TEXT*12; Zu: -> Owner;
Form: AREA WITH (STRAIGHTS, ARCS) VERTEX Koord WITHOUT OVERLAPS > 0.050; IDENT Nr; END Parcel;
END Cover. END Land.
FORMAT FREE; CODE BLANK = DEFAULT, UNDEFINED = DEFAULT, CONTINUE = DEFAULT; TID = ANY; END.
"""
RING = """OBJE 1
STPT 100.000 100.000
LIPT 200.000 100.000
LIPT 200.000 200.000
LIPT 100.000 200.000
LIPT 100.000 100.000
ELIN
"""
HOLE = """OBJE 2
STPT 140.000 140.000
LIPT 160.000 140.000
LIPT 160.000 160.000
LIPT 140.000 160.000
LIPT 140.000 140.000
ELIN
"""
ENDING = """OBJE 3
STPT 120.000 120.000
LIPT 130.000 120.000
ELIN
"""
CIRCLE = """OBJE 1
STPT 510.000 500.000
ARCP 500.000 510.000
LIPT 490.000 500.000
ARCP 500.000 490.000
LIPT 510.000 500.000
ELIN
"""
# beside the circle, and in the tube of its first half arc at level 0
SMALL = """OBJE 2
STPT 508.860 503.660
LIPT 508.880 503.660
LIPT 508.880 503.680
LIPT 508.860 503.680
LIPT 508.860 503.660
ELIN
"""
# two arcs that begin in one direction
FORKED = """OBJE 1
STPT 500.000 500.000
ARCP 506.000 502.000
LIPT 510.000 510.000
ELIN
OBJE 2
STPT 500.000 500.000
ARCP 512.000 504.000
LIPT 520.000 520.000
ELIN
"""
# a corner of two straights on the circle, of which one leaves it along its tangent
FORK = """OBJE 2
STPT 510.000 500.000
LIPT 509.900 520.000
LIPT 500.000 510.000
ELIN
"""
# a spiral of half turns, each 2 wider than the one before
SPIRAL = "OBJE 9\nSTPT 510.000 500.000\n"
for radius in range(11, 91, 2):
    at, side = (499, 1) if radius % 4 == 3 else (501, -1)
    SPIRAL += "ARCP %d.000 %d.000\nLIPT %d.000 500.000\n" % (at, 500 + side * radius, at - side * radius)
SPIRAL += "ELIN\n"
# circles round it, each nearer to the next one than the tubes of the last level are wide
RINGED = ""
for number in range(24):
    to, back = "%.3f" % (700 + 0.02 * number), "%.3f" % (300 - 0.02 * number)
    RINGED += "OBJE %d\nSTPT %s 500.000\nARCP 500.000 %s\nLIPT %s 500.000\nARCP 500.000 %s\nLIPT %s 500.000\nELIN\n" % (
        number + 10, to, to, back, back, to)


def transfer(lines, parcels):
    return ("SCNT\n////\nMTID Rows\nMODL Land\nTOPI Cover\nTABL Owner\nOBJE o1 Ann 1\nOBJE o2 Bob 2\n"
            "ETAB\nTABL Parcel_Form\n" + lines + "ETAB\nTABL Parcel\n" + parcels
            + "ETAB\nETOP\nEMOD\nENDE\n")


SQUARE = transfer(RING, "OBJE 1 77 o1 110.000 150.000\n")
IN_HOLE = "OBJE 1 77 o1 110.000 150.000\nOBJE 2 78 o2 150.000 150.000\n"
HOLED = transfer(RING + HOLE, IN_HOLE)
CUT = transfer(RING + HOLE + ENDING, IN_HOLE)
OTHER = RING.replace("OBJE 1", "OBJE 2").replace("STPT 100", "STPT 300")
CROSSED = transfer(RING + OTHER, "OBJE 1 77 o1 110.000 150.000\n")
ROUND = transfer(CIRCLE, "OBJE 1 77 o1 500.000 500.000\n")
NEAR = transfer(CIRCLE + SMALL, "OBJE 1 77 o1 500.000 500.000\nOBJE 2 78 o2 508.870 503.670\n")
BENT = transfer(CIRCLE + FORK, "OBJE 1 77 o1 500.000 500.000\nOBJE 2 78 o2 507.000 514.000\n")
SURFACES = """TRANSFER Rows; DOMAIN Koord = COORD2 0.000 0.000 1000.000 1000.000;
MODEL Land TOPIC Cover =
TABLE House = Nr: TEXT*12; Form: SURFACE WITH (STRAIGHTS, ARCS) VERTEX Koord; IDENT Nr; END House;
END Cover. END Land.
FORMAT FREE; CODE BLANK = DEFAULT, UNDEFINED = DEFAULT, CONTINUE = DEFAULT; TID = ANY; END.
"""


def houses(lines):
    """Two objects, and their lines."""
    return ("SCNT\n////\nMTID Rows\nMODL Land\nTOPI Cover\nTABL House\nOBJE 1 a\nOBJE 2 b\nETAB\n"
            "TABL House_Form\n" + lines + "ETAB\nETOP\nEMOD\nENDE\n")


def owned(line, owner):
    """The line as one of the object."""
    return line.replace("\n", " %d\n" % owner, 1)


HELD = houses(owned(RING, 1) + owned(HOLE, 1) + owned(OTHER, 2).replace("OBJE 2", "OBJE 3")
              .replace("STPT 300", "STPT 100"))
PARTED = houses(owned(RING, 1) + owned(CIRCLE, 2).replace("OBJE 1", "OBJE 3") + owned(RING, 1)
                .replace("OBJE 1", "OBJE 4").replace("200.000", "220.000").replace("100.000", "210.000"))
WRONG = transfer(RING, "OBJE 1 77 o3 110.000 150.000\nOBJE 2 77 o1 x 1.000\n")
# house numbers, which refer to the parcels in which they lie
LINKED = MODEL.replace("END Cover.", "TABLE Number = Of: -> Parcel; At: Koord; NO IDENT END Number; END Cover.")
LINKS = b"LINK Cover Number At Of Form\n"


def numbers(place):
    """The ring with a hole, and a number of each parcel, the second one there."""
    rows = "TABL Number\nOBJE 1 1 120.000 120.000\nOBJE 2 2 %s\nETAB\nETOP" % place
    return HOLED.replace("ETOP", rows)


# the command, the model, the transfer, the third file before, and the status
CHECKS = [
    ("a square", "check", MODEL, SQUARE, None, 0),
    ("a square, filed before", "check", MODEL, SQUARE, b"as it was", 0),
    ("a ring with a hole", "check", MODEL, HOLED, None, 0),
    ("a circle of two arcs", "check", MODEL, ROUND, None, 0),
    ("a circle, and a square that level 0 does not settle", "check", MODEL, NEAR, None, 0),
    ("two arcs that begin in one direction", "check", MODEL, transfer(FORKED, ""), None, 2),
    ("two such arcs beside a spiral, where few curves are set aside", "check", MODEL,
     transfer(SPIRAL + FORKED.replace("500.000 500.000", "300.000 100.000").replace("506.000 502.000", "306.000 102.000")
              .replace("510.000 510.000", "310.000 110.000").replace("512.000 504.000", "312.000 104.000")
              .replace("520.000 520.000", "320.000 120.000"), ""), None, 2),
    ("circles near each other round the spiral, which is alone", "check", MODEL, transfer(SPIRAL + RINGED, ""), None, 2),
    ("a circle, and a straight that forks from it", "check", MODEL, BENT, None, 0),
    ("two surfaces, of which one has a hole", "check", SURFACES, HELD, None, 0),
    ("a surface of two parts, and one with arcs", "check", SURFACES, PARTED, None, 1),
    ("a ring with a hole", "polygons", MODEL, HOLED, b"as it was", 0),
    ("a circle of two arcs", "polygons", MODEL, ROUND, None, 0),
    ("two lines that meet", "polygons", MODEL, CROSSED, b"as it was", 1),
    ("a ring with a hole", "canonical", MODEL, HOLED, b"as it was", 0),
    ("a ring with a hole, the code T", "canonical", MODEL.replace("CONTINUE = DEFAULT", "CONTINUE = 84"), HOLED, None, 1),
    ("a transfer that ends too soon", "canonical", MODEL, SQUARE[:150], b"as it was", 1),
    ("numbers in their parcels", "points", LINKED, numbers("150.000 150.000"), LINKS, 0),
    ("a number that is not", "points", LINKED, numbers("120.000 150.000"), LINKS, 1),
    ("a line of links at fault", "points", LINKED, numbers("150.000 150.000"), b"LINK Cover Number\n", 1),
    ("a ring with a hole", "faults", MODEL, HOLED, b"as it was", 0),
    ("two lines that meet, and two objects in a region", "faults", MODEL,
     CROSSED.replace("ETAB\nETOP", "OBJE 2 78 o2 130.000 150.000\nETAB\nETOP"), None, 1),
    ("a ring with a hole and a line that ends inside", "faults", MODEL, CUT, b"as it was", 1),
    ("a circle of two arcs", "faults", MODEL, ROUND, None, 0),
    ("two arcs that begin in one direction", "faults", MODEL, transfer(FORKED, ""), None, 2),
    ("a surface of two parts, and one with arcs", "faults", SURFACES, PARTED, None, 1),
    ("wrong rows", "faults", MODEL, WRONG, b"as it was", 1),
    ("two lines that meet", "check", MODEL, CROSSED, None, 1),
    ("a ring with a hole and a line that ends inside", "check", MODEL, CUT, None, 1),
    ("wrong rows", "check", MODEL, WRONG, None, 1),
    ("a transfer that ends too soon", "check", MODEL, SQUARE[:150], None, 1),
    ("a refused model", "check", MODEL.replace("-> Owner", "-> Nobody"), SQUARE, None, 3),
]


def words_of(command):
    """The program and the words of a command: all name the files M, T and C but a trial."""
    if command == "faults":
        return [sys.argv[2], "M", "T", "C"]
    return [sys.argv[1], *(["trial", "2", "C"] if command == "trial" else [command, "M", "T", "C"])]


def run(command, before, number, on):
    """Status, output, the third file, and whether a growth was refused."""
    put("C", before)
    put("refused", b"")
    settings = {"LD_PRELOAD": os.path.abspath("refuse.so"), "REFUSE": str(number)}
    if on:
        settings["REFUSE_ON"] = "1"
    done = subprocess.run(
        ["sh", "-c", 'exec "$@" 9> refused', "sh", "env", *("%s=%s" % s for s in settings.items()),
         *words_of(command)],
        stdout=subprocess.PIPE, stderr=subprocess.STDOUT, check=False)
    return done.returncode, done.stdout, held("C"), held("refused") != b""


def refuse_all(name, command, model, text, before, status):
    """Refuses each growth; gives the third file that the run with no refusal leaves."""
    put("M", model.encode())
    put("T", text.encode())
    *wanted, refused = run(command, before, 0, False)
    if wanted[0] != status or refused:
        sys.exit("%s, %s: no refusal, yet %s" % (command, name, wanted))
    for on in (False, True):
        number, memory, same = 0, 0, 0
        while True:
            number += 1
            *got, refused = run(command, before, number, on)
            if got == wanted:
                same += refused
            elif got == [8, b"", before]:
                memory += 1
            else:
                sys.exit("%s, %s: growth %d refused%s: %s" % (
                    command, name, number, " and all after it" if on else "", got))
            if not refused:
                break
        print("%s, %s, status %d: %d growths%s refused in turn: %d times out of memory, %d times the"
              " same answer" % (command, name, status, number - 1,
                                " and all after each" if on else "", memory, same))
    return wanted[2]


made = []
for case in CHECKS:
    made.append(refuse_all(*case))
name, _, model, text, _, _ = CHECKS[2]
refuse_all(name, "verify", model, text, made[2], 0)
name, _, model, text, _, _ = CHECKS[4]
refuse_all(name, "verify", model, text, made[4], 0)
name, _, model, text, _, _ = CHECKS[8]
refuse_all(name, "verify", model, text, made[8], 0)
name, _, model, text, _, _ = CHECKS[0]
refuse_all(name, "verify", model, text, made[0], 0)
refuse_all("a square, a label changed", "verify", model, text, made[0].replace(b"R 0 1 R", b"R 0 2 R", 1), 9)
refuse_all("a square, a text cut off", "verify", model, text, made[0][:40], 9)
refuse_all("four squares that are made", "trial", "", "", None, 0)
refuse_all("four squares that are made, filed before", "trial", "", "", b"as it was", 0)
PY
