#!/usr/bin/env bash
# Measures what objects cost whose table has very many attributes or lists of which they say little:
# `check` of 1,000 and of 20,000 such objects under models of 50,000 and of 200,000 attributes.
# Prints for each the first line of the report, the status, the CPU time as a multiple of that of
# `compile` of the same model, and the peak memory as a multiple of the model and the transfer. What
# the objects alone cost should not depend on how many attributes there are, nor on how many times
# one IDENT list is said. The time of the last form, of lists that differ, is a product of objects
# and lists; the last two are smaller.
#
# usage: bench/wide_tables.sh [ITFCHECK]      (crates/itfcheck/out/itfcheck where none is given)
. "$(dirname "${BASH_SOURCE[0]}")/begin.sh"
itfcheck=$(built_program "$@")
cd "$work"
PYTHONPATH="$top/bench" python3 - "$itfcheck" <<'PY'
import os
import sys
from runs import once

program = sys.argv[1]
TAIL = """END A; END T. END M.
FORMAT FREE; CODE BLANK = DEFAULT, UNDEFINED = DEFAULT, CONTINUE = DEFAULT; TID = ANY; END.
"""


def model(attributes, idents="NO IDENT"):
    """A table with these attributes, of the domains D of dates and L of lines."""
    head = ("TRANSFER W; DOMAIN D = DATE; L = POLYLINE WITH (STRAIGHTS) VERTEX K; K = COORD2 0.0 0.0 9.0 9.0;\n"
            "MODEL M TOPIC T = TABLE A =\n")
    return head + "".join(f"a{n}:{kind};\n" for n, kind in enumerate(attributes)) + idents + "\n" + TAIL


def transfer(count, line):
    """So many objects, each the text of a line of its number."""
    head = "SCNT\n////\nMTID x\nMODL M\nTOPI T\nTABL A\n"
    return head + "".join(line(n) for n in range(count)) + "ETAB\nETOP\nEMOD\nENDE\n"


def bare(n):
    return f"OBJE {n}\n"


def named(n):
    return f"OBJE {n} x{n}\n"


def nine_words(n):
    return f"OBJE {n} x{n}" + " b" * 8 + "\n"


def differing(count):
    """So many IDENT lists, at most 256, that all begin with a0 and differ in which of a1 to a8 they name."""
    lists = [["a0"] + [f"a{k + 1}" for k in range(8) if n >> k & 1] for n in range(count)]
    return "IDENT " + "".join(", ".join(names) + ";" for names in lists)


def one_stroke(n):
    return f"OBJE {n}\nSTPT 1.0 1.0\nLIPT 2.0 2.0\nELIN\n"


# A name, the model by a number of attributes or of lists, an object, and the numbers.
FORMS = [
    ("columns, too few words", lambda n: model(["OPTIONAL D"] * n), bare, (50_000, 200_000)),
    ("optional lines left out", lambda n: model(["OPTIONAL L"] * n), bare, (50_000, 200_000)),
    ("lines, the first of them given", lambda n: model(["OPTIONAL L"] * n), one_stroke, (50_000, 200_000)),
    ("lines left out, the last of them mandatory", lambda n: model(["OPTIONAL L"] * (n - 1) + ["L"]), bare, (50_000, 200_000)),
    ("equal IDENT lists", lambda n: model(["TEXT*9"], "IDENT " + "a0;" * n), named, (50, 200)),
    ("IDENT lists that differ, of nine columns", lambda n: model(["TEXT*9"] * 9, differing(n)), nine_words, (50, 200)),
]

for name, text_of, object_of, numbers in FORMS:
    for number in numbers:
        with open("model", "w") as file:
            file.write(text_of(number))
        _, alone, _ = once([program, "compile", "model"])
        for count in (1_000, 20_000):
            with open("transfer", "w") as file:
                file.write(transfer(count, object_of))
            status, cpu, peak = once([program, "check", "model", "transfer", "certificates"], "report")
            with open("report") as file:
                first = file.readline().strip()
            size = os.path.getsize("model") + os.path.getsize("transfer")
            print(f"{number:,} {name}, {count:,} objects: {first}, status {status}; {cpu / alone:.1f} times the "
                  f"time of the model alone; peak memory {peak / size:.1f} times the files", flush=True)
PY
