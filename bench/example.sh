#!/usr/bin/env bash
# Calls each command of docs/example.md as it stands there, in a scratch checkout that holds the
# built program, and holds what it prints and the pictures against the page; and has the
# certificates of docs/certificate-format.md judged by the program and by second_checker.py. It
# measures nothing, and stops at the first difference.
#
# usage: bench/example.sh [ITFCHECK [ITFFAULTS]]      (those of crates/*/out where none are given)
. "$(dirname "${BASH_SOURCE[0]}")/begin.sh"
itfcheck=$(built_program "$@")
itffaults=$(built_faults "$@")
cd "$work"
mkdir -p checkout/crates/itfcheck/out checkout/crates/itffaults/out
cp -r "$top/itfcheck" "$top/README.md" "$top/docs" "$top/tools" "$top/bench" checkout
printf '#!/bin/sh\nexec "%s" "$@"\n' "$itfcheck" > checkout/crates/itfcheck/out/itfcheck
printf '#!/bin/sh\nexec "%s" "$@"\n' "$itffaults" > checkout/crates/itffaults/out/itffaults
chmod 755 checkout/crates/itfcheck/out/itfcheck checkout/crates/itffaults/out/itffaults
cd checkout

python3 - "$top/crates/itfcheck/data" <<'PY'
import os
import re
import subprocess
import sys

PICTURES = {"meeting": "second/Survey.Parcel.Form", "empty": "second/Ground.Cover.Form",
            "outside": "second/Plan.Zone.Form", "two": "third/Survey.Parcel.Form"}
ARC_MODEL = """TRANSFER Rows; DOMAIN Koord = COORD2 0 0 1000000 1000000;
MODEL Land TOPIC Cover =
TABLE Parcel = Form: AREA WITH (STRAIGHTS, ARCS) VERTEX Koord; NO IDENT END Parcel;
END Cover. END Land.
FORMAT FREE; CODE BLANK = DEFAULT, UNDEFINED = DEFAULT, CONTINUE = DEFAULT; TID = ANY; END.
"""
ARC_TRANSFER = """SCNT
////
MTID Rows
MODL Land
TOPI Cover
TABL Parcel_Form
OBJE 1
STPT 490000 500000
LIPT 510000 500000
ARCP 500000 510000
LIPT 490000 500000
ELIN
ETAB
TABL Parcel
OBJE 1 500000 505000
ETAB
ETOP
EMOD
ENDE
"""


def blocks(page):
    """The code blocks of a page, each with the word after its fence."""
    with open(page) as file:
        return re.findall(r"^```(\w*)\n(.*?)^```$", file.read(), re.S | re.M)


def run(commands, folder):
    """What commands print, and the folder in which they end."""
    done = subprocess.run(["bash", "-c", commands + "pwd >&2"], cwd=folder, capture_output=True, text=True)
    told = done.stderr.splitlines()
    if len(told) != 1:
        sys.exit(f"{commands}{done.stderr}")
    return done.stdout, told[0]


def put(name, text):
    with open(name, "w") as file:
        file.write(text)


def the_example():
    folder, found = os.getcwd(), blocks("docs/example.md")
    for (kind, text), (after, wanted) in zip(found, found[1:] + [("sh", "")]):
        if kind != "sh":
            continue
        printed, folder = run(text, folder)
        if printed != (wanted if after == "" else ""):
            sys.exit(f"{text}prints\n{printed}and the page has\n{wanted}")
        print(f"{text.splitlines()[0][:60]}: as on the page")
    for name, picture in PICTURES.items():
        with open(f"docs/example/{name}.svg") as one, open(f"{folder}/{picture}.svg") as other:
            if one.read() != other.read():
                sys.exit(f"docs/example/{name}.svg is another picture than {picture}.svg")
    print(f"{len(PICTURES)} pictures")


def certificates(data):
    """Those of the page prove the parcel of the data, and half a disc."""
    texts = [text for _, text in blocks("docs/certificate-format.md") if text.startswith("ITFCERT 2\nAREAS 1\n")]
    put("M", ARC_MODEL)
    put("T", ARC_TRANSFER)
    for text, model, transfer in zip(texts, (f"{data}/parcels.ili", "M"), (f"{data}/parcels.itf", "T")):
        put("C", text)
        proved, _ = run(f"./itfcheck verify {model} {transfer} C\n", ".")
        drawing, _ = run(f"tools/itf curves {model} {transfer} > D; python3 bench/second_checker.py D C\n", ".")
        if "VERDICT ACCEPTED 2" not in proved or drawing != "PROVED\n":
            sys.exit(f"{text}{proved}{drawing}")
    if len(texts) != 2:
        sys.exit(f"{len(texts)} certificates on the page")
    print(f"{len(texts)} certificates of the page of their format")


the_example()
certificates(sys.argv[1])
PY
