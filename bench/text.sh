#!/usr/bin/env bash
# Measures the text side of `check`: a transfer is read in pieces, cut into lines, each word read
# once, and the places of its area kept. The last object has a value out of its bounds, so that the
# area is not searched. Beside it a plain C program reads the same file and parses its fields and
# numbers. Then come the worst inputs that are legal, and identifications in four orders. The
# programs run in turn, the best of five counts. Prints ratios within one run, and what comes of a
# run with 8 bytes of address space for each byte that is read: the same answer, or status 8 with
# nothing put or changed.
#
# usage: bench/text.sh [ITFCHECK]      (crates/itfcheck/out/itfcheck where none is given)
. "$(dirname "${BASH_SOURCE[0]}")/begin.sh"
. "$top/bench/measure.sh"
itfcheck=$(built_program "$@")
cd "$work"

cat > parse.c <<'C'
/* Reads a file in pieces, cuts its lines into fields, and parses each field that is a number. */
#include <stdint.h>
#include <stdio.h>
int main(int argc, char **argv) {
    static char piece[65536];
    FILE *file = fopen(argv[1], "rb");
    if (!file) return 2;
    int64_t value = 0, sum = 0;
    uint64_t lines = 0, fields = 0;
    int within = 0, number = 1;
    for (size_t length; (length = fread(piece, 1, sizeof piece, file)) > 0;)
        for (size_t i = 0; i < length; i++) {
            char c = piece[i];
            if (c == ' ' || c == '\t' || c == '\n' || c == '\r') {
                if (within) {
                    fields++;
                    if (number) sum += value;
                }
                within = value = 0;
                number = 1;
                lines += c == '\n';
            } else {
                within = 1;
                if (c >= '0' && c <= '9') value = value * 10 + (c - '0');
                else if (c != '.') number = 0;
            }
        }
    printf("%lu lines, %lu fields, sum %ld\n", lines, fields, sum);
    return 0;
}
C
cc -O2 -o parse parse.c
cat > ended <<'E2'
#!/bin/sh
# Runs a command that ends with that status, and ends with 0.
wanted=$1
shift
"$@"
[ $? -eq "$wanted" ]
E2
chmod +x ended

# The name of the input, the status of the check and the files' names.
compare() {
    read -r check check_peak parse parse_peak <<< "$(measure_in_turn \
        "./ended $2 $itfcheck check $3 $4 certificate" "./parse $4")"
    within=$(within_eight_times "$2" "$itfcheck" check "$3" "$4" certificate)
    awk -v d="$1" -v c="$check" -v p="$parse" -v m="$check_peak" -v t="$(stat -c %s "$4")" -v w="$within" 'BEGIN {
        printf "%-36s %4.0f MB: CPU %5.2f times the parse, peak %5.2f times the transfer, %s\n", d, t / 1e6, c / p, m * 1024 / t, w }'
}

for drawing in 'grid 500' 'parcels 100000'; do
    python3 "$top/bench/drawings.py" $drawing "$work"
    # the last object is out of the window
    python3 - <<'PY'
text = open("transfer", "rb").read()
at = text.rindex(b"OBJE ")
end = text.index(b"\n", at)
fields = text[at:end].split()
open("faulty", "wb").write(text[:at] + b" ".join(fields[:-1] + [b"999999.000"]) + text[end:])
PY
    compare "$drawing" 1 model faulty
done

# Worst inputs: a model, and a line of the transfer again and again.
python3 - <<'PY'
HEAD = "SCNT\n////\nMTID x\nMODL M\nTOPI T\nTABL %s\n"
TAIL = "ETAB\nETOP\nEMOD\nENDE\n"


def model(table):
    return ("TRANSFER W; DOMAIN K = COORD2 0.000 0.000 1000.000 1000.000; MODEL M TOPIC T = TABLE A = "
            + table + " END A; END T. END M. FORMAT FREE; CODE BLANK = DEFAULT, UNDEFINED = DEFAULT, "
            "CONTINUE = DEFAULT; TID = ANY; END.\n")


def write(name, table, opens, body, closes):
    open(name + ".ili", "w").write(model(table))
    with open(name + ".itf", "w") as file:
        file.write(HEAD % opens)
        for part in body:
            file.write(part)
        file.write(closes + TAIL)


columns = " ".join("C%d: TEXT*1;" % i for i in range(60))
row = " ".join("x" for _ in range(60))
write("columns", columns + " NO IDENT", "A", ("OBJE %d %s\n" % (i, row) for i in range(250000)), "")
write("stroke", "F: POLYLINE WITH (STRAIGHTS) VERTEX K; NO IDENT", "A",
      ["OBJE 1\nSTPT 1 1\n"] + ["LIPT 2 2\n" * 1000] * 3000, "ELIN\n")
write("bare", "F: OPTIONAL POLYLINE WITH (STRAIGHTS) VERTEX K; NO IDENT", "A",
      ("OBJE %d\n" % i for i in range(2000000)), "")
write("same", "F: OPTIONAL POLYLINE WITH (STRAIGHTS) VERTEX K; NO IDENT", "A",
      ["OBJE 1\n" * 1000] * 2000, "")
write("faults", "F: POLYLINE WITH (STRAIGHTS) VERTEX K; NO IDENT", "A",
      ["OBJE 1\nSTPT 1 1\n"] + ["LIPT\n" * 1000] * 3000, "ELIN\n")
write("references", "N: TEXT*1; " + " ".join("R%d: -> A;" % i for i in range(20)) + " NO IDENT", "A",
      ("OBJE %d x %s\n" % (i, " ".join("1" for _ in range(20))) for i in range(1, 250000)), "")
PY
compare '60 short columns a row' 0 columns.ili columns.itf
compare 'one polyline of 3 million vertices' 0 stroke.ili stroke.itf
compare 'bare objects' 0 bare.ili bare.itf
compare 'bare objects of one identification' 1 same.ili same.itf
compare 'a finding in each line' 1 faults.ili faults.itf
compare '20 references a row' 0 references.ili references.itf

# Identifications: ascending, in no order, long words, and with a common front.
python3 - <<'PY'
import random
chance = random.Random(1)
HEAD = "SCNT\n////\nMTID x\nMODL M\nTOPI T\nTABL A\n"
TAIL = "ETAB\nETOP\nEMOD\nENDE\n"
orders = {
    "ascending": (str(i) for i in range(1000000)),
    "mixed": (str(i) for i in chance.sample(range(10**9), 1000000)),
    "words": ("%022x" % i for i in chance.sample(range(10**18), 1000000)),
    "front": ("parcel/%09d" % i for i in chance.sample(range(10**9), 1000000)),
}
for name, keys in orders.items():
    with open(name + ".itf", "w") as file:
        file.write(HEAD)
        file.writelines("OBJE %s\n" % key for key in keys)
        file.write(TAIL)
PY
for order in ascending mixed words front; do compare "a million identifications, $order" 0 bare.ili "$order.itf"; done
