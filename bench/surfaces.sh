#!/usr/bin/env bash
# Runs `check` of the built program on 50,000 buildings of six straights that come as a SURFACE,
# beside a plain C++ sweep over the same straights. What the text side takes is measured with a last
# object that has a finding, so that no boundary is judged, and taken away. Then it runs `polygons`
# on the drawings of check.sh, beside `check`. Prints ratios, no absolute times.
#
# usage: bench/surfaces.sh [ITFCHECK]      (crates/itfcheck/out/itfcheck where none is given)
. "$(dirname "${BASH_SOURCE[0]}")/begin.sh"
. "$top/bench/measure.sh"
itfcheck=$(built_program "$@")
cd "$work"
g++ -O2 -std=c++17 -o sweep "$top/bench/plain_sweep.cpp"

cat > buildings.py <<'PY'
"""Writes 50,000 buildings as a SURFACE: model, transfer, the same with a finding, and straights."""
import random
import struct

MODEL = """TRANSFER Bench; DOMAIN Koord = COORD2 0.000 0.000 900000.000 900000.000;
MODEL Bench TOPIC Land = TABLE House = Storeys: [0 .. 99];
Form: SURFACE WITH (STRAIGHTS) VERTEX Koord; NO IDENT END House; END Land. END Bench.
FORMAT FREE; CODE BLANK = DEFAULT, UNDEFINED = DEFAULT, CONTINUE = DEFAULT; TID = ANY; END.
"""
COUNT = 50000
chance = random.Random(1)


def ring(number):
    """An L, as the buildings of the parcels are."""
    x, y = 20000 * (number % 250) + 20000, 20000 * (number // 250) + 20000
    wide, high = chance.randint(5000, 8000), chance.randint(5000, 8000)
    part, cut = chance.randint(1000, 3000), chance.randint(1000, 3000)
    corners = [(-wide, -high), (wide, -high - 300), (wide + 200, cut), (part, cut + 100),
               (part - 100, high), (-wide - 300, high + 200)]
    corners = [(x + a, y + b) for a, b in corners]
    return corners + corners[:1]


def metres(place):
    return "%d.%03d %d.%03d" % (*divmod(place[0], 1000), *divmod(place[1], 1000))


rings = [ring(number) for number in range(COUNT)]
with open("model", "w") as file:
    file.write(MODEL)
with open("straights", "wb") as file:
    for corners in rings:
        for start, end in zip(corners, corners[1:]):
            file.write(struct.pack("<4i", *start, *end))
for name, last in (("transfer", "OBJE 50000 2"), ("faulty", "OBJE 50000 222")):
    with open(name, "w") as file:
        file.write("SCNT\n////\nMTID Bench\nMODL Bench\nTOPI Land\nTABL House\n")
        file.writelines("OBJE %d 2\n" % number for number in range(1, COUNT))
        file.write(last + "\nETAB\nTABL House_Form\n")
        for number, corners in enumerate(rings, 1):
            file.write("OBJE %d %d\nSTPT %s\n" % (number, number, metres(corners[0])))
            file.writelines("LIPT %s\n" % metres(corner) for corner in corners[1:])
            file.write("ELIN\n")
        file.write("ETAB\nETOP\nEMOD\nENDE\n")
PY
python3 buildings.py
report=$("$itfcheck" check model transfer certificate)
[ "$report" = $'SURFACE Land House Form PROVED 50000 0\nVERDICT ACCEPTED 100000' ] || { echo "$report"; exit 1; }
"$itfcheck" check model faulty certificate > /dev/null || [ $? = 1 ]
read -r text text_peak <<< "$(measure 1 "$itfcheck" check model faulty certificate)"
read -r check check_peak sweep _ sweep_read _ <<< "$(measure_in_turn \
    "$itfcheck check model transfer certificate" './sweep straights' './sweep straights read')"
awk -v c="$check" -v t="$text" -v s="$(( sweep - sweep_read ))" -v m="$check_peak" -v n="$text_peak" 'BEGIN {
    printf "50,000 buildings, 300,000 straights: judging them takes %.2f times the sweep (aim 0.5), check %.1f times the text side\n", (c - t) / s, c / t
    printf "peak memory: %.2f times that of the text side\n", m / n
}'

files='model transfer certificate'
for drawing in 'grid 500' 'parcels 100000'; do
    python3 "$top/bench/drawings.py" $drawing "$work"
    points=$(( $(stat -c %s points) / 8 ))
    "$itfcheck" check $files > /dev/null
    read -r check check_peak polygons polygons_peak <<< "$(measure_in_turn \
        "$itfcheck check $files" "$itfcheck polygons model transfer polygons")"
    awk -v d="$drawing" -v c="$check" -v p="$polygons" -v cm="$check_peak" -v pm="$polygons_peak" -v n="$points" 'BEGIN {
        printf "%s: polygons takes %.2f times check (aim 1.6), %.0f bytes a polygon more (aim 200)\n", d, p / c, (pm - cm) * 1024 / n
    }'
done
