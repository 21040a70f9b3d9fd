#!/usr/bin/env bash
# Counts what half arcs cost `check` of the built program, in instructions as `callgrind` counts
# them, beside a plain C++ sweep over the straights and the chords of the half arcs, whose reading of
# numbers is taken away. On a delivery that level 0 settles: the edge list with its tubes, the sweep
# of the edges, the test of the corners and of the cells, all of the search. On the same one with a
# bad pair: all of the search. On the same one with a half arc that has no tube, so that no level
# settles it: the search of bad pairs with a half arc, what follows the levels, all of the search.
# Prints ratios, no absolute counts.
#
# usage: bench/arcs.sh [ITFCHECK [SIZE]]    (crates/itfcheck/out/itfcheck and 10000 where none is
#                                           given; a run takes some minutes)
. "$(dirname "${BASH_SOURCE[0]}")/begin.sh"
itfcheck=$(built_program "$@")
size=${2:-10000}
cd "$work"
g++ -O2 -std=c++17 -o plain "$top/bench/plain_sweep.cpp"

# Runs a command under callgrind, whatever its status is, and writes its counts to a file
count() {
    local out=$1
    shift
    valgrind --tool=callgrind --callgrind-out-file="$out.raw" "$@" > "$out.said" 2> "$out.log" || true
    callgrind_annotate --inclusive=yes --threshold=100 "$out.raw" > "$out"
}

# The inclusive count of the first of these functions that is named: what the compiler wrote into
# its caller has no count of its own. With a name that ends in two colons, of all of its instances.
counted() {
    python3 - "$@" <<'PY'
import re, sys
counts = {}
for line in open(sys.argv[1]):
    found = re.match(r" *([0-9,]+) \([ 0-9.]+%\)  \S*?:(\S+) \[", line)
    if found:
        name = re.sub(r"<#.*", "", found[2])
        counts[name] = counts.get(name, 0) + int(found[1].replace(",", ""))
for name in sys.argv[2:]:
    if name in counts:
        print(counts[name])
        break
else:
    sys.exit("no count of " + " ".join(sys.argv[2:]))
PY
}

whole() {
    sed -nE 's/^ *([0-9,]+) .*PROGRAM TOTALS.*/\1/p' "$1" | tr -d ,
}

tell() {
    awk -v a="$1" -v b="$2" -v what="$3" -v aim="${4:-}" 'BEGIN {
        printf "  %s: %.2f times the plain sweep%s\n", what, a / b, aim ? " (aim " aim ")" : ""
    }'
}

# The count of the search: its own, or where the compiler wrote it into its callers, theirs, which
# do little else.
search() {
    counted "$1" area_search::level::finding::find_area delivery::area_answers::answer_of delivery::rows::checked
}

for kind in cover arcs; do
    python3 "$top/bench/drawings.py" $kind $size "$work"
    count plain.counts ./plain chords
    count read.counts ./plain chords read
    sweep=$(( $(whole plain.counts) - $(whole read.counts) ))
    curves=$(( $(stat -c %s straights) / 16 + $(stat -c %s arcs) / 12 ))
    echo "$kind $size: $curves curves, of them $(( $(stat -c %s arcs) / 12 )) half arcs"
    count check.counts "$itfcheck" check model transfer certificate
    tell "$(counted check.counts tubes::listing::edge_list)" "$sweep" "tubes and edge list" 0.25
    tell "$(counted check.counts line_sweep::sweeping::sweep)" "$sweep" "sweep of the edges"
    tell "$(search check.counts)" "$sweep" "the search in all" 2.5
    python3 "$top/bench/drawings.py" $kind-bad $size "$work"
    count bad.counts "$itfcheck" check model transfer certificate
    tell "$(search bad.counts)" "$sweep" "the search in all of the bad one"
    python3 "$top/bench/drawings.py" $kind-undecided $size "$work"
    count undecided.counts "$itfcheck" check model transfer certificate
    tell "$(counted undecided.counts meetings::arcs::arc_meeting_among area_search::unsettled::answer_clear)" "$sweep" "bad pairs with a half arc" 0.8
    tell "$(counted undecided.counts area_search::unsettled::answer_unsettled)" "$sweep" "what follows the levels"
    tell "$(search undecided.counts)" "$sweep" "the undecided search in all"
done
