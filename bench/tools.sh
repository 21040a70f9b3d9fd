#!/usr/bin/env bash
# Tests the command `itf` with the built programs on deliveries with each kind of fault: what is told
# has to be what was worked out by hand; and each fault of the report and of the file of faults has to
# stand in the page, in its JSON, and in the layers as GeoPackage, GeoJSON and CSV, and none twice.
# Then a batch of 1,000 deliveries, or of DELIVERIES, is killed 20 times and resumed, and has to end
# with the summary of one that was not killed; and two machines, that is two names of one machine,
# share another. It measures nothing but says how long the batch took, and stops at the first fault.
#
# usage: bench/tools.sh [ITFCHECK [ITFFAULTS]]      (those of crates/*/out where none are given)
. "$(dirname "${BASH_SOURCE[0]}")/begin.sh"
itfcheck=$(built_program "$@")
itffaults=$(built_faults "$@")
export ITFCHECK=$itfcheck ITFFAULTS=$itffaults
cd "$work"
PYTHONPATH=$top/tools:$top/tools/tests python3 "$top/bench/tools.py" "$top/tools/itf" "${DELIVERIES:-1000}"
