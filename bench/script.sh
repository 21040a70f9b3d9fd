#!/usr/bin/env bash
# Tests the scripts ./itfcheck, ./itffaults, tools/release.sh and .ci/run in scratch checkouts, with a
# stand-in for rt and for the programs: which program answers, what a build and a release need and say,
# which files are not replaced, and that no end of a run loses a byte of a file that was there before. It
# measures nothing but the time until the released program answers.
#
# usage: bench/script.sh [ITFCHECK ITFFAULTS]      (runs of these programs are ended too)
#
# A part mounts a small disk, as root.
. "$(dirname "${BASH_SOURCE[0]}")/begin.sh"
export LC_ALL=C TMPDIR=$work TOP=$top ITFCHECK=${1-} ITFFAULTS=${2-}
[ $# = 0 ] || ITFCHECK=$(realpath "$1") ITFFAULTS=$(realpath "$2")
cd "$work"
python3 "$top/bench/script_tests.py"
