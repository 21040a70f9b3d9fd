#!/usr/bin/env bash
# Tries the edits of bench/edits/, which the gate leaves out for the time that they take, or with
# --gate those of crates/NAME/must-fail/, with --all both, in a copy of the checkout: each has to be
# refused, and by the clause that its head names. The gate asks only whether its own are refused.
# Call it for a crate whose contracts or bodies have changed. edits.py says more.
#
# usage: bench/edits.sh [--gate | --all] [--logs FOLDER] [NAME | NAME/EDIT ..]
. "$(dirname "${BASH_SOURCE[0]}")/begin.sh"
python3 "$top/bench/edits.py" "$work" "$@"
