#!/usr/bin/env bash
# Tells where the CPU time of `check` and `verify` goes, by crate and by function, as `perf record`
# samples it on a grid of 500 by 500 squares. Time of the C library and of the kernel stands by
# itself. A function that the compiler wrote into its caller counts for the caller, and so its
# crate.
#
# usage: bench/profile.sh [ITFCHECK]      (crates/itfcheck/out/itfcheck where none is given)
. "$(dirname "${BASH_SOURCE[0]}")/begin.sh"
itfcheck=$(built_program "$@")
cd "$work"
python3 "$top/bench/drawings.py" grid 500 "$work"
for command in check verify; do
    perf record -o samples "$itfcheck" "$command" model transfer certificate > /dev/null 2>&1
    perf report -i samples --stdio -w 0 -F overhead,dso,symbol 2> /dev/null | python3 -c '
import collections, re, sys
crates, functions = collections.Counter(), []
for line in sys.stdin:
    found = re.match(r" +([0-9.]+)% +(\S+) +\[(.)\] (.*\S)", line)
    if not found:
        continue
    part, object_, kind, name = found.groups()
    crate = "kernel" if kind == "k" else "C library" if object_.startswith("libc") else name.split("::")[0]
    crates[crate] += float(part)
    if kind != "k":
        functions.append((float(part), name))
print(sys.argv[1] + ", by crate:")
for crate, part in crates.most_common(12):
    print("  %5.1f %%  %s" % (part, crate))
print(sys.argv[1] + ", by function:")
for part, name in sorted(functions, reverse=True)[:10]:
    print("  %5.1f %%  %s" % (part, name))
' "$command"
done
