# Functions that measure runs of commands, with runs.py. sweep.sh, verify.sh, check.sh, text.sh,
# values.sh, numbers.sh and worst.sh source it, after begin.sh.

# CPU time in milliseconds and peak memory in KiB of one run of a command, and its status
once() {
    PYTHONPATH="$top/bench" python3 - "$@" <<'PY'
import sys
from runs import once
status, spent, peak = once(sys.argv[1:])
print(round(spent * 1000), peak // 1024, status)
PY
}

# CPU time in milliseconds and peak memory in KiB of a command that ends with a status, the best
# of three runs
measure() {
    PYTHONPATH="$top/bench" python3 - "$@" <<'PY'
import sys
from runs import once
best, peak = None, 0
for _ in range(3):
    status, spent, most = once(sys.argv[2:])
    if status != int(sys.argv[1]):
        sys.exit(f"{sys.argv[2]} ended with {status}")
    best = spent if best is None else min(best, spent)
    peak = max(peak, most)
print(round(best * 1000), peak // 1024)
PY
}

# The same of several commands, each one word: CPU time and peak of each in turn, on one line. They
# run in five rounds, one after the other, so that what else the machine does meets all of them; the
# best of the rounds counts. Each has to end with status 0.
measure_in_turn() {
    PYTHONPATH="$top/bench" python3 - "$@" <<'PY'
import shlex, sys
from runs import once
commands = [shlex.split(command) for command in sys.argv[1:]]
best, peak = [None] * len(commands), [0] * len(commands)
for _ in range(5):
    for i, command in enumerate(commands):
        status, spent, most = once(command)
        if status:
            sys.exit("%s ended with %d" % (command, status))
        best[i] = spent if best[i] is None else min(best[i], spent)
        peak[i] = max(peak[i], most)
print(*(word for i in range(len(commands)) for word in (round(best[i] * 1000), peak[i] // 1024)))
PY
}

# What comes of a command of the program with 8 bytes of address space for each byte of the files
# that it reads: it has to end with the status that is given and the report of a run without a
# limit, or with status 8 and nothing put or changed
within_eight_times() {
    PYTHONPATH="$top/bench" python3 - "$@" <<'PY'
import sys
from runs import held, once, within
status, words = int(sys.argv[1]), sys.argv[2:]
if once(words, "report.whole")[0] != status:
    sys.exit("%s did not end with %d" % (" ".join(words), status))
print(within(8, words, status, held("report.whole")))
PY
}
