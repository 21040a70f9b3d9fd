#!/usr/bin/env bash
# Runs `check` of the built program on bad transfers of 32 MiB and of 256 MiB, the greatest size
# that is read. Prints how much longer the large one takes, and the peak memory.
#
# usage: bench/bad_texts.sh [ITFCHECK]      (crates/itfcheck/out/itfcheck where none is given)
. "$(dirname "${BASH_SOURCE[0]}")/begin.sh"
itfcheck=$(built_program "$@")
cd "$work"
PYTHONPATH="$top/bench" python3 - "$itfcheck" <<'PY'
import sys
from runs import held, once, within

program = sys.argv[1]
SMALL, FULL = 32 << 20, 256 << 20
HEAD = b"SCNT\n////\nMTID x\nMODL M\nTOPI T\nTABL A\n"
MODEL = """TRANSFER W; DOMAIN K = COORD2 0.000 0.000 1000.000 1000.000; MODEL M TOPIC T = TABLE A =
F: OPTIONAL POLYLINE WITH (STRAIGHTS) VERTEX K; NO IDENT END A; END T. END M.
FORMAT FREE; CODE BLANK = DEFAULT, UNDEFINED = DEFAULT, CONTINUE = DEFAULT; TID = ANY; END.
"""
with open("model", "w") as file:
    file.write(MODEL)

bad = [
    ("one line without end", b"", b"OBJE", b"x" * 1024),
    ("LF alone", b"", b"", b"\n" * 1024),
    ("LF alone after the head", HEAD, b"", b"\n" * 1024),
    ("lines of the continue code", HEAD, b"", b"\\\n" * 512),
    ("OBJE lines of one field", HEAD, b"", b"OBJE 1\n" * 128),
    ("lines that are continued without end", HEAD, b"OBJE 1 \\\n", b"CONT 2 \\\n" * 128),
    ("one line of fields of one byte", HEAD, b"OBJE", b" x" * 512),
    ("one stroke without end", HEAD, b"OBJE 1\nSTPT 1 2\n", b"LIPT 1 2\n" * 128),
]


WORDS = [program, "check", "model", "transfer", "certificates"]


def check():
    """The first line of the report, the status, the CPU seconds and the peak memory in bytes."""
    status, cpu, peak = once(WORDS, "report")
    with open("report") as file:
        first = file.readline().strip()
    return first, status, cpu, peak


for name, head, first, part in bad:
    costs = []
    for full in (SMALL, FULL):
        with open("transfer", "wb") as file:
            file.write(head + first)
            count = (full - len(head) - len(first)) // len(part)
            for _ in range(count // 1024):
                file.write(part * 1024)
            file.write(part * (count % 1024))
        line, status, cpu, peak = check()
        costs.append((cpu, peak))
    (small, _), (cpu, peak) = costs
    slow = "" if cpu / small < 1.5 * FULL / SMALL else ", MORE THAN IN PROPORTION"
    limited = within(8, WORDS, status, held("report"))
    print(f"{name}, 256 MiB: {line}, status {status}; {cpu / small:.1f} times the time of 32 MiB{slow}; "
          f"peak memory {peak / FULL:.2f} times the text, {limited}", flush=True)
PY
