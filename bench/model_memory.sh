#!/usr/bin/env bash
# Runs `compile` of the built program on models in which one AREA domain with many attributes of
# lines is used by many attributes: each use has a helper table with columns of its own, so a text
# of some kilobytes asks for gigabytes. Without a limit it prints the peak memory beside the text,
# and what a use of an attribute takes. Then memory is limited (`ulimit -v`), from so little that
# nothing starts on: each run has to end with status 8 and no output, or with the answer of the run
# without a limit, and `check` has to leave the file of the certificates as it was.
#
# usage: bench/model_memory.sh [ITFCHECK]      (crates/itfcheck/out/itfcheck where none is given)
. "$(dirname "${BASH_SOURCE[0]}")/begin.sh"
itfcheck=$(built_program "$@")
cd "$work"
python3 - "$itfcheck" <<'PY'
import os, resource, sys

MIB = 1 << 20


def model(attributes, uses):
    """A domain with so many attributes of lines, and so many uses of it."""
    lines = "".join(" a%d: DATE;" % i for i in range(attributes))
    tables = "".join(" F%d: D;" % i for i in range(uses))
    return ("TRANSFER W; DOMAIN K = COORD2 0 0 9 9; D = AREA WITH (ARCS) VERTEX K LINEATTR =%s END;\n"
            "MODEL M TOPIC T = TABLE A =%s NO IDENT END A; END T. END M.\n"
            "FORMAT FREE; CODE BLANK = DEFAULT, UNDEFINED = DEFAULT, CONTINUE = DEFAULT;"
            " TID = ANY; END.\n" % (lines, tables))


def run(words, limit=None):
    """Status, output, CPU seconds and peak memory in bytes; with at most so much address space."""
    out = os.open("report", os.O_RDWR | os.O_CREAT | os.O_TRUNC)
    pid = os.fork()
    if pid == 0:
        os.dup2(out, 1)
        if limit is not None:
            resource.setrlimit(resource.RLIMIT_AS, (limit, limit))
        os.execv(sys.argv[1], [sys.argv[1], *words])
    _, status, usage = os.wait4(pid, 0)
    os.close(out)
    with open("report", "rb") as file:
        report = file.read()
    if not os.WIFEXITED(status):
        sys.exit("%s under %s bytes was ended by signal %d" % (words, limit, os.WTERMSIG(status)))
    return os.WEXITSTATUS(status), report, usage.ru_utime + usage.ru_stime, usage.ru_maxrss * 1024


for attributes, uses in ((250, 250), (500, 500), (1000, 1000), (2000, 2000)):
    text = model(attributes, uses)
    with open("M", "w") as file:
        file.write(text)
    status, report, cpu, peak = run(["compile", "M"])
    if status != 0 or not report.endswith(b"VERDICT COMPILED %d\n" % (uses + 1)):
        sys.exit("%d attributes used %d times: status %d" % (attributes, uses, status))
    print("%d attributes, used %d times: %d bytes of text, peak memory %d MiB, %d times the text,"
          " %d bytes for each attribute of each use" % (attributes, uses, len(text), peak // MIB,
          peak // len(text), peak // (attributes * uses)), flush=True)
    if attributes == 500:
        wanted, most = (status, report), peak

with open("M", "w") as file:
    file.write(model(500, 500))
for limit in range(8 * MIB, most + 64 * MIB, max(MIB, most // 100)):
    got = run(["compile", "M"], limit)[:2]
    if got not in [wanted, (8, b"")]:
        sys.exit("compile under %d MiB: status %d, %.80s" % (limit // MIB, *got))
    last = got[0]
print("500 attributes, used 500 times, under 8 MiB to %d MiB: status 8 and no output, at last status %d"
      % (limit // MIB, last))

with open("M", "w") as file:
    file.write(model(2000, 2000))
with open("T", "w") as file:
    file.write("SCNT\n////\nMTID\nMODL M\nEMOD\nENDE\n")
for limit in (64, 512, 1024):
    with open("C", "w") as file:
        file.write("as before")
    got = run(["check", "M", "T", "C"], limit * MIB)[:2]
    with open("C") as file:
        kept = file.read() == "as before"
    if got != (8, b"") or not kept:
        sys.exit("check under %d MiB: status %d, %.80s" % (limit, *got))
    print("check of 2000 attributes, used 2000 times, under %d MiB: status 8, nothing put or changed" % limit)
PY
