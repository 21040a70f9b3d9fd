#!/usr/bin/env python3
"""Runs the gate, and prints the processor minutes that it takes for each crate: its proof, that of its
tests and its edits. What the kit has kept of earlier runs is taken over and is not in the table; a run
from nothing begins with nothing kept.

It runs `.ci/run` and looks once a second at those processes of the prover that belong to this run,
each of which names its crate; what a process takes after the last look goes uncounted, at most a
second of it, and so does the running of programs. The last lines have the sums, the time of the
clock, and what the same tasks would take on two processors and on four: not seen but computed, each
task on one processor, those with the longest way to the end first, as `rt ci` takes them, and
without the memory that it plans. Its status is that of the gate.

usage: bench/gate.py [PROCESSORS]

With PROCESSORS the gate has the first so many of this machine's processors, and no other one.
"""
import collections
import os
import subprocess
import sys
import tempfile
import time

TOP = os.path.dirname(os.path.dirname(os.path.abspath(__file__)))
KINDS = ("proof", "tests", "edits")
TICKS = os.sysconf("SC_CLK_TCK") * 60


def crates():
    """The crates with those that each depends on, in the order of crates.txt."""
    with open(os.path.join(TOP, "crates.txt")) as file:
        rows = [line.split(":") for line in file if not line.startswith("#") and ":" in line]
    names = {name for name, _ in rows}
    return {name: [other for other in rest.split() if other in names] for name, rest in rows}


def status(pid):
    """The fields of a process's status after its name."""
    with open(f"/proc/{pid}/stat") as file:
        return file.read().rsplit(")", 1)[1].split()


def is_below(pid, top):
    """Whether the process was started by the other one, or by one that it started."""
    while pid not in ("0", top):
        pid = status(pid)[1]
    return pid == top


def look(top, seen):
    """Notes for each process of the prover below that one its crate, what it does and its minutes so far."""
    for pid in filter(str.isdigit, os.listdir("/proc")):
        try:
            with open(f"/proc/{pid}/cmdline", "rb") as file:
                words = file.read().decode(errors="replace").split("\0")
            if os.path.basename(words[0]) != "rattle" or "--crate-name" not in words or not is_below(pid, top):
                continue
            fields = status(pid)
            folder = os.readlink(f"/proc/{pid}/cwd")
        except OSError:
            continue
        kind = "edits" if "rt-edit-" in folder else "tests" if "--test" in words else "proof"
        name = words[words.index("--crate-name") + 1]
        seen[pid, fields[19]] = name, kind, sum(map(int, fields[11:15])) / TICKS


def gate():
    """The minutes by crate and kind, and of the clock; and the status."""
    seen, begun = {}, time.time()
    with tempfile.TemporaryFile() as log:
        child = subprocess.Popen([os.path.join(TOP, ".ci", "run")], stdin=subprocess.DEVNULL, stdout=log, stderr=log)
        while child.poll() is None:
            look(str(child.pid), seen)
            time.sleep(1)
        log.seek(0)
        lines = log.read().decode(errors="replace").splitlines()
    print("\n".join(lines[-40:] if child.returncode else lines[-1:]))
    minutes = collections.defaultdict(float)
    for name, kind, taken in seen.values():
        minutes[name, kind] += taken
    return minutes, (time.time() - begun) / 60, child.returncode


def on_processors(number, below, minutes):
    """How long the tasks take on so many processors, each on one of them."""
    waits = {}
    for name, others in below.items():
        proofs = [(other, "proof") for other in others]
        waits[name, "proof"] = waits[name, "tests"] = proofs
        waits[name, "edits"] = [(name, "proof"), (name, "tests")]
    way = collections.defaultdict(float)
    for task in reversed(waits):
        way[task] += minutes[task]
        for other in waits[task]:
            way[other] = max(way[other], way[task])
    left, ended, running, now = sorted(waits, key=lambda task: -way[task]), set(), [], 0.0
    while left or running:
        ready = [task for task in left if all(other in ended for other in waits[task])]
        for task in ready[: number - len(running)]:
            left.remove(task)
            running.append((now + minutes[task], task))
        running.sort()
        now, task = running.pop(0)
        ended.add(task)
    return now


def main():
    if len(sys.argv) > 1:
        allowed = sorted(os.sched_getaffinity(0))[: int(sys.argv[1])]
        os.sched_setaffinity(0, allowed)
    below = crates()
    minutes, clock, status = gate()
    print("%-20s %8s %8s %8s %8s" % ("crate", *KINDS, "all"))
    sums = {name: sum(minutes[name, kind] for kind in KINDS) for name in below}
    for name in sorted(below, key=lambda name: -sums[name]):
        print("%-20s %8.1f %8.1f %8.1f %8.1f" % (name, *(minutes[name, kind] for kind in KINDS), sums[name]))
    parts = [sum(minutes[name, kind] for name in below) for kind in KINDS]
    print("%-20s %8.1f %8.1f %8.1f %8.1f" % ("all", *parts, sum(parts)))
    print("%.0f minutes of the clock on %d processors" % (clock, len(os.sched_getaffinity(0))))
    for number in (2, 4):
        print("on %d processors, computed: %.0f minutes" % (number, on_processors(number, below, minutes)))
    sys.exit(status)


if __name__ == "__main__":
    main()
