#!/usr/bin/env bash
# Measures what names cost: models of 1, 2 and 4 MB whose names are as many, or stand in each
# other's way as much, as a text of that length allows. Each is read by `itfcheck compile`.
# Prints for each the exit status and the first line of the answer, the CPU time as a multiple of
# that of the 1 MB model of its kind, and the peak memory as a multiple of the text's length.
#
# usage: bench/models_names.sh              (the first use of ./itfcheck proves and builds it)
#        bench/models_names.sh --texts DIR  (only writes the models there)
. "$(dirname "${BASH_SOURCE[0]}")/begin.sh"
if [ "${1:-}" = --texts ]; then
    texts=${2:?--texts wants a folder}
    mkdir -p "$texts"
    texts=$(cd "$texts" && pwd)
else
    texts=$work/texts
    mkdir "$texts"
fi
python3 - "$texts" <<'PY'
import sys

TAIL = (
    "END M.\nFORMAT FREE;\n"
    "CODE BLANK = DEFAULT, UNDEFINED = DEFAULT, CONTINUE = DEFAULT; TID = ANY; END.\n"
)


def many(size, head, tail, line):
    """As many lines, by their numbers from 0, as fit a text of the size with head and tail."""
    lines, length = [], len(head) + len(tail)
    while length + len(line(len(lines))) <= size:
        lines.append(line(len(lines)))
        length += len(lines[-1])
    return lines


def domains(size, last):
    """Domains outside the topics, each named by the one before it; `last` is the last one's type."""
    head = "TRANSFER One;\nDOMAIN\n"
    table = "TOPIC T =\nTABLE A =\n  First: D0;\nNO IDENT\nEND A;\nEND T.\n"
    tail = "MODEL M\n" + table + TAIL
    lines = many(size - 40, head, tail, lambda n: f"D{n} = D{n + 1};\n")
    return head + "".join(lines) + f"D{len(lines)} = {last};\n" + tail


def chain(size):
    return domains(size, "[0 .. 9]")


def cycle(size):
    return domains(size, "D0")


def topic_chain(size):
    """The same chain in a topic, its last name declared outside."""
    head = "TRANSFER One;\nDOMAIN\nLast = [0 .. 9];\nMODEL M\nTOPIC T =\nDOMAIN\n"
    tail = "TABLE A =\n  First: D0;\nNO IDENT\nEND A;\nEND T.\n" + TAIL
    lines = many(size - 40, head, tail, lambda n: f"D{n} = D{n + 1};\n")
    return head + "".join(lines) + f"D{len(lines)} = Last;\n" + tail


def one_name(size):
    """One table whose attributes have all one name."""
    head = "TRANSFER One;\nMODEL M\nTOPIC T =\nTABLE A =\n"
    tail = "NO IDENT\nEND A;\nEND T.\n" + TAIL
    return head + "".join(many(size, head, tail, lambda n: "  Same: DATE;\n")) + tail


def enumeration(size):
    """A domain of as many elements as there are attributes that name it."""
    head = "TRANSFER One;\nDOMAIN\nE = (e"
    table = ");\nMODEL M\nTOPIC T =\nTABLE A =\n"
    tail = "NO IDENT\nEND A;\nEND T.\n" + TAIL
    elements = many(size // 2, head, table, lambda n: f",e{n}")
    text = head + "".join(elements) + table
    return text + "".join(many(size - len(text), "", tail, lambda n: f"  A{n}: E;\n")) + tail


def helper_tables(size):
    """Tables, each of whose attributes gives it a helper table."""
    head = "TRANSFER One;\nDOMAIN\nP = COORD2 0 0 9 9;\n"
    head += "L = AREA WITH (STRAIGHTS) VERTEX P WITHOUT OVERLAPS > 1;\nMODEL M\nTOPIC T =\n"
    tail = "END T.\n" + TAIL
    line = lambda n: f"TABLE T{n} =\n  A: L;\n  B: L;\nNO IDENT\nEND T{n};\n"
    return head + "".join(many(size, head, tail, line)) + tail


def tables(size):
    """Tables of one attribute, each named in the next by a reference."""
    head = "TRANSFER One;\nMODEL M\nTOPIC T =\nTABLE T0 =\n  First: DATE;\nNO IDENT\nEND T0;\n"
    tail = "END T.\n" + TAIL
    line = lambda n: f"TABLE T{n + 1} =\n  Before: -> T{n};\nNO IDENT\nEND T{n + 1};\n"
    return head + "".join(many(size, head, tail, line)) + tail


kinds = [
    ("a chain of domains", chain),
    ("a chain of a topic's domains", topic_chain),
    ("a circle of domains", cycle),
    ("attributes of one name", one_name),
    ("tables", tables),
    ("attributes of one enumeration", enumeration),
    ("helper tables", helper_tables),
]
for number, (name, kind) in enumerate(kinds):
    for megabytes in (1, 2, 4):
        text = kind(megabytes << 20).encode()
        assert len(text) <= megabytes << 20
        with open(f"{sys.argv[1]}/{number} {name}, {megabytes} MB", "wb") as file:
            file.write(text)
PY
[ "${1:-}" != --texts ] || exit 0

# the first use proves and builds the program
cp "$texts/0 a chain of domains, 1 MB" "$work/model.ili"
(cd "$work" && "$top/itfcheck" compile model.ili > first.log 2>&1 < /dev/null) || true
[ -x "$top/crates/itfcheck/out/itfcheck" ] || { tail -20 "$work/first.log"; exit 1; }
rm "$work/model.ili"
cd "$work"
PYTHONPATH="$top/bench" python3 - "$top/itfcheck" <<'PY'
import os, sys
from runs import once


def run(path):
    """The status, the first line, the CPU seconds and the peak memory in bytes for a model."""
    os.link(path, "model.ili")
    best = None
    for _ in range(3):
        status, cpu, peak = once([sys.argv[1], "compile", "model.ili"], "answer")
        best = cpu if best is None else min(best, cpu)
    os.unlink("model.ili")
    with open("answer", "rb") as answer:
        line = answer.readline(200).decode(errors="replace").strip()
    return status, line, best, peak


first = None
for name in sorted(os.listdir("texts")):
    path = f"texts/{name}"
    status, line, cpu, peak = run(path)
    if name.endswith(", 1 MB"):
        first = cpu
    speed = "under a second" if cpu < 1 else "OVER A SECOND"
    memory = peak / os.path.getsize(path)
    print(f"{name[2:]}: {status}, {line}; {cpu / first:.2f} times that of 1 MB, {speed}; memory {memory:.1f} times the text")
PY
