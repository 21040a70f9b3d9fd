#!/usr/bin/env python3
"""Changes bytes and lines of the files of small deliveries, and holds the built programs' answers
against a second reading, or against each other.

usage: random_bytes.py ITFCHECK COUNT [SEED [ITFFAULTS]]

Of a changed certificate `verify` has to name the rule and the place that second_checker.py names.
Of a changed transfer `check` has to accept, reject or leave undecided, and it has to write the file
of the certificates exactly where it accepts; `verify` has to accept that file then. `polygons` and
`points` without links have to answer as `check` does; `canonical` has to give a text that is its own
canonical text and has the same verdict, wherever `check` finds no line at fault. The faults that
`check` names have to be among those of `itffaults`. Changed links have to be judged, or a line of
them named. A changed model has to be compiled or refused. It stops at the first difference, and
leaves its files.
"""
import os
import subprocess
import sys

import random_arcs
import second_checker
from random_drawings import NAMES, compare_many, fail, metres

# the areas of random_arcs.py, and numbers that refer to their objects
MODEL = random_arcs.ARCS_TOO.replace(
    "END Parcel;", "END Parcel; TABLE Number = Of: -> Parcel; At: Koord; NO IDENT END Number;").encode()
LINKS = b"LINK Land Number At Of Form\n"
BYTES = b"0123456789 .-@\\_:;=()[]*>,/!ABCDEILMNOPRSTV\n\r\t\x00\xff"
# a circle with a square in the tube of its first half arc, and a square with a square within
ROUND = [[((510000, 500000), (500000, 510000), (490000, 500000)),
          ((490000, 500000), (500000, 490000), (510000, 500000))]]
SMALL = [random_arcs.square((508860, 503660), 20)]
DELIVERIES = [
    (ROUND, [(500000, 500000)]),
    (ROUND + SMALL, [(500000, 500000), (508870, 503670)]),
    ([random_arcs.square((100000, 100000), 100000), random_arcs.square((120000, 120000), 5000)],
     [(150000, 150000), (122000, 123000)]),
]


def run(program, folder, *words):
    """The status and the report."""
    done = subprocess.run([os.path.abspath(program), *words], cwd=folder, stdout=subprocess.PIPE, check=False)
    return done.returncode, done.stdout


def put(folder, name, text):
    with open(os.path.join(folder, name), "wb") as file:
        file.write(text)


def held(folder, name):
    try:
        with open(os.path.join(folder, name), "rb") as file:
            return file.read()
    except FileNotFoundError:
        return None


def changed(chance, text):
    """The text with some bytes or lines changed, moved, added or left out, or without its end."""
    for _ in range(chance.choice([1, 1, 1, 2, 3])):
        at, byte = chance.randrange(len(text) + 1), bytes([chance.choice(BYTES)])
        lines = text.split(b"\n")
        one, other = (chance.randrange(len(lines)) for _ in range(2))
        moved = list(lines)
        moved[one], moved[other] = lines[other], lines[one]
        text = chance.choice([
            text[:at] + text[at + 1:],
            text[:at] + byte + text[at:],
            text[:at] + byte + text[at + 1:],
            text[:at],
            b"\n".join(moved),
            b"\n".join(lines[:one] + lines[one + 1:]),
            b"\n".join(lines[:one] + [lines[other]] + lines[one:]),
        ])
    return text


def compare_certificate(program, folder, areas, text):
    """What the second reading says of the certificate."""
    put(folder, "C", text)
    broken = second_checker.verify(areas, text)
    status, report = run(program, folder, "verify", "M", "T", "C")
    if broken is None:
        if status != 0:
            fail(folder, "verify", report, "proved")
        return "certificate, proved"
    if (status, report) != (9, b"NOTPROVED %d %d %d\nVERDICT NOTPROVED\n" % broken):
        fail(folder, "verify", report, broken)
    return "certificate, rule %d" % broken[1]


def judge_transfer(program, folder, text):
    put(folder, "T", text)
    put(folder, "C", b"as before")
    status, report = run(program, folder, "check", "M", "T", "C")
    is_kept = held(folder, "C") == b"as before"
    if status not in (0, 1, 2) or is_kept != (status != 0):
        fail(folder, "check", (status, report), "a verdict, and certificates where it accepts")
    if status == 0 and run(program, folder, "verify", "M", "T", "C") != (0, report):
        fail(folder, "verify of what check wrote", run(program, folder, "verify", "M", "T", "C"), report)
    judge_as_check(program, folder, status, report)
    if len(sys.argv) > 4:
        judge_faults(sys.argv[4], folder, status, report)
    return "transfer, status %d" % status


def judge_as_check(program, folder, status, report):
    """The other commands on the transfer, of which `check` says this."""
    put(folder, "P", b"as before")
    got = run(program, folder, "polygons", "M", "T", "P")
    if got != (status, report) or (held(folder, "P") == b"as before") != (status != 0):
        fail(folder, "polygons", got, (status, report))
    put(folder, "L", b"")
    got = run(program, folder, "points", "M", "T", "L")
    if (got[0], got[1].replace(b"LINKS 0 0\n", b"")) != (status, report):
        fail(folder, "points", got, (status, report))
    put(folder, "O", b"as before")
    got = run(program, folder, "canonical", "M", "T", "O")
    if report.startswith(b"STRUCTURE"):
        if got != (status, report) or held(folder, "O") != b"as before":
            fail(folder, "canonical", got, (status, report))
        return
    again = run(program, folder, "canonical", "M", "O", "O2")
    same = run(program, folder, "check", "M", "O", "C2")
    if (got[0], again[0], same[0]) != (0, 0, status) or held(folder, "O") != held(folder, "O2"):
        fail(folder, "canonical", (got, again, same), "the same text again, and the same verdict")


def judge_faults(program, folder, status, report):
    """What tells all faults, where `check` says this."""
    put(folder, "F", b"as before")
    got = run(program, folder, "M", "T", "F")
    told = held(folder, "F")
    if report.startswith((b"STRUCTURE", b"FINDING")):
        lines = report.removesuffix(b"VERDICT REJECTED\n")
        count = b"FINDINGS %d\n" % lines.count(b"\n") if lines.startswith(b"FINDING") else b""
        if got != (status, report) or told != b"ITFFAULTS 1\n" + count + lines + b"END\n":
            fail(folder, "itffaults", (got, told), (status, report))
        return
    if got[0] != status and (status, got[0]) != (2, 1):
        fail(folder, "itffaults", got, (status, report))
    for line in report.splitlines():
        words = line.split(b" ")
        if words[0] == b"AREA" and words[4] not in (b"PROVED", b"UNDECIDED"):
            fault = b" ".join(words[4:])
            if not any(one == fault or one.removeprefix(b"FIRST ").startswith(fault)
                       for one in told.splitlines()):
                fail(folder, "itffaults", told, fault)


def judge_links(program, folder, text):
    put(folder, "L", text)
    status, report = run(program, folder, "points", "M", "T", "L")
    if status not in (0, 1, 2) or (status == 1 and b"LINK" not in report):
        fail(folder, "points", (status, report), "a verdict, by the links alone")
    return "links, status %d" % status


def judge_model(program, folder, text):
    put(folder, "M", text)
    status, report = run(program, folder, "compile", "M")
    if status not in (0, 3) or (status == 3) != report.startswith(b"FAULT MODEL "):
        fail(folder, "compile", (status, report), "compiled or refused")
    return "model, status %d" % status


def compare(program, folder, chance, tally):
    strokes, placed = chance.choice(DELIVERIES)
    text, curves, _, _ = random_arcs.transfer(strokes, placed)
    numbers = "".join("OBJE %d %d %s\n" % (number, number, metres(at))
                      for number, at in enumerate(placed, 1))
    text = text.replace("ETOP\n", "TABL Number\n%sETAB\nETOP\n" % numbers)
    put(folder, "M", MODEL)
    put(folder, "T", text.encode())
    if run(program, folder, "check", "M", "T", "C")[0] != 0:
        fail(folder, "check", "not accepted", "a partition")
    tally[judge_links(program, folder, changed(chance, LINKS))] += 1
    filed, areas = held(folder, "C"), [(NAMES, curves, placed)]
    tally[compare_certificate(program, folder, areas, changed(chance, filed))] += 1
    tally[judge_transfer(program, folder, changed(chance, text.encode()))] += 1
    tally[judge_model(program, folder, changed(chance, MODEL))] += 1


def main():
    compare_many(compare, random_arcs.ARCS_TOO)


if __name__ == "__main__":
    main()
