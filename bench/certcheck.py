#!/usr/bin/env python3
"""Holds tools/certcheck against the worked rows and second_checker.py.

Builds the program in a scratch folder with $CXX, else g++, and judges with it:
- of each row of `verify` in crates/worked_rows/data the certificates that the row files: where the
  row expects NOTPROVED, the same area, rule and place; where it expects ACCEPTED, PROVED;
- of each row of `check` that names the certificates which it expects, those: PROVED;
- of each of these certificates copies with one number changed: as second_checker.py judges them.
It takes Python 3.11.

usage: bench/certcheck.py [CHANGES]      CHANGES: changed copies of each certificate, else 20
"""
import io
import os
import pathlib
import random
import re
import subprocess
import sys
import tempfile
import tomllib

TOP = pathlib.Path(__file__).resolve().parent.parent
sys.path[:0] = [str(TOP / "bench"), str(TOP / "tools")]

import second_checker  # noqa: E402
from itftools.commands.curves import parts  # noqa: E402
from itftools.reading.model import Model  # noqa: E402
from itftools.reading.transfer import Form, logical_lines  # noqa: E402

FILES = {"M": "model", "T": "transfer", "C": "certificate"}


def build(folder):
    program = f"{folder}/certcheck"
    words = [os.environ.get("CXX", "g++"), "-O2", "-std=c++17", "-o", program]
    subprocess.run([*words, TOP / "tools/certcheck/certcheck.cpp"], check=True)
    return program


def texts_of(row, texts):
    """The texts of a row's files, changed as it says."""
    found = {file: texts[row[key]] for file, key in FILES.items() if key in row}
    for change in row.get("changes", []):
        assert found[change["file"]].count(change["old"]) == 1, row["name"]
        found[change["file"]] = found[change["file"]].replace(change["old"], change["new"])
    return found


def cases():
    """Each judged certificate of the rows: name, texts of M, T and C, and what is wanted."""
    for path in sorted((TOP / "crates/worked_rows/data").glob("*.toml")):
        data = tomllib.loads(path.read_text())
        texts = {text["name"]: text["text"].lstrip("\n") for text in data.get("texts", [])}
        for row in data["rows"]:
            name, files = f"{path.name}: {row['name']}", None
            first = row["report"].lstrip("\n").split("\n")[0]
            if row.get("failing_shelf_calls") or row.get("failing_puts"):
                continue
            words = row.get("words", ["check", "M", "T", "C"])
            if words == ["verify", "M", "T", "C"]:
                files = texts_of(row, texts)
            elif words == ["check", "M", "T", "C"] and "filed" in row:
                files = {**texts_of(row, texts), "C": texts.get(row["filed"], row["filed"])}
            if files is None or not set("MTC") <= set(files):
                continue
            if first.startswith("NOTPROVED"):
                yield name, files, first
            elif row["status"] == 0:
                yield name, files, "PROVED"


def judged(program, folder, files):
    for file, text in files.items():
        with open(f"{folder}/{file}", "w", newline="", encoding="latin-1") as out:
            out.write(text)
    words = [program] + [f"{folder}/{file}" for file in "MTC"]
    return subprocess.run(words, capture_output=True, text=True).stdout.strip()


def changed(text, choice):
    """The text with one of its numbers changed."""
    places = [found.span() for found in re.finditer(r"(?<=[ CV])\d+", text)]
    start, end = choice.choice(places)
    number = int(text[start:end])
    new = choice.choice([number + 1, max(number - 1, 0), 0, 1, choice.randrange(12), 4294967296])
    return text[:start] + str(new) + text[end:]


def drawing_of(files):
    """The drawing that second_checker.py judges."""
    model = Model(files["M"])
    transfer = io.BytesIO(files["T"].encode("latin-1"))
    Form(logical_lines(transfer, model.goes_on), model).text()
    text = "\n".join(line for area in model.areas for line in parts(area))
    return second_checker.drawing(text.encode())


def second(drawing, text):
    broken = second_checker.verify(drawing, text.encode())
    return "PROVED" if broken is None else "NOTPROVED %d %d %d" % broken


def compare(program, folder, changes):
    choice, wrong, count = random.Random(1), 0, 0
    for name, files, wanted in cases():
        found = judged(program, folder, files)
        count += 1
        if found != wanted:
            wrong += 1
            print(f"{name}: {found}, and the row has {wanted}")
        drawing = drawing_of(files)
        for _ in range(changes):
            files["C"], filed = changed(files["C"], choice), files["C"]
            found, wanted = judged(program, folder, files), second(drawing, files["C"])
            count += 1
            if found != wanted:
                wrong += 1
                print(f"{name}, changed: {found}, and second_checker.py {wanted}\n{files['C']}")
            files["C"] = filed
    print(f"{count - wrong} of {count} certificates are judged alike")
    return wrong


def main():
    changes = int(sys.argv[1]) if len(sys.argv) > 1 else 20
    with tempfile.TemporaryDirectory() as folder:
        wrong = compare(build(folder), folder, changes)
    sys.exit(wrong > 0)


if __name__ == "__main__":
    main()
