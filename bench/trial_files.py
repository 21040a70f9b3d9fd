#!/usr/bin/env python3
"""Writes the files of a trial: a model, and a transfer of N by N cells, ten units wide.

usage: trial_files.py N MODEL TRANSFER
"""
import sys

MODEL = """TRANSFER Trial;
DOMAIN
Koord = COORD2 0.000 0.000 5000.000 5000.000;
MODEL Trial
TOPIC Grid =
TABLE Cell =
Form: AREA WITH (STRAIGHTS) VERTEX Koord;
NO IDENT
END Cell;
END Grid.
END Trial.
FORMAT FREE;
CODE BLANK = DEFAULT, UNDEFINED = DEFAULT, CONTINUE = DEFAULT; TID = ANY; END.
"""


def straights(size):
    """First those to the right, row by row, then those upwards, column by column."""
    for j in range(size + 1):
        for i in range(size):
            yield 10 * i, 10 * j, 10 * i + 10, 10 * j
    for i in range(size + 1):
        for j in range(size):
            yield 10 * i, 10 * j, 10 * i, 10 * j + 10


def middles(size):
    """The middles of the cells, row by row."""
    for j in range(size):
        for i in range(size):
            yield 10 * i + 5, 10 * j + 5


def transfer(size):
    """The lines of the transfer."""
    yield from ["SCNT", "////", "MTID Trial", "MODL Trial", "TOPI Grid", "TABL Cell_Form"]
    for number, (x, y, u, v) in enumerate(straights(size), 1):
        yield f"OBJE {number}"
        yield f"STPT {x}.000 {y}.000"
        yield f"LIPT {u}.000 {v}.000"
        yield "ELIN"
    yield from ["ETAB", "TABL Cell"]
    for number, (x, y) in enumerate(middles(size), 1):
        yield f"OBJE {number} {x}.000 {y}.000"
    yield from ["ETAB", "ETOP", "EMOD", "ENDE"]


def main():
    if len(sys.argv) != 4:
        sys.exit(__doc__)
    size, model_name, transfer_name = int(sys.argv[1]), sys.argv[2], sys.argv[3]
    with open(model_name, "w", encoding="ascii", newline="\n") as file:
        file.write(MODEL)
    with open(transfer_name, "w", encoding="ascii", newline="\n") as file:
        file.writelines(line + "\n" for line in transfer(size))


main()
