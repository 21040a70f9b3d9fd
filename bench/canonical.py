#!/usr/bin/env python3
"""Compares the canonical texts of the built program with those of a plain second program.

usage: canonical.py ITFCHECK COUNT [SEED]

Over the transfers of the worked rows and COUNT random ones, in some of which a line is at fault,
`canonical` has to write the text that is made here from the rules alone, and the canonical text of
that text has to be itself. Random transfers have continued lines, blanks and tabs, free lines and
fields, CR LF, fields that end with CR or with the continue code, strokes that are left out, and
tables in any order; their models have any continue code. It stops at the first difference, and
leaves its files.
"""
import os
import random
import re
import subprocess
import sys
import tempfile
import tomllib

CODES = re.compile(rb"CONTINUE\s*=\s*(DEFAULT|0x[0-9A-Fa-f]+|[0-9]+)")


class Fault(Exception):
    """The text is no transfer."""


# ---- the second program


def physical_lines(text):
    lines = text.split(b"\n")
    ended, last = lines[:-1], lines[-1]
    lines = [line[:-1] if line.endswith(b"\r") else line for line in ended]
    return lines + ([last] if last else [])


def words(line):
    return [word for word in re.split(rb"[ \t]+", line) if word]


def logical_lines(text, code):
    """The fields of the first line and of each line behind ////, by the rule of continued lines."""
    lines = physical_lines(text)
    ends = [number for number, line in enumerate(lines) if line.rstrip(b" \t") == b"////"]
    if not ends:
        raise Fault
    made, at = [words(lines[0])], ends[0] + 1
    while at < len(lines):
        fields, first = [], True
        while True:
            line = lines[at].rstrip(b" \t")
            goes_on = line[-1:] == code
            own = words(line[:-1] if goes_on else line)
            if first and own[:1] == [b"CONT"] or not first and own[:1] != [b"CONT"]:
                raise Fault
            fields += own if first else own[1:]
            at += 1
            if not goes_on:
                break
            if at == len(lines):
                raise Fault
            first = False
        if fields:
            made.append(fields)
    return made


def table_of(tables, topic, name):
    for number, table in enumerate(tables):
        if table[:2] == (topic, name):
            return number
    raise Fault


def rows_of(lines, model, topics, tables):
    """The objects of each table, each its fields and its strokes."""
    rows = [[] for _ in tables]
    lines = iter(lines)

    def next_line():
        try:
            return next(lines)
        except StopIteration:
            raise Fault from None

    if next_line()[:1] != [b"SCNT"]:
        raise Fault
    if next_line()[0] != b"MTID" or next_line() != [b"MODL", model]:
        raise Fault
    line, seen_topics = next_line(), set()
    while line[0] == b"TOPI":
        if len(line) != 2 or line[1] not in topics or line[1] in seen_topics:
            raise Fault
        topic, seen_tables = line[1], set()
        seen_topics.add(topic)
        line = next_line()
        while line[0] == b"TABL":
            if len(line) != 2 or line[1] in seen_tables:
                raise Fault
            seen_tables.add(line[1])
            number = table_of(tables, topic, line[1])
            line = next_line()
            while line[0] == b"OBJE":
                fields, strokes, line = line[1:], [], next_line()
                while line[0] in (b"STPT", b"ELIN"):
                    if len(strokes) == tables[number][2]:
                        raise Fault
                    stroke = []
                    if line[0] == b"STPT":
                        stroke.append(line)
                        line = next_line()
                        while line[0] in (b"LIPT", b"ARCP"):
                            stroke.append(line)
                            if line[0] == b"ARCP":
                                line = next_line()
                                if line[0] != b"LIPT":
                                    raise Fault
                                stroke.append(line)
                            line = next_line()
                        if line[0] != b"ELIN":
                            raise Fault
                    strokes.append(stroke)
                    line = next_line()
                rows[number].append((fields, strokes))
            if line[0] != b"ETAB":
                raise Fault
            line = next_line()
        if line[0] != b"ETOP":
            raise Fault
        line = next_line()
    if line[0] != b"EMOD" or next_line()[0] != b"ENDE":
        raise Fault
    for _ in lines:
        raise Fault
    return rows


def canonical_text(rows, model, topics, tables, code):
    made = [b"SCNT\n////\n"]

    def put(*fields):
        line = b" ".join(fields)
        if line[-1:] == code:
            made.append(line + code + b"\nCONT\n")
        elif line[-1:] == b"\r":
            made.append(line + b"\r\n")
        else:
            made.append(line + b"\n")

    put(b"MTID")
    put(b"MODL", model)
    for topic in topics:
        own = [number for number, table in enumerate(tables) if table[0] == topic and rows[number]]
        if not own:
            continue
        put(b"TOPI", topic)
        for number in own:
            put(b"TABL", tables[number][1])
            for fields, strokes in rows[number]:
                put(b"OBJE", *fields)
                for stroke in strokes + [[]] * (tables[number][2] - len(strokes)):
                    for vertex in stroke:
                        put(*vertex)
                    put(b"ELIN")
            put(b"ETAB")
        put(b"ETOP")
    put(b"EMOD")
    put(b"ENDE")
    return b"".join(made)


def expected(text, form):
    """The canonical text, and how many objects it has; or why there is none."""
    model, topics, tables, code = form
    try:
        rows = rows_of(logical_lines(text, code), model, topics, tables)
    except Fault:
        return None, "STRUCTURE"
    if code == b"T":
        return None, "CANONICAL REFUSED"
    return canonical_text(rows, model, topics, tables, code), sum(map(len, rows))


# ---- models and transfers


def model_of(chance):
    """The text of a model, and its form as far as a text of it goes."""
    code = bytes([chance.choice([92, 92, 92, 78, 84, 47, 69, 35, 67, 79])])
    topics, tables, lines = [], [], ["TRANSFER R;", "DOMAIN", "K = COORD2 0 0 9 9;", "MODEL Rand"]
    for i in range(chance.randint(1, 3)):
        topics.append(f"Topic{i}".encode())
        lines.append(f"TOPIC Topic{i} =")
        for j in range(chance.randint(1, 3)):
            count = chance.choice([0, 0, 1, 3])
            tables.append((topics[-1], f"Tab{j}".encode(), count))
            lines.append(f"TABLE Tab{j} = N: OPTIONAL TEXT*9;")
            for k in range(count):
                lines.append(f"P{k}: OPTIONAL POLYLINE WITH (STRAIGHTS, ARCS) VERTEX K;")
            lines.append(f"NO IDENT END Tab{j};")
        lines.append(f"END Topic{i}.")
    blank, undefined = [value for value in (95, 64, 38) if value != code[0]][:2]
    lines += ["END Rand.", "FORMAT FREE;", f"CODE BLANK = {blank}, UNDEFINED = {undefined}, CONTINUE = {code[0]};"]
    return "\n".join(lines + ["TID = ANY; END.\n"]).encode(), (b"Rand", topics, tables, code)


def word(chance, code):
    letters = b"ab1CONTE/N" + code
    made = bytes(chance.choice(letters) for _ in range(chance.randint(1, 5)))
    return made + (b"\r" if chance.random() < 0.1 else b"")


def spelled(chance, code, fields):
    """A line with these fields, in one of its spellings."""
    lines, own = [], list(fields)
    while len(own) > 1 and chance.random() < 0.2:
        cut = chance.randint(1, len(own) - 1)
        lines.append(own[:cut])
        own = own[cut:]
    lines.append(own)
    made = []
    for number, part in enumerate(lines):
        part = part if number == 0 else [b"CONT"] + part
        line = chance.choice([b" ", b" ", b"\t", b"  "]).join(part)
        if number < len(lines) - 1:
            line += chance.choice([b"", b" "]) + code + chance.choice([b"", b" "])
        elif line[-1:] == code:
            line += code + b"\nCONT"
        if line[-1:] == b"\r" or chance.random() < 0.1:
            line += b"\r"
        made.append(line + b"\n")
    return b"".join(made)


def transfer(chance, form):
    model, topics, tables, code = form
    made = [b"SCNT\n"] + [b"free\n"] * chance.randint(0, 2) + [b"////" + chance.choice([b"", b" "]) + b"\n"]

    def put(*fields):
        made.append(spelled(chance, code, fields))
        if chance.random() < 0.05:
            made.append(chance.choice([b"\n", b"  \n"]))

    put(b"MTID", *[word(chance, code) for _ in range(chance.randint(0, 2))])
    put(b"MODL", model)
    for topic in chance.sample(topics, chance.randint(0, len(topics))):
        put(b"TOPI", topic)
        own = [table for table in tables if table[0] == topic]
        for table in chance.sample(own, chance.randint(0, len(own))):
            put(b"TABL", table[1])
            for _ in range(chance.choice([0, 1, 2, 5])):
                put(b"OBJE", *[word(chance, code) for _ in range(chance.randint(0, 3))])
                for _ in range(chance.randint(0, table[2])):
                    if chance.random() < 0.6:
                        put(b"STPT", word(chance, code), word(chance, code))
                        for _ in range(chance.randint(0, 3)):
                            if chance.random() < 0.3:
                                put(b"ARCP", word(chance, code), word(chance, code))
                            put(b"LIPT", word(chance, code), word(chance, code))
                    put(b"ELIN")
            put(b"ETAB")
        put(b"ETOP")
    put(b"EMOD")
    put(b"ENDE")
    if chance.random() < 0.1 and len(made) > 6:
        made.pop(chance.randrange(3, len(made)))
    return b"".join(made)


# ---- the comparison


def form_of(program, folder, model):
    """The form of a model, as the program lists its tables; none where it is refused."""
    with open(os.path.join(folder, "M"), "wb") as file:
        file.write(model)
    answer = subprocess.run([program, "compile", "M"], cwd=folder, capture_output=True)
    if answer.returncode != 0:
        return None
    lines = [line.split(b" ") for line in answer.stdout.splitlines()]
    tables = [(line[1], line[2], int(line[5])) for line in lines if line[0] == b"TABLE"]
    topics = list(dict.fromkeys(table[0] for table in tables))
    value = CODES.search(model).group(1)
    code = 92 if value == b"DEFAULT" else int(value, 0 if value.startswith(b"0x") else 10)
    return lines[0][1], topics, tables, bytes([code])


def differs(program, folder, text, form, name="T"):
    """What the program does otherwise than the second program."""
    with open(os.path.join(folder, name), "wb") as file:
        file.write(text)
    made = os.path.join(folder, "O")
    if os.path.exists(made):
        os.remove(made)
    answer = subprocess.run([program, "canonical", "M", name, "O"], cwd=folder, capture_output=True)
    wanted, words_or_count = expected(text, form)
    report = answer.stdout.decode("latin-1")
    if wanted is None:
        if answer.returncode != 1 or not report.startswith(words_or_count) or os.path.exists(made):
            return f"{words_or_count} was expected, and the report is {report!r}"
        return None
    if answer.returncode != 0 or report != f"VERDICT ACCEPTED {words_or_count}\n":
        return f"{words_or_count} objects were expected, and the report is {report!r}"
    with open(made, "rb") as file:
        got = file.read()
    if got != wanted:
        return f"{wanted!r} was expected, and O has {got!r}"
    if name == "T":
        return differs(program, folder, wanted, form, "again") or itself(wanted, form)
    return None


def itself(text, form):
    if expected(text, form)[0] != text:
        return "the canonical text of a canonical text is another one"
    return None


def worked_rows():
    """Models and transfers of the worked rows."""
    folder = os.path.join(os.path.dirname(os.path.abspath(__file__)), "../crates/worked_rows/data")
    for name in sorted(os.listdir(folder)):
        with open(os.path.join(folder, name), "rb") as file:
            data = tomllib.load(file)
        texts = {text["name"]: text["text"] for text in data.get("texts", [])}
        for row in data["rows"]:
            if "model" not in row or "transfer" not in row:
                continue
            files = {"M": texts[row["model"]], "T": texts[row["transfer"]]}
            for change in row.get("changes", []):
                if change["file"] in files:
                    files[change["file"]] = files[change["file"]].replace(change["old"], change["new"])
            yield f"{name}: {row['name']}", files["M"].encode(), files["T"].encode()


def main():
    if len(sys.argv) not in (3, 4):
        sys.exit(__doc__)
    program, count = os.path.abspath(sys.argv[1]), int(sys.argv[2])
    seed = int(sys.argv[3]) if len(sys.argv) == 4 else 1
    folder = tempfile.mkdtemp(prefix="canonical")
    rows = refused = faults = 0
    for name, model, text in worked_rows():
        form = form_of(program, folder, model)
        if form is None:
            refused += 1
            continue
        rows += 1
        wrong = differs(program, folder, text, form)
        if wrong:
            sys.exit(f"{name}: {wrong}; the files are in {folder}")
    print(f"{rows} transfers of worked rows; {refused} have a refused model")
    chance = random.Random(seed)
    for number in range(count):
        model, form = model_of(chance)
        listed = form_of(program, folder, model)
        if listed != form:
            sys.exit(f"{number}: {form} was made, and {listed} is listed; the model is in {folder}")
        text = transfer(chance, form)
        faults += expected(text, form)[0] is None
        wrong = differs(program, folder, text, form)
        if wrong:
            sys.exit(f"{number} of seed {seed}: {wrong}; the files are in {folder}")
    print(f"{count} random transfers, of which {faults} have no canonical text")


if __name__ == "__main__":
    main()
