"""What may be the cause of a model or a transfer that is refused: hints by the bytes, which prove nothing.

Each is a sentence for a person. A cause is told where the bytes show it; where none is seen none is told.
"""
import difflib
import re

from itftools.reading.grammar import KEYWORDS, Front, tokens_of
from itftools.reading.rows import numbers
from itftools.reading.transfer import fields_of, physical_lines

URL = re.compile(rb"//[^\r\n]*https?://|https?://[^\r\n]*//")
SAID = {"name": "a name", "own_name": "a name", "n": "a number", "hex": "a hexadecimal number as 0x5F",
        "explanation": "an explanation in // //"}
BOM = "the file begins with a byte order mark of UTF-8: save it without"
UTF_16 = "the file is in UTF-16: save it in a code of one byte a letter"
CR_ALONE = "the lines end with CR alone: save the file with LF or CR LF"
# What a file is that begins so, and is no text of INTERLIS 1.
KINDS = ((b"PK\x03\x04", "a zip archive: unpack it"), (b"%PDF", "a PDF"), (b"\x1f\x8b", "a gzip archive: unpack it"),
         (b"AC10", "a drawing (DWG)"), (b"{\\rtf", "a text with formats (RTF): save it as plain text"),
         (b"SQLite format 3", "a database (GeoPackage): itfcheck reads ITF"))


def of_model(text, code, line, column, word):
    """Causes of a refused model, by its bytes and the words behind FAULT MODEL; both numbers count from 1."""
    yield from of_bytes(text, line, code)
    if code in ("openexplanation", "expected", "badbyte"):
        found = URL.search(text)
        if found:
            at = text.count(b"\n", 0, found.start()) + 1
            yield "line %d has // within an explanation, as in an address: it ends the explanation there" % at
    letters = text.decode("latin-1")
    place = place_of(letters, line, column)
    if code in ("expected", "endname", "lineform"):
        yield from of_grammar(letters[:place], word)
    elif code == "badbyte" and letters[place:place + 1] > "\x7f":
        yield "a name has letters from A to Z, digits and _ alone: no letter with an accent"
    elif code == "unknown":
        yield from of_unknown(letters, word)
    elif code == "views":
        yield "itfcheck reads no VIEW and no DERIVATIVES: take them out, they say nothing of a transfer"


def of_bytes(text, line, code):
    """Causes that the first or the last bytes of a model show."""
    front = text.lstrip(b" \t\r\n\x0c")
    kind = next((what for begin, what in KINDS if text.startswith(begin)), None)
    if kind:
        yield "the file is " + kind
    elif text.startswith(b"\xef\xbb\xbf"):
        yield BOM
    elif text.startswith((b"\xff\xfe", b"\xfe\xff")) or b"\0" in text[:200]:
        yield UTF_16
    elif b"\r" in text and b"\n" not in text:
        yield CR_ALONE
    elif re.match(rb"(!![^\n]*\n\s*)*INTERLIS\s+[2-9]", front):
        yield "this is a model of INTERLIS 2; itfcheck reads models of INTERLIS 1"
    elif front.startswith(b"SCNT"):
        yield "this is a transfer: MODEL and TRANSFER may be exchanged"
    elif front.startswith(b"<"):
        yield "this is XML, as XTF of INTERLIS 2; itfcheck reads models of INTERLIS 1"
    elif text.rstrip(b" \t\r\n")[-1:] in (b"\x1a", b"\0") and line >= text.rstrip(b"\x1a\0 \t\r\n").count(b"\n") + 1:
        yield "the text ends with the byte Ctrl-Z or NUL, as DOS programs write it: remove it"
    elif b"\x0c" in text and code == "badbyte":
        yield "the text has a form feed: remove it"


def place_of(text, line, column):
    """The place in a text of a line and a column, which count from 1."""
    place = 0
    for _ in range(line - 1):
        place = text.find("\n", place) + 1
        if place == 0:
            return len(text)
    return place + column - 1


def of_grammar(front, word):
    """What could stand behind the front of a model in the place of a word, and what may be meant."""
    read = Front(front)
    if not read.is_whole():
        return
    expected = read.expected
    if word in KEYWORDS and expected & {"name", "own_name"}:
        yield "%s is a word of the language; as a name it must not stand" % word
    said = ["the name that ends here, %s" % read.opened[-1] if token == "its_name" else SAID.get(token, token)
            for token in sorted(expected, key=lambda token: (token not in SAID, token.isalpha(), token))]
    if said:
        yield "here could stand: " + ", ".join(said)
    words = [token for token in expected if token in KEYWORDS]
    if word.upper() in words and word not in words:
        yield "words of the language are in capitals: %s" % word.upper()
    elif word not in KEYWORDS:
        for near in difflib.get_close_matches(word.upper(), words, 1, 0.75):
            yield "perhaps %s was meant" % near
    blank = front[len(front.rstrip()):]
    if ";" in expected and "\n" in blank:
        yield "perhaps a ; is missing at the end of line %d" % (front.rstrip().count("\n") + 1)


def of_unknown(text, word):
    """Names of domains that are like one that is unknown."""
    pairs = list(tokens_of(text))
    names = {one[1] for one, other in zip(pairs, pairs[1:]) if one[0] == "name" and other[0] == "="}
    for near in difflib.get_close_matches(word, sorted(names), 1, 0.75):
        yield "there is a domain %s" % near


# Transfers.

FOLLOW = {"////": "MTID", "MTID": "MODL", "MODL": "TOPI, EMOD", "ETOP": "TOPI, EMOD", "TOPI": "TABL, ETOP",
          "ETAB": "TABL, ETOP", "TABL": "OBJE, ETAB", "STPT": "LIPT, ARCP, ELIN", "LIPT": "LIPT, ARCP, ELIN",
          "ARCP": "LIPT", "EMOD": "ENDE", "ENDE": "nothing"}
# What is missing where a word comes while a part is open.
MISSING = {"table": ("ETAB", ("TABL", "ETOP", "TOPI", "EMOD", "ENDE")), "topic": ("ETOP", ("TOPI", "EMOD", "ENDE")),
           "line": ("ELIN", ("OBJE", "ETAB", "STPT")), "model": ("EMOD", ("ENDE",))}


class Course:
    """How far a transfer came before a line: the last word, and what is open."""

    def __init__(self, name, number):
        self.has_head = self.after_end = False
        self.word, self.topic, self.table, self.in_line, self.strokes = "", None, None, False, 0
        with open(name, "rb") as file:
            for at, text in physical_lines(file):
                if at >= number:
                    break
                fields = fields_of(text)
                if text.rstrip(" \t") == "////" and not self.has_head:
                    self.has_head, self.word = True, "////"
                elif self.has_head and fields and fields[0] != "CONT":
                    self.step(fields[0], " ".join(fields[1:]))

    def step(self, word, rest):
        self.word, self.after_end = word, self.after_end or word == "ENDE"
        if word == "OBJE":
            self.strokes = 0
        elif word == "STPT" or word == "ELIN" and not self.in_line:
            self.strokes += 1
        if word == "TOPI":
            self.topic, self.table = rest, None
        elif word == "TABL":
            self.table = rest
        elif word in ("ETAB", "ETOP"):
            self.table = None
            self.topic = self.topic if word == "ETAB" else None
        self.in_line = word in ("STPT", "LIPT", "ARCP")

    def open_part(self):
        return ("line" if self.in_line else "table" if self.table is not None else
                "topic" if self.topic is not None else "model")

    def could_stand(self, strokes):
        """The words that could come, where an object has so many strokes at most."""
        if self.word in ("OBJE", "ELIN"):
            return "STPT, ELIN, OBJE, ETAB" if self.strokes < strokes else "OBJE, ETAB"
        return FOLLOW.get(self.word)


def of_transfer(model, name, number, code, text):
    """Causes of a line at fault, by the bytes of the transfer, the words before it, and the model."""
    with open(name, "rb") as file:
        front = file.read(65536)
        size = file.seek(0, 2)
        file.seek(max(size - 200, 0))
        back = file.read()
    found = list(of_front(front, text, number, code))
    if found:
        yield from found
        return
    course = Course(name, number)
    if course.after_end and text.strip("\x1a\0 \t\r") == "":
        yield "the text ends with the byte Ctrl-Z or NUL behind ENDE, as DOS programs write it: remove it"
    elif code == "end":
        yield from of_end(course, back)
    elif code == "word":
        yield from of_word(model, course, fields_of(text)[:1])
    elif code in ("name", "twice"):
        yield from of_name(model, course, fields_of(text), code)
    elif code == "continue":
        yield "perhaps a text ends with the continue code: then this code needs a CONT line, or the text another sign"
    elif code == "motr":
        yield "the export wrote the model into the transfer: export without it"


def of_front(front, text, number, code):
    """Causes that the first bytes show."""
    if b"\r\r\n" in front and text.endswith("\r"):
        yield "the lines end with CR CR LF, as after two conversions: save the file with LF or CR LF"
    if number != 1 or code != "word":
        return
    kind = next((what for begin, what in KINDS if front.startswith(begin)), None)
    begin = front.lstrip(b"\xef\xbb\xbf \t\r\n")
    if kind:
        yield "the file is " + kind
    elif begin.startswith(b"<"):
        yield "this is XML, as XTF of INTERLIS 2; itfcheck reads ITF of INTERLIS 1: export it as ITF"
    elif re.match(rb"(!![^\n]*\n\s*)*(TRANSFER\b|INTERLIS\b)", begin):
        yield "this is a model: MODEL and TRANSFER may be exchanged"
    elif front.startswith(b"\xef\xbb\xbf"):
        yield BOM
    elif front.startswith((b"\xff\xfe", b"\xfe\xff")) or b"\0" in front[:200]:
        yield UTF_16
    elif b"\r" in front and b"\n" not in front:
        yield CR_ALONE
    elif text.replace("\t", " ").split(" ")[:1] in (["scnt"], ["Scnt"]):
        yield "words are in capitals: SCNT"
    elif not text.strip():
        yield "the first line is empty: SCNT has to stand in it"
    elif text.startswith(("!", "MTID", "////")):
        yield "the head is missing: a transfer begins with SCNT and has a line //// before MTID"


def of_end(course, back):
    """Of a text that ends too early: what is missing at its end."""
    if not course.has_head:
        yield "no line is ////, which ends the head of a transfer"
    elif course.word == "EMOD":
        yield "ENDE is missing: EMOD is the last line with a word"
    elif not back.endswith(b"\n"):
        yield "the last line has no line end: the file may be cut off"
    else:
        yield "the file may be cut off: it ends in %s, behind %s" % (
            {"line": "a line of vertices", "table": "the table %s" % course.table,
             "topic": "the topic %s" % course.topic, "model": "the model"}[course.open_part()], course.word)


def of_word(model, course, words):
    """Of a word that must not stand at its place: what could, and what may be missing."""
    word = words[0] if words else ""
    table = model and model.topics.get(course.topic, {}).get(course.table)
    expected = course.could_stand(table.strokes if table else 0)
    if word.upper() in (expected or "").split(", ") and word != word.upper():
        yield "words are in capitals: %s" % word.upper()
    missing, before = MISSING[course.open_part()]
    if word in before and missing in (expected or ""):
        yield "%s is missing before this line" % missing
    elif table and word in ("STPT", "ELIN") and course.word in ("OBJE", "ELIN"):
        yield "an object of %s has %s" % (course.table, "no line" if not table.strokes else
                                          "one line" if table.strokes == 1 else "%d lines at most" % table.strokes)
    if word == "ARCP" and course.word == "ARCP":
        yield "behind ARCP, the place on an arc, comes LIPT, its end"
    if expected:
        yield "here could stand: " + expected


def of_name(model, course, fields, code):
    """Of a name that is not the model's: what the model has, and what is like it."""
    word, name = fields[0], " ".join(fields[1:])
    if code == "twice":
        yield "all objects of a table stand in one TABL, and all tables of a topic in one TOPI"
        return
    if word == "MODL":
        kind = "of another version" if difflib.get_close_matches(name, [model.name], 1, 0.5) else "another one"
        yield "the transfer is of the model %s, and MODEL has %s: it may be %s" % (shown(name), model.name, kind)
        return
    known = model.topics if word == "TOPI" else model.topics.get(course.topic, {})
    if word == "TABL":
        for topic, tables in model.topics.items():
            if name in tables:
                yield "%s is a table of the topic %s: the table stands in a wrong topic, or a TOPI is missing" % (
                    name, topic)
    for near in difflib.get_close_matches(name, list(known), 1, 0.75):
        yield "the model has %s; it may be of another version" % near
    some = ", ".join(list(known)[:12]) + (" .." if len(known) > 12 else "")
    yield "the model has here: " + some


def shown(text):
    return "".join(letter if letter.isprintable() else "?" for letter in text[:80])


def of_text(value):
    """Of a text that is too long: that bytes count, where letters would be fewer."""
    try:
        letters = value.encode("latin-1").decode("utf-8")
    except (UnicodeDecodeError, UnicodeEncodeError):
        return
    if len(letters) < len(value):
        yield "bytes are counted: in UTF-8 these %d letters are %d bytes; save the file in Latin-1" % (len(letters),
                                                                                                  len(value))


def of_range(model, words):
    """Of a coordinate out of its bounds: another reference system, or x and y exchanged."""
    place = numbers(words[:2]) if len(words) == 2 else None
    if place is None:
        return
    x, y = map(float, place)
    for kind, bounds in coordinates(model):
        left, low, right, high = bounds
        if left <= x <= right and low <= y <= high:
            continue
        if left <= y <= right and low <= x <= high:
            yield "x and y may be exchanged: in the other order they are within the bounds of " + kind
        elif left <= x + 2000000 <= right and low <= y + 1000000 <= high:
            yield "these may be coordinates of LV03, and %s is in LV95" % kind
        elif left <= x - 2000000 <= right and low <= y - 1000000 <= high:
            yield "these may be coordinates of LV95, and %s is in LV03" % kind
        return


def coordinates(model):
    """The coordinate domains of two axes outside of topics, with their bounds."""
    for name, ((word, rest), _) in model.outside.items():
        if word == "COORD2" and len(rest) == 4:
            yield name, tuple(map(float, rest))
