"""Likely causes of refused models and transfers: each damage of a good text, at the line and with the code that
docs/transfer-text.md and docs/model-language.md give it, without the programs."""
import unittest

from common import Case, data, text_of
from itftools.reading.model import Model
from itftools.saying import causes

MODEL, TRANSFER = text_of(data("parcels.ili")), text_of(data("parcels.itf"))
XTF = '<?xml version="1.0" encoding="UTF-8"?>\n<TRANSFER xmlns="http://www.interlis.ch/INTERLIS2.3">\n'


def swapped(text, old, new):
    assert text.count(old) == 1, old
    return text.replace(old, new)


def without(number):
    """The transfer without a line."""
    lines = TRANSFER.splitlines(True)
    return "".join(lines[:number - 1] + lines[number:])


# The text, the line and the code of its fault, and what has to be told.
TRANSFERS = (
    ("\xef\xbb\xbf" + TRANSFER, 1, "word", "byte order mark of UTF-8"),
    (TRANSFER.encode("utf-16"), 1, "word", "the file is in UTF-16"),
    (TRANSFER.replace("\n", "\r"), 1, "word", "CR alone"),
    (TRANSFER.replace("\n", "\r\r\n"), 2, "word", "CR CR LF"),
    (XTF, 1, "word", "this is XML, as XTF of INTERLIS 2"),
    ("\xef\xbb\xbf" + XTF, 1, "word", "this is XML, as XTF of INTERLIS 2"),
    (MODEL, 1, "word", "MODEL and TRANSFER may be exchanged"),
    ("PK\x03\x04abc", 1, "word", "a zip archive: unpack it"),
    (TRANSFER.replace("SCNT", "scnt"), 1, "word", "words are in capitals: SCNT"),
    ("\n" + TRANSFER, 1, "word", "the first line is empty"),
    (without(1), 1, "word", "the head is missing"),
    (without(2), 20, "end", "no line is ////"),
    (TRANSFER + "\x1a", 21, "word", "Ctrl-Z or NUL behind ENDE"),
    (without(20), 20, "end", "ENDE is missing"),
    (TRANSFER[:TRANSFER.index("LIPT 200.000 200.000") + 9], 11, "end", "the last line has no line end"),
    ("".join(TRANSFER.splitlines(True)[:10]), 11, "end", "it ends in a line of vertices, behind LIPT"),
    ("".join(TRANSFER.splitlines(True)[:16]), 17, "end", "it ends in the table Parcel, behind OBJE"),
    (swapped(TRANSFER, "MODL Land", "MODL Land2"), 4, "name", "it may be of another version"),
    (swapped(TRANSFER, "MODL Land", "MODL Strassen"), 4, "name", "it may be another one"),
    (swapped(TRANSFER, "TABL Parcel\n", "TABL Parcels\n"), 15, "name", "the model has Parcel; it may be of another version"),
    (swapped(TRANSFER, "TABL Parcel\n", "TABL Street\n"), 15, "name", "the model has here: Parcel_Form, Parcel"),
    (swapped(TRANSFER, "TABL Parcel\n", "TABL Parcel_Form\n"), 15, "twice", "all objects of a table stand in one TABL"),
    (without(14), 14, "word", "ETAB is missing before this line"),
    (without(18), 18, "word", "ETOP is missing before this line"),
    (without(19), 19, "word", "EMOD is missing before this line"),
    (without(13), 13, "word", "ELIN is missing before this line"),
    (without(14), 14, "word", "here could stand: OBJE, ETAB"),
    (swapped(TRANSFER, "ETOP", "etop"), 18, "word", "words are in capitals: ETOP"),
    (swapped(TRANSFER, "ETOP", "EMOD"), 18, "word", "here could stand: TABL, ETOP"),
    (swapped(TRANSFER, "OBJE 1 77 150.000 150.000\n", "OBJE 1 77 150.000 150.000\nELIN\n"), 17, "word",
     "an object of Parcel has no line"),
    (swapped(TRANSFER, "TOPI Cover\n", "TOPI Cover\nMOTR\n"), 6, "motr", "export without it"),
    (swapped(TRANSFER, "OBJE 1 77", "OBJE 1 77\\"), 16, "continue", "perhaps a text ends with the continue code"),
)
# The text, the code, line, column and word, and what has to be told.
MODELS = (
    (swapped(MODEL, "TEXT*12;", "TEXT*12"), "expected", 8, 7, "Form", "perhaps a ; is missing at the end of line 7"),
    (swapped(MODEL, "TEXT*12;", "TEXT*12"), "expected", 8, 7, "Form", "here could stand: an explanation in // //, ;"),
    (swapped(MODEL, "TOPIC Cover", "TOPIK Cover"), "expected", 5, 3, "TOPIK", "perhaps TOPIC was meant"),
    (swapped(MODEL, "TABLE Parcel", "table Parcel"), "expected", 6, 5, "table", "words of the language are in capitals: TABLE"),
    (swapped(MODEL, "Nr: TEXT", "TEXT: TEXT"), "expected", 7, 7, "TEXT", "TEXT is a word of the language"),
    (swapped(MODEL, "END Parcel;", "END Parzelle;"), "endname", 10, 9, "Parzelle", "the name that ends here, Parcel"),
    (swapped(MODEL, "VERTEX Koord", "VERTEX Coord"), "unknown", 8, 48, "Coord", "there is a domain Koord"),
    (swapped(MODEL, "Nr:", "N\xfcmmer:"), "badbyte", 7, 8, "-", "no letter with an accent"),
    (swapped(MODEL, "(STRAIGHTS, ARCS)", "(STRAIGHTS, CURVES)"), "lineform", 8, 35, "CURVES", "here could stand: ARCS, STRAIGHTS"),
    (TRANSFER, "expected", 1, 1, "SCNT", "MODEL and TRANSFER may be exchanged"),
    (XTF, "badbyte", 1, 1, "-", "this is XML"),
    ("INTERLIS 2.3;\n", "expected", 1, 1, "INTERLIS", "this is a model of INTERLIS 2"),
    (MODEL + "\x1a", "badbyte", 15, 1, "-", "Ctrl-Z or NUL"),
    (swapped(MODEL, "TOPIC", "VIEW V = END V; TOPIC"), "views", 5, 3, "VIEW", "itfcheck reads no VIEW"),
)


class Damaged(Case):
    def test_transfers(self):
        model = Model(MODEL)
        for text, number, code, wanted in TRANSFERS:
            with self.subTest(wanted=wanted):
                name = self.write("transfer", text)
                letters = text.decode("latin-1") if isinstance(text, bytes) else text
                lines = letters.split("\n")
                line = lines[number - 1] if number <= len(lines) else ""
                told = list(causes.of_transfer(model, name, number, code, line))
                self.assertTrue(any(wanted in one for one in told), told)

    def test_models(self):
        for text, code, line, column, word, wanted in MODELS:
            with self.subTest(wanted=wanted):
                if word != "-":
                    self.assertEqual(text.split("\n")[line - 1][column - 1:][:len(word)], word)
                told = list(causes.of_model(text.encode("latin-1"), code, line, column, word))
                self.assertTrue(any(wanted in one for one in told), told)

    def test_a_place_that_cannot_be_read_has_no_hint(self):
        self.assertEqual(list(causes.of_grammar("TRANSFER ; ", "x")), [])


if __name__ == "__main__":
    unittest.main()
