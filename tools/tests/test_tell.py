"""`itf tell`: the sentence of each damaged copy of a model and of a transfer, and of files of faults."""
import unittest

from common import Case, data, itf, needs_programs, text_of
from itftools.program import Program

MODEL, TRANSFER = text_of(data("survey.ili")), text_of(data("survey.itf"))


def changed(text, old, new):
    assert old in text, old
    return text.replace(old, new, 1)


MODELS = (
    ("INTERLIS 2.3;\nMODEL A (de) AT \"http://x\" VERSION \"1\" =\nEND A.\n", "this is a model of INTERLIS 2"),
    (b"\xef\xbb\xbf" + MODEL.encode("latin-1"), "byte order mark of UTF-8"),
    (MODEL.encode("utf-16"), "UTF-16"),
    (MODEL.replace("\n", "\r"), "CR alone"),
    (MODEL + "\x1a", "Ctrl-Z or NUL"),
    (MODEL + "\0", "Ctrl-Z or NUL"),
    (changed(MODEL, "// Pos innerhalb Flaeche //", "// siehe http://x.ch //"), "has // within an explanation"),
    (changed(MODEL, "Name: TEXT*40;", "FONT: TEXT*40;"), "FONT is a word of the language"),
    (changed(MODEL, "AV93, PV74", "TEXT, PV74"), "TEXT is a word of the language"),
    (changed(MODEL, "Name: TEXT*40;", "Name: TEXT;"), "here could stand: *"),
    (changed(MODEL, "    NO IDENT\n    END Flurname", "    NO IDENT\n    END"), "here could stand: the name that ends here, Flurname"),
)
TRANSFERS = (
    (TRANSFER.replace("\n", "\r\r\n"), "the lines end with CR CR LF"),
    (TRANSFER.replace("\n", "\r"), "the lines end with CR alone"),
    (TRANSFER + "\x1a", "Ctrl-Z or NUL behind ENDE"),
    (TRANSFER + "\x1a\n", "Ctrl-Z or NUL behind ENDE"),
    (TRANSFER + "\0" * 10, "Ctrl-Z or NUL behind ENDE"),
    ("\xef\xbb\xbf" + TRANSFER, "byte order mark of UTF-8"),
    ("\n" + TRANSFER, "the first line is empty"),
    (changed(TRANSFER, "////\n", ""), "no line is ////"),
    (changed(TRANSFER, "OBJE 21 11 12a 1234567", "OBJE 21 11 12a 1234\\\nCONT 567"), "a CONT begins a new field"),
    (changed(TRANSFER, "Neuaufnahme", "\xc3\xa4" * 30), "these 30 letters are 60 bytes"),
    (changed(TRANSFER, "2600005.000 1200005.000", "1200005.000 2600005.000"), "x and y may be exchanged"),
    (TRANSFER.replace(" 26", " 6").replace(" 12000", " 2000"), "these may be coordinates of LV03"),
)


@needs_programs
class Damaged(Case):
    def told(self, model, transfer):
        _, report = Program("itfcheck").run("check", model, transfer, self.path("certificate"))
        name = self.write("report", report)
        status, out, errors = itf("tell", model, transfer, name)
        self.assertEqual((status, errors), (0, ""), report)
        return out

    def test_models(self):
        transfer = data("survey.itf")
        for text, wanted in MODELS:
            with self.subTest(wanted=wanted):
                self.assertIn(wanted, self.told(self.write("model", text), transfer))

    def test_transfers(self):
        for text, wanted in TRANSFERS:
            with self.subTest(wanted=wanted):
                self.assertIn(wanted, self.told(data("survey.ili"), self.write("transfer", text)))

    def test_a_good_delivery_has_no_hint(self):
        self.assertNotIn("hint", self.told(data("survey.ili"), data("survey.itf")))

    def test_undecided_names_the_forks(self):
        told = self.told(data("forks.ili"), data("forks.itf"))
        self.assertIn("and may be innocent", told)
        self.assertIn("hint: a fork at ", told)

    def test_a_file_of_faults(self):
        listed = self.path("faults")
        Program("itffaults").run(data("faults.ili"), data("faults.itf"), listed)
        status, out, errors = itf("tell", data("faults.ili"), data("faults.itf"), listed)
        self.assertEqual((status, errors), (0, ""))
        for wanted in ("TWO 59 60", "free end at", "EMPTY 17 LEFT", "the region has a size of", "OPEN 38 LEFT",
                       "UNJUDGED 62", "CUT 45", "ON 58 17", "OUTSIDE 63", "MEETING 49 53", "SURFACE Cover Building"):
            self.assertIn(wanted, out)


if __name__ == "__main__":
    unittest.main()
