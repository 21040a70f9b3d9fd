"""`itf page`: it refuses what is not of one delivery, drops no fault, and texts of files stay texts."""
import json
import os
import re
import shutil
import unittest

from common import Case, data, itf, needs_programs, text_of
from itftools.program import checked
from itftools.saying.page import script_safe
from itftools.saying.words import LANGUAGES, shown, words

HOSTILE = "</script><script>window.pwned=1</script>"


def shape(its):
    """The keys of words, in order, and the places for values in each."""
    if isinstance(its, dict):
        return [(key, shape(value)) for key, value in its.items()]
    return [shape(one) for one in its] if isinstance(its, list) else sorted(re.findall(r"\{\w+\}", its))


class Words(unittest.TestCase):
    def test_all_languages_have_the_same_keys(self):
        every = words()
        for its in every.values():          # how many sentences a verdict has may differ
            its["verdicts"] = {key: value[0] for key, value in its["verdicts"].items()}
        for language in LANGUAGES:
            self.assertEqual(shape(every[language]), shape(every["en"]), language)

    def test_texts_are_safe_in_a_script(self):
        self.assertNotRegex(script_safe({"text": HOSTILE + "<!-- & \u2028"}), "[<>&\u2028]")
        self.assertEqual(shown("a\x01\u202eb"), "a\ufffd\ufffdb")
        self.assertEqual(len(shown("L" * 10000)), 160 + len(" \u2026 (10000)"))


@needs_programs
class Pages(Case):
    def setUp(self):
        super().setUp()
        self.model, self.transfer = self.path("model"), self.path("transfer")
        shutil.copy(data("faults.ili"), self.model)
        shutil.copy(data("faults.itf"), self.transfer)
        self.report, self.faults = checked(self.model, self.transfer, self.folder.name)
        self.page, self.json = self.path("page.html"), self.path("page.json")

    def make(self, *words):
        return itf("page", self.model, self.transfer, *words, "-o", self.page, "--json", self.json)

    def told(self):
        with open(self.json, encoding="utf-8") as file:
            return json.load(file)

    def test_no_fault_is_dropped(self):
        self.assertEqual(self.make(self.report, self.faults)[0], 0)
        lines = [line.split(" ")[0] for line in text_of(self.faults).splitlines()]
        told = self.told()
        self.assertTrue(told["counts"])
        for kind, count in told["counts"].items():
            self.assertEqual(lines.count(kind), count, kind)
        self.assertTrue(all(fault["at"] for fault in told["faults"]))

    def test_the_programs_are_run(self):
        self.assertEqual(self.make(self.report, self.faults)[0], 0)
        first = self.told()
        self.assertEqual(self.make()[0], 0)
        self.assertEqual(first["faults"], self.told()["faults"])

    def test_without_a_list_the_page_says_so(self):
        self.assertEqual(self.make(self.report, "-")[0], 0)
        self.assertFalse(self.told()["has_list"])

    def test_a_refused_model_has_a_page(self):
        self.write("model", "TRANSFER x; MODEL y TOPIC z = END")
        self.assertEqual(self.make()[0], 0)
        self.assertEqual(self.told()["stop"][0], "MODEL")

    def test_reports_of_points_and_canonical(self):
        good = text_of(data("parcels.report")).replace("VERDICT ACCEPTED 2\n", "")
        shutil.copy(data("parcels.ili"), self.model)
        shutil.copy(data("parcels.itf"), self.transfer)
        for lines, kind in ((good + "LINK 1 16\nLINKS 1 1\n", "LINK"), ("LINKLINE 1\n", "LINKLINE"),
                            ("CANONICAL REFUSED\n", "CANONICAL")):
            with self.subTest(kind=kind):
                self.assertEqual(self.make(self.write("report", lines + "VERDICT REJECTED\n"), "-")[0], 0)
                self.assertEqual([fault["kind"] for fault in self.told()["faults"]], [kind])

    def test_reports_of_other_commands_are_refused(self):
        for lines in ("MODEL a\nTABLE b c MAIN 1 0\nVERDICT COMPILED 1\n",
                      "AREA Grid Cell Form PROVED 0 12 4\nTRIAL 2 12 9 4\nVERDICT ACCEPTED 16\n"):
            status, _, errors = self.make(self.write("report", lines), "-")
            self.assertEqual(status, 1)
            self.assertIn("the report is of another command", errors)

    def test_what_is_allowed_is_told(self):
        shutil.copy(data("survey.ili"), self.model)
        text = text_of(data("survey.itf")).replace("1200005.000 0 8", "9900005.000 0 26")
        self.write("transfer", text.replace("Neuaufnahme", "N" * 31))
        self.assertEqual(self.make()[0], 0)
        self.assertEqual([(fault["kind"], fault["info"].get("allowed")) for fault in self.told()["faults"]], [
            ("FINDING_text", "TEXT*30"),
            ("FINDING_range", "2480000.000 .. 2850000.000, 1070000.000 .. 1310000.000"),
            ("FINDING_enum", "0 .. 25")])
        self.write("transfer", text_of(data("survey.itf")).replace("1200005.000 0 8", "1200005.000 0 25"))
        self.assertEqual(self.make()[0], 0)
        self.assertEqual(self.told()["verdict"], "ACCEPTED")

    def test_free_ends_are_told(self):
        self.assertEqual(self.make()[0], 0)
        ends = {}
        for fault in self.told()["faults"]:
            ends.setdefault(fault["kind"], fault["info"].get("ends"))
        self.assertEqual(ends["TWO"][0], {"at": ["72.00", "12.00"], "line": 45, "way": 14.86, "gap": None,
                                          "gap_line": None})
        self.assertIsNone(ends["CUT"])

    def refused(self, name, text):
        old = text_of(name)
        self.write(os.path.basename(name), text(old))
        status, out, errors = self.make(self.report, self.faults)
        self.write(os.path.basename(name), old)
        self.assertEqual((status, out), (1, ""))
        self.assertIn("itf page: not done: ", errors)
        self.assertEqual([left for left in os.listdir(self.folder.name) if left.startswith("page")], [])

    def test_damaged_and_foreign_files_are_refused(self):
        for name in (self.report, self.faults, self.transfer):
            self.refused(name, lambda text: text[:len(text) // 2])
            self.refused(name, lambda text: "")
            self.refused(name, lambda text: "NEW line\n" + text)
        self.refused(self.report, lambda text: text.replace("VERDICT REJECTED\n", ""))
        self.refused(self.faults, lambda text: text.replace("CUT 45", "CUT 945"))
        self.refused(self.faults, lambda text: re.sub("CUT .*\n", "", text))
        self.refused(self.report, lambda text: text_of(data("parcels.report")))
        self.refused(self.transfer, lambda text: text_of(data("parcels.itf")))

    def test_an_output_is_no_input(self):
        status, _, errors = itf("page", self.model, self.transfer, self.report, self.faults, "-o", self.transfer)
        self.assertEqual(status, 1)
        self.assertIn("an output has the name of an input", errors)

    def test_hostile_names_are_text(self):
        name = self.path("<img src=x onerror=alert(1)>&'.itf".replace("/", ""))
        text = text_of(self.transfer).replace("OBJE 7 P7", "OBJE 7 " + HOSTILE)
        with open(name, "w", encoding="latin-1") as file:
            file.write(text)
        status, _, errors = itf("page", self.model, name, "-o", self.page)
        self.assertEqual((status, errors), (0, ""))
        page = text_of(self.page)
        self.assertNotIn("pwned=1</script>", page)
        self.assertNotIn("<img", page)
        self.assertEqual(page.count("<script"), 3)
        self.assertIn("default-src 'none'", page)


if __name__ == "__main__":
    unittest.main()
