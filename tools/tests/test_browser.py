"""Opens pages of each verdict in Chromium, in four languages, clicks through each fault and reads what is shown.

It is skipped where there is no Chromium with its driver. With ITF_SHOTS=FOLDER it leaves pictures there.
"""
import json
import os
import pathlib
import tempfile
import time
import unittest

import browser as browsers
import deliveries
from common import data, itf, needs_programs

LANGUAGES = ("fr", "it", "en", "de")
DOWN, UP = {"type": "pointerDown", "button": 0}, {"type": "pointerUp", "button": 0}
FAULTY = ("hostile_faults", "hostile_findings", "surfaces", "slivers", "outer", "structure", "empty_arcs")
SHOTS = os.environ.get("ITF_SHOTS")
# What no page may show: the text of an element goes beyond it, or it goes beyond the window.
OVERFLOW = """const found = [], wide = document.documentElement.clientWidth;
for (const its of document.querySelectorAll('h1, h2, h3, p, li, dt, dd, button, label, select, td, th')) {
  if (!its.offsetParent || its.closest('.hidden') || wide > 600 && its.closest('.wide')) continue;
  const box = its.getBoundingClientRect();
  if (box.right > wide + 1 || box.left < -1 || its.scrollWidth > its.clientWidth + 1 && its.clientWidth > 0
      && getComputedStyle(its).display !== 'inline') found.push(its.tagName + ' ' + its.textContent.slice(0, 60));
}
if (document.documentElement.scrollWidth > wide + 1) found.push('the page is wider than the window');
return found;"""
OVERLAP = """const boxes = [...document.querySelectorAll('header > *, main > section, #work > section, #map-buttons button')]
  .filter(its => its.offsetParent).map(its => [its, its.getBoundingClientRect()]), found = [];
for (const [one, p] of boxes) for (const [other, q] of boxes) {
  if (one === other || one.contains(other) || other.contains(one) || one.id === 'languages' || other.id === 'languages') continue;
  if (p.left < q.right - 1 && q.left < p.right - 1 && p.top < q.bottom - 1 && q.top < p.bottom - 1)
    found.push(one.tagName + one.id + ' on ' + other.tagName + other.id);
}
return found;"""


def move(x, y, duration=0):
    return {"type": "pointerMove", "duration": duration, "x": x, "y": y}


@unittest.skipUnless(browsers.is_there(), "no Chromium (Debian: chromium, chromium-driver)")
@needs_programs
class Pages(unittest.TestCase):
    @classmethod
    def setUpClass(cls):
        cls.browser = browsers.Browser()
        cls.folder = tempfile.TemporaryDirectory(prefix="itf.test.")

    @classmethod
    def tearDownClass(cls):
        cls.browser.end()
        cls.folder.cleanup()

    def page(self, name, model, transfer, *given):
        """Makes a page and opens it; the summary."""
        page, told = (os.path.join(self.folder.name, name + ending) for ending in (".html", ".json"))
        status, _, errors = itf("page", model, transfer, *given, "-o", page, "--json", told)
        self.assertEqual((status, errors), (0, ""))
        self.name = name
        self.browser.errors()
        self.browser.open(pathlib.Path(page).resolve().as_uri())
        with open(told, encoding="utf-8") as file:
            self.told = json.load(file)
        return self.told

    def made(self, name):
        """The page of a delivery of deliveries.py; the name of its transfer is hostile."""
        model = os.path.join(self.folder.name, name + ".ili")
        transfer = os.path.join(self.folder.name, name + "<img src=x onerror=window.pwned=5>&'.itf")
        for file_name, text in zip((model, transfer), getattr(deliveries, name)()):
            with open(file_name, "w", encoding="utf-8", newline="\n") as file:
                file.write(text)
        return self.page(name, model, transfer)

    def shot(self, what):
        if SHOTS:
            os.makedirs(SHOTS, exist_ok=True)
            self.browser.shot(os.path.join(SHOTS, "%s_%s.png" % (self.name, what)))

    def nothing_ran(self):
        self.assertEqual(self.browser.errors(), [])
        self.assertIsNone(self.browser.js("return window.pwned || null"))
        self.assertEqual(self.browser.count("img, iframe, object, a, script:not([type])"), 1)

    def in_each_language(self, verdict):
        titles = set()
        for language in LANGUAGES:
            self.browser.click("#lang-" + language)
            self.assertEqual(self.browser.js("return document.documentElement.lang"), language)
            shown = self.browser.js("return document.body.innerText")
            self.assertNotIn("undefined", shown)
            self.assertNotRegex(self.browser.text("h1") + self.browser.text("#means") + self.browser.text("#not"), "[{}]")
            titles.add(self.browser.text("h1"))
        self.assertEqual(len(titles), len(LANGUAGES), titles)
        self.assertEqual(self.told["verdict"], verdict)
        unnamed = self.browser.js(
            "return [...document.querySelectorAll('button, select, input')].filter(its => its.offsetParent &&"
            " !(its.textContent.trim() || its.getAttribute('aria-label') || its.labels && its.labels.length)).length")
        self.assertEqual(unnamed, 0)

    def each_fault(self):
        """Clicks each fault of the list, and reads its detail and what the live region says."""
        faults = self.told["faults"]
        self.assertEqual(self.browser.count("#list tbody tr"), min(200, len(faults)))
        for number, fault in enumerate(faults[:60]):
            self.browser.click("#list tbody button", number)
            detail = self.browser.text("#detail")
            self.assertIn(str(fault["id"]) + ". ", detail)
            for word in fault["at"] or ():
                self.assertIn(word, detail)
            for row in fault["rows"]:
                self.assertIn(row["text"], detail)
                self.assertIn(str(row["line"]), detail)
            self.assertEqual(self.browser.text("tr.chosen td"), str(fault["id"]))
            self.assertIn(str(fault["id"]), self.browser.text("#live"))

    def fits(self, wide):
        self.browser.size(wide, 1200)
        time.sleep(0.2)
        self.assertEqual(self.browser.js(OVERFLOW), [])
        self.assertEqual(self.browser.js(OVERLAP), [])
        self.shot(wide)

    # The verdicts.

    def test_accepted(self):
        told = self.made("good")
        self.in_each_language("ACCEPTED")
        self.assertEqual(told["faults"], [])
        self.nothing_ran()
        self.fits(1400)

    def test_rejected(self):
        for name in FAULTY:
            with self.subTest(name=name):
                told = self.made(name)
                self.in_each_language("REJECTED")
                self.assertTrue(told["faults"])
                self.each_fault()
                self.nothing_ran()

    def test_undecided(self):
        told = self.made("fillet")
        self.in_each_language("UNDECIDED")
        self.assertIn("hintCross", [fault["info"].get("how") for fault in told["faults"]])
        self.each_fault()
        self.nothing_ran()

    def test_no_verdict(self):
        told = self.made("refused_model")
        self.in_each_language("NONE")
        self.assertEqual(told["stop"][0], "MODEL")
        self.nothing_ran()

    def test_not_proved(self):
        report = os.path.join(self.folder.name, "report")
        with open(report, "w") as file:
            file.write("NOTPROVED 0 2 17\nVERDICT NOTPROVED\n")
        self.page("notproved", data("parcels.ili"), data("parcels.itf"), report, "-")
        self.in_each_language("NOTPROVED")
        self.each_fault()
        self.nothing_ran()

    # The map, the list and the layout.

    def test_the_map(self):
        self.browser.size(1400, 1200)
        self.page("faults", data("faults.ili"), data("faults.itf"))
        self.browser.click("#list tbody button", 0)
        x, y = self.browser.js("const map = document.getElementById('map'); map.scrollIntoView({block: 'center'});"
                               "const box = map.getBoundingClientRect();"
                               "return [Math.round(box.left + box.width / 2), Math.round(box.top + box.height / 2)]")
        self.draws("a drag", lambda: self.browser.pointer(move(x, y), DOWN, move(x + 60, y + 40, 50), UP))
        self.browser.click("#filters button")
        self.browser.pointer(move(x + 60, y + 40), DOWN, UP)
        self.assertTrue(self.browser.text("#live").strip())
        self.draws("the wheel", lambda: self.browser.wheel(x, y, -200))
        self.browser.js("document.getElementById('map').focus()")
        for key in ("+", "\ue012", "0", "f"):
            self.draws("the key %r" % key, lambda: self.browser.key(key))
        first = self.browser.text("tr.chosen td")
        self.browser.key("n")
        self.assertNotEqual(self.browser.text("tr.chosen td"), first)
        boxes = self.browser.count("#layers input")
        self.assertGreaterEqual(boxes, 3)
        for number in range(boxes):
            self.draws("layer %d" % number, lambda: self.browser.click("#layers input", number))
        self.nothing_ran()

    def draws(self, what, does):
        """Something is drawn anew."""
        image = "return document.getElementById('map').toDataURL()"
        time.sleep(0.1)
        before = self.browser.js(image)
        does()
        for _ in range(50):
            if self.browser.js(image) != before:
                return
            time.sleep(0.05)
        self.fail("nothing is drawn by " + what)

    def test_filters_and_orders(self):
        told = self.page("faults", data("faults.ili"), data("faults.itf"))
        kind = told["faults"][0]["kind"]
        self.browser.js("const its = document.querySelector('#filters select'); its.value = arguments[0];"
                        "its.dispatchEvent(new Event('change'))", kind)
        self.assertEqual(self.browser.count("#list tbody tr"), told["counts"][kind])
        self.browser.js("const its = document.querySelector('#filters input'); its.value = 'no such text';"
                        "its.dispatchEvent(new Event('input'))")
        self.assertEqual(self.browser.count("#list tbody tr"), 0)
        self.browser.click("#filters button")
        self.browser.click("#summary td button")
        self.assertIn(self.browser.count("#list tbody tr"), [its for part in told["parts"] for its in part["counts"].values()])
        self.browser.click("#filters button")
        self.browser.click("#sort-line")
        lines = self.browser.js("return [...document.querySelectorAll('#list tbody tr')]"
                                ".map(row => parseInt(row.children[3].textContent)).filter(its => its)")
        self.assertEqual(lines, sorted(lines))

    def test_parcels_beside_a_sliver(self):
        self.made("slivers")
        self.browser.click("#lang-en")
        self.browser.click("#list tbody button", 0)
        detail = self.browser.text("#detail")
        self.assertIn("Beside the region (hint)", detail)
        for tid in ("TID 1 ", "TID 2 "):
            self.assertIn("object " + tid, detail)

    def test_the_list_by_keyboard(self):
        """Each control of the list has the focus in turn, and the key Enter chooses a fault."""
        told = self.page("faults", data("faults.ili"), data("faults.itf"))
        self.browser.js("document.querySelector('#list tbody button').focus()")
        self.browser.key("\ue007")
        self.assertEqual(self.browser.text("tr.chosen td"), "1")
        self.browser.key("\ue004")
        self.browser.key("\ue007")
        self.assertEqual(self.browser.text("tr.chosen td"), "2")
        self.assertGreater(len(told["faults"]), 1)

    def test_wide_and_narrow(self):
        for name in ("hostile_faults", "surfaces", "slivers"):
            for wide in (1400, 420):
                with self.subTest(name=name, wide=wide):
                    self.made(name)
                    self.browser.click("#list tbody button", 0)
                    self.browser.js("window.scrollTo(0, 0)")
                    self.fits(wide)
        self.browser.size(1400, 1200)

    def test_printed(self):
        """On paper stand the verdict, all faults, and the checksums."""
        told = self.page("faults", data("faults.ili"), data("faults.itf"))
        name = os.path.join(SHOTS or self.folder.name, "printed.pdf")
        self.browser.pdf(name)
        with open(name, "rb") as file:
            self.assertEqual(file.read(5), b"%PDF-")
        self.browser.js("window.dispatchEvent(new Event('beforeprint'))")
        self.assertEqual(self.browser.count("#list tbody tr"), len(told["faults"]))
        for file in told["files"]:
            self.assertIn(file["sha256"], self.browser.text("#files"))
        self.assertTrue(self.browser.text("#printed"))


if __name__ == "__main__":
    unittest.main()
