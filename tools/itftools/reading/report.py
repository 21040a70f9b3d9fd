"""Reads a report of `itfcheck` into plain words, by docs/report.md.

No line is passed over: one that is of no form is a Refusal, and so is a report that was cut off. It
does not look into a transfer, and does not judge what a line says.
"""
import re

from itftools.refusal import Refusal

N = "[0-9]+"
AREA_ANSWERS = (f"PROVED {N} {N} {N}|NOTPROVED {N} {N}|(UNDECIDED|MEETING|ON|TWO) {N} {N}"
                f"|(OUTSIDE|CUT) {N}|EMPTY {N} (LEFT|RIGHT)")
SURFACE_ANSWERS = f"PROVED {N} {N}|MEETING {N} {N}|(ODD|PARTS) {N}"
FORMS = {
    "AREA": f"AREA [^ ]+ [^ ]+ [^ ]+ ({AREA_ANSWERS})",
    "SURFACE": f"SURFACE [^ ]+ [^ ]+ [^ ]+ ({SURFACE_ANSWERS})",
    "FINDING": f"FINDING {N} ((tid|ident) {N} {N}|reference {N} .+|(?!tid |ident |reference )[a-z]+ {N})",
    "STRUCTURE": f"STRUCTURE {N} [a-z]+",
    "NOTPROVED": f"NOTPROVED {N} {N} {N}",
    "LINK": f"LINK {N} {N}",
    "LINKS": f"LINKS {N} {N}",
    "LINKLINE": f"LINKLINE {N}",
    "CANONICAL": "CANONICAL REFUSED",
    "TRIAL": f"TRIAL {N} {N} {N} {N}",
    "MODEL": "MODEL [^ ]+",
    "TABLE": f"TABLE [^ ]+ [^ ]+ (MAIN|AREA|SURFACE) {N} {N}",
    "VERDICT": f"VERDICT (ACCEPTED {N}|COMPILED {N}|REJECTED|UNDECIDED|NOTPROVED)",
    "FAULT": r"FAULT (USAGE|(READ|LIMIT) [a-z]+|MODEL [a-z]+ [0-9]+ [0-9]+ .*)",
}
FORMS = {word: re.compile(form) for word, form in FORMS.items()}


class Report:
    """The lines of a report: `entries` are their texts and words, in order.

    `verdict` is the word behind VERDICT, or None; `stop` the words behind FAULT, or None.
    """

    def __init__(self, text):
        self.entries = []
        self.verdict = self.objects = self.stop = None
        if not text.strip():
            raise Refusal("the report is empty, as after the statuses 6 and 8")
        if not text.endswith("\n"):
            raise Refusal("the report ends within a line: it was not written to its end")
        for number, line in enumerate(text[:-1].split("\n"), 1):
            self.line(line[:-1] if line.endswith("\r") else line, number)
        if not (self.verdict or self.stop):
            raise Refusal("the report has no VERDICT line: it was not written to its end")

    def of(self, word):
        """The words of the lines that begin with a word."""
        return [words for _, words in self.entries if words[0] == word]

    def has(self, word):
        return bool(self.of(word))

    def line(self, line, number):
        word = line.split(" ", 1)[0]
        if self.stop == ["USAGE"] and word == "usage:":
            self.entries.append((line, [word]))
            return
        if self.verdict or self.stop or word not in FORMS:
            raise Refusal("line %d of the report is unknown: %s" % (number, line[:100]))
        if not FORMS[word].fullmatch(line):
            raise Refusal("line %d of the report has an answer that is none: %s" % (number, line[:100]))
        words = line.split(" ")
        self.entries.append((line, words))
        if word == "VERDICT":
            self.verdict = words[1]
            self.objects = int(words[2]) if words[2:] else None
        elif word == "FAULT":
            self.stop = words[1:]
