"""What a batch says of all its deliveries, for programs and for people: JSON lines, a table, JUnit, a page."""
import base64
import csv
import hashlib
import io
import json
import os
from html import escape
from xml.sax.saxutils import quoteattr

from itftools.batching.judging import NOT_JUDGED
from itftools.facts import NOT_JUDGED as NOT_FAULT_KINDS
from itftools.files import written
from itftools.layers.csv import safe
from itftools.saying.words import words
from itftools.statuses import MODEL_REFUSED, NO_STATUS, badness

COLUMNS = ("name", "verdict", "status", "objects", "faults", "not_judged", "seconds", "bytes", "sha256", "folder",
           "why")
ORDER = (NOT_JUDGED, "REJECTED", "UNDECIDED", "ACCEPTED")
STYLE = """body{font:15px/1.45 Arial,sans-serif;margin:1.5em;color:#1a1a1a;background:#fff}
table{border-collapse:collapse}th,td{border:1px solid #c9ccd1;padding:.25em .6em;text-align:left;vertical-align:top}
th{background:#eef0f3}td.n{text-align:right}.b{color:#b00020;font-weight:bold}.u{color:#8a5a00;font-weight:bold}
.g{color:#1b6e2c;font-weight:bold}@media(max-width:600px){body{margin:.6em;font-size:13px}}"""
FACES = {NOT_JUDGED: "b", "REJECTED": "b", "UNDECIDED": "u", "ACCEPTED": "g"}


def status_of(result):
    """The status of a delivery for the whole: that of its verdict, else the program's own, from 3 on."""
    if result["verdict"] != NOT_JUDGED:
        return result["status"]
    status = result["status"]
    return status if status is not None and status >= MODEL_REFUSED else NO_STATUS


def worst(results):
    return max(map(status_of, results), key=badness, default=0)


def numbers_of(result):
    faults = sum(count for kind, count in result["counts"].items() if kind not in NOT_FAULT_KINDS)
    return faults, sum(result["counts"].values()) - faults


def told(result, kinds=None):
    """A line of words of a delivery."""
    if result["verdict"] == NOT_JUDGED:
        return "%s: %s" % (NOT_JUDGED, result["why"])
    if result["verdict"] == "ACCEPTED":
        return "ACCEPTED %d" % result["objects"]
    listed = ", ".join("%d %s" % (count, kinds[kind][0] if kinds else kind)
                       for kind, count in result["counts"].items())
    return "%s: %s" % (result["verdict"], listed)


def write_all(out, results, language, model_name):
    written(os.path.join(out, "summary.jsonl"),
            "".join(json.dumps(result, sort_keys=True) + "\n" for result in results))
    written(os.path.join(out, "summary.csv"), table(results))
    written(os.path.join(out, "junit.xml"), junit(results, model_name))
    written(os.path.join(out, "index.html"), index(results, language, model_name))


def table(results):
    text = io.StringIO()
    rows = csv.writer(text, lineterminator="\n")
    rows.writerow(COLUMNS)
    for result in results:
        faults, not_judged = numbers_of(result)
        known = {**result, "faults": faults, "not_judged": not_judged}
        rows.writerow([safe("" if known[name] is None else known[name]) for name in COLUMNS])
    return text.getvalue()


def junit(results, model_name):
    """A failure is a delivery that was rejected, an error one that was not judged; undecided ones are skipped."""
    counts = {verdict: sum(result["verdict"] == verdict for result in results) for verdict in ORDER}
    lines = ['<?xml version="1.0" encoding="UTF-8"?>', '<testsuites>',
             '<testsuite name=%s tests="%d" failures="%d" errors="%d" skipped="%d" time="%.2f">' % (
                 quoteattr("itfcheck " + model_name), len(results), counts["REJECTED"], counts[NOT_JUDGED],
                 counts["UNDECIDED"], sum(result["seconds"] for result in results))]
    kinds = {"REJECTED": "failure", NOT_JUDGED: "error", "UNDECIDED": "skipped"}
    for result in results:
        front = '<testcase classname="itfcheck" name=%s time="%.2f"' % (quoteattr(result["name"]), result["seconds"])
        if result["verdict"] == "ACCEPTED":
            lines.append(front + "/>")
        else:
            lines.append("%s><%s message=%s/></testcase>" % (front, kinds[result["verdict"]], quoteattr(told(result))))
    return "\n".join(lines + ["</testsuite>", "</testsuites>", ""])


def index(results, language, model_name):
    """A page with a row for each delivery, the worst first. It has no script, and asks nothing of a network."""
    its = words()[language]
    batch, kinds = its["batch"], its["kinds"]
    rows = []
    for result in sorted(results, key=lambda one: (ORDER.index(one["verdict"]), one["name"])):
        faults, not_judged = numbers_of(result)
        name = escape(result["name"])
        has_page = result["verdict"] != NOT_JUDGED and result["pages"] and not any(
            note.startswith("no page") for note in result["notes"])
        link = '<a href="%s/page.html">%s</a>' % (escape(result["folder"]), name) if has_page else name
        words_of_it = result["why"] if result["verdict"] == NOT_JUDGED else ", ".join(
            "%d %s" % (count, kinds.get(kind, [kind])[0]) for kind, count in result["counts"].items())
        notes = "; ".join([words_of_it] * bool(words_of_it) + result["notes"])
        rows.append('<tr><td>%s</td><td class="%s">%s</td><td class="n">%s</td><td class="n">%d</td>'
                    '<td class="n">%d</td><td>%s</td></tr>' % (
                        link, FACES[result["verdict"]], escape(batch[result["verdict"]]),
                        "" if result["objects"] is None else result["objects"], faults, not_judged, escape(notes)))
    policy = "default-src 'none'; style-src 'sha256-%s'; base-uri 'none'; form-action 'none'" % base64.b64encode(
        hashlib.sha256(STYLE.encode("ascii")).digest()).decode("ascii")
    counts = ", ".join("%s: %d" % (batch[verdict], sum(result["verdict"] == verdict for result in results))
                       for verdict in ORDER if any(result["verdict"] == verdict for result in results))
    heads = "".join("<th>%s</th>" % escape(batch[key]) for key in ("delivery", "verdict", "objects", "faults",
                                                                  "open", "words"))
    return ('<!DOCTYPE html>\n<html lang="%s"><head><meta charset="utf-8"><meta http-equiv="Content-Security-Policy"'
            ' content="%s"><meta name="viewport" content="width=device-width, initial-scale=1"><title>itfcheck</title>'
            "<style>%s</style></head>\n<body><h1>%s</h1><p>%s</p><p>%s</p>\n<table><thead><tr>%s</tr></thead><tbody>\n"
            "%s\n</tbody></table><p>%s</p></body></html>\n" % (
                language, policy, STYLE, escape(batch["title"].format(count=len(results))), escape(model_name),
                escape(counts), heads, "\n".join(rows), escape(batch["proves"])))
