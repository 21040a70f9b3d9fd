"""One page of a check for a browser: the data, the drawing that it has, and the parts put together.

Texts of files reach the page in one block of JSON, in which no letter begins or ends anything of HTML;
a content policy allows no script and no style but those of the page, and no network.
"""
import base64
import hashlib
import json
import os
from array import array
from itertools import chain

from itftools.delivery import points, polylines
from itftools.saying.words import FOLDER, words

MOST_FAULTS = 20000         # in a page; the GeoPackage and the JSON have all
MOST_VERTICES = 300000      # of lines in a page in full; of more lines those near faults are
MOST_CORNERS = 4000         # of a region in a page; of more each so-and-so-many-th
FAR = 480                   # metres from a fault within which lines are shown in full, where they are not too many


class Drawing:
    """The lines of a page: all in full, or those near faults, and a thinned view of all.

    A line is an array of numbers, x and y of each place.
    """

    def __init__(self, delivery, faults):
        self.lines = [flat(line) for _, _, line in polylines(delivery)]
        self.places = [place for _, _, place in points(delivery)]
        boxes = [fact.unit for fact in faults if fact.unit]
        self.box = self.whole_box(boxes)
        self.vertices = sum(map(len, self.lines)) // 2
        self.is_whole = self.vertices <= MOST_VERTICES
        self.near, self.view, self.radius = self.lines, [], None
        if not self.is_whole:
            self.thin(delivery.scale, boxes)

    def whole_box(self, boxes):
        places = self.places + boxes
        xs = [x for line in self.lines for x in (line[0], line[-2])] + [x for x, _ in places]
        ys = [y for line in self.lines for y in (line[1], line[-1])] + [y for _, y in places]
        return (min(xs), min(ys), max(xs), max(ys)) if xs else (0, 0, 1, 1)

    def thin(self, scale, boxes):
        """Keeps the lines near faults: as many as a page may have, by a radius that is halved."""
        reach = FAR * 10 ** scale
        near, cells = self.within(self.lines, boxes, reach)
        while sum(map(len, near)) > MOST_VERTICES and reach > 10:
            reach //= 2
            near, cells = self.within(near, boxes, reach)
        self.near, self.radius = near, reach if boxes else None
        self.places = [(x, y) for x, y in self.places if (x // reach, y // reach) in cells]
        self.view = self.overview()

    @staticmethod
    def within(lines, boxes, reach):
        """Of some lines those with a place near a fault, and the squares that are near."""
        cells = {(x // reach + i, y // reach + j) for x, y in boxes for i in (-1, 0, 1) for j in (-1, 0, 1)}
        if not cells:
            return [], cells
        return [line for line in lines if any((x // reach, y // reach) in cells
                                              for x, y in zip(line[::2], line[1::2]))], cells

    def overview(self):
        """Lines without detail, at most one in a place of one part in 220 of the whole, long ones first."""
        wide = max(self.box[2] - self.box[0], self.box[3] - self.box[1], 1)
        apart, cell = wide // 900 + 1, wide // 220 + 1
        taken, view, short = set(), [], []

        def keep(line):
            middle = len(line) // 4 * 2
            here = (line[middle] + line[0]) // 2 // cell, (line[middle + 1] + line[1]) // 2 // cell
            if here not in taken:
                taken.add(here)
                view.append(line)

        for line in self.lines:
            kept = without_detail(line, apart)
            is_long = len(kept) > 4 or abs(kept[2] - kept[0]) + abs(kept[3] - kept[1]) > apart
            if is_long:
                keep(kept)
            else:
                short.append(kept)
        for line in short:
            keep(line)
        return view


def without_detail(line, apart):
    """The first and the last place of a line, and between those that are so far apart."""
    kept = line[:2]
    for place in range(2, len(line) - 2, 2):
        if abs(line[place] - kept[-2]) + abs(line[place + 1] - kept[-1]) > apart:
            kept.extend(line[place:place + 2])
    kept.extend(line[-2:])
    return kept


def flat(line):
    return array("q", chain.from_iterable(line))


def deltas(line, origin):
    """A line as numbers: the first place from the origin, each further one from the one before."""
    x, y = origin
    found = []
    for place in range(0, len(line), 2):
        found += (line[place] - x, line[place + 1] - y)
        x, y = line[place], line[place + 1]
    return found


def page_data(delivery, told, language):
    faults = delivery.facts
    drawing = Drawing(delivery, faults)
    origin = drawing.box[:2]
    few = []
    for fact, its in zip(faults[:MOST_FAULTS], told["faults"]):
        its = dict(its)
        its["u"] = [fact.unit[0] - origin[0], fact.unit[1] - origin[1]] if fact.unit else None
        its["marks"] = [deltas(flat(line), origin) for line in fact.marks]
        every = sum(map(len, fact.rings)) // MOST_CORNERS + 1
        its["rings"] = [deltas(flat(ring[::every]), origin) for ring in fact.rings]
        few.append(its)
    places = [number - origin[k % 2] for place in drawing.places for k, number in enumerate(place)]
    return {**told, "faults": few, "total": len(faults), "scale": delivery.scale, "origin": list(origin),
            "size": [drawing.box[2] - origin[0], drawing.box[3] - origin[1]], "language": language,
            "whole": drawing.is_whole, "vertices": drawing.vertices,
            "radius": drawing.radius and drawing.radius / 10 ** delivery.scale,
            "lines": [deltas(line, origin) for line in drawing.near],
            "view": [deltas(line, origin) for line in drawing.view], "places": places}


def script_safe(data):
    """JSON for a script block: no letter in it begins or ends anything of HTML."""
    text = json.dumps(data, ensure_ascii=True, separators=(",", ":"))
    return text.replace("<", "\\u003c").replace(">", "\\u003e").replace("&", "\\u0026")


def digest(text):
    return "'sha256-%s'" % base64.b64encode(hashlib.sha256(text.encode("utf-8")).digest()).decode("ascii")


def html(data):
    """The page: its parts put together, with the checksums of style and script for the browser."""
    parts = {}
    for name in ("page.html", "page.css", "page.js"):
        with open(os.path.join(FOLDER, name), encoding="utf-8") as file:
            parts[name] = file.read()
    policy = ("default-src 'none'; script-src %s; style-src %s; img-src data:; base-uri 'none';"
              " form-action 'none'" % (digest(parts["page.js"]), digest(parts["page.css"])))
    page = parts["page.html"]
    # The data come last, so that no text of theirs is taken for a mark.
    for mark, text in (("{{policy}}", policy), ("{{style}}", parts["page.css"]), ("{{script}}", parts["page.js"]),
                       ("{{words}}", script_safe(words())), ("{{data}}", script_safe(data))):
        front, _, back = page.partition(mark)
        page = front + text + back
    return page
