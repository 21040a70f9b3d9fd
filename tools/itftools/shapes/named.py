"""What a fact of an AREA names, as curves and points of the area: for words and pictures."""
from itftools.placing import index_in
from itftools.shapes.curves import meeting

# What the lines of a kind are, in their order: c a curve, p a point of an object.
NAMED = {"MEETING": "cc", "UNDECIDED": "cc", "HINT": "cc", "ON": "pc", "OUTSIDE": "p", "TWO": "pp", "EMPTY": "c",
         "CUT": "c", "OPEN": "c", "UNJUDGED": "p"}


class Named:
    """The curves and points of a fact by their numbers in the area, its side, and where two straights meet.

    `region`, `ends` and `findings` are for those who look for them.
    """

    def __init__(self, area, fact=None, text=""):
        self.kind, self.text, self.fact = fact.kind if fact else "", text, fact
        self.curves, self.points, self.side = [], [], fact.side if fact else None
        self.region, self.ends, self.findings = None, [], []
        for kind, line in zip(NAMED.get(self.kind, ""), fact.lines if fact else ()):
            if kind == "c":
                self.curves.append(index_in(area.lines, line, "curve"))
            else:
                self.points.append(index_in(area.rows, line, "point"))
        self.place = meeting(area, *self.curves) if self.kind == "MEETING" else None
