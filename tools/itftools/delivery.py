"""Model, transfer and facts of one check, put together: each fact gets its rows, a place and its lines.

It proves nothing, and adds no fact. Hints for areas that are not decided are its own, and say so.
"""
from itftools.facts import LIST_HEAD, Fact, Facts
from itftools.files import file_facts, text_in
from itftools.numbers import decimal
from itftools.placing import Placing
from itftools.reading.model import model_in
from itftools.reading.objects import Objects
from itftools.reading.rows import Rows
from itftools.reading.surfaces import Edges
from itftools.reading.transfer import Form, logical_lines, physical_lines
from itftools.refusal import Refusal
from itftools.saying.words import shown
from itftools.shapes.curves import trace
from itftools.shapes.ends import free_ends
from itftools.shapes.ends import nearest as nearest_ends
from itftools.shapes.hints import hints_of
from itftools.shapes.sides import Sides

MOST_ENDS = 20000000       # of faults times free ends; of more the free ends are not told
MOST_SIDES = 3000          # faults of regions of which the parcels beside them are looked for
SYSTEMS = {2056: (2480000, 1070000, 2840000, 1300000), 21781: (480000, 70000, 840000, 300000)}
OF_OTHER_COMMANDS = {"TRIAL": "a trial has no transfer", "TABLE": "of `compile` it says nothing of a transfer"}


class Names:
    """The names of the files of a check. REPORT may be a file of faults; FAULTS may be None."""

    def __init__(self, model, transfer, report, faults=None):
        self.model, self.transfer, self.report, self.faults = model, transfer, report, faults

    def texts(self):
        """The texts of the report and of the file of faults, either or None."""
        report = text_in(self.report)
        if report.startswith(LIST_HEAD) and self.faults is None:
            return None, report
        return report, None if self.faults is None else text_in(self.faults)

    def by_role(self):
        return [(role, name) for role, name in (("model", self.model), ("transfer", self.transfer),
                                                ("report", self.report), ("faults", self.faults)) if name]


class Delivery:
    """Model, transfer, report and faults of one check, put together.

    `lines` says which lines of areas are read: all, those of areas with a fault, or none.
    """

    def __init__(self, names, crs="guess", with_objects=False, areas="all"):
        self.names, self.model_name, self.transfer_name = names, names.model, names.transfer
        self.files = [file_facts(role, name) for role, name in names.by_role()]
        self.told = Facts(*names.texts())
        self.facts = self.told.facts
        self.has_list = self.told.version is not None
        self.model, self.areas, self.rows, self.edges, self.scale = None, [], {}, [], 3
        self.by_words, self.physical = {}, {}
        self.with_objects, self.objects = with_objects, None
        if not self.told.stop and not self.told.commands:
            self.read(areas)
        self.stop_text = self.model_line() if self.told.stop and self.told.stop[0] == "MODEL" else None
        self.add_hints()
        placing = Placing(self)
        for fact in self.facts:
            placing.place(fact)
        self.crs, self.crs_from = self.system(crs)

    def of_check(self):
        """Itself, where the report is one of a transfer; else a Refusal."""
        for word, what in OF_OTHER_COMMANDS.items():
            if word in self.told.commands:
                raise Refusal("the report is of another command: " + what)
        return self

    def read(self, areas):
        self.model = model_in(self.model_name)
        self.areas = self.model.areas
        self.by_words = {area.words: area for area in self.areas}
        for part in self.told.parts:
            if part.kind == "AREA" and part.names not in self.by_words:
                raise Refusal("the model has no area for this: " + " ".join(part.names))
        self.scale = max([min(area.scale, 6) for area in self.areas], default=3)
        wanted = {line for fact in self.facts for line in fact.all_lines()}
        if self.facts and self.facts[0].kind.startswith("STRUCTURE_"):
            self.read_physical(wanted)
            return
        findings = any(fact.kind.startswith("FINDING_") for fact in self.facts)
        if areas != "all" and not findings:
            at_fault = {fact.part.names for fact in self.facts if fact.part}
            for area in self.areas:
                area.is_read = area.words in at_fault
        rows, edges = Rows(self.model, wanted), Edges(self.model, self.scale)
        with open(self.transfer_name, "rb") as file:
            lines = logical_lines(file, self.model.goes_on)
            lines = rows.of(lines) if wanted else lines
            lines = edges.of(lines) if edges.tables else lines
            if self.with_objects:
                self.objects = Objects(self.model)
                lines = self.objects.of(lines)
            Form(lines, self.model, findings).text()
        self.rows, self.edges = rows.found, edges

    def read_physical(self, wanted):
        """Of a text that is no transfer the lines at fault alone are read."""
        self.areas = []
        with open(self.transfer_name, "rb") as file:
            for number, line in physical_lines(file):
                if number in wanted:
                    self.physical[number] = line
                    break

    def model_line(self):
        """The line at which a model is refused, with a mark before the column."""
        line, column = int(self.told.stop[2]), int(self.told.stop[3])
        with open(self.model_name, "rb") as file:
            text = next((text for number, text in physical_lines(file) if number == line), None)
        if text is None:
            return None
        front = text[max(column - 81, 0):column - 1]
        return {"line": line, "column": column, "text": shown(front) + "\u25b6" + shown(text[column - 1:][:80])}

    def step(self, area):
        """How many units of the delivery one unit of an area is."""
        return 10 ** (self.scale - min(area.scale, 6))

    def add_hints(self):
        """Of areas that are not decided the page says itself what may be the cause; that is no finding."""
        hints, told = [], {tuple(fact.lines) for fact in self.facts}
        for part in {fact.part: 0 for fact in self.facts if fact.kind in ("UNDECIDED", "UNSETTLED")}:
            area = self.by_words[part.names]
            for how, gap, place, first, second in hints_of(area):
                lines = [area.lines[first], area.lines[second]]
                if tuple(lines) in told and how != "hintHalf":
                    continue
                step = self.step(area)
                hint = Fact("HINT", part, lines, extra={"how": how, "depth_units": gap * step})
                hint.units = (round(place[0] * step), round(place[1] * step))
                hints.append(hint)
        if hints:
            rows = Rows(self.model, {line for hint in hints for line in hint.lines} - set(self.rows))
            with open(self.transfer_name, "rb") as file:
                for _ in rows.of(logical_lines(file, self.model.goes_on)):
                    pass
            self.rows.update(rows.found)
            self.facts += hints

    # Hints for pages and layers: free ends near a point, parcels beside a region.

    def with_hints(self):
        """Itself, with free ends and parcels beside regions at its facts."""
        self.add_ends()
        self.add_sides()
        return self

    def add_ends(self):
        """To OUTSIDE and TWO the free ends nearest to their points: a gap may be the cause. They are hints."""
        for area, here in self.by_area(("OUTSIDE", "TWO")):
            step = self.step(area)
            free = list(free_ends(area, 10 ** area.scale))
            for fact in here if len(here) * len(free) <= MOST_ENDS else ():
                place = tuple(value / step for value in fact.unit)
                fact.extra["ends"] = [self.free_end(area, step, *one) for one in nearest_ends(free, place, 3)]

    def by_area(self, kinds):
        """The areas with facts of some kinds, and these."""
        facts = {}
        for fact in self.facts:
            if fact.kind in kinds:
                facts.setdefault(fact.part.names, []).append(fact)
        return [(self.by_words[names], here) for names, here in facts.items()]

    def free_end(self, area, step, way, end):
        (x, y), line, other = end
        unit = 10 ** area.scale
        return {"at": list(self.text_of((x * step, y * step))), "line": line, "way": round(way / unit, area.scale),
                "gap": other and round(other[0] / unit, area.scale), "gap_line": other and other[1]}

    def add_sides(self):
        """To EMPTY, OPEN and CUT the parcels on both sides of their line, and those beside the region."""
        for area, here in self.by_area(("EMPTY", "OPEN", "CUT")):
            if len(here) > MOST_SIDES:
                continue
            bad = [fact for fact in self.facts if fact.kind in ("MEETING", "UNDECIDED") and fact.part is here[0].part]
            sides = Sides(area, here, bad)
            for fact in here:
                fact.extra.update(sides.of(fact))
        wanted = {side["line"] for fact in self.facts for side in named_sides(fact)}
        if wanted:
            rows = Rows(self.model, wanted)
            with open(self.transfer_name, "rb") as file:
                for _ in rows.of(logical_lines(file, self.model.goes_on)):
                    pass
            for fact in self.facts:
                for side in named_sides(fact):
                    side["tid"] = shown(rows.found[side["line"]].object)

    def text_of(self, place):
        return tuple(decimal(round(number), self.scale) for number in place)

    # The reference system.

    def boxes(self):
        for area in self.areas:
            step = 10 ** area.scale
            for xs, ys in ((area.x0, area.y0), (area.px, area.py)):
                if len(xs):
                    yield tuple(value / step for value in (min(xs), min(ys), max(xs), max(ys)))
        if self.edges and self.edges.box():
            yield tuple(value / 10 ** self.scale for value in self.edges.box())

    def system(self, wanted):
        if wanted != "guess":
            return (None if wanted == "none" else int(wanted)), "option"
        boxes = list(self.boxes())
        for epsg, (left, low, right, high) in SYSTEMS.items():
            if boxes and all(left <= box[0] and box[2] <= right and low <= box[1] and box[3] <= high
                             for box in boxes):
                return epsg, "coordinates"
        return None, "unknown"


def named_sides(fact):
    """The parcels that are named beside a fault, each a dictionary with its line."""
    return [side for key in ("sides_of_line", "beside") for side in fact.extra.get(key, ()) if side.get("line")]


def scaled(places, step):
    return [(round(x * step), round(y * step)) for x, y in places]


def lines_of_area(area):
    """The lines of an area: the line of the transfer that ends the first curve, and the places."""
    x0, y0, x1, y1, thirds, lines = area.x0, area.y0, area.x1, area.y1, area.thirds, area.lines
    line, first = [], 0
    for index in range(len(lines)):
        start = x0[index], y0[index]
        if not line or line[-1] != start or lines[index] - lines[index - 1] > 2:
            if line:
                yield first, line
            line, first = [start], lines[index]
        if index in thirds:
            line += [(start[0] + round(x), start[1] + round(y)) for x, y in trace(area.curve(index))]
        line.append((x1[index], y1[index]))
    if line:
        yield first, line


def polylines(delivery):
    """All lines: the part, the line of the transfer, and the vertices in units."""
    for number, area in enumerate(delivery.areas):
        step = delivery.step(area)
        for first, line in lines_of_area(area):
            yield number, first, scaled(line, step) if step != 1 else line
    for line in delivery.edges:
        yield -1, line.numbers[1], line.drawn()


def points(delivery):
    for number, area in enumerate(delivery.areas):
        step = delivery.step(area)
        for index in range(len(area.rows)):
            yield number, area.rows[index], (area.px[index] * step, area.py[index] * step)
