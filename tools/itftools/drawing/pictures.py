"""The files of `itf draw`: an SVG of each area, `areas.geojson` and `faults.dxf`. It takes facts of a delivery."""
import os

from itftools.drawing.dxf import Dxf
from itftools.drawing.geojson import GeoJson
from itftools.drawing.svg import Svg, shown_box
from itftools.reading.transfer import structure
from itftools.refusal import Refusal
from itftools.shapes.named import Named
from itftools.shapes.regions import Index, free_ends_of_fault, region_of_fault

RADIUS = 1.0            # of circles in a CAD round findings and all faults, in coordinates


class Finding:
    """A finding, with the row of its line."""

    def __init__(self, fact, text, row):
        self.text, self.code, self.row, self.attribute = text, fact.extra["code"], row, fact.extra["attribute"]

    def is_of(self, area):
        """Whether it is in a table of this area, and has a place."""
        tables = area.words[1], "_".join(area.words[1:])
        return self.row.place and self.row.topic == area.words[0] and self.row.table in tables

    def place_in(self, area):
        """Its place in whole units of an area, further decimals rounded."""
        return tuple(round(float(word) * 10 ** area.scale) for word in self.row.place)


def text_in_area(fact):
    """What a fact of an area says behind the names of the area."""
    return " ".join([fact.kind, *map(str, fact.lines), *([fact.side] if fact.side else [])])


class ListedDrawing:
    """What is drawn of a file of all faults: these alone."""

    def __init__(self, delivery):
        told = [fact for fact in delivery.facts if fact.part and fact.part.kind == "AREA" and fact.lines
                and fact.kind != "HINT"]
        if not delivery.told.parts:
            raise Refusal("the file of faults tells of no area: give the report in its place")
        self.faults = [(area, self.fault(area, fact)) for fact in told
                       for area in [delivery.by_words[fact.part.names]]]

    @staticmethod
    def fault(area, fact):
        named = Named(area, fact, text_in_area(fact))
        area.index = area.index or Index(area)
        named.region = region_of_fault(area, named)
        return named

    def write(self, folder):
        os.makedirs(folder, exist_ok=True)
        write_faults(folder, [], self.faults, [], RADIUS)
        print(len(self.faults), "faults in areas.geojson and faults.dxf of", folder)


class Drawing:
    """What is drawn: the areas of a model with their faults, and the findings."""

    def __init__(self, delivery, faults_alone):
        told, self.faults_alone = delivery.told, faults_alone
        if told.verdict is None or delivery.model is None:
            raise Refusal("the report tells of no area: " + told.entries[0].text[:100])
        if delivery.facts and delivery.facts[0].kind.startswith("STRUCTURE_"):
            raise structure(delivery.facts[0].lines[0], delivery.facts[0].kind.partition("_")[2])
        self.findings = [Finding(entry.fact, entry.text, delivery.rows[entry.fact.lines[0]])
                         for entry in told.entries if entry.words[0] == "FINDING"]
        answers = {part.names: " ".join(part.answer) for part in told.parts if part.kind == "AREA"}
        facts = {entry.part.names: entry.fact for entry in told.entries if entry.part and entry.fact
                 and entry.part.kind == "AREA"}
        for fact in delivery.facts:
            if fact.kind == "NOTPROVED":
                for area in delivery.areas[fact.extra["number"]:][:1]:
                    answers[area.words] = "NOTPROVED " + fact.extra["rule"]
        self.areas = []
        for area in delivery.areas:
            if area.is_read:
                self.add(area, facts.get(area.words), answers.get(area.words, ""))

    def add(self, area, fact, answer):
        fault = Named(area, fact, answer)
        fault.region = region_of_fault(area, fault)
        fault.ends = free_ends_of_fault(area, fault)
        fault.findings = [finding for finding in self.findings if finding.is_of(area)]
        if fault.findings:
            fault.kind = "FINDING"
            fault.text = f"{len(fault.findings)} findings, of which the first is {fault.findings[0].text}"
        if fault.findings or not self.faults_alone or fact:
            self.areas.append((area, fault))

    def write(self, folder, whole):
        os.makedirs(folder, exist_ok=True)
        placed = [finding for finding in self.findings if finding.row.place]
        drawn = [] if self.faults_alone else [area for area, _ in self.areas]
        write_faults(folder, drawn, self.areas, placed)
        for area, fault in self.areas:
            name = os.path.join(folder, ".".join(area.words) + ".svg")
            with open(name, "w", encoding="ascii") as file:
                Svg(file, area, fault, shown_box(area, fault, whole)).picture()
            print(name, "shows", fault.text or "an area without an answer")
        if len(placed) < len(self.findings):
            print(len(self.findings) - len(placed), "findings have no place: `itf tell` says what they name")


def write_faults(folder, areas, faults, findings, radius=None):
    """Writes the faults for a GIS and for a CAD, after these areas, and before these findings."""
    with open(os.path.join(folder, "areas.geojson"), "w", encoding="ascii") as file:
        collection = GeoJson(file)
        for area in areas:
            collection.area(area)
        for area, fault in faults:
            collection.fault(area, fault)
        for finding in findings:
            collection.finding(finding)
        collection.end()
    with open(os.path.join(folder, "faults.dxf"), "w", encoding="ascii", newline="\r\n") as file:
        drawing = Dxf(file)
        for area, fault in faults:
            if fault.curves or fault.points:
                drawing.fault(area, fault, radius)
        for finding in findings:
            drawing.finding(finding, RADIUS)
        drawing.end()
