"""Areas, faults and findings as GeoJSON, feature by feature, with the coordinates of the transfer."""
import json

from itftools.drawing.dxf import words_of
from itftools.shapes.curves import STEP, beside, length, trace


class GeoJson:
    """A collection of features, written one by one."""

    def __init__(self, file):
        self.file, self.count = file, 0
        note = (f"Drawn by itf draw, which proves nothing. Coordinates are those of the transfer."
                f" Half arcs are polylines with steps of at most {STEP} degrees.")
        file.write('{"type": "FeatureCollection", "note": "%s", "features": [' % note)

    def end(self):
        self.file.write("\n]}\n")

    def feature(self, kind, coordinates, properties):
        self.file.write('%s\n{"type": "Feature", "properties": %s, "geometry": {"type": "%s",'
                        ' "coordinates": %s}}' % ("," if self.count else "", json.dumps(properties),
                                                  kind, coordinates))
        self.count += 1

    def area(self, area):
        name = " ".join(area.words)
        for index, line in enumerate(area.lines):
            self.feature("LineString", self.curve(area, index),
                         {"kind": "curve", "area": name, "line": line})
        for index, line in enumerate(area.rows):
            self.feature("Point", self.place(area.scale, area.point(index)),
                         {"kind": "point", "area": name, "line": line})

    def fault(self, area, fault):
        scale = area.scale
        known = {"kind": "fault", "area": " ".join(area.words), "answer": fault.text}
        if fault.region:
            rings = [[self.place(scale, *at) for at in fault.region.ring(cycle)]
                     for cycle in fault.region.cycles]
            rings = ("[%s]" % ", ".join(ring + ring[:1]) for ring in rings)
            self.feature("Polygon", "[%s]" % ", ".join(rings),
                         {**known, "part": "region", "size": float(fault.region.size_told())})
        for index in fault.curves:
            self.feature("LineString", self.curve(area, index),
                         {**known, "part": "curve", "line": area.lines[index]})
        for index in fault.points:
            self.feature("Point", self.place(scale, area.point(index)),
                         {**known, "part": "point", "line": area.rows[index]})
        for end in fault.ends:
            self.feature("Point", self.place(scale, end.place),
                         {**known, "part": "end", "line": area.lines[end.curve]})
        if fault.side:
            curve = area.curve(fault.curves[0])
            ends = beside(curve, 0.5, fault.side, length(curve) / 10)
            places = ", ".join(self.place(scale, curve[0], end) for end in ends)
            self.feature("LineString", f"[{places}]", {**known, "part": "side"})
        if fault.place:
            start = area.curve(fault.curves[0])[0]
            self.feature("Point", self.place(scale, start, fault.place), {**known, "part": "place"})

    def finding(self, finding):
        row = finding.row
        known = {"kind": "finding", "answer": finding.text, "line": row.number, "object": row.object,
                 "table": f"{row.topic} {row.table}"}
        if finding.attribute:
            known["attribute"] = finding.attribute
        self.feature("Point", "[%r, %r]" % tuple(map(float, row.place)), known)

    def curve(self, area, index):
        curve = area.curve(index)
        places = [self.place(area.scale, curve[0])]
        if curve[2]:
            places += [self.place(area.scale, curve[0], offset) for offset in trace(curve)]
        return "[%s]" % ", ".join(places + [self.place(area.scale, curve[1])])

    @staticmethod
    def place(scale, place, offset=None):
        return "[%s, %s]" % words_of(scale, place, offset)
