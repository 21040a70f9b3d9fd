#!/usr/bin/env python3
"""Compares `forks::bent` with a plain reading of what an overlap permits, over random drawings.

usage: random_forks.py COUNT [SEED]

Each drawing has arcs through points of a few circles, which share ends at times, and straights that
leave their ends along the tangent or beside it, on either side, some from arc to arc, some just too
short; others lie across. Some windows end close to a bend. Some points lie on a bend, on a part or
on a straight. The bent drawing is that of plain_forks.py. The drawings are written as tables of a
test in a scratch repository, with the crates below it, and `rt try --test` runs them unproved.
"""
import math
import pathlib
import random
import subprocess
import sys
import tempfile

import random_pairs
from plain_forks import bent, is_inside
from random_pairs import HEAD, Straight, cross, curves_of

BELOW = ("ports", "plane", "straight_predicates", "arc_predicates", "near_pairs", "forks")
ROWS = 25
SPAN = 1 << 21


def on_ring(chance, centre, radius):
    """A place close to the circle, and the angle at which it stands."""
    angle = chance.choice([chance.uniform(0, 2 * math.pi), chance.randrange(8) * math.pi / 4])
    return round(centre[0] + radius * math.cos(angle)), round(centre[1] + radius * math.sin(angle))


def tangent(chance, centre, place, far):
    """A place at that distance from a place of a circle, close to its tangent there."""
    x, y = place[0] - centre[0], place[1] - centre[1]
    off = chance.choice([0, 0, chance.uniform(-0.07, 0.07), chance.uniform(-0.07, 0.07)])
    angle = math.atan2(y, x) + chance.choice([1, -1]) * math.pi / 2 + off
    return round(place[0] + far * math.cos(angle)), round(place[1] + far * math.sin(angle))


def lines_of(chance, tolerance):
    centre = (SPAN // 2 + chance.randint(-9, 9), SPAN // 2 + chance.randint(-9, 9))
    radius = chance.choice([500, 5000, 40000])
    ends = [on_ring(chance, centre, radius) for _ in range(chance.randint(3, 5))]
    lines = []
    for _ in range(chance.randint(1, 4)):
        lines.append(tuple(chance.sample(ends, 3)))
    for _ in range(chance.randint(1, 6)):
        far = max(1, tolerance) * chance.choice([32, 33, 40, 100]) + chance.choice([-1, 0, 1, 7])
        start = chance.choice(ends)
        end = tangent(chance, centre, start, far)
        if chance.random() < 0.15:
            end = chance.choice(ends)
        lines.append((start, end) if chance.random() < 0.5 else (end, start))
    chance.shuffle(lines)
    return [line for line in lines if is_line(line)]


def is_line(line):
    return line[0] != line[1] if len(line) == 2 else cross(*line) != 0


def window_of(chance, lines, curves, tolerance):
    """The whole plane of the test, or a window that ends close to the lines."""
    whole = ((0, 0), (SPAN, SPAN))
    if chance.random() < 0.6:
        return whole
    places = [p for line in lines for p in line]
    slack = chance.choice([0, 1, tolerance])
    low = tuple(min(p[i] for p in places) - slack for i in (0, 1))
    high = tuple(max(p[i] for p in places) + slack for i in (0, 1))
    return low, high


def points_of(chance, curves, window, tolerance):
    """Places on bends, parts and straights, and beside them."""
    pieces = [piece for _, piece in bent(curves, [], window, tolerance)]
    points = []
    for piece in pieces:
        if isinstance(piece, Straight) and chance.random() < 0.12:
            (ax, ay), (bx, by) = piece.ends
            parts = math.gcd(bx - ax, by - ay)
            k = chance.randint(0, parts)
            p = (ax + (bx - ax) // parts * k, ay + (by - ay) // parts * k)
            points.append((p[0] + chance.choice([0, 0, 1]), p[1]))
    return [p for p in points if is_inside(window, p)]


def row_of(chance):
    tolerance = chance.choice([0, 7, 8, 9, 20, 50, 300])
    lines = lines_of(chance, tolerance)
    curves = curves_of(lines)
    if not lines:
        return row_of(chance)
    window = window_of(chance, lines, curves, tolerance)
    points = points_of(chance, curves, window, tolerance)
    return lines, points, window, tolerance, bent(curves, points, window, tolerance)


# ---- the test


TEST = """// Random drawings and what becomes of them.
ghost use Rattle.std.specs.Prelude.{◌≡◌, IsTrue, pos};
ghost use Rattle.plane.specs.Rule.Turns.{cross};
ghost use Rattle.plane.specs.Rule.Windows.{IsInside};

use forks::bent;
use plane::{Curve, Drawing, Point, Window2};
use ports::Memory;
use std::alloc::Global;
use std::process::Abort;
use std::test::Fail;

struct Row {
    lines: &'static [&'static [i64]],
    points: &'static [[i64; 2]],
    window: [i64; 4],
    tolerance: i64,
    wanted: &'static [[i64; 5]],
}

fn drawn(alloc: Global, row: &Row) -> Result<Drawing, Memory> {
    let [left, under, right, over] = row.window;
    let window = Window2 {
        low: Point { x: left, y: under },
        high: Point { x: right, y: over },
    };
    let mut drawing = Drawing::new(alloc, window);
    for line in row.lines {
        let from = Point { x: line[0], y: line[1] };
        let to = Point { x: line[2], y: line[3] };
        if line.len() == 4 {
            drawing.add_straight(from, to, 0)?;
        } else {
            drawing.add_arc(from, to, Point { x: line[4], y: line[5] }, 0, 0)?;
        }
    }
    for [x, y] in row.points {
        drawing.add_point(Point { x: *x, y: *y }, 0)?;
    }
    drawing.set_tolerance(row.tolerance);
    Ok(drawing)
}

fn is_wanted(curve: &Curve, origin: u32, wanted: &[i64; 5]) -> bool {
    let [number, x, y, to_x, to_y] = *wanted;
    i64::from(origin) == number
        && curve.from == Point { x, y }
        && curve.to == Point { x: to_x, y: to_y }
}

fn judge(rt: &impl Abort, alloc: Global, number: usize, row: &Row) -> Result<(), Fail> {
    let drawing = drawn(alloc, row)?;
    let found = bent(alloc, &drawing)?;
    let curves = found.drawing.curves.as_slice();
    assert!(rt; curves.len() == row.wanted.len(), "row {}: {} curves", number, curves.len());
    for (k, wanted) in row.wanted.iter().enumerate() {
        let same = is_wanted(&curves[k], found.origin[k], wanted);
        assert!(rt; same, "row {}: {:?} of {}", number, curves[k], found.origin[k]);
    }
    Ok(())
}
"""


def numbers(values):
    return "[" + ", ".join(str(value) for value in values) + "]"


def text_of(row):
    lines, points, window, tolerance, wanted = row
    drawn = ", ".join("&" + numbers(c for p in line for c in p) for line in lines)
    placed = ", ".join(numbers(p) for p in points)
    frame = numbers(c for p in window for c in p)
    named = ", ".join(numbers([n, *curve.ends[0], *curve.ends[1]]) for n, curve in wanted)
    return (f"    Row {{ lines: &[{drawn}], points: &[{placed}], window: {frame},"
            f" tolerance: {tolerance}, wanted: &[{named}] }},")


def table(number, rows):
    body = "\n".join(text_of(row) for row in rows)
    return f"""
const ROWS_{number}: [Row; {len(rows)}] = [
{body}
];

#[test]
fn rows_{number}(rt: HostRuntime) -> Result<(), Fail> {{
    for (number, row) in ROWS_{number}.iter().enumerate() {{
        judge(&rt, rt.alloc(), {number} * {ROWS} + number, row)?;
    }}
    Ok(())
}}
"""


def main():
    count = int(sys.argv[1])
    chance = random.Random(int(sys.argv[2]) if len(sys.argv) > 2 else 1)
    rows = [row_of(chance) for _ in range(count)]
    text = TEST + "".join(table(i // ROWS, rows[i:i + ROWS]) for i in range(0, len(rows), ROWS))
    top = pathlib.Path(__file__).resolve().parent.parent
    with tempfile.TemporaryDirectory() as work:
        tests = random_pairs.scratch(top, pathlib.Path(work), BELOW, "random_forks", text)
        ran = subprocess.run(["rt", "try", "--test"], cwd=tests, capture_output=True, text=True)
    told = [line for line in (ran.stdout + ran.stderr).splitlines()
            if "test result" in line or "row " in line or "error" in line]
    print("\n".join(told[:20]))
    changed = sum(1 for row in rows if len(row[4]) > len(curves_of(row[0])))
    print(f"{count} drawings, {changed} with a bend, {sum(1 for row in rows if row[1])} with points")
    sys.exit(ran.returncode)


if __name__ == "__main__":
    main()
