#!/usr/bin/env python3
"""Compares `meetings::bad_meeting` with a plain reading of bad pairs, over random drawings.

usage: random_pairs.py COUNT [SEED]

Each drawing has straights and arcs through few points and through points of one circle, some lines
twice, some large, some with a coordinate moved by a unit; every third has up to forty lines. All
pairs are judged here, word by word, in whole numbers. Where two straights are bad, any such pair
may be named; else the least pair with a half arc; else none. The drawings are written as tables of
a test in a scratch repository, with the crates below it, and `rt try --test` runs them unproved.
"""
import pathlib
import random
import shutil
import subprocess
import sys
import tempfile

BELOW = ("ports", "plane", "straight_predicates", "arc_predicates", "line_sweep", "near_pairs",
         "meetings")
NEAR = 1 << 26
FAR = 1 << 28
ROWS = 25


# ---- bad pairs, by their definition


def cross(a, b, c):
    return (b[0] - a[0]) * (c[1] - a[1]) - (b[1] - a[1]) * (c[0] - a[0])


class Straight:
    def __init__(self, start, end):
        self.ends = (start, end)

    def holds(self, p):
        a, b = self.ends
        return (cross(a, b, p) == 0
                and (a[0] - p[0]) * (b[0] - p[0]) + (a[1] - p[1]) * (b[1] - p[1]) <= 0)


class HalfArc:
    def __init__(self, start, end, third):
        self.ends = (start, end)
        self.third = third
        self.wide, self.tall = end[0] - start[0], end[1] - start[1]
        x, y = third[0] - start[0], third[1] - start[1]
        chord, far = self.wide ** 2 + self.tall ** 2, x * x + y * y
        self.bend = self.wide * y - self.tall * x
        self.a = chord * y - far * self.tall
        self.b = self.wide * far - x * chord
        points = (start, end, third)
        self.judged = self.bend != 0 and all(
            abs(p[i] - q[i]) < NEAR for p in points for q in points for i in (0, 1))

    def seen(self, x, y, n):
        return x - self.ends[0][0] * n, y - self.ends[0][1] * n

    def has_side(self, place):
        x, y = self.seen(*place)
        return self.judged and abs(x) < FAR * place[2] and abs(y) < FAR * place[2]

    def power(self, place):
        x, y = self.seen(*place)
        return self.bend * (self.bend * (x * x + y * y) - (self.a * x + self.b * y) * place[2])

    def bow(self, place):
        x, y = self.seen(*place)
        return -self.bend * (self.wide * y - self.tall * x)

    def holds(self, p):
        place = (*p, 1)
        return self.has_side(place) and self.power(place) == 0 and self.bow(place) >= 0


def ends_on(one, other):
    return any(other.holds(p) and p not in other.ends for p in one.ends)


def crosses(straight, arc):
    if not isinstance(straight, Straight) or not isinstance(arc, HalfArc):
        return False
    if set(straight.ends) & set(arc.ends):
        return False
    a, b = straight.ends
    places = [((16 - k) * a[0] + k * b[0], (16 - k) * a[1] + k * b[1], 16) for k in range(17)]
    for pair in zip(places, places[1:]):
        if all(arc.has_side(p) and arc.bow(p) >= 0 for p in pair):
            if arc.power(pair[0]) * arc.power(pair[1]) < 0:
                return True
    return False


def are_one_arc(one, other):
    if not isinstance(one, HalfArc) or not isinstance(other, HalfArc):
        return False
    place = (*other.third, 1)
    return (set(one.ends) == set(other.ends) and one.has_side(place)
            and one.power(place) == 0 and one.bow(place) < 0)


def straights_meet(one, other):
    (a, b), (p, q) = one.ends, other.ends
    if cross(a, b, p) * cross(a, b, q) < 0 and cross(p, q, a) * cross(p, q, b) < 0:
        return True
    return ends_on(one, other) or ends_on(other, one) or {a, b} == {p, q}


def are_bad(one, other):
    if isinstance(one, Straight) and isinstance(other, Straight):
        return straights_meet(one, other)
    return (ends_on(one, other) or ends_on(other, one) or crosses(one, other)
            or crosses(other, one) or are_one_arc(one, other))


def curves_of(lines):
    """The curves of lines, each of two places, or of three for an arc."""
    curves = []
    for line in lines:
        if len(line) == 2:
            curves.append(Straight(*line))
        else:
            curves += [HalfArc(*line), HalfArc(line[1], line[2], line[0])]
    return curves


def bad_pairs(lines):
    """The pairs that may be named."""
    curves = curves_of(lines)
    straights, arcs = [], []
    for j, other in enumerate(curves):
        for i, one in enumerate(curves[:j]):
            if are_bad(one, other):
                both = isinstance(one, Straight) and isinstance(other, Straight)
                (straights if both else arcs).append((i, j))
    return straights or sorted(arcs)[:1]


# ---- drawings


def on_circle(square):
    return [(x, y) for x in range(-65, 66) for y in range(-65, 66) if x * x + y * y == square]


CIRCLES = [on_circle(r * r) for r in (5, 25, 50, 65)]


def is_line(line):
    return line[0] != line[1] if len(line) == 2 else cross(*line) != 0


def crowded(chance):
    """Few lines through few points and points of one circle."""
    span = chance.choice([6, 20, 130])
    pool = [(chance.randint(0, span), chance.randint(0, span)) for _ in range(9)]
    ring = [(x + 70, y + 70) for x, y in chance.choice(CIRCLES)]
    lines = []
    for _ in range(chance.randint(2, 6)):
        points = [chance.choice(ring if chance.random() < 0.55 else pool) for _ in range(3)]
        line = tuple(points[:2 if chance.random() < 0.45 else 3])
        if lines and chance.random() < 0.12:
            line = chance.choice(lines)[::chance.choice([1, -1])]
        if is_line(line):
            lines.append(line)
    scale = chance.choice([1, 1, 1, 1000, 1 << 18, 1 << 20])
    return [tuple((x * scale, y * scale) for x, y in line) for line in lines]


def wide(chance):
    """Many short lines that seldom meet."""
    span = chance.choice([600, 1500, 4000])
    lines = []
    for _ in range(chance.randint(15, 40)):
        x, y = chance.randint(70, span), chance.randint(70, span)
        points = [(x + a, y + b) for a, b in chance.sample(chance.choice(CIRCLES), 3)]
        line = tuple(points[:chance.choice([2, 3])])
        if is_line(line):
            lines.append(line)
    return lines


def moved(chance, lines):
    """With one coordinate a unit further, at times."""
    if lines and chance.random() < 0.1:
        i = chance.randrange(len(lines))
        line = [list(p) for p in lines[i]]
        chance.choice(line)[chance.choice([0, 1])] += 1
        line = tuple(map(tuple, line))
        if is_line(line):
            return lines[:i] + [line] + lines[i + 1:]
    return lines


# ---- the test


HEAD = """//! Random drawings.
#![tactic(auto)]
#[cfg(test)]
mod rows;
"""
TEST = """// Random drawings and the pairs that may be named.
ghost use Rattle.std.specs.Prelude.{◌≡◌, IsTrue, pos};
ghost use Rattle.plane.specs.Rule.Turns.{cross};
ghost use Rattle.plane.specs.Rule.Windows.{IsInside};

use meetings::bad_meeting;
use plane::{Drawing, Point, Window2};
use ports::Memory;
use std::alloc::Global;
use std::process::Abort;
use std::test::Fail;

const WINDOW: Window2 = Window2 {
    low: Point { x: 0, y: 0 },
    high: Point { x: 1_000_000_000, y: 1_000_000_000 },
};

type Row = (&'static [&'static [i64]], &'static [[u32; 2]]);

fn drawn(alloc: Global, lines: &[&[i64]]) -> Result<Drawing, Memory> {
    let mut drawing = Drawing::new(alloc, WINDOW);
    for line in lines {
        let from = Point { x: line[0], y: line[1] };
        let to = Point { x: line[2], y: line[3] };
        if line.len() == 4 {
            drawing.add_straight(from, to, 0)?;
        } else {
            drawing.add_arc(from, to, Point { x: line[4], y: line[5] }, 0, 0)?;
        }
    }
    Ok(drawing)
}

fn is_among(pairs: &[[u32; 2]], first: u32, second: u32) -> bool {
    pairs.iter().any(|pair| pair[0] == first && pair[1] == second)
}

fn judge(rt: &impl Abort, alloc: Global, number: usize, row: &Row) -> Result<(), Fail> {
    let drawing = drawn(alloc, row.0)?;
    match bad_meeting(alloc, &drawing)? {
        Some(pair) => {
            let named = is_among(row.1, pair.first, pair.second);
            assert!(rt; named, "row {}: {:?} of {:?}", number, pair, row.1);
        }
        None => {
            assert!(rt; row.1.is_empty(), "row {}: none of {:?}", number, row.1);
        }
    }
    Ok(())
}
"""


def table(number, rows):
    lines = [f"\nconst ROWS_{number}: [Row; {len(rows)}] = ["]
    for drawing, pairs in rows:
        drawn = ", ".join("&[" + ", ".join(str(c) for p in line for c in p) + "]"
                          for line in drawing)
        named = ", ".join(f"[{i}, {j}]" for i, j in pairs)
        lines.append(f"    (&[{drawn}], &[{named}]),")
    lines.append(f"""];

#[test]
fn rows_{number}(rt: HostRuntime) -> Result<(), Fail> {{
    for (number, row) in ROWS_{number}.iter().enumerate() {{
        judge(&rt, rt.alloc(), number, row)?;
    }}
    Ok(())
}}""")
    return "\n".join(lines) + "\n"


def scratch(top, work, below, name, text):
    """A repository with the crates below, and one of that name whose tests are the text."""
    listed = (top / "crates.txt").read_text().splitlines()
    kept = [line for line in listed if line.split(":")[0] in below]
    (work / "crates.txt").write_text("\n".join(kept + [f"{name}: " + " ".join(below)]) + "\n")
    for crate in below:
        for part in ("src", "specs", "proofs"):
            if (top / "crates" / crate / part).exists():
                shutil.copytree(top / "crates" / crate / part, work / "crates" / crate / part)
    tests = work / "crates" / name
    (tests / "src").mkdir(parents=True)
    (tests / "src" / "lib.rt").write_text(HEAD)
    (tests / "src" / "rows.rt").write_text(text)
    return tests


def main():
    count = int(sys.argv[1])
    chance = random.Random(int(sys.argv[2]) if len(sys.argv) > 2 else 1)
    rows = []
    while len(rows) < count:
        lines = moved(chance, wide(chance) if chance.random() < 0.33 else crowded(chance))
        rows.append((lines, bad_pairs(lines)))
    top = pathlib.Path(__file__).resolve().parent.parent
    text = TEST + "".join(table(i // ROWS, rows[i:i + ROWS]) for i in range(0, len(rows), ROWS))
    with tempfile.TemporaryDirectory() as work:
        tests = scratch(top, pathlib.Path(work), BELOW, "random_pairs", text)
        ran = subprocess.run(["rt", "try", "--test"], cwd=tests, capture_output=True, text=True)
    told = [line for line in (ran.stdout + ran.stderr).splitlines()
            if "test result" in line or "row " in line or "error" in line]
    print("\n".join(told[:20]))
    print(f"{count} drawings, {sum(1 for row in rows if not row[1])} without a bad pair")
    sys.exit(ran.returncode)


if __name__ == "__main__":
    main()
