#!/usr/bin/env bash
# Runs the sweep alone (`meetings::bad_meeting` over a drawing) on 501,000 straights of a square
# grid and on 900,600 of a drawing of parcels, beside a plain C++ sweep over the same numbers. What
# reading the numbers takes is measured by itself and taken away from both. The program over
# `meetings` is built in a scratch folder. Prints ratios, no absolute times.
#
# usage: bench/sweep.sh      (building proves `plane` and the crates above it: some minutes)
. "$(dirname "${BASH_SOURCE[0]}")/begin.sh"
. "$top/bench/measure.sh"
. "$top/bench/scratch.sh"
below='ports plane straight_predicates arc_predicates line_sweep near_pairs meetings'
scratch_crate sweep_bench "$below" $below
cat > "$crate/src/main.rt" <<'END'
// Reads straights as 32-bit numbers and tells whether two of them meet badly; with any word it only
// draws them.
#![tactic(auto)]

ghost use Rattle.std.specs.Prelude.{IsTrue};
ghost use Rattle.plane.specs.Rule.Windows.{IsInside};
ghost use Rattle.meetings.specs.StraightEdges.{AreStraights};

use meetings::bad_meeting;
use plane::{Drawing, Point, Window2};
use ports::{Memory, RealShelf, Shelf};
use std::alloc::Global;
use std::env::Env;

END
sh "$top/bench/straights.sh" 'requires { AreStraights drawing.old.curves.items }' \
    'ensures { AreStraights drawing.new.curves.items }' >> "$crate/src/main.rt"
cat >> "$crate/src/main.rt" <<'END'
fn drawing_of(alloc: Global, bytes: &[u8]) -> Drawing
    ensures { AreStraights result.curves.items }
{
    let mut drawing = Drawing::new(alloc, WINDOW);
    for line in bytes.chunks_exact(16) {
        let from = Point { x: number(line.get(..4)), y: number(line.get(4..8)) };
        let to = Point { x: number(line.get(8..12)), y: number(line.get(12..)) };
        add_straight(&mut drawing, from, to);
    }
    drawing
}

fn main(rt: HostRuntime) {
    let alloc = rt.alloc();
    let mut word = [0u8; 16];
    let only_read = rt.arg(1, &mut word).is_ok();
    let mut shelf = RealShelf::new(rt);
    let Ok(bytes) = whole_file(alloc, &mut shelf, "straights") else {
        return;
    };
    let drawing = drawing_of(alloc, &bytes);
    if only_read {
        let _ = println!(rt; "{} straights", drawing.curves.len());
        return;
    }
    match bad_meeting(alloc, &drawing) {
        Ok(Some(pair)) => {
            let _ = println!(rt; "{} and {} meet", pair.first, pair.second);
        }
        Ok(None) => {
            let _ = println!(rt; "good");
        }
        Err(Memory) => {
            let _ = println!(rt; "out of memory");
        }
    }
}
END
mkdir -p "$crate/proofs/drawing_of"
cat > "$crate/proofs/drawing_of/Invariants.antt" <<'END'
use Rattle.std.proofs.Common.{◌≡◌, ℕ}
use Rattle.meetings.specs.StraightEdges.{AreStraights}
use Rattle.sweep_bench.proofs.drawing_of.Given as goal

abbrev pub invariant-loop-line : goal.invariant-loop-line
invariant-loop-line l =
    (goal.iterator-loop-line).can_next l.line-iterator
    × (goal.iterator-loop-line).is_finite l.line-iterator
    × AreStraights l.drawing.curves.items
END
build_scratch_crate
g++ -O2 -std=c++17 -o plain "$top/bench/plain_sweep.cpp"
for drawing in 'grid 500' 'parcels 100000'; do
    python3 "$top/bench/drawings.py" $drawing "$work"
    straights=$(( $(stat -c %s straights) / 16 ))
    read -r own own_peak <<< "$(measure 0 "$program")"
    read -r own_read read_peak <<< "$(measure 0 "$program" read)"
    read -r plain plain_peak <<< "$(measure 0 ./plain straights)"
    read -r plain_read _ <<< "$(measure 0 ./plain straights read)"
    awk -v d="$drawing" -v n="$straights" -v a="$own" -v b="$own_read" -v c="$plain" -v e="$plain_read" \
        -v m="$own_peak" -v r="$read_peak" -v p="$plain_peak" 'BEGIN {
        printf "%s: %d straights\n", d, n
        printf "CPU time of the sweep: %.2f times the plain C++ sweep\n", (a - b) / (c - e)
        printf "peak memory, the drawing included: %.0f bytes a straight (plain: %.0f)\n", m * 1024 / n, p * 1024 / n
        printf "of it before the sweep, with the bytes that were read: %.0f\n", r * 1024 / n
    }'
done
