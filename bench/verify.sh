#!/usr/bin/env bash
# Runs `certificate_checker::check` alone over a drawing and its filed certificate: 501,000
# straights of a square grid and 900,600 of a drawing of parcels, beside a plain C++ sweep over the
# same numbers. What reading the numbers and the certificate takes is measured by itself and taken
# away, and what reading the numbers takes from the plain sweep. Memory is what `check` takes above
# the drawing and the certificate, which are held before it begins. Then it runs over strokes that
# are live at once all but two, at two sizes: each event moves a part of the live list. The
# certificates are made by `check` of the built program that is named, else by
# plain_certificate.py; the program over `certificate_checker` is built in a scratch folder. Prints
# ratios, no absolute times.
#
# usage: bench/verify.sh [ITFCHECK]      (building proves `certificate_checker` and the crates below
#                                         it: some minutes)
. "$(dirname "${BASH_SOURCE[0]}")/begin.sh"
. "$top/bench/measure.sh"
. "$top/bench/scratch.sh"
itfcheck=${1:+$(realpath "$1")}
scratch_crate verify_bench 'ports plane certificate certificate_checker' \
    ports file_pages plane half_edges straight_predicates arc_predicates near_pairs forks event_mesh tubes \
    certificate certificate_checker
cat > "$crate/src/main.rt" <<'END'
// Reads straights and points as 32-bit numbers and a certificate, and checks it. With a word that
// begins with r it only reads; with one that begins with w it opens the files `held` and `go`
// before it checks, which are pipes that stop it there.
#![tactic(auto)]

ghost use Rattle.std.specs.Prelude.{IsTrue};
ghost use Rattle.plane.specs.Rule.Windows.{IsInside};

use certificate::{Certificate, read};
use certificate_checker::{Verdict, check};
use plane::{Drawing, Point, Window2};
use ports::{Memory, RealShelf, Shelf};
use std::alloc::Global;
use std::env::Env;

END
sh "$top/bench/straights.sh" >> "$crate/src/main.rt"
cat >> "$crate/src/main.rt" <<'END'
fn add_point(drawing: &mut Drawing, at: Point) {
    if drawing.points.len() < 1_000_000 && is_inside(&drawing.window, at) {
        let _ = drawing.add_point(at, 0);
    }
}

fn drawing_of(alloc: Global, straights: &[u8], points: &[u8]) -> Drawing {
    let mut drawing = Drawing::new(alloc, WINDOW);
    for line in straights.chunks_exact(16) {
        let from = Point { x: number(line.get(..4)), y: number(line.get(4..8)) };
        let to = Point { x: number(line.get(8..12)), y: number(line.get(12..)) };
        add_straight(&mut drawing, from, to);
    }
    for place in points.chunks_exact(8) {
        add_point(&mut drawing, Point { x: number(place.get(..4)), y: number(place.get(4..)) });
    }
    drawing
}

fn drawing_in(alloc: Global, shelf: &mut RealShelf) -> Result<Drawing, Memory> {
    let straights = whole_file(alloc, shelf, "straights")?;
    let points = whole_file(alloc, shelf, "points")?;
    Ok(drawing_of(alloc, &straights, &points))
}

/// The certificates that a file has; none where it is no list of certificates.
fn certificates_in(alloc: Global, shelf: &mut RealShelf) -> Result<Vec<Certificate>, Memory> {
    let bytes = whole_file(alloc, shelf, "certificate")?;
    if bytes.len() <= 1 << 30 {
        if let Ok(list) = read(alloc, &bytes) {
            return Ok(list);
        }
    }
    Ok(Vec::new(alloc))
}

fn main(rt: HostRuntime) {
    let alloc = rt.alloc();
    let mut word = [0u8; 16];
    let _ = rt.arg(1, &mut word);
    let mut shelf = RealShelf::new(rt);
    let Ok(drawing) = drawing_in(alloc, &mut shelf) else {
        return;
    };
    let Ok(certificates) = certificates_in(alloc, &mut shelf) else {
        return;
    };
    let Some(certificate) = certificates.first() else {
        let _ = println!(rt; "no certificate");
        return;
    };
    if word[0] == b'r' {
        let _ = println!(rt; "{} straights", drawing.curves.len());
        return;
    }
    if drawing.curves.len() > 16_000_000 {
        return;
    }
    if word[0] == b'w' {
        let _ = whole_file(alloc, &mut shelf, "held");
        let _ = whole_file(alloc, &mut shelf, "go");
    }
    match check(alloc, &drawing, certificate) {
        Ok(Verdict::Proved) => {
            let _ = println!(rt; "proved");
        }
        Ok(Verdict::NotProved { rule, place }) => {
            let _ = println!(rt; "rule {rule} at {place}");
        }
        Err(Memory) => {
            let _ = println!(rt; "out of memory");
        }
    }
}
END
build_scratch_crate
g++ -O2 -std=c++17 -o plain "$top/bench/plain_sweep.cpp"
mkfifo held go

make_certificate() {
    if [ "$itfcheck" ]; then
        "$itfcheck" check model transfer certificate > /dev/null
    else
        python3 "$top/bench/plain_certificate.py" "$work"
    fi
}

# The resident memory in KiB of the program before `check`, and its peak from there on
held_and_peak() {
    python3 - "$program" <<'PY'
import os, sys
pid = os.fork()
if pid == 0:
    sink = os.open(os.devnull, os.O_WRONLY)
    os.dup2(sink, 1)
    os.execv(sys.argv[1], [sys.argv[1], "wait"])
with open("held", "wb"):
    pass
with open("/proc/%d/status" % pid) as file:
    held = next(line.split()[1] for line in file if line.startswith("VmRSS:"))
# the peak begins anew
with open("/proc/%d/clear_refs" % pid, "w") as file:
    file.write("5")
with open("go", "wb"):
    pass
_, status, usage = os.wait4(pid, 0)
print(held, usage.ru_maxrss)
PY
}

for drawing in 'grid 500' 'parcels 100000'; do
    python3 "$top/bench/drawings.py" $drawing "$work"
    straights=$(( $(stat -c %s straights) / 16 ))
    make_certificate
    "$program" | grep -qx proved
    read -r own whole_peak own_read read_peak plain plain_peak plain_read _ <<< "$(measure_in_turn \
        "$program" "$program read" './plain straights' './plain straights read')"
    read -r held peak <<< "$(held_and_peak)"
    awk -v d="$drawing" -v n="$straights" -v a="$own" -v b="$own_read" -v c="$plain" -v e="$plain_read" \
        -v w="$whole_peak" -v r="$read_peak" -v h="$held" -v m="$peak" -v p="$plain_peak" 'BEGIN {
        printf "%s: %d straights\n", d, n
        printf "CPU time of check: %.2f times the plain C++ sweep\n", (a - b) / (c - e)
        printf "reading the numbers and the certificate: %.2f times the plain C++ sweep\n", b / (c - e)
        printf "memory of check: %.0f bytes a straight above %.0f that are held before it (plain: %.0f)\n", (m - h) * 1024 / n, h * 1024 / n, p * 1024 / n
        printf "peak of the whole run: %.0f bytes a straight, of reading alone: %.0f\n", w * 1024 / n, r * 1024 / n
    }'
done

smaller=0
for count in 100000 200000; do
    python3 "$top/bench/drawings.py" strokes $count "$work"
    make_certificate
    "$program" | grep -qx proved
    read -r own _ own_read _ plain _ plain_read _ <<< "$(measure_in_turn \
        "$program" "$program read" './plain straights' './plain straights read')"
    awk -v n="$count" -v a="$(( own - own_read ))" -v c="$(( plain - plain_read ))" -v s="$smaller" 'BEGIN {
        printf "strokes %d: CPU time of check %.2f times the plain C++ sweep\n", n, a / c
        if (s) printf "strokes: twice as many take %.1f times as long\n", a / s
    }'
    smaller=$(( own - own_read ))
done
