#!/usr/bin/env bash
# Writes a certificate with a million edges and reads it again, beside a C program that only parses
# its numbers. Builds both in a scratch folder. Usage: bench/certificate.sh [edges]
. "$(dirname "${BASH_SOURCE[0]}")/begin.sh"
. "$top/bench/scratch.sh"
edges=${1:-1000000}
scratch_crate certificate_bench 'certificate ports' ports file_pages certificate
cat > "$crate/src/main.rt" <<'END'
// Writes a certificate where there is none, else reads it.
#![tactic(auto)]

use certificate::{Certificate, HalfNote, Link, PointPlace, read, write};
use ports::{Memory, Name, RealShelf, Shelf};
use std::alloc::Global;

const EDGES: u32 = NUMBER;

fn made(alloc: Global) -> Result<Vec<Certificate>, Memory> {
    let mut positions = Vec::new(alloc);
    let mut notes = Vec::new(alloc);
    let mut places = Vec::new(alloc);
    for i in 0..EDGES {
        let half = i.wrapping_mul(7919) % (2 * EDGES);
        notes.push(HalfNote { label: i / 4, link: Link::Across(half), rank: i % 1000 })?;
        notes.push(HalfNote { label: half / 8, link: Link::Next, rank: i % 77 })?;
        if i % 2 == 0 {
            positions.push(half % 3000)?;
            places.push(PointPlace::Cell(half % 3000))?;
        }
    }
    let mut all = Vec::new(alloc);
    all.push(Certificate {
        topic: Name::new(alloc, b"Cover".as_slice())?,
        table: Name::new(alloc, b"Parcel".as_slice())?,
        attribute: Name::new(alloc, b"Form".as_slice())?,
        level: 0,
        positions,
        notes,
        places,
    })?;
    Ok(all)
}

fn main(rt: HostRuntime) {
    let alloc = rt.alloc();
    let mut shelf = RealShelf::new(rt);
    let Ok(bytes) = whole_file(alloc, &mut shelf, "certificate.txt") else {
        return;
    };
    if bytes.is_empty() {
        let Ok(all) = made(alloc) else {
            return;
        };
        let done = write(&all, &mut shelf, "certificate.txt").is_ok();
        let _ = println!(rt; "written {done}");
    } else if bytes.len() <= 1 << 30 {
        let found = read(alloc, &bytes).is_ok();
        let _ = println!(rt; "read {found}");
    }
}
END
sed -i "s/NUMBER/$edges/" "$crate/src/main.rt"
cat > "$work/numbers.c" <<'END'
#include <stdio.h>
#include <stdlib.h>
int main(void) {
    FILE *f = fopen("certificate.txt", "rb");
    char *p = malloc(1 << 27);
    size_t n = fread(p, 1, 1 << 27, f);
    unsigned *numbers = malloc(n * sizeof *numbers);
    size_t count = 0;
    for (size_t i = 0; i < n;) {
        if (p[i] < '0' || p[i] > '9') { i++; continue; }
        unsigned value = 0;
        while (i < n && p[i] >= '0' && p[i] <= '9') value = value * 10 + (p[i++] - '0');
        numbers[count++] = value;
    }
    printf("C: %zu bytes, %zu numbers\n", n, count);
    return 0;
}
END
cc -O2 -o "$work/numbers" "$work/numbers.c"
build_scratch_crate
rm -f certificate.txt
echo "write:"; command time "$program"
echo "read:"; command time "$program"
echo "the numbers alone, in C:"; command time ./numbers
ls -l certificate.txt
