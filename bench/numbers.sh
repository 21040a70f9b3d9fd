#!/usr/bin/env bash
# Runs `check` on a delivery of one table of numbers with many objects, beside `wc -l` and a plain
# C program that reads the same file and parses its numbers. Prints ratios, no absolute times.
#
# usage: bench/numbers.sh [OBJECTS]      (2,000,000 where none is given: about 40 MB)
. "$(dirname "${BASH_SOURCE[0]}")/begin.sh"
. "$top/bench/measure.sh"
objects=${1:-2000000}
cd "$work"

cat > model <<'MODEL'
TRANSFER One; MODEL M TOPIC T = TABLE A = N: [0 .. 999999999]; NO IDENT END A; END T. END M.
FORMAT FREE; CODE BLANK = DEFAULT, UNDEFINED = DEFAULT, CONTINUE = DEFAULT; TID = ANY; END.
MODEL
{
    printf 'SCNT\n////\nMTID x\nMODL M\nTOPI T\nTABL A\n'
    awk -v n="$objects" 'BEGIN { for (i = 1; i <= n; i++) print "OBJE " i " " (i * 7919) % 1000000 }'
    printf 'ETAB\nETOP\nEMOD\nENDE\n'
} > transfer

cat > plain.c <<'C'
#include <stdio.h>
#include <stdlib.h>
int main(int argc, char **argv) {
    FILE *file = fopen(argv[1], "rb");
    fseek(file, 0, SEEK_END);
    long size = ftell(file);
    rewind(file);
    char *text = malloc(size + 1);
    if (fread(text, 1, size, file) != (size_t)size) return 1;
    text[size] = 0;
    unsigned long sum = 0, number = 0;
    int in_number = 0;
    for (long i = 0; i <= size; i++) {
        char c = text[i];
        if (c >= '0' && c <= '9') { number = number * 10 + (c - '0'); in_number = 1; }
        else if (in_number) { sum += number; number = 0; in_number = 0; }
    }
    printf("%lu\n", sum);
    return 0;
}
C
cc -O2 -o plain plain.c

"$top/itfcheck" check model transfer certificates > /dev/null
size=$(( $(stat -c %s transfer) / 1024 ))
read -r count_time _ <<< "$(measure 0 wc -l transfer)"
read -r plain_time _ <<< "$(measure 0 ./plain transfer)"
read -r check_time check_peak <<< "$(measure 0 "$top/crates/itfcheck/out/itfcheck" check model transfer certificates)"
awk -v s="$size" -v w="$count_time" -v p="$plain_time" -v c="$check_time" -v m="$check_peak" -v n="$objects" 'BEGIN {
    printf "objects: %d, file: %d MiB\n", n, s / 1024
    printf "CPU time of check: %.1f times the plain C program, %.1f times wc -l\n", c / p, c / (w < 1 ? 1 : w)
    printf "peak memory of check: %.2f times the file\n", m / s
}'
