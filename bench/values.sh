#!/usr/bin/env bash
# Runs `check` on a delivery of values, keys and references, beside a plain C program that parses
# the same numbers and fills one hash table with the identifications. Then on deliveries that are
# wrong in each row, at two sizes. Prints ratios, no absolute times.
#
# usage: bench/values.sh [OBJECTS]      (1,000,000 where none is given: about 40 MB)
. "$(dirname "${BASH_SOURCE[0]}")/begin.sh"
. "$top/bench/measure.sh"
objects=${1:-1000000}
cd "$work"

cat > model <<'MODEL'
TRANSFER Two; MODEL M TOPIC T =
TABLE A = Nr: TEXT*12; N: [0.00 .. 9999999.99]; NO IDENT END A;
TABLE B = Key: TEXT*12; N: [0 .. 999999999]; Zu: -> A; IDENT Key; END B;
END T. END M.
FORMAT FREE; CODE BLANK = DEFAULT, UNDEFINED = DEFAULT, CONTINUE = DEFAULT; TID = ANY; END.
MODEL

# OBJECTS rows, a tenth of them in table A: KIND is good, ids, keys or references
delivery() {
    awk -v n="$1" -v kind="$2" 'BEGIN {
        print "SCNT\n////\nMTID x\nMODL M\nTOPI T\nTABL A"
        few = int(n / 10)
        for (i = 1; i <= few; i++) print "OBJE a" i " P" i " " (i * 7919) % 1000000 "." i % 90 + 10
        print "ETAB\nTABL B"
        for (i = 1; i <= n - few; i++) {
            id = kind == "ids" ? "b" : "b" i
            key = kind == "keys" ? "K" : "K" i
            to = kind == "references" ? "c" i : "a" (i * 31) % few + 1
            print "OBJE " id " " key " " (i * 104729) % 1000000000 " " to
        }
        print "ETAB\nETOP\nEMOD\nENDE"
    }'
}

cat > plain.c <<'C'
#include <stdio.h>
#include <stdlib.h>
#include <string.h>
static char *text;
static long *table;
static unsigned long mask;
static void put(long from, long to) {
    unsigned long hash = 1469598103934665603ul;
    for (long i = from; i < to; i++) hash = (hash ^ (unsigned char)text[i]) * 1099511628211ul;
    for (unsigned long at = hash & mask;; at = (at + 1) & mask) {
        if (!table[at]) { table[at] = from + 1; return; }
        long other = table[at] - 1;
        if (!strncmp(text + other, text + from, to - from) && text[other + to - from] == ' ') return;
    }
}
int main(int argc, char **argv) {
    FILE *file = fopen(argv[1], "rb");
    fseek(file, 0, SEEK_END);
    long size = ftell(file);
    rewind(file);
    text = malloc(size + 1);
    if (fread(text, 1, size, file) != (size_t)size) return 1;
    text[size] = 0;
    mask = (1ul << 22) - 1;
    table = calloc(mask + 1, sizeof(long));
    unsigned long sum = 0;
    for (long i = 0; i < size;) {
        long end = i;
        while (end < size && text[end] != '\n') end++;
        if (!strncmp(text + i, "OBJE ", 5)) {
            long from = i + 5, to = from;
            while (text[to] != ' ') to++;
            put(from, to);
            unsigned long number = 0;
            for (long k = to; k < end; k++)
                if (text[k] >= '0' && text[k] <= '9') number = number * 10 + (text[k] - '0');
                else { sum += number; number = 0; }
            sum += number;
        }
        i = end + 1;
    }
    printf("%lu\n", sum);
    return 0;
}
C
cc -O2 -o plain plain.c

program="$top/crates/itfcheck/out/itfcheck"
delivery "$objects" good > transfer
"$top/itfcheck" check model transfer certificates > /dev/null
size=$(( $(stat -c %s transfer) / 1024 ))
read -r plain_time _ <<< "$(measure 0 ./plain transfer)"
read -r check_time check_peak <<< "$(measure 0 "$program" check model transfer certificates)"
awk -v s="$size" -v p="$plain_time" -v c="$check_time" -v m="$check_peak" -v n="$objects" 'BEGIN {
    printf "objects: %d, file: %d MiB\n", n, s / 1024
    printf "CPU time of check: %.1f times the plain C program\n", c / p
    printf "peak memory of check: %.1f times the file\n", m / s
}'
for kind in ids keys references; do
    delivery "$objects" "$kind" > one
    delivery $(( objects * 2 )) "$kind" > two
    read -r one_time _ <<< "$(measure 1 "$program" check model one certificates)"
    read -r two_time _ <<< "$(measure 1 "$program" check model two certificates)"
    awk -v k="$kind" -v a="$one_time" -v b="$two_time" -v c="$check_time" 'BEGIN {
        printf "wrong %s in each row: %.1f times the good delivery, twice as many rows %.1f times as long\n", k, a / c, b / a
    }'
done
