#!/usr/bin/env bash
# Runs `check` and `verify` of the built program on deliveries of one area: a grid of 500 by 500
# squares (501,000 straights), one of 250 by 250, and parcels (900,600 straights). Beside them runs
# (a) a plain C program that parses the same numbers from the transfer and (b) a plain C++ sweep
# over the straights, whose own reading of binary numbers is taken away. Neither proves anything,
# names an object or writes a certificate. Then it runs on strokes that are live at once all but two,
# at two sizes, and on areas with arcs: 883,957 curves, of which 33,286 are half arcs, and 234,252
# with 72,300, beside the sweep over their straights and chords, and the same with a bad pair, with
# an undecided half arc and with 500 forks that are bent. The programs run in turn, the best of five
# counts, of these three the best of three. Prints ratios, no absolute times.
#
# usage: bench/check.sh [ITFCHECK]      (crates/itfcheck/out/itfcheck where none is given)
. "$(dirname "${BASH_SOURCE[0]}")/begin.sh"
. "$top/bench/measure.sh"
itfcheck=$(built_program "$@")
cd "$work"

cat > parse.c <<'C'
/* Reads a transfer whole and parses the coordinates of its vertices and objects, in thousandths. */
#include <stdint.h>
#include <stdio.h>
#include <stdlib.h>
#include <string.h>
static const char *number(const char *at, int64_t *value) {
    while (*at == ' ') at++;
    for (*value = 0; *at != ' ' && *at != '\n'; at++)
        if (*at != '.') *value = *value * 10 + (*at - '0');
    return at;
}
int main(int argc, char **argv) {
    FILE *file = fopen(argv[1], "rb");
    if (!file) return 2;
    fseek(file, 0, SEEK_END);
    size_t size = ftell(file);
    rewind(file);
    char *text = malloc(size + 1);
    if (fread(text, 1, size, file) != size) return 2;
    text[size] = 0;
    struct { int64_t ax, ay, bx, by; } *straights = NULL;
    size_t count = 0, room = 0, points = 0;
    int64_t x = 0, y = 0, sum = 0;
    int lines = 1;
    for (const char *at = text; *at;) {
        if (!memcmp(at, "STPT ", 5)) {
            at = number(number(at + 5, &x), &y);
        } else if (!memcmp(at, "LIPT ", 5)) {
            if (count == room) {
                room = room ? 2 * room : 1024;
                straights = realloc(straights, room * sizeof *straights);
            }
            straights[count].ax = x;
            straights[count].ay = y;
            at = number(number(at + 5, &x), &y);
            straights[count].bx = x;
            straights[count++].by = y;
        } else if (!memcmp(at, "ETAB", 4)) {
            lines = 0;
        } else if (!lines && !memcmp(at, "OBJE ", 5)) {
            int64_t name, px, py;
            at = number(number(number(at + 5, &name), &px), &py);
            sum += px + py;
            points++;
        }
        while (*at != '\n') at++;
        at++;
    }
    for (size_t i = 0; i < count; i++) sum += straights[i].ax + straights[i].by;
    printf("%zu straights, %zu points, sum %lld\n", count, points, (long long)sum);
    return 0;
}
C
cc -O2 -o parse parse.c
g++ -O2 -std=c++17 -o sweep "$top/bench/plain_sweep.cpp"

files='model transfer certificate'
small=0
for drawing in 'grid 250' 'grid 500' 'parcels 100000'; do
    python3 "$top/bench/drawings.py" $drawing "$work"
    straights=$(( $(stat -c %s straights) / 16 ))
    ./parse transfer | grep -q "^$straights straights, $(( $(stat -c %s points) / 8 )) points,"
    "$itfcheck" check $files > /dev/null
    read -r check check_peak verify verify_peak parse parse_peak sweep sweep_peak sweep_read _ <<< "$(measure_in_turn \
        "$itfcheck check $files" "$itfcheck verify $files" './parse transfer' './sweep straights' './sweep straights read')"
    awk -v d="$drawing" -v n="$straights" -v c="$check" -v v="$verify" -v p="$parse" -v s="$(( sweep - sweep_read ))" \
        -v cm="$check_peak" -v vm="$verify_peak" -v pm="$parse_peak" -v sm="$sweep_peak" \
        -v t="$(stat -c %s transfer)" -v f="$(stat -c %s certificate)" -v small="$small" 'BEGIN {
        printf "%s: %d straights, transfer %.0f MB, certificate %.0f MB\n", d, n, t / 1e6, f / 1e6
        printf "CPU time of check: %.1f times the parse, %.2f times the sweep, %.2f times both together\n", c / p, c / s, c / (p + s)
        printf "CPU time of verify: %.1f times the parse, %.2f times the sweep, %.2f times both together, %.2f times check\n", v / p, v / s, v / (p + s), v / c
        printf "peak memory of check: %.1f times the transfer, %.0f bytes a straight (parse: %.0f, sweep: %.0f)\n", cm * 1024 / t, cm * 1024 / n, pm * 1024 / n, sm * 1024 / n
        printf "peak memory of verify: %.1f times the transfer, %.0f bytes a straight\n", vm * 1024 / t, vm * 1024 / n
        if (d == "grid 500") printf "CPU time of check: %.2f times that of grid 250\n", c / small
    }'
    small=$check
done

smaller=0
for count in 100000 200000; do
    python3 "$top/bench/drawings.py" strokes $count "$work"
    "$itfcheck" check $files > /dev/null
    read -r check _ verify _ <<< "$(measure_in_turn "$itfcheck check $files" "$itfcheck verify $files")"
    awk -v n="$count" -v c="$check" -v v="$verify" -v s="$smaller" -v t="${smaller_verify:-0}" 'BEGIN {
        if (s) printf "strokes: twice as many, %d, take check %.1f times as long, verify %.1f times\n", n, c / s, v / t
    }'
    smaller=$check
    smaller_verify=$verify
done

for drawing in 'cover 100000' 'arcs 30000'; do
    python3 "$top/bench/drawings.py" $drawing "$work"
    "$itfcheck" check $files > /dev/null
    read -r check check_peak verify verify_peak sweep _ sweep_read _ <<< "$(measure_in_turn \
        "$itfcheck check $files" "$itfcheck verify $files" './sweep chords' './sweep chords read')"
    awk -v d="$drawing" -v n="$(( $(stat -c %s straights) / 16 ))" -v a="$(( $(stat -c %s arcs) / 12 ))" -v c="$check" \
        -v v="$verify" -v s="$(( sweep - sweep_read ))" -v cm="$check_peak" -v vm="$verify_peak" -v t="$(stat -c %s transfer)" 'BEGIN {
        printf "%s: %d curves, of them %d half arcs, transfer %.0f MB\n", d, n + a, a, t / 1e6
        printf "CPU time of check: %.2f times the sweep of the straights and chords (aim 2.5)\n", c / s
        printf "CPU time of verify: %.2f times check (aim 1)\n", v / c
        printf "peak memory of check: %.1f times the transfer (aim 7), of verify: %.1f\n", cm * 1024 / t, vm * 1024 / t
    }'
    status=1
    for fault in bad undecided; do
        python3 "$top/bench/drawings.py" ${drawing/ /-$fault } "$work"
        read -r slow slow_peak <<< "$(measure $status "$itfcheck" check $files)"
        awk -v f="$fault" -v b="$slow" -v c="$check" -v m="$slow_peak" -v t="$(stat -c %s transfer)" 'BEGIN {
            printf "%s: %.1f times as long as the good delivery (aim 10), %.1f times the transfer\n", f, b / c, m * 1024 / t
        }'
        status=2
    done
    python3 "$top/bench/drawings.py" ${drawing/ /-forks } "$work"
    read -r slow slow_peak <<< "$(measure 0 "$itfcheck" check $files)"
    awk -v b="$slow" -v c="$check" -v m="$slow_peak" -v t="$(stat -c %s transfer)" 'BEGIN {
        printf "forks: %.1f times as long as the good delivery (aim 3), %.1f times the transfer\n", b / c, m * 1024 / t
    }'
done
