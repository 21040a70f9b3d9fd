#!/usr/bin/env bash
# Runs `check` and `verify` of the built program on drawings that are made to be hard: straights
# that are all live at once, a vertex where two of three straights end, columns of upright straights,
# a comb. Each stands beside parcels with about as many straights. One run each, which has to accept;
# prints CPU time and peak memory, and the time beside that of the parcels. One run more has 8 bytes
# of address space for each byte that is read: it has to accept too, or to end with status 8 and
# nothing put or changed.
#
# usage: bench/worst.sh [ITFCHECK]      (crates/itfcheck/out/itfcheck where none is given)
. "$(dirname "${BASH_SOURCE[0]}")/begin.sh"
. "$top/bench/measure.sh"
itfcheck=$(built_program "$@")
cd "$work"

# What `check` and `verify` of a drawing take, and how large its transfer is
both() {
    python3 "$top/bench/drawings.py" "$1" "$2" "$work"
    read -r check check_peak check_status <<< "$(once "$itfcheck" check model transfer certificate)"
    read -r verify verify_peak verify_status <<< "$(once "$itfcheck" verify model transfer certificate)"
    if [ "$check_status $verify_status" != '0 0' ]; then
        echo "$1 $2 is not accepted: check ends with $check_status, verify with $verify_status" >&2
        exit 1
    fi
    size=$(stat -c %s transfer)
    read_size=$(( size + $(stat -c %s certificate) ))
    straights=$(( $(stat -c %s straights) / 16 ))
    check_within=$(within_eight_times "$check_status" "$itfcheck" check model transfer certificate)
    verify_within=$(within_eight_times "$verify_status" "$itfcheck" verify model transfer certificate)
}

# so many parcels have about 9 straights each
for count in 100000 200000 1000000; do
    both parcels $(( count / 9 ))
    plain_check=$check plain_verify=$verify plain_size=$size
    printf 'parcels: %d straights, transfer %d MB: check %.1f s, verify %.1f s\n' \
        "$straights" "$(( size / 1000000 ))" "$(( check ))e-3" "$(( verify ))e-3"
    for kind in strokes fan uprights comb; do
        both $kind $count
        awk -v k="$kind" -v n="$straights" -v s="$size" -v c="$check" -v v="$verify" -v cm="$check_peak" -v vm="$verify_peak" \
            -v pc="$plain_check" -v pv="$plain_verify" -v ps="$plain_size" \
            -v rs="$read_size" -v cw="$check_within" -v vw="$verify_within" 'BEGIN {
            scale = s / ps
            printf "%s: %d straights, transfer %.0f MB: check %.1f s, %.1f times that of parcels of this size, peak %.1f times what it reads, %s; verify %.1f s, %.1f times, peak %.1f times what it reads, %s\n", \
                k, n, s / 1e6, c / 1e3, c / (pc * scale), cm * 1024 / s, cw, v / 1e3, v / (pv * scale), vm * 1024 / rs, vw
        }'
    done
done
