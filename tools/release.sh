#!/usr/bin/env bash
# Releases the two programs, so that a checkout without a prover answers at once, and who has one can
# prove the sources anew and compare.
#
# usage: tools/release.sh              has both proved and built of these sources, takes over what `rt ci`
#                                      has kept, and writes released/ and the archive in out/
#        tools/release.sh --check      whether released/ is that of these sources: status 0 or 1
#        tools/release.sh --built      the same, and whether the programs in crates/NAME/out are the
#                                      released ones
#        tools/release.sh --prove      proves and builds both from nothing, puts them into crates/NAME/out,
#                                      and prints SAME or DIFFERS: status 0 or 1
#        tools/release.sh --sources    prints the hash of the sources
#
# Status 70: nothing was proved. Only `rt ci` says here that a program is proved; no program that lies in
# the checkout is taken for one. It runs on a copy of the sources that has not the edits which have to be
# refused, nor the crates on which neither program stands. It has one check for each processor, or RT_JOBS.
set -euo pipefail
export LC_ALL=C
top=$(dirname "$(dirname "$(readlink -f "${BASH_SOURCE[0]}")")")
programs=(itfcheck itffaults)
work=
cd "$top"

say() {
    echo "release.sh: $*" >&2
}

fail() {
    say "$2"
    exit "$1"
}

# The hash over the names and bytes of all that a build reads, in a checkout or a copy of it.
sources() (
    cd "$1"
    shopt -s nullglob
    find crates.txt HANDLES crates/*/{src,specs,proofs} ! -type d -print0 | sort -z |
        xargs -0 sha256sum -- | sha256sum | cut -d ' ' -f 1
)

# What a line of released/SOURCES says, by its first word.
noted() {
    sed -n "s/^$1 //p" released/SOURCES 2> /dev/null
}

# Whether released/ has both programs with their sums, and nothing else has one.
has_sums() (
    cd released 2> /dev/null && sha256sum --check --strict --status SHA256SUMS 2> /dev/null &&
        [ "$(cut -c 67- SHA256SUMS)" = "$(printf '%s\n' "${programs[@]}")" ]
)

check() {
    [ -f released/SOURCES ] && [ -f released/SHA256SUMS ] ||
        fail 1 "there is no released program: run tools/release.sh"
    [ "$(sources .)" = "$(noted sources)" ] ||
        fail 1 "released/SOURCES is not the hash of these sources: run tools/release.sh"
    has_sums ||
        fail 1 "released/SHA256SUMS has not the sums of the released programs: run tools/release.sh"
    [ -x released/itfcheck ] && [ -x released/itffaults ] ||
        fail 1 "a released program is not executable: run tools/release.sh"
}

# Whether the released programs are the ones in crates/NAME/out; if not, says which are not.
is_same() {
    local one differ=()
    for one in "${programs[@]}"; do
        cmp -s "released/$one" "crates/$one/out/$one" || differ+=("released/$one")
    done
    [ ${#differ[@]} = 0 ] || { say "not what these sources give: ${differ[*]}"; return 1; }
}

# The names of the programs and of all crates on which they stand.
needed() {
    awk -F ': *' -v "programs=${programs[*]}" '
        !/^#/ && NF { below[$1] = $2 }
        function take(name,   parts, count, at) {
            if (!(name in below) || name in taken) return
            taken[name] = 1
            print name
            count = split(below[name], parts, " ")
            for (at = 1; at <= count; at++) take(parts[at])
        }
        END { count = split(programs, names, " "); for (at = 1; at <= count; at++) take(names[at]) }
    ' crates.txt
}

# Copies what the proofs and runs of both programs read to the folder copy in the scratch folder, and
# notes the hash of the copied sources.
copy() {
    local name part
    mkdir -p "$work/copy/.git" "$work/copy/crates"
    for name in crates/*; do
        mkdir "$work/copy/$name"
        for part in src specs proofs; do
            [ ! -d "$name/$part" ] || cp -R "$name/$part" "$work/copy/$name"
        done
    done
    cp crates.txt HANDLES "$work/copy"
    hash=$(sources "$work/copy")
    mkdir "$work/all"
    mv "$work/copy/crates" "$work/copy/crates.txt" "$work/all"
    mkdir "$work/copy/crates"
    for name in "${wanted[@]}"; do
        mv "$work/all/crates/$name" "$work/copy/crates"
        grep "^$name:" "$work/all/crates.txt" >> "$work/copy/crates.txt"
        for part in stdin stdout args status data; do
            [ ! -e "crates/$name/$part" ] || cp -R "crates/$name/$part" "$work/copy/crates/$name"
        done
    done
}

# Passes a line on for each crate that is proved, and how many are.
told() {
    local line number=0
    while IFS= read -r line; do
        printf '%s\n' "$line"
        case $line in
        'rt: '*' NOT PROVED'* | 'rt: '*': its tests '*) ;;
        'rt: '*' proved' | 'rt: '*' is kept: '*)
            number=$((number + 1)) line=${line#rt: }
            say "$(date +%H:%M) ${line%% *} is proved, $number of ${#wanted[@]}"
            ;;
        esac
    done
}

# Has both programs proved and built of a copy of the sources, with the words behind `rt ci`.
prove() {
    local log=out/release.log
    [ -e crates.txt ] || fail 70 "no sources lie here, as in an archive: take a checkout (status 70)"
    command -v rt > /dev/null || fail 70 "the command rt, to prove the programs, is not on the path (status 70)"
    kit=$(rt version 2>&1)
    [[ "$kit " == *" logic $(sed -n 's/.*with the logic `\([0-9a-f]*\)`.*/\1/p' README.md) "* ]] ||
        fail 70 "rt version says '$kit', and the README names another logic (status 70)"
    mapfile -t wanted < <(needed)
    work=$(mktemp -d)
    trap 'rm -rf "$work"' EXIT
    copy
    mkdir -p out
    say "${#wanted[@]} crates are to be proved; rt's output is in $log"
    (cd "$work/copy" && RT_JOBS=${RT_JOBS:-$(nproc)} rt ci "$@" 2>&1 < /dev/null) | told > "$log" || {
        tail -n 20 "$log" >&2
        fail 70 "the programs are not proved; the end of rt's output is above, all of it in $log (status 70)"
    }
}

# Proves and builds both from nothing, and says whether they are the released ones.
prove_anew() {
    local one
    prove --anew
    for one in "${programs[@]}"; do
        mkdir -p "crates/$one/out"
        # No newer than the sources from which it comes: one that was changed meanwhile is newer than it.
        cp "$work/copy/crates/$one/out/$one" "crates/$one/out/$one.new"
        touch -r "$work/all/crates.txt" "crates/$one/out/$one.new"
        mv -f "crates/$one/out/$one.new" "crates/$one/out/$one"
    done
    [ "$hash" = "$(noted sources)" ] || say "released/SOURCES is the hash of other sources"
    [ "$kit" = "$(noted kit)" ] || say "released/SOURCES names the kit '$(noted kit)', and this one is '$kit'"
    is_same && echo SAME || { echo DIFFERS; exit 1; }
}

# Writes released/, the sums last but for the sources, so that a program of an interrupted release has none.
write() {
    local one new=$work/released
    mkdir -p "$new" released
    for one in "${programs[@]}"; do
        install -m 755 "$work/copy/crates/$one/out/$one" "$new/$one"
    done
    (cd "$new" && sha256sum -- "${programs[@]}" > SHA256SUMS)
    printf 'sources %s\nkit %s\n' "$hash" "$kit" > "$new/SOURCES"
    rm -f released/SOURCES
    for one in "${programs[@]}" SHA256SUMS SOURCES; do
        cp "$new/$one" "released/.$one"
        mv -f "released/.$one" "released/$one"
    done
    check
}

# Writes the archive of what runs without sources, the same bytes for the same files.
pack() {
    local name
    name=itfcheck-$(cat VERSION)-linux-x86_64
    {
        printf '%s\0' released/{itfcheck,itffaults,SHA256SUMS,SOURCES}
        git ls-files -z --cached --others --exclude-standard -- README.md CHANGELOG.md VERSION itfcheck itffaults \
            tools docs crates/itfcheck/data
    } | LC_ALL=C sort -zu | tar --create --null --files-from=- --sort=name --mtime=@0 --owner=0 --group=0 \
        --numeric-owner --mode=go=u,go-w --transform="s,^,$name/," | gzip -n9 > "out/$name.tar.gz"
    say "out/$name.tar.gz: $(sha256sum < "out/$name.tar.gz" | cut -d ' ' -f 1)"
}

release() {
    prove
    write
    pack
    say "released/ is that of these sources: commit it with them"
}

case ${1-} in
'') release ;;
--prove) prove_anew ;;
--sources) sources . ;;
--check) check ;;
--built) check && is_same ;;
*) sed -n '/^# usage/,/^# *tools.*--sources/s/^# \?//p' "$0" >&2; exit 4 ;;
esac
