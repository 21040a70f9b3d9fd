# Functions that make and build a crate in a scratch folder. sweep.sh, verify.sh, models.sh and
# certificate.sh source it, after begin.sh.

# Makes a crate in the scratch folder, beside copies of crates of this repository. Takes its name,
# the crates that it stands on as one word, and those that are copied. `crate` is its folder then.
scratch_crate() {
    local name=$1 stands_on=$2 below part
    shift 2
    for below in "$@"; do
        mkdir -p "$work/crates/$below"
        for part in src specs proofs; do
            if [ -d "$top/crates/$below/$part" ]; then
                cp -r "$top/crates/$below/$part" "$work/crates/$below"
            fi
        done
        grep -E "^$below:" "$top/crates.txt" >> "$work/crates.txt"
    done
    echo "$name: $stands_on" >> "$work/crates.txt"
    crate="$work/crates/$name"
    mkdir -p "$crate/src"
}

# Adds the function of whole_file.sh to main.rt of the new crate, and builds it. `program` is the
# program then, and the script goes on in the scratch folder.
build_scratch_crate() {
    { echo; sh "$top/bench/whole_file.sh"; } >> "$crate/src/main.rt"
    cd "$crate"
    rt run > "$work/build.log" 2>&1 < /dev/null || { tail -40 "$work/build.log"; exit 1; }
    program="$crate/out/$(basename "$crate")"
    cd "$work"
}
