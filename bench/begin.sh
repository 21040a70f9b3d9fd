# What the shell scripts beside this file begin with: a script ends at the first command that fails,
# `top` is the folder of the repository, and `work` is a scratch folder that is removed when the
# script ends. All of them source it but those that are read by others.
set -euo pipefail
top=$(cd "$(dirname "${BASH_SOURCE[0]}")/.." && pwd)
work=$(mktemp -d)
trap 'rm -rf "$work"' EXIT

# The full name of the program that the first argument names, or of the built one without arguments
built_program() {
    realpath "${1:-$top/crates/itfcheck/out/itfcheck}"
}

# The same of itffaults and the second argument
built_faults() {
    realpath "${2:-$top/crates/itffaults/out/itffaults}"
}
