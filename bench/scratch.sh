# shellcheck shell=sh
# Sourced by the scripts beside it. `scratch NAME "DEPS" "CRATES"` makes a program in a temporary folder, which goes at the end,
# over copies of these CRATES of the repository and on these DEPS of them, and goes into it. Its src/ is empty.
set -e
top=$(cd "$(dirname "$0")/.." && pwd)

scratch() {
    work=$(mktemp -d)
    trap 'rm -rf "$work"' EXIT
    mkdir -p "$work/crates"
    for crate in $3; do
        cp -r "$top/crates/$crate" "$work/crates/$crate"
        rm -rf "$work/crates/$crate/out" "$work/crates/$crate/must-fail"
        grep "^$crate:" "$top/crates.txt" >> "$work/crates.txt"
    done
    cd "$work"
    rt new "crates/$1" start_io > /dev/null
    cd "crates/$1"
    rm -rf proofs specs stdin stdout src/*
    # `rt new` may have added a line of its own.
    grep -v "^$1:" "$work/crates.txt" > "$work/others" || true
    mv "$work/others" "$work/crates.txt"
    echo "$1: $2" >> "$work/crates.txt"
}
