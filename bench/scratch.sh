# Sourced by the scripts beside it.

# A scratch folder that goes when the script ends, and the top of the repository.
top=$(cd "$(dirname "$0")/.." && pwd)
scratch=$(mktemp -d) || exit 1
trap 'rm -rf "$scratch"' EXIT

# new_program NAME 'LINE OF crates.txt' CRATE..: a program's folder in the scratch folder, $bench, beside copies of these
# crates, over which it is proved.
new_program() {
    bench=$scratch/crates/$1
    mkdir -p "$bench/src" "$bench/specs" "$bench/proofs"
    : > "$bench/specs/Lib.antt"
    : > "$bench/proofs/Lib.antt"
    printf '%s\n' "$2" > "$scratch/crates.txt"
    shift 2
    for name in "$@"; do
        mkdir "$scratch/crates/$name"
        (cd "$top/crates/$name" && tar cf - --exclude=./out .) | (cd "$scratch/crates/$name" && tar xf -)
        grep -E "^$name[ :]" "$top/crates.txt" >> "$scratch/crates.txt"
    done
}

# The proved program, which ./mama --version builds.
proved_program() {
    program=$top/crates/mama_run/out/mama_run
    [ -x "$program" ] || { echo "no $program: run ./mama --version once" >&2; exit 1; }
}

# proved_tests CRATE: wants the crate's tests as a program, which rt test builds in the crate's folder.
proved_tests() {
    [ -x "$top/crates/$1/out/$1_tests" ] || { echo "no tests of $1: run rt test in its folder once" >&2; exit 1; }
}

# play SCRIPT: plays it by the proved program, and prints seconds and the peak memory in KiB.
play() {
    /usr/bin/env time -f '%e %M' -o "$scratch/cost" "$program" serial < "$1" > "$scratch/log" || echo "status $?" >&2
    cat "$scratch/cost"
}
