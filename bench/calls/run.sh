#!/usr/bin/env bash
# Measures single calls of a desk, and single events of a world, after histories of 1,000 to 1,000,000 entries, and prints
# a line for each. It builds two programs in a clone of this repository, so what isn't committed isn't measured. The crates
# that they stand on are proved first, which takes an hour where nothing is kept.
#     bash bench/calls/run.sh [desk|world]      PRIORITY is a command before the program, as `chrt -f 50`; SIZES has the sizes
set -eu
. "$(dirname "$0")/../../checks/begin.sh"
: "${PRIORITY:=}"
: "${SIZES:=1000 10000 100000 1000000}"
git clone -q . "$work/clone"

# program NAME SOURCE CRATE: builds the program, which uses the crate and all that it uses
program() {
    crate="$work/clone/crates/$1"
    mkdir -p "$crate/src" "$crate/proofs"
    cp "bench/calls/$2" "$crate/src/main.rt"
    : >"$crate/proofs/Lib.antt"
    sed -n "s/^$3: \(.*\)\$/$1: $3 \1/p" crates.txt >>"$work/clone/crates.txt"
    (cd "$crate" && "$RT" run -- plain 1000 >&2) || fail "$1 is not built"
}

# measured NAME: what the program prints of each history, a line for each size
measured() {
    for history in plain hole returned flying subscriptions dropped; do
        for size in $SIZES; do
            # shellcheck disable=SC2086
            $PRIORITY "$work/clone/crates/$1/out/$1" "$history" "$size" >"$work/out" || fail "$1 $history $size fails"
            echo "$history $size | $(paste -sd '|' "$work/out")"
        done
    done
}

echo "$(nproc) processors, load before: $(cut -d ' ' -f 1 /proc/loadavg)"
case "${1:-both}" in
desk | both)
    program bench_calls main.rt.in rb_desk
    measured bench_calls
    ;;
esac
case "${1:-both}" in
world | both)
    program bench_steps world.rt.in rb_core
    measured bench_steps
    ;;
esac
