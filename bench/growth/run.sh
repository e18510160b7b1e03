#!/bin/bash
# Measures how an entry's cost grows with the entries before it: what placing does before the broker's lock and under it,
# over 2,000,000 cells; the events of a changeset in a world, first and after 1,000,000; a desk's steps, which its journal
# keeps; and the memory of an entry. It works
# on a clone of the last commit, into which it puts its program (main.rt.in) as one more crate; RT names the prover's command
# where it isn't `rt`. The gate runs none of it.
#   bash bench/growth/run.sh       PRIORITY is a command before the program, as `chrt -f 50`
set -eu
. "$(dirname "$0")/../../checks/begin.sh"
: "${PRIORITY:=}"
installs time
git clone -q . "$work/clone"
crate="$work/clone/crates/bench_growth"
mkdir -p "$crate/src" "$crate/proofs/set" "$crate/proofs/set_all"
cp bench/growth/main.rt.in "$crate/src/main.rt"
cp bench/growth/set.antt.in "$crate/proofs/set/Answers.antt"
cp bench/growth/set_all.antt.in "$crate/proofs/set_all/Invariants.antt"
: >"$crate/proofs/Lib.antt"
sed -n 's/^rb_core: \(.*\)$/bench_growth: rb_core \1/p' crates.txt >>"$work/clone/crates.txt"
(cd "$crate" && "$RT" run -- cells 1 20 >&2) || fail 'the program is not built'

# taken MODE ENTRIES BYTES: what the program prints, and the most KB that it took
taken() {
    # shellcheck disable=SC2086
    $PRIORITY env time -f '%M KB at most' "$crate/out/bench_growth" "$@" >"$work/out" 2>&1 || fail "$* fails"
    [ -s "$work/out" ] || fail "$* prints nothing"
    echo "$* | $(paste -sd '|' "$work/out")"
}

taken cells 2000000 20
taken world 1000000 20
taken steps 1000 0
taken steps 10000000 0
for mode in cells world; do
    for entries in 1000 100000; do
        taken $mode $entries 20
        taken $mode $entries 1000
    done
    taken $mode 1 1000000
    taken $mode 100 1000000
done
