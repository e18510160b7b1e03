#!/bin/bash
# Measures deliveries on the broker: how many a second 1, 4, 16 and 64 subscribers take, accept and acknowledge, divided
# among one to eight threads, in batches of 1 and of 16; and how long a `take` and an `ack` take beside 10 and 1,024
# subscriptions, and above a floor that 100,000 settled deliveries wait for. It works on a clone of the last commit, into
# which it puts its program (deliver.rt.in) as one more crate; RT names the prover's command where it isn't `rt`. The gate
# runs none of it.
#   bash bench/broker/deliver.sh
set -eu
. "$(dirname "$0")/../../checks/begin.sh"
git clone -q . "$work/clone"
crate="$work/clone/crates/bench_deliver"
mkdir -p "$crate/src" "$crate/proofs/measured"
cp bench/broker/deliver.rt.in "$crate/src/main.rt"
cp bench/broker/delivered.antt.in "$crate/proofs/measured/Invariants.antt"
: >"$crate/proofs/Lib.antt"
sed -n 's/^rb_threads: \(.*\)$/bench_deliver: \1/p' crates.txt >>"$work/clone/crates.txt"
ours="$crate/out/bench_deliver"
(cd "$crate" && "$RT" run -- deliver 1 1 1 1 >&2) && [ -x "$ours" ] || fail 'the program is not built'

for batch in 1 16; do
    for subscribers in 1 4 16 64; do
        for threads in 1 2 4 8; do
            [ "$threads" -le "$subscribers" ] || continue
            entries=$((batch * 50000 / subscribers))
            printf 'batch %d, %d subscribers in %d threads: ' "$batch" "$subscribers" "$threads"
            "$ours" deliver "$subscribers" "$threads" "$batch" "$entries" || fail 'a run fails'
        done
    done
done
for case in '10 0' '1024 0' '10 100000'; do
    printf '%s settled: ' "${case/ / subscriptions, }"
    # shellcheck disable=SC2086
    "$ours" holds $case 1 0 || fail 'a run fails'
done
