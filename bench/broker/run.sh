#!/bin/bash
# Measures the broker with 1, 2, 4 and 8 publishers in threads of their own, beside the same work by a C program over two
# mutexes, and a bounded channel alone. Prints one table. It works on a clone of the last commit, into which it puts its
# program (main.rt.in) as one more crate; RT names the prover's command where it isn't `rt`. The gate runs none of it.
#   bash bench/broker/run.sh
set -eu
. "$(dirname "$0")/../../checks/begin.sh"
: "${RUNS:=5}"
installs gcc libc6-dev
git clone -q . "$work/clone"
crate="$work/clone/crates/bench_broker"
mkdir -p "$crate/src" "$crate/proofs/measured" "$crate/proofs/send"
cp bench/broker/main.rt.in "$crate/src/main.rt"
cp bench/broker/measured.antt.in "$crate/proofs/measured/Invariants.antt"
cp bench/broker/send.antt.in "$crate/proofs/send/Invariants.antt"
: >"$crate/proofs/Lib.antt"
sed -n 's/^rb_threads: \(.*\)$/bench_broker: crossbeam_channel \1/p' crates.txt >>"$work/clone/crates.txt"
ours="$crate/out/bench_broker"
(cd "$crate" && "$RT" run -- broker 1 1 1 >&2) && [ -x "$ours" ] || fail 'the program is not built'
(cd "$work/clone/crates/changeset_c" && "$RT" lib >&2)
heap="$(dirname "$($RT doc)")/c/liblibc_c.a"
gcc -O2 -Wall -Wextra -pthread bench/broker/mutex.c "$work/clone/crates/changeset_c/out/libchangeset_c.a" "$heap" -o "$work/mutex"

# took COMMAND..: real and processor seconds of the run with the median real time
took() {
    TIMEFORMAT='%R %U %S'
    for _ in $(seq "$RUNS"); do
        { time "$@" >/dev/null 2>"$work/why"; } 2>"$work/time" || { cat "$work/why" >&2; fail "$1 fails"; }
        tail -n 1 "$work/time"
    done | sort -n | sed -n "$(((RUNS + 1) / 2))p" | awk '{ print $1, $2 + $3 }'
}

echo "| publishers | INSERTs in a changeset | broker, 1,000 items/s | processor µs an item | mutex, 1,000 items/s | processor µs an item | channel, 1,000 items/s | processor µs an item |"
echo "|--:|--:|--:|--:|--:|--:|--:|--:|"
for changes in 1 100; do
    for publishers in 1 2 4 8; do
        all=$((changes == 1 ? 400000 : 40000))
        sends=$((all / publishers))
        printf '| %d | %d |' "$publishers" "$changes"
        for mode in "$ours broker" "$work/mutex" "$ours channel"; do
            # shellcheck disable=SC2086
            took $mode "$publishers" "$changes" "$sends" |
                awk -v all="$all" '{ printf " %.0f | %.2f |", all / $1 / 1000, $2 * 1000000 / all }'
        done
        echo
    done
done
