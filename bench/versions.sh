#!/bin/sh
# Compares the libraries of several commits, and lean SQLite: the least time of each job, in milliseconds. The libraries take
# turns, each run in a process of its own, so other work on the machine disturbs all alike.
#   sh bench/versions.sh ROUNDS LIBRARY..    a library is what `rt lib` leaves in crates/changeset_c/out
# RT names the prover's command where it isn't `rt`, and PRIORITY one that runs the programs, as 'chrt -f 50'.
set -eu
: "${RT:=rt}" "${PRIORITY:=}"
[ $# -gt 1 ] || { echo 'usage: sh bench/versions.sh ROUNDS LIBRARY..' >&2 && exit 2; }
rounds=$1
shift
heap="$(dirname "$($RT doc)")/c/liblibc_c.a"
bench="$(dirname "$0")"
made="$(mktemp -d)"
trap 'rm -rf "$made"' EXIT
count=0
head='| job | rows |' line='|---|---|'
for library in "$@"; do
    count=$((count + 1))
    gcc -O2 -Wall -Wextra -I "$bench/../include" "$bench"/*.c "$library" "$heap" -lsqlite3 -o "$made/$count"
    head="$head $library |" line="$line--:|"
done
printf '%s lean SQLite |\n%s--:|\n' "$head" "$line"
for job in read build write invert inserts hot apart recorded; do
    for rows in integers texts blobs; do
        : >"$made/times"
        for round in $(seq "$rounds"); do
            for side in $(seq "$count"); do
                echo "$side $($PRIORITY "$made/$side" ours $job $rows 6)" >>"$made/times"
            done
            echo "$((count + 1)) $($PRIORITY "$made/1" lean $job $rows 6)" >>"$made/times"
        done
        printf '| %s | %s |' $job $rows
        for side in $(seq $((count + 1))); do
            printf ' %s |' "$(sed -n "s/^$side //p" "$made/times" | sort -n | head -n 1)"
        done
        echo
    done
done
