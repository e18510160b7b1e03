#!/bin/sh
# Measures 5,000 transactions of one row that reach two replicas: by keeper/, and by a session and a log table (ways.c). It
# prints a table: the least of RUNS runs in which the ways take turns, and how often the log's time that is.
#   sh bench/keeper/run.sh [TRANSACTIONS]
# It needs gcc, libsqlite3-dev, and what `rt lib` leaves in crates/broker_c, or BROKER, the path of libbroker_c.a. RT names
# the prover's command where it isn't `rt`. PRIORITY is a command that gives the programs a priority on a busy machine, as
# `chrt -r 50`, FILES the folder in which the databases lie, and RUNS how often each way is run, 5 times where it isn't set.
set -eu
. "$(dirname "$0")/../../checks/begin.sh"
: "${PRIORITY:=}" "${RUNS:=5}" "${FILES:=$work}"
files=$(mktemp -d "$FILES/gubzelk.XXXXXX") && trap 'rm -rf "$work" "$files"' EXIT
words=$(OUT=$work sh keeper/build.sh --libs) || fail 'no library of keeper'
# shellcheck disable=SC2086 # they are the compiler's words
gcc -std=c11 -D_GNU_SOURCE -O2 -Wall -Wextra -Werror -I keeper bench/keeper/ways.c $words -o "$work/ways"
echo "$(nproc) processors, $(sed -n 's/^model name[^:]*: //p' /proc/cpuinfo | head -n 1)," \
    "load before: $(cut -d ' ' -f 1 /proc/loadavg)"
for _ in $(seq "$RUNS"); do
    for way in keeper log; do
        rm -f "$files"/*
        (cd "$files" && $PRIORITY "$work/ways" $way "${1:-5000}") >>"$work/$way" || fail "$way fails"
    done
done
echo '| way | written_ms | applied_ms | ratio |
|---|--:|--:|--:|'
for way in keeper log; do
    echo "$way $(cut -d ' ' -f 1 "$work/$way" | sort -n | head -n 1) $(cut -d ' ' -f 2 "$work/$way" | sort -n | head -n 1)"
done | awk '{ way[NR] = $1; written[NR] = $2; applied[NR] = $3 }
    END { for (i = 1; i < 3; i++) printf "| %s | %s | %s | %.2f |\n", way[i], written[i], applied[i], applied[i] / applied[2] }'
