#!/bin/sh
# Measures the calls of include/broker.h, and prints two tables: a call beside the same line of a script by a pipe, and
# the whole way of 100,000 changesets beside SQLite's own functions. It needs gcc, libsqlite3-dev, what `rt lib` leaves
# in crates/broker_c, and the program that `rt run` leaves. RT names the prover's command where it isn't `rt`, PROGRAM
# another program. PRIORITY is a command that gives the C programs a priority on a busy machine, as `chrt -r 50`, RUNS how
# often the whole way is run.
set -eu
. "$(dirname "$0")/../../checks/begin.sh"
: "${PROGRAM:=crates/rb_run/out/rb_run}"
: "${PRIORITY:=}"
: "${RUNS:=5}"
library=crates/broker_c/out/libbroker_c.a heap="$(dirname "$($RT doc)")/c/liblibc_c.a"
for made in $library "$heap" "$PROGRAM"; do
    [ -e "$made" ] || fail "no $made: see docs/C.md and README.md"
done
words='-std=c99 -O2 -Wall -Wextra -I include'
# they are the compiler's words
# shellcheck disable=SC2086
{
    gcc $words bench/library/calls.c bench/library/by_calls.c bench/library/by_pipe.c $library "$heap" -o "$work/calls"
    gcc $words bench/library/whole.c $library "$heap" -lsqlite3 -o "$work/whole"
}

echo "$(nproc) processors, $(sed -n 's/^model name[^:]*: //p' /proc/cpuinfo | head -n 1)," \
    "load before: $(cut -d ' ' -f 1 /proc/loadavg)"
echo
$PRIORITY "$work/calls" >"$work/ours" || fail 'the calls fail'
$PRIORITY "$work/calls" "$PROGRAM" >"$work/pipe" || fail 'the pipe fails'
echo '| job | by a call, ns | by a pipe, ns | ratio |
|---|--:|--:|--:|'
paste -d ' ' "$work/ours" "$work/pipe" | sed 's/^\([0-9.]* [0-9.]*\) \(.*\) \([0-9.]* [0-9.]*\) \2$/\1 \3 \2/' |
    awk '{ name = $0; for (i = 0; i < 4; i++) sub(/^[0-9.]+ /, "", name)
           printf "| %s | %.1f (%.1f) | %.0f (%.0f) | %.0f |\n", name, $1, $2, $3, $4, $3 / $1 }' | tee "$work/table"
[ "$(grep -c '^| .* [0-9]' "$work/table")" -eq 5 ] || fail 'jobs are missing'
echo
echo '| 100,000 changesets of one INSERT | ms | ns for a changeset |
|---|--:|--:|'
# the ways take turns
for _ in $(seq "$RUNS"); do
    for way in broker replica groups each; do
        $PRIORITY "$work/whole" $way >>"$work/$way" || fail "$way fails"
    done
done
# row WAY NAME: the median of its runs, and the least
row() {
    sort -n "$work/$1" | awk -v name="$2" '
        { took[NR] = $1 }
        END { median = took[int((NR + 1) / 2)]
              printf "| %s | %.0f (%.0f) | %.0f |\n", name, median, took[1], median * 10 }'
}
row broker 'the broker, feed to applied in its own tables'
row replica 'the broker, and each delivery applied to a database by sqlite3changeset_apply'
row groups 'SQLite alone: a changegroup of each 16, applied to a database'
row each 'SQLite alone: each changeset applied to a database'
