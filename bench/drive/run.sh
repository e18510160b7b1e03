#!/bin/sh
# Measures `rb_run drive` against SQLite's changegroups and `sqlite3changeset_apply`, on the same inputs, and prints two
# tables. Both programs have to write the same report. The program is built first where it isn't; RT names the prover's
# command where it isn't `rt`, PROGRAM a built program, RUNS how often each is run. EACH=each has the C program make a group
# for each subscriber anew. PRIORITY is a command that gives both a priority, as `chrt -r 50`, on a machine that does other
# work. With numbers, as `1 2`, it measures those rows alone.
set -eu
. "$(dirname "$0")/../../checks/begin.sh"
: "${PROGRAM:=crates/rb_run/out/rb_run}"
: "${RUNS:=5}"
: "${EACH:=}"
: "${PRIORITY:=}"
BATCH=16
installs gcc libc6-dev libsqlite3-dev

for name in input replicas phases; do
    gcc -O2 -Wall -Wextra "bench/drive/$name.c" bench/fields.c bench/apply/measure.c -lsqlite3 -o "$work/$name"
done
[ -x "$PROGRAM" ] || (cd crates/rb_run && "$RT" run -- script </dev/null >&2)
[ -x "$PROGRAM" ] || fail "no program: the command $RT has not made it"

# median FIELD FILE
median() { cut -d ' ' -f "$1" "$2" | sort -n | sed -n "$(((RUNS + 1) / 2))p"; }

# phases NAME: reading, work, report, the whole and processor time in milliseconds, and memory in kilobytes
phases() {
    reading="$(median 2 "$work/$1.read")"
    echo "$reading $(median 1 "$work/$1.all") $(median 2 "$work/$1.all") $(median 3 "$work/$1.all") $(median 4 "$work/$1.all")" |
        awk '{ printf "%.1f %.1f %.1f %.1f %.1f %d", $1, $2 - $1, $3 - $2, $3, $4, $5 }'
}

count=0
# row NAME KIND CHANGES LINES PUBLISHERS SUBSCRIBERS: one line of each table
row() {
    count=$((count + 1))
    case " $wanted " in *" $count "* | '  ') ;; *) return 0 ;; esac
    name="$1" lines="$4" publishers="$5" subscribers="$6"
    "$work/input" "$2" "$3" "$lines" "$publishers" >"$work/in"
    { cat "$work/in" && echo bad; } >"$work/bad"
    ours="$PROGRAM drive --batch $BATCH --subscribers $subscribers" sqlite="$work/replicas $BATCH $subscribers $EACH"
    # the commands are words
    # shellcheck disable=SC2086
    {
        [ "$($ours <"$work/in" | cksum)" = "$($sqlite <"$work/in" | cksum)" ] || fail "$name: two reports"
        rm -f "$work"/*.all "$work"/*.read
        for _ in $(seq "$RUNS"); do
            $PRIORITY "$work/phases" 0 "$work/in" $ours >>"$work/ours.all" || fail "$name: the program fails"
            $PRIORITY "$work/phases" 0 "$work/in" $sqlite >>"$work/sqlite.all" || fail "$name: the C program fails"
            $PRIORITY "$work/phases" 1 "$work/bad" $ours >>"$work/ours.read" 2>/dev/null || fail "$name: a bad line is taken"
            $PRIORITY "$work/phases" 1 "$work/bad" $sqlite >>"$work/sqlite.read" 2>/dev/null || fail "$name: C takes a bad line"
        done
    }
    bytes="$(awk '$1 == "changeset" { bytes += length($3) / 2 } END { print bytes }' "$work/in")"
    echo "$lines $bytes $(phases ours) $(phases sqlite)" | awk -v name="$name | $publishers | $subscribers" '{
        printf "| %s | %.1f | %.1f | %.1f | %.1f | %.1f | %.1f |\n", name, $1 / $4, $2 / $4 / 1000, $1 / $10,
            $2 / $10 / 1000, $10 / $4, $12 / $6 }' >>"$work/rates"
    echo "$(phases ours) $(phases sqlite)" | awk -v name="$name | $publishers | $subscribers" '{
        printf "| %s", name
        for (i = 0; i < 12; i += 6)
            printf " | %.0f | %.0f | %.0f | %.0f | %.0f", $(i + 1), $(i + 2), $(i + 3), $(i + 5), $(i + 6) / 1024
        printf " |\n" }' >>"$work/times"
}

wanted="$*"
echo "$(nproc) processors, $(sed -n 's/^model name[^:]*: //p' /proc/cpuinfo | head -n 1)," \
    "SQLite $(dpkg-query -W -f '${Version}' libsqlite3-0), load before: $(cut -d ' ' -f 1 /proc/loadavg)"
echo
for publishers in 1 4; do
    subscribers=$((publishers * publishers))
    row '65,536 of 1 INSERT' inserts 1 65536 $publishers $subscribers
    row '4,096 of 100 INSERTs' inserts 100 4096 $publishers $subscribers
    row '4,096 of 100 UPDATEs of 1,000 rows' updates 100 4096 $publishers $subscribers
done
[ -s "$work/rates" ] || fail 'no such row'
echo "| changesets | publishers | subscribers | ours, 1,000/s | MB/s | SQLite's, 1,000/s | MB/s | ratio | ratio of the whole run |"
echo "|---|--:|--:|--:|--:|--:|--:|--:|--:|"
cat "$work/rates"
echo
echo "| changesets | publishers | subscribers | reading, ms | work, ms | report, ms | processor, ms | MB | SQLite's: reading, ms | work, ms | report, ms | processor, ms | MB |"
echo "|---|--:|--:|--:|--:|--:|--:|--:|--:|--:|--:|--:|--:|"
cat "$work/times"
