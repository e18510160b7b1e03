#!/bin/sh
# Measures how many accepted runs a second a durable replica takes (`rb_run drive --replica`), beside a C program that commits
# the same rows by SQLite's library: in its default journal, and in WAL with synchronous FULL and NORMAL. Prints one table, and
# then what a commit writes and syncs (by strace). FOLDER says where the files lie: a disk, and no memory. PROGRAM is a
# built program, RUNS how often each is run.
set -eu
# where the folder of the files is made
export TMPDIR="${FOLDER:-.}"
. "$(dirname "$0")/../../checks/begin.sh"
: "${PROGRAM:=crates/rb_run/out/rb_run}"
: "${RUNS:=3}"
TEXT=100
installs gcc libc6-dev libsqlite3-dev strace

[ -x "$PROGRAM" ] || fail "no program at $PROGRAM: see README.md"
gcc -O2 -Wall -Wextra bench/drive/input.c bench/fields.c bench/apply/measure.c -lsqlite3 -o "$work/input"
gcc -O2 -Wall -Wextra bench/drive/phases.c bench/apply/measure.c -lsqlite3 -o "$work/phases"
gcc -O2 -Wall -Wextra bench/durable/sqlite.c bench/apply/measure.c -lsqlite3 -o "$work/sqlite"

# median FILE: of the first words of its lines
median() { cut -d ' ' -f 1 "$1" | sort -n | sed -n "$(((RUNS + 1) / 2))p"; }

# drive BATCH WORDS..: milliseconds of a drive of $work/in
drive() {
    batch="$1"
    shift
    rm -f "$work"/ours.db*
    "$work/phases" 0 "$work/in" "$PROGRAM" drive --batch "$batch" "$@" | cut -d ' ' -f 2
}

# sqlite JOURNAL SYNCHRONOUS COMMITS CHANGES: milliseconds of these commits
sqlite() {
    rm -f "$work"/theirs.db*
    "$work/sqlite" "$work/theirs.db" "$1" "$2" "$3" "$4" "$TEXT"
}

# rate COMMITS FILE: commits a second
rate() { awk -v n="$1" -v ms="$(median "$2")" 'BEGIN { printf "%.0f", n * 1000 / ms }'; }

# row COMMITS CHANGES: each changeset is one commit
row() {
    commits="$1" changes="$2"
    "$work/input" inserts "$changes" "$commits" 1 "$TEXT" >"$work/in"
    rm -f "$work"/*.ms
    for _ in $(seq "$RUNS"); do
        drive 1 >>"$work/memory.ms"
        drive 1 --replica "$work/ours.db" >>"$work/ours.ms"
        sqlite DELETE FULL "$commits" "$changes" >>"$work/delete.ms"
        sqlite WAL FULL "$commits" "$changes" >>"$work/full.ms"
        sqlite WAL NORMAL "$commits" "$changes" >>"$work/normal.ms"
    done
    echo "| $changes | $(rate "$commits" "$work/ours.ms") | $(rate "$commits" "$work/memory.ms") |" \
        "$(rate "$commits" "$work/delete.ms") | $(rate "$commits" "$work/full.ms") | $(rate "$commits" "$work/normal.ms") |"
}

echo "| changes a run | ours, durable, runs/s | ours, in memory, runs/s | SQLite, default, commits/s | WAL FULL | WAL NORMAL |"
echo "|--:|--:|--:|--:|--:|--:|"
row 400 1
row 400 16
row 200 256

echo
echo "| --batch | entries/s into a replica | commits |"
echo "|--:|--:|--:|"
"$work/input" inserts 1 4096 1 "$TEXT" >"$work/in"
for batch in 1 16 256; do
    rm -f "$work"/*.ms
    for _ in $(seq "$RUNS"); do drive "$batch" --replica "$work/ours.db" >>"$work/ours.ms"; done
    echo "| $batch | $(rate 4096 "$work/ours.ms") | at least $((4096 / batch)) |"
done

# traced FILE: the calls that a trace lists, a line each: COUNT NAME BYTES
traced() {
    awk '{ sub(/^[0-9]+ +/, "") } /^(write|pwrite64|fsync|fdatasync)\(/ {
        name = $0; sub(/\(.*/, "", name); bytes = $0; sub(/.*= /, "", bytes)
        count[name]++; sum[name] += bytes + 0 } END { for (n in count) print count[n], n, sum[n] }' "$1"
}

echo
"$work/input" inserts 1 100 1 "$TEXT" >"$work/in"
rm -f "$work"/ours.db*
strace -f -o "$work/trace" -e trace=write,pwrite64,fsync,fdatasync -P "$work/ours.db" -P "$work/ours.db-wal" \
    "$PROGRAM" drive --batch 1 --replica "$work/ours.db" <"$work/in" >/dev/null
echo "100 runs of one change, ours (count, call, bytes):"
traced "$work/trace"
rm -f "$work"/theirs.db*
strace -f -o "$work/trace" -e trace=write,pwrite64,fsync,fdatasync "$work/sqlite" "$work/theirs.db" WAL FULL 100 1 "$TEXT" >/dev/null
echo "the same by SQLite's library in WAL FULL:"
traced "$work/trace"
