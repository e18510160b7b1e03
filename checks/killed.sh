#!/bin/sh
# Kills drives whose subscriber 0 is durable at random moments (SIGKILL, SIGTERM and SIGHUP in turn), and then a quarter as many
# in their first 30 milliseconds. It reads their replica by the shell sqlite3: it is whole (PRAGMA integrity_check), and its rows
# and its mark are those of one accepted run. Of a file that is being made sqlite3 may say that it is no database. Then the
# file begins with a zero byte, its log has 41 bytes, and a second drive over both ends Ok with all rows. Prints how often the
# replica was not there yet, was such a file, was in the middle, and was at its end.
#   sh checks/killed.sh [TIMES] [SEED]      200 times; needs sqlite3, python3 and the program as `rt run` leaves it (README.md)
. "$(dirname "$0")/begin.sh"
program=$PWD/crates/rb_run/out/rb_run
[ -x "$program" ] || fail "no program at $program: see README.md" 2
times=${1:-200} seed=${2:-1} entries=600 batch=4
file=$work/replica.db
python3 checks/killed.py input "$entries" >"$work/in"

# the seconds that a drive takes, and the moments at which each is killed
begun=$(date +%s.%N)
"$program" drive --batch "$batch" --replica "$work/whole.db" <"$work/in" >"$work/report" || fail 'a drive fails that nobody kills'
awk -v n="$times" -v seed="$seed" -v begun="$begun" -v ended="$(date +%s.%N)" '
    function kill_within(seconds) { printf "%.4f %s\n", rand() * seconds, signals[i++ % 3 + 1] }
    BEGIN {
        srand(seed); split("KILL TERM HUP", signals)
        while (i < n) kill_within((ended - begun) * 1.1)
        while (i < n + n / 4) kill_within(0.03)
    }' >"$work/moments"

# sql FILE SQL
sql() { sqlite3 -bail -batch "$1" "$2"; }

# is_whole: sqlite3 finds a whole database. It looks at copies, since it writes beside a file, and a second drive may come.
is_whole() {
    rm -rf "$work/copy" && mkdir "$work/copy" && cp "$file"* "$work/copy" || exit 2
    [ "$(sql "$work/copy/replica.db" 'PRAGMA integrity_check' 2>"$work/why")" = ok ]
}

# is_begun: sqlite3 found no database since the file is being made: it has at most a page, which begins with a zero byte, and
# its log has 41 bytes
is_begun() {
    grep -q 'file is not a database' "$work/why" && [ "$(od -A n -t u1 -N 1 "$file" | tr -d ' ')" = 0 ] &&
        [ "$(wc -c <"$file")" -le 4096 ] && [ -f "$file-wal" ] && [ "$(wc -c <"$file-wal")" -eq 41 ]
}

# find_run: lets $place be the mark, which the rows must be those of
find_run() {
    mark=$(sql "$file" 'SELECT id, place FROM rb_mark')
    place=${mark#1|}
    [ "$mark" = "1|$place" ] || fail "after $moment s the mark is '$mark'"
    sql "$file" 'SELECT tab, hex(rowkey), hex(body) FROM rb_row ORDER BY tab, rowkey' >"$work/rows"
    python3 checks/killed.py rows "$place" | cmp -s - "$work/rows" || fail "after $moment s the rows aren't those of $place"
}

# take_again: a second drive takes the file, and its replica is at the end
take_again() {
    "$program" drive --batch "$batch" --replica "$file" <"$work/in" >"$work/out" 2>"$work/err" &&
        cmp -s "$work/out" "$work/report" || fail "after $moment s a second drive doesn't take the file: $(cat "$work/err")"
    find_run
    [ "$place" -eq "$entries" ] || fail "after $moment s a second drive leaves the rows of $place"
}

none=0 again=0 middle=0 ended=0
while read -r moment signal; do
    rm -f "$file"*
    "$program" drive --batch "$batch" --replica "$file" <"$work/in" >"$work/out" 2>"$work/err" &
    drive=$!
    sleep "$moment"
    kill -"$signal" "$drive" 2>/dev/null
    # it holds the file until it is gone
    wait "$drive" 2>/dev/null
    if [ ! -s "$file" ] && [ ! -s "$file-wal" ]; then
        none=$((none + 1))
        continue
    fi
    if ! is_whole; then
        is_begun || fail "after $moment s the file isn't whole"
        take_again
        again=$((again + 1))
        continue
    fi
    if [ "$(sql "$file" "SELECT count(*) FROM sqlite_master WHERE type = 'table'")" = 0 ]; then
        none=$((none + 1))
        continue
    fi
    find_run
    if [ "$place" -eq "$entries" ]; then ended=$((ended + 1)); else middle=$((middle + 1)); fi
done <"$work/moments"
echo "killed $(wc -l <"$work/moments") times: $none before the replica was there, $again at a file that a second drive took," \
    "$middle in the middle, $ended at the end; all whole"
[ "$middle" -gt 0 ] || fail "none was killed in the middle: take other moments"
