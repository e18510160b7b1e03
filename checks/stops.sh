#!/bin/sh
# Stops the database file or the log of a replica after each operation of a commit of so many changes, as the program
# `replica_stops` does in the gate for a commit of two, and prints what was found. The replica that is opened then must have the
# rows and the cursor of before the commit, or those of after it. The same of an accept, whose subscription falls and must be
# resumed.
#   sh checks/stops.sh CHANGES [PAGES]        needs the program as `rt run` leaves it in crates/replica_stops
# PAGES, 4 where it isn't given, is how many pages a database keeps in memory. With fewer a commit has more operations.
. "$(dirname "$0")/begin.sh"
program=crates/replica_stops/out/replica_stops
[ $# -eq 1 ] || [ $# -eq 2 ] || fail 'usage: sh checks/stops.sh CHANGES [PAGES]' 2
[ -x "$program" ] || fail "no program at $program: see checks/README.md" 2
{
    "$program" "$1" "${2:-4}"
    echo $? >"$work/status"
} | tee "$work/out"
[ "$(cat "$work/status")" = 0 ] || fail "status $(cat "$work/status")"
right=$(grep -c ' 0 wrong; a whole commit lasts$' "$work/out")
[ "$right" -eq 12 ] || fail "$right of 12 losses are right"
stopped=$(grep -c 'stops [1-9][0-9]* times$' "$work/out")
[ "$stopped" -eq 3 ] || fail "$stopped of 3 files were stopped"
resumed=$(grep -c 'stops [1-9][0-9]* times; .* 0 wrong$' "$work/out")
[ "$resumed" -eq 3 ] || fail "$resumed of 3 accepts were resumed"
