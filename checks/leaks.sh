#!/bin/sh
# Checks that memory is given back: by the exports for C at every call, and by the program at its end. It prints the numbers.
#   sh checks/leaks.sh        needs gcc, what `rt run` and `rt lib` leave (docs/C.md and README.md), and `rt test` in
#                             crates/rb_threads
# RT names the prover's command where it isn't `rt`.
. "$(dirname "$0")/begin.sh"
program=crates/rb_run/out/rb_run library=crates/changeset_c/out/libchangeset_c.a
tests=crates/rb_threads/out/rb_threads_tests
for made in $program $library $tests; do
    [ -e $made ] || fail "no $made: see README.md" 2
done
find_heap
gcc -O2 -Wall -Wextra -I include checks/leaks.c checks/count.c $library "$heap" -o "$work/leaks" &&
    gcc -O2 -Wall -Wextra -shared -fPIC checks/count.c -o "$work/count.so" || exit 2

says 'the exports give back what they take' "$work/leaks"

# all_kinds ROUNDS: a script whose rounds apply a row and an update of it, meet a conflict twice in a subscription that lacks the row,
# and make three faults and other refusals
all_kinds() {
    awk -v rounds="$1" 'BEGIN {
        print "table 540201007400\npublisher\nsubscribe 0"
        for (i = 1; i <= rounds; i++) {
            key = sprintf("01%016x", i)
            first = 3 * i - 2; second = 3 * i - 1; third = 3 * i
            print "feed 0 540201007400\nfeed 0 1200" key "030178\nend 0\nend 0\nsend 0\nturn\ntake 0 0\naccept " first "\nack " first
            print "feed 0 02\nfeed 0 54\nend 0\nreset 0\nfeed 0 5401017500\nend 0\nreset 0\nsubscribe " 2 * i - 1
            print "feed 0 5402010074001700" key "03017800030179\nend 0\nsend 0\nturn\ntake 0 0\naccept " second "\nack " second
            print "take " i " 0\naccept " third "\naccept " third "\nack " third "\nnack " third "\nreconnect " i " " 2 * i - 1 "\nunsubscribe " i
            print "entry " i "\nrows " i "\nturn\nexpire 0\ntakeany 0\ntable 54\n-"
        }
        print "rows 0"
    }'
}

# nothing_kept ROUNDS: a script whose rounds leave nothing behind
nothing_kept() {
    awk -v rounds="$1" 'BEGIN {
        print "table 540201007400\npublisher\nsubscribe 0"
        for (i = 1; i <= rounds; i++) {
            print "feed 0 540201007400120001000000000000000103017812\nend 0\nreset 0\nfeed 0 02\nfeed 0 54\nend 0\nreset 0"
            print "feed 0 540201007400120001000000000000000103017812ff\nfeed 0 00\nend 0\nreset 0"
            print "feed 0 5401017500\nend 0\nreset 0\nsend 0\nturn\ntake 0 0\naccept 1\nentry 1\nrows 0\nrows 1\ntable 54\n-"
        }
    }'
}

# measure SCRIPT ROUNDS: keeps the answers, and the number of bytes in use at the end and at most
measure() {
    "$1" "$2" >"$work/script"
    COUNT_TELL=1 LD_PRELOAD="$work/count.so" "$program" script <"$work/script" >"$work/out" 2>"$work/err"
    echo "$1, $2 rounds, status $?: $(cat "$work/err")"
    left=$(sed -n 's/^in use \([0-9]*\),.*/\1/p' "$work/err")
    most=$(sed -n 's/.*at most \([0-9]*\),.*/\1/p' "$work/err")
    says 'the program allocates by malloc' test "${most:-0}" -gt 0
}

# have NUMBER BEGINNING: so many answers begin so.
have() { says "$1 answers '$2'" test "$(grep -c "^$2" "$work/out")" -eq "$1"; }

measure all_kinds 100
left_of_100=$left
measure all_kinds 1000
have 2000 accepted
have 2000 floor
have 2000 'refused Conflict'
have 3000 fault
says 'as much in use at the end of both' test -n "$left" -a "$left" = "$left_of_100"

# a few pieces, changes of each kind, conflicts and faults are far below 1 MB
for script in nothing_kept all_kinds; do
    measure $script 1
    says 'a few small changesets take less than 1,000,000 bytes' test -n "$most" -a "$most" -lt 1000000
done

measure nothing_kept 100
left_of_100=$left most_of_100=$most
measure nothing_kept 1000
says 'as much in use at the end of both' test -n "$left" -a "$left" = "$left_of_100"
says 'as much in use at most' test -n "$most" -a "$most" = "$most_of_100"

# entries at both ends of the longest sequence: two segments of 1.5 MB are made, and not all 256
COUNT_TELL=1 LD_PRELOAD="$work/count.so" "$tests" cells::the_longest_sequence >"$work/out" 2>"$work/err"
most=$(sed -n 's/.*at most \([0-9]*\),.*/\1/p' "$work/err")
echo "the longest sequence, status $?: $(cat "$work/err")"
says 'two entries far apart take less than 4,000,000 bytes' test -n "$most" -a "${most:-0}" -lt 4000000
none_failed checks
