#!/bin/sh
# Measures what subscriptions take in memory, without rows and with them, and prints a table: 1, 10 and 50 of them over
# 50,000 rows of 250 bytes. It needs gcc and what `rt lib` leaves in crates/broker_c. RT names the prover's command where
# it isn't `rt`.
set -eu
. "$(dirname "$0")/../../checks/begin.sh"
library=crates/broker_c/out/libbroker_c.a heap="$(dirname "$($RT doc)")/c/liblibc_c.a"
for made in $library "$heap"; do
    [ -e "$made" ] || fail "no $made: see docs/C.md"
done
gcc -std=gnu99 -O2 -Wall -Wextra -I include -I checks bench/library/memory.c checks/count.c $library "$heap" \
    -o "$work/memory"

# taken KIND COUNT: megabytes in use, and of the resident set
taken() {
    "$work/memory" "$1" "$2" >"$work/out" || fail "$1 $2 fails"
    awk '{ printf "%.1f | %.1f", $1 / 1e6, $2 / 1e6 }' "$work/out"
}

echo '| subscriptions | without rows, MB in use | resident | with rows, MB in use | resident |
|--:|--:|--:|--:|--:|'
for count in 1 10 50; do
    bare=$(taken bare $count)
    rows=$(taken rows $count)
    echo "| $count | $bare | $rows |"
done
awk '{ printf "\nbefore them: %.1f MB in use\n", $3 / 1e6 }' "$work/out"
