#!/bin/sh
# Refuses each allocation of each test in turn. A test must then pass, or end with an error of its own (out of memory,
# handed up), and never with a failed assertion or a signal: its assertions say that what was refused is as before. Where
# a test can't hand it up, as in a sink that it lends to the library, it stops with "the test's own memory". Then it
# prints how many refusals the calls met that calls.txt wants of the crate, and fails where one met too few.
#   sh refused/tests.sh CRATE..        needs gcc, and the test programs as `rt test` leaves them in crates/CRATE/out
# ONLY is a pattern that the tests' names match, where not all are wanted. Some allocate more often than anybody waits for,
# and one of rb_tests asks for nothing, so checks/all.sh has patterns for rb_tests and rb_threads. With REFUSE_LEAST only
# allocations of so many bytes are refused: REFUSE_LEAST=500000 ONLY='three_segments' refuses each segment of the
# sequence.
if [ $# -eq 0 ]; then
    echo "tests.sh: usage: sh refused/tests.sh CRATE.." >&2
    exit 2
fi
. "$(dirname "$0")/shim.sh"
. refused/reached.sh

judge() {
    if [ "$1" -eq 0 ]; then
        echo passed
    elif [ "$1" -lt 126 ] && ! grep -q 'assertion .*failed' "$work/out" "$work/err"; then
        echo told
    elif cat "$work/err" "$work/out" | head -n 1 | grep -q "^the test's own memory: Alloc"; then
        echo told
    fi
}

for crate in "$@"; do
    program=crates/$crate/out/${crate}_tests
    [ -x "$program" ] || fail "no program at $program: run rt test in crates/$crate" 2
    tests=$("$program" --list | sed -n 's/: test$//p' | grep -E -- "${ONLY:-.}")
    if [ -z "$tests" ]; then
        wrong "$crate: no tests"
    fi
    : >"$work/calls"
    for test in $tests; do
        if ! "$program" "$test" </dev/null >"$work/out" 2>&1; then
            wrong "$crate $test: fails where nothing is refused"
            continue
        fi
        in_turn "$crate $test" judge /dev/null "$program" "$test"
    done
    [ -n "$REFUSE_LEAST" ] || reached "$crate" "$program"
done
summary
