#!/bin/sh
# Checks include/broker.h and the library behind it. It prints a line for each check, and ends with status 1 where one
# fails.
# - The headers compile without a warning as C and as C++, alone and together. Compilers warn of a result that isn't
#   used and of NULL. The examples of examples/broker print what they must.
# - Each script case of the crate rb_cases, answered by calls (cases.c), has the answers of its file: with the
#   changesets as they stand, byte by byte and in pieces of 7 bytes. Some run again over AddressSanitizer, and some in
#   valgrind.
# - The calls that no line of a script makes place what others place, and tell how far a subscription has come
#   (unscripted.c), also over AddressSanitizer and in valgrind.
# - Every call with each allocation refused in turn changes nothing, and no memory stays in use (handles.c): by a malloc
#   of its own, over AddressSanitizer and in valgrind.
# - Two threads use two handles at once, and one handle under a lock (threads.c), also in helgrind.
# - Changesets of the most bytes come back as they were fed, until the sequence is full (large.c).
#   sh checks/library.sh        needs gcc, g++, valgrind, python3 and what `rt lib` leaves in crates/broker_c
# RT names the prover's command where it isn't `rt`. With EVERY=1 all cases run over AddressSanitizer and in valgrind;
# else each fourth and each 20th.
# shellcheck disable=SC2086 # several variables hold words of the compiler or of the program
. "$(dirname "$0")/begin.sh"
: "${EVERY:=20}"
library=crates/broker_c/out/libbroker_c.a
[ -e $library ] || fail "no $library: see examples/broker/run.c" 2
find_heap
command -v valgrind >/dev/null || fail 'no command valgrind' 2

# warns FILE: the compiler refuses a file for a warning
warns() {
    ! gcc -std=c99 $strict -c "$1" -o "$work/o" 2>"$work/why" && grep -q 'Werror' "$work/why"
}

# prints FILE PROGRAM: the program's output is the one that is kept
prints() {
    "$2" >"$work/printed" && cmp "$work/printed" "$1"
}

strict='-O2 -Wall -Wextra -pedantic -Werror -I include'
printf '#include "broker.h"\nint main(void) { return BROKER_OK; }\n' >"$work/main.cpp"
printf '#include "broker.h"\n#include "changeset.h"\nint main(void) { return BROKER_OK; }\n' >"$work/both.cpp"
printf '#include "changeset.h"\n#include "broker.h"\nint main(void) { return BROKER_OK; }\n' >"$work/turned.cpp"
for standard in c99 c11 c17; do
    for file in main both turned; do
        says "$standard, $file" gcc -std=$standard $strict -x c "$work/$file.cpp" -o "$work/none"
    done
    says "$standard, the examples" gcc -std=$standard $strict examples/broker/run.c $library "$heap" -o "$work/run"
    says "$standard, the short one" gcc -std=$standard $strict examples/broker/short.c $library "$heap" -o "$work/short"
done
for standard in c++11 c++17; do
    for file in main both turned; do
        says "$standard, $file" g++ -std=$standard $strict "$work/$file.cpp" -o "$work/none"
    done
    says "$standard, the example" g++ -std=$standard $strict -x c++ examples/broker/run.c -x none $library "$heap" \
        -o "$work/run-cpp"
done
cat >"$work/unused.c" <<'E2'
#include "broker.h"
void f(broker *b, uint64_t *entry) { broker_turn(b, entry); }
E2
cat >"$work/null.c" <<'E2'
#include "broker.h"
int64_t f(broker *b) { return broker_text(b, 1, 0, 0); }
E2
says 'a result that is not used gets a warning' warns "$work/unused.c"
says 'NULL gets a warning' warns "$work/null.c"
says 'the example, from C' prints examples/broker/run.output "$work/run"
says 'the example, from C++' prints examples/broker/run.output "$work/run-cpp"
echo 'settled up to entry 1' >"$work/short.output"
says 'the short one' prints "$work/short.output" "$work/short"
# what follows takes minutes
none_failed checks

# builds NAME WORDS..: a program over the library
builds() {
    built=$1
    shift
    gcc -std=c99 $strict "$@" $library "$heap" -o "$work/$built"
}
wrap='-Wl,--wrap=malloc,--wrap=realloc,--wrap=free'
sanitize='-g -fsanitize=address,undefined -fno-sanitize-recover=all'
# valgrinds PROGRAM..: valgrind finds nothing in it
valgrinds() {
    valgrind -q --leak-check=full --show-leak-kinds=all --errors-for-leak-kinds=all --error-exitcode=9 "$@"
}

# Allocations refused.
says 'calls without memory, compiled' builds handles -std=gnu99 checks/handles.c checks/count.c
says 'calls without memory' "$work/handles"
says 'the same over AddressSanitizer, compiled' builds handles-a $sanitize $wrap checks/handles.c checks/wrapped.c
says 'the same over AddressSanitizer' "$work/handles-a"
says 'the same for valgrind, compiled' builds handles-v $wrap checks/handles.c checks/wrapped.c
says 'the same in valgrind' valgrinds "$work/handles-v"

# Calls that no line makes.
says 'calls without a line, compiled' builds unscripted checks/unscripted.c
says 'calls without a line' "$work/unscripted"
says 'the same over AddressSanitizer, compiled' builds unscripted-a $sanitize checks/unscripted.c
says 'the same over AddressSanitizer' "$work/unscripted-a"
says 'the same in valgrind' valgrinds "$work/unscripted"

# Threads.
says 'threads, compiled' builds threads checks/threads.c -pthread
says 'threads' "$work/threads"
says 'threads in helgrind' valgrind -q --tool=helgrind --error-exitcode=9 "$work/threads" 200

says 'large changesets, compiled' builds large checks/large.c
says 'large changesets' "$work/large"

# Cases.
# answers CASE PROGRAM..: the program, with the options of the case, gives its answers. Its status is 3 where a line
# stops it.
answers() {
    case=$1
    shift
    options='' wanted=0
    [ ! -f "$case.args" ] || options=$(cat "$case.args")
    [ ! -f "$case.fault" ] || wanted=3
    # each word of the options is one of the program's
    "$@" $options <"$case.script" >"$work/answers"
    [ $? -eq $wanted ] && cmp -s "$work/answers" "$case.answers"
}

# in_pieces CASE PROGRAM..: so it does with the changesets as they stand, byte by byte, and in pieces of 7 bytes. A case
# with --numbers or --strict isn't cut.
in_pieces() {
    answers "$@" || return 1
    case $options in *--numbers* | *--strict*) return 0 ;; esac
    answers "$@" --cut 1 && answers "$@" --cut 7
}

says 'cases, compiled' builds cases checks/cases.c checks/answers.c
says 'cases over AddressSanitizer, compiled' builds cases-a $sanitize checks/cases.c checks/answers.c
number=0 sanitized=$(((EVERY + 4) / 5))
python3 checks/packs.py unpack rb_cases "$work/data" || exit 2
for script in "$work/data"/*.script; do
    case=${script%.script}
    number=$((number + 1))
    says "case ${case##*/}" in_pieces "$case" "$work/cases"
    [ $((number % sanitized)) -ne 0 ] || says 'the same over AddressSanitizer' answers "$case" "$work/cases-a"
    [ $((number % EVERY)) -ne 0 ] || says 'the same in valgrind' answers "$case" valgrinds "$work/cases"
done
says 'there are cases' test $number -gt 300
none_failed checks
