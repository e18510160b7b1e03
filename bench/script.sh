#!/bin/sh
# Measures `rb_run script` on scripts of many lines, and prints four tables: three kinds of 10 MB; how the time grows with the
# entries and with the subscriptions; how it grows in histories that leave many spans or many deliveries in flight; and the
# memory that deliveries take. With words, as `hole returned`, it measures those histories alone, beside the plain one, and
# with `histories` all of them. SIZES has the sizes of the histories. The program is built first where it isn't; RT names the
# prover's command where it isn't `rt`. PROGRAM names a built one.
set -eu
. "$(dirname "$0")/../checks/begin.sh"
: "${PROGRAM:=crates/rb_run/out/rb_run}"
: "${SIZES:=1000 10000 100000}"
SINGLY='script --capacity 16777216 --batch 1 --window 64'

installs gcc libc6-dev libsqlite3-dev
gcc -O2 -Wall -Wextra bench/script/*.c bench/apply/measure.c -lsqlite3 -o "$work/lines"
[ -x "$PROGRAM" ] || (cd crates/rb_run && "$RT" run -- script </dev/null >&2)

# row NAME WORDS..: one line of a table, of the script that these words make. Each line of it has an answer.
row() {
    name="$1"
    shift
    "$work/lines" "$@" >"$work/script"
    lines="$(wc -l <"$work/script")"
    "$PROGRAM" script --capacity 16777216 <"$work/script" >"$work/answers" || fail "$name: the program fails"
    answers="$(wc -l <"$work/answers")"
    [ "$lines" -gt 0 ] && [ "$answers" -eq "$lines" ] || fail "$name: $answers answers to $lines lines"
    took="$("$work/lines" measure "$work/script" "$PROGRAM" script --capacity 16777216)" || fail "$name: nothing is measured"
    echo "$lines $(wc -c <"$work/script") $took" |
        awk -v name="$name" '{ printf "| %s | %d | %.1f | %.0f | %.0f | %d |\n", name, $1, $2 / 1000000, $3, $3 * 1000000 / $1, $4 / 1024 }'
}

# figures WORD ANSWER: for each size, the nanoseconds for a line of the history's script after its empty line. Each other line
# has an answer that is no refusal, and the last matches ANSWER, in which N stands for the size.
figures() {
    for size in $SIZES; do
        "$work/lines" "$1" "$size" >"$work/script"
        "$PROGRAM" $SINGLY <"$work/script" >"$work/answers" || fail "$1 $size: the program fails"
        ! grep -m 1 '^refused' "$work/answers" >&2 || fail "$1 $size: a line is refused"
        [ "$(grep -c . "$work/script")" -eq "$(wc -l <"$work/answers")" ] || fail "$1 $size: answers are missing"
        last="$(tail -n 1 "$work/answers")"
        case "$last" in
        $(echo "$2" | sed "s/N/$size/")) ;;
        *) fail "$1 $size: the last answer is $last" ;;
        esac
        took="$("$work/lines" after "$work/script" "$PROGRAM" $SINGLY)" || fail "$1 $size: nothing is measured"
        echo "${took#* }"
    done
}

# history WORD NAME ANSWER: one line of the table of histories, if the history is wanted
history() {
    case " $wanted " in *" $1 "* | *' histories '*) ;; *) return 0 ;; esac
    figures "$1" "$3" >"$work/figures"
    [ "$1" != plain ] || tail -n 1 "$work/figures" >"$work/plain"
    awk -v name="$2" -v plain="$(cat "$work/plain")" '
        NR == 1 { first = $1; printf "| %s", name }
        { printf " | %.0f", $1 }
        END { printf " | %.2f | %.2f |\n", $1 / first, $1 / plain }' "$work/figures"
}

# histories WORDS..: their table, in which all are compared with the plain one
histories() {
    wanted="plain $*"
    echo "$SIZES" | awk '{
        printf "| ns for a line"
        for (i = 1; i <= NF; i++) printf " | %d", $i
        printf " | growth | by plain |\n|---|"
        for (i = 1; i <= NF + 2; i++) printf "--:|"
        printf "\n" }'
    history plain 'plain' 'floor N'
    history hole 'hole' 'floor 0'
    history returned 'returned' 'floor N'
    history takeany '1,024 subscriptions by `takeany`' 'floor [1-9]*'
    history inflight '`expire`, 65,536 in flight' 'expired 0'
    history settled '`expire`, 299,999 settled spans' 'expired 0'
}

head='| script | lines | MB | ms | ns for a line | memory, MB |
|---|--:|--:|--:|--:|--:|'
echo "$(nproc) processors, $(sed -n 's/^model name[^:]*: //p' /proc/cpuinfo | head -n 1), load before: $(cut -d ' ' -f 1 /proc/loadavg)"
echo
if [ $# -gt 0 ]; then
    histories "$@"
    exit
fi
echo "$head"
row 'many small changesets' small 147000
row 'few large changesets' large 9900000
row '100 subscriptions of 20,000 entries' takes 20000 100
echo
echo "$head"
for entries in 1000 10000 100000; do row "$entries entries, 1 subscription" takes "$entries" 1; done
for subscriptions in 10 100 1000; do row "1000 entries, $subscriptions subscriptions" takes 1000 "$subscriptions"; done
for subscriptions in 10 100 1000; do row "the same by \`takeany\`, $subscriptions" any 1000 "$subscriptions"; done
echo
histories histories
echo
echo "$head"
for deliveries in 1 131072 262144 524288; do row "$deliveries deliveries, each given back" nacks "$deliveries"; done
