#!/bin/sh
# Runs ten scripts and five drives under valgrind: it must find no error and no lost block, and what is written must be what
# it is without valgrind. One line for each.
#   sh checks/valgrind.sh        needs valgrind, python3 and the program as `rt run` leaves it (README.md)
. "$(dirname "$0")/begin.sh"
program=crates/rb_run/out/rb_run
[ -x "$program" ] || fail "no program at $program: see README.md" 2
command -v valgrind >/dev/null || fail 'no valgrind' 2

# words FILE: the options in it; none if there is no such file
words() { [ ! -f "$1" ] || cat "$1"; }

# status FILE: the status in it; 0 if there is no such file
status() { if [ -f "$1" ]; then cat "$1"; else echo 0; fi; }

# watched NAME STATUS WANTED INPUT WORDS..: runs the program under valgrind, and compares
watched() {
    name=$1 wanted=$2 output=$3 input=$4
    shift 4
    timeout 600 valgrind --quiet --error-exitcode=99 --leak-check=full --errors-for-leak-kinds=definite,indirect \
        --log-file="$work/log" "$program" "$@" <"$input" >"$work/out" 2>"$work/err"
    found=$? why=
    [ $found -eq "$wanted" ] || why="status $found"
    cmp -s "$work/out" "$output" || why="${why:+$why, }another output"
    [ ! -s "$work/log" ] || why="${why:+$why, }$(head -n 2 "$work/log" | tr '\n' ' ')"
    judged "$name" "$why"
}

for crate in rb_cases rb_drive_cases; do
    python3 checks/packs.py unpack $crate "$work/$crate" || exit 2
done
for name in cut-everywhere.every-cut hostile-lines.lines line-bounds record-faults.faults recorded-all-types \
    history-faults history-falls history-opened history-withdrawals grouped-recorded-many-updates; do
    case=$work/rb_cases/$name
    # each word of the options is one of the program's
    watched "script $name" 0 "$case.answers" "$case.script" script $(words "$case.args")
done
for drive in examples/drives/a-conflict examples/drives/faulty-lines examples/drives/nothing \
    "$work/rb_drive_cases/as-many-as-the-capacity-3"; do
    watched "drive ${drive##*/}" "$(status "$drive.status")" "$drive.report" "$drive.drive" drive $(words "$drive.args")
done
drive=examples/drives/a-conflict
watched 'drive a-conflict, with a replica and appliers' "$(status $drive.status)" $drive.report $drive.drive \
    drive $(words $drive.args) --appliers 4 --replica "$work/replica.db"
none_failed runs
