#!/bin/sh
# Refuses each allocation of the program in turn, for five scripts and two drives. The program must then say that memory
# ran out, with status 1 and the answers to some first lines of the script, of which a last one `text ..` may be cut, or the
# beginning of a drive's report; or do without, and answer all of them, or write the whole report.
#   sh refused/run.sh        needs gcc, python3, and the program as `rt run` leaves it (README.md)
. "$(dirname "$0")/shim.sh"
program=crates/rb_run/out/rb_run
[ -x "$program" ] || fail "no program at $program: see README.md" 2

judge() {
    if [ "$1" -eq 0 ] && cmp -s "$work/out" "$work/all"; then
        echo passed
    elif [ "$1" -eq 1 ] && [ "$(cat "$work/err")" = "rb_run: out of memory" ] &&
        head -c "$(wc -c <"$work/out")" "$work/all" | cmp -s - "$work/out" &&
        { [ -z "$(tail -c 1 "$work/out")" ] || tail -n 1 "$work/out" | grep -q '^text '; }; then
        echo told
    fi
}

for script in examples/first.script refused/changes.script refused/groups.script refused/withdrawals.script \
    refused/openings.script; do
    if ! "$program" script <"$script" >"$work/all" || [ ! -s "$work/all" ]; then
        wrong "$script: fails where nothing is refused"
        continue
    fi
    in_turn "$script" judge "$script" "$program" script
done
# A drive's threads end by themselves where one of them has no memory: the program says that they were stopped. Where
# there is none to write the report with, what is out is its beginning.
judge_drive() {
    if [ "$1" -eq 0 ] && cmp -s "$work/out" "$work/all"; then
        echo passed
    elif [ "$1" -eq 1 ] && [ ! -s "$work/out" ] && grep -qx 'rb_run: \(out of memory\|stopped\)' "$work/err"; then
        echo told
    elif [ "$1" -eq 1 ] && [ "$(cat "$work/err")" = "$(printf 'rb_run: write fault\nout of memory')" ] &&
        head -c "$(wc -c <"$work/out")" "$work/all" | cmp -s - "$work/out"; then
        echo told
    fi
}

python3 checks/packs.py unpack rb_drive_cases "$work/data" || exit 2
for drive in drive-two faulty-no-such-table; do
    case=$work/data/$drive
    if ! "$program" drive --subscribers 2 --appliers 4 <"$case.drive" >"$work/all" || [ ! -s "$work/all" ]; then
        wrong "$drive: fails where nothing is refused"
        continue
    fi
    in_turn "$drive" judge_drive "$case.drive" "$program" drive --subscribers 2 --appliers 4
done
summary
