#!/bin/sh
# Runs each drive of examples/drives and of crates/rb_drive_cases three times with one applier, and twice each with 4 and with
# 16, and compares report and status with what they must be: threads take another course each time. NAME.drive is an input, NAME.report what it comes to, NAME.args its options
# and NAME.status its status, where it isn't 0. NAME.fault is the line after `rb_run: ` where it ends without a report. One
# line for each.
#   sh checks/drive.sh        needs python3 and the program as `rt run` leaves it (README.md)
. "$(dirname "$0")/begin.sh"
program=crates/rb_run/out/rb_run
[ -x "$program" ] || fail "no program at $program: see README.md" 2

# first FILE OTHER: the first line of the file; the other text if there is no such file
first() {
    found=$2
    [ ! -f "$1" ] || read -r found <"$1"
}

# an input that is too large for a folder
most=$work/bad-a-changeset-too-many
awk 'BEGIN { for (i = 0; i < 65537; i++) print "changeset 0 -" }' >"$most.drive"
echo 'line 65537' >"$most.fault"

python3 checks/packs.py unpack rb_drive_cases "$work/data" || exit 2
for input in examples/drives/*.drive "$work/data"/*.drive "$most.drive"; do
    [ -f "$input" ] || continue
    name=${input%.drive}
    first "$name.args" ''
    # each number of appliers is tried below, whatever the options say of it
    words=$(echo "$found" | sed 's/--appliers [0-9]*//')
    if [ -f "$name.fault" ]; then
        wanted=1 report=/dev/null
        first "$name.fault" ''
        said="rb_run: $found"
    else
        first "$name.status" 0
        wanted=$found report=$name.report said=
    fi
    why=
    for appliers in 1 1 1 4 4 16 16; do
        # the options are words
        # shellcheck disable=SC2086
        timeout 60 "$program" drive $words --appliers $appliers <"$input" >"$work/out" 2>"$work/err"
        status=$?
        [ "$status" -eq "$wanted" ] || why="status $status with $appliers appliers"
        cmp -s "$work/out" "$report" || why="${why:+$why, }another report"
        first "$work/err" ''
        [ "$found" = "$said" ] || why="${why:+$why, }it says '$found'"
        [ -z "$why" ] || break
    done
    count=$((count + 1))
    if [ -z "$why" ]; then
        echo "ok ${name##*/}"
    else
        bad=$((bad + 1))
        echo "NOT ok ${name##*/}: $why"
    fi
done
echo "$count drives, $bad bad"
[ "$count" -gt 1 ] && [ "$bad" -eq 0 ] || fail "$bad of $count drives are bad"
