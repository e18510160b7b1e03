# What run.sh and tests.sh share. It builds the shim.
. "$(dirname "$0")/../checks/begin.sh"
gcc -O2 -Wall -Wextra -fno-omit-frame-pointer -fno-optimize-sibling-calls -shared -fPIC -o "$work/refuse.so" \
    refused/refuse.c -ldl || fail 'refuse.c is not compiled' 2
all=0 all_told=0

# wrong WHAT: something isn't as it must be
wrong() {
    echo "$1"
    bad=$((bad + 1))
}

# summary: the script's end
summary() {
    [ "$bad" -eq 0 ] || fail "$bad failures"
    [ "$all_told" -gt 0 ] || fail "no refusal was reported, of $all"
}

# in_turn LABEL JUDGE INPUT COMMAND..: runs the command on the input once for each allocation that it asks for, which is
# refused. JUDGE STATUS says `passed`, `told` or another word of what stands in $work/out and $work/err. $work/calls gets
# the calls of each refusal (refuse.c).
in_turn() {
    label=$1 judge=$2 input=$3
    shift 3
    count=$(REFUSE_TELL=1 LD_PRELOAD="$work/refuse.so" "$@" <"$input" 2>&1 >/dev/null | sed -n 's/^asked //p' | tail -n 1)
    if [ "${count:-0}" -eq 0 ]; then
        wrong "$label: no allocation was seen, so none is refused"
        return
    fi
    passed=0 told=0 at=1
    while [ "$at" -le "$count" ]; do
        REFUSE_AT=$at REFUSE_CALLS=$work/calls LD_PRELOAD="$work/refuse.so" "$@" <"$input" >"$work/out" 2>"$work/err"
        status=$?
        case $($judge $status) in
        passed) passed=$((passed + 1)) ;;
        told) told=$((told + 1)) ;;
        *) wrong "$label: allocation $at: status $status: $(cat "$work/err" "$work/out" | head -c 120)" ;;
        esac
        at=$((at + 1))
    done
    all=$((all + count)) all_told=$((all_told + told))
    echo "$label: $count allocations, passed $passed times, told $told times"
}
