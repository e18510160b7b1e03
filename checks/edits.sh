#!/bin/sh
# Tries edits that the gate leaves out, those of the lists crates/NAME/on-demand.edits: the prover must refuse each. It works
# on a clone of the last commit, and costs a check of the crate for each edit, 20 to 80 seconds of processor time.
#   sh checks/edits.sh NAME..            all edits of these crates
#   sh checks/edits.sh --some N SEED     N edits of all crates, chosen by SEED, the same ones on each machine
# It needs python3 and the prover's command `rt`, or another one that RT names. The libraries below a crate are built first.
# The status is 1 if an edit was not refused.
: "${RT:=rt}"
fail() {
    echo "edits.sh: $1" >&2
    exit "$2"
}

[ $# -gt 0 ] || fail 'usage: sh checks/edits.sh NAME.. | --some N SEED' 2
cd "$(dirname "$0")/.." || exit 2
lists=$PWD/checks/edit_list.py
work=$(mktemp -d) || exit 2
trap 'rm -rf "$work"' EXIT
git clone -q . "$work/clone" && cd "$work/clone" || exit 2
rm -f crates/*/must-fail/*.edit
python3 "$lists" . "$@" >"$work/edits" || exit 2
{
    "$RT" must-fail $(cut -d/ -f1 "$work/edits" | sort -u) 2>&1
    echo $? >"$work/status"
} | tee "$work/said"
edits=$(wc -l <"$work/edits")
refused=$(grep -c ': refused, as it must be' "$work/said")
[ "$refused" -eq "$edits" ] || fail "$refused of $edits edits were refused" 1
exit "$(cat "$work/status")"
