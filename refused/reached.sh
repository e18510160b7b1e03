# Which calls met a refusal. To be read by tests.sh, after shim.sh.

# reached CRATE PROGRAM: prints for each call that calls.txt wants of the crate how many refusals it met, by the lines of
# $work/calls, and counts those with fewer than are wanted as wrong. A refusal is one of a call where any of the functions
# that called for the allocation has a name that fits the call's pattern.
reached() {
    tr ' ' '\n' <"$work/calls" | grep . | sort -u >"$work/places"
    addr2line -fe "$2" <"$work/places" | sed -n 'p;n' | paste -d ' ' "$work/places" - >"$work/names"
    grep "^$1 " refused/calls.txt >"$work/wanted"
    # crate, call, least and pattern of each; and the names at the places of each refusal
    while read -r _ call least pattern; do
        met=$(awk -v pattern="$pattern" 'NR == FNR { if ($2 ~ pattern) fits[$1]; next }
            { for (i = 1; i <= NF; i++) if ($i in fits) { met++; next } } END { print met + 0 }' "$work/names" "$work/calls")
        echo "$1 $call: $met refusals"
        [ "$met" -ge "$least" ] || wrong "$1 $call: $met refusals are fewer than $least"
    done <"$work/wanted"
}
