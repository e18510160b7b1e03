#!/bin/sh
# Measures `PieceParser` against `parse` and against SQLite's streaming reader of changesets, on texts in pieces of several sizes,
# and prints a table. It works on a copy of the checkout with what was proved there, to which it adds one crate, feed.in. RT names
# the prover's command where it isn't `rt`. With words, as `wide names`, only those inputs are measured.
set -eu
. "$(dirname "$0")/../../checks/begin.sh"
installs gcc libc6-dev libsqlite3-dev

mkdir "$work/crates"
for crate in cs_model cs_parse; do cp -a "crates/$crate" "$work/crates"; done
grep -E '^(cs_model|cs_parse):' crates.txt >"$work/crates.txt"
echo 'feed: cs_model cs_parse' >>"$work/crates.txt"
mkdir -p "$work/crates/feed/src"
cp bench/pieces/feed.in "$work/crates/feed/src/main.rt"
(cd "$work/crates/feed" && "$RT" run -- 0 0 </dev/null >&2)
ours="$work/crates/feed/out/feed"
[ -x "$ours" ] || fail "no program: the command $RT has not made it"
gcc -O2 -Wall -Wextra bench/pieces/pieces.c bench/apply/measure.c bench/fields.c bench/inputs.c -lsqlite3 -o "$work/pieces"

# what is given back stays with the process, as in a process that runs on, for both sides
export MALLOC_MMAP_MAX_=0 MALLOC_TRIM_THRESHOLD_=4000000000

# the word behind PIECE and TIMES, where the text is refused
refused=

# took TIMES PIECE COMMAND..: the processor time of so many passes, in milliseconds, and the memory
took() {
    times="$1" piece="$2"
    shift 2
    "$work/pieces" measure "$work/input" "$@" "$piece" "$times" $refused
}

# pass PIECE COMMAND..: the milliseconds of one pass, by as many as take about 400
pass() {
    none="$(took 0 "$@")" || fail "nothing is measured"
    some="$(took 1 "$@")" || fail "nothing is measured"
    often="$(echo "$none $some" | awk '{ one = $3 - $1; print (one > 200 ? 1 : one < 0.4 ? 1000 : int(400 / one) + 1) }')"
    [ "$often" = 1 ] || some="$(took "$often" "$@")"
    echo "$none $some $often" | awk '{ printf "%.4f\n", ($3 - $1) / $5 }'
}

# bytes KIND: how long its input is; the slowest is shorter
bytes() {
    case "$1" in
        blob1) echo 4100000 ;;
        blob16) echo 16777216 ;;
        wide) echo 1000000 ;;
        *) echo 4000000 ;;
    esac
}

# row NAME BYTES PARSE OURS [SQLITE LEAN]: a line of the table, from the milliseconds of a pass
row() {
    echo "$@" | awk '
        function shown(x) { return sprintf(x < 10 ? "%.2f" : x < 100 ? "%.1f" : "%.0f", x) }
        {
            printf "| %s | %s | %s ", $1, shown($2 / $4 / 1000), shown($4 / $3)
            for (i = 5; i <= 6; i++)
                if (i <= NF) printf "| %s | %s ", shown($2 / $i / 1000), shown($i / $4)
                else printf "| | "
            print "|"
        }' | tr _ ' '
}

echo "$(nproc) processors, $(sed -n 's/^model name[^:]*: //p' /proc/cpuinfo | head -n 1)," \
    "SQLite $(dpkg-query -W -f '${Version}' libsqlite3-0), load before: $(cut -d ' ' -f 1 /proc/loadavg)"
echo
echo "| input, bytes of a piece | ours, MB/s | time by that of \`parse\` | SQLite's, MB/s | ratio | lean SQLite's, MB/s | ratio |"
echo "|---|--:|--:|--:|--:|--:|--:|"
for kind in ${*:-integers texts blob1 blob16 wide names sections faulty}; do
    "$work/pieces" make "$kind" "$(bytes "$kind")" >"$work/input"
    len="$(wc -c <"$work/input")"
    # SQLite takes REAL, so that there is nothing to compare with
    [ "$kind" = faulty ] && refused=refused
    found="$("$ours" 65536 1 $refused <"$work/input")" || fail "$kind: the program fails"
    [ -n "$found" ] || fail "$kind: the program answers nothing"
    [ -n "$refused" ] || [ "$found" = "$("$work/pieces" sqlite 65536 1 <"$work/input")" ] ||
        fail "$kind: SQLite doesn't find $found"
    for piece in 0 65536 1000 100 1; do
        fed="$(pass "$piece" "$ours")" || exit 1
        [ "$piece" = 0 ] && whole="$fed"
        sqlite= lean=
        if [ -z "$refused" ]; then
            sqlite="$(pass "$piece" "$work/pieces" sqlite)" || exit 1
            lean="$(pass "$piece" "$work/pieces" lean)" || exit 1
        fi
        row "$kind,_$([ "$piece" = 0 ] && echo whole || echo "$piece")" "$len" "$whole" "$fed" $sqlite $lean
    done
    refused=
done
