#!/bin/sh
# Measures `apply_split` with 1, 2, 4 and 8 workers against `Tables::apply` and `sqlite3changeset_apply` on a database in
# memory, and prints two tables: each way's time, and what the steps of `apply_split` take. It works on a copy of the checkout
# with what was proved there, to which it adds one crate, split.in. RT names the prover's command where it isn't `rt`, PRIORITY
# a command that gives all a priority, as `nice -n -20`, and ROUNDS how often all is measured (the least is told). With words,
# as `integers 10000 texts 1000`, it measures those inputs alone.
set -eu
. "$(dirname "$0")/../../checks/begin.sh"
: "${PRIORITY:=}"
: "${ROUNDS:=5}"
installs gcc libc6-dev libsqlite3-dev

mkdir "$work/crates"
for crate in cs_model cs_parse cs_apply par_apply; do cp -a "crates/$crate" "$work/crates"; done
cp HANDLES "$work"
grep -E '^(cs_model|cs_parse|cs_apply|par_apply):' crates.txt >"$work/crates.txt"
echo 'splits: cs_model cs_parse cs_apply par_apply indexmap thiserror' >>"$work/crates.txt"
mkdir -p "$work/crates/splits/src"
cp bench/apply/split.in "$work/crates/splits/src/main.rt"
(cd "$work/crates/splits" && "$RT" run -- 1 </dev/null >&2)
ours="$work/crates/splits/out/splits"
gcc -O2 -Wall -Wextra bench/apply/*.c bench/fields.c -lsqlite3 -o "$work/apply"
[ -x "$ours" ] || fail "no program: the command $RT has not made it"

# input KIND ROWS: lines of times, the least of each; small inputs are applied more often
input() {
    "$work/apply" groups "$2" "$1" >"$work/input"
    turns=$((300000 / $2 + 1))
    rm -f "$work/lines"
    # the commands are words
    # shellcheck disable=SC2086
    for _ in $(seq "$ROUNDS"); do
        for command in "$ours $turns" "$work/apply times lean $((turns / 4 + 1))" "$work/apply times sqlite $((turns / 4 + 1))"; do
            $PRIORITY $command <"$work/input" >>"$work/lines" || fail "$2 $1: it fails: $command"
        done
    done
    awk '!(($1, $2) in least) || $3 < least[$1, $2] { least[$1, $2] = $3 } END { for (key in least) {
        split(key, way, SUBSEP); print way[1], way[2], least[key] / 1000 } }' "$work/lines" >"$work/times"
    for group in '0 INSERTs' '1 UPDATEs' '2 DELETEs' '5 mixed'; do
        awk -v group="${group%% *}" -v name="$2 ${group#* }, $1" -v whole="$work/whole" -v steps="$work/steps" '
            $2 == group { ms[$1] = $3 }
            END {
                printf "| %s | %.2f | %.2f | %.2f | %.2f | %.2f | %.2f | %.2f | %.1f | %.2f | %.1f |\n", name, ms["apply"],
                    ms["split1"], ms["split2"], ms["split4"], ms["split8"], ms["apply"] / ms["split2"],
                    ms["apply"] / ms["split4"], ms["lean"], ms["lean"] / ms["split4"], ms["sqlite"] >>whole
                printf "| %s | %.2f | %.2f | %.2f | %.2f | %.2f | %.2f | %.2f | %.2f |\n", name, ms["apply"], ms["plan1"],
                    ms["stage1"], ms["commit1"], ms["plan1"] + ms["stage1"] + ms["commit1"], ms["plan4"], ms["stage4"],
                    ms["commit4"] >>steps
            }' "$work/times"
    done
}

if [ $# -gt 0 ]; then
    while [ $# -gt 1 ]; do
        input "$1" "$2"
        shift 2
    done
else
    for kind in integers texts; do
        for rows in 1000 10000 100000 1000000; do input $kind $rows; done
    done
    # no more rows of a blob fit into one changeset
    for rows in 1000 3800; do input blobs $rows; done
fi
[ -s "$work/whole" ] || fail 'no such input'
echo "$(nproc) processors, $(sed -n 's/^model name[^:]*: //p' /proc/cpuinfo | head -n 1)," \
    "SQLite $(dpkg-query -W -f '${Version}' libsqlite3-0), load: $(cut -d ' ' -f 1 /proc/loadavg)"
echo
echo "| changes | \`apply\`, ms | 1 worker, ms | 2, ms | 4, ms | 8, ms | \`apply\` by 2 | by 4 | lean SQLite's, ms | by 4 | SQLite's, ms |"
echo "|---|--:|--:|--:|--:|--:|--:|--:|--:|--:|--:|"
cat "$work/whole"
echo
echo "| changes | \`apply\`, ms | plan by 1, ms | stage, ms | commit, ms | together, ms | plan by 4, ms | stage, ms | commit, ms |"
echo "|---|--:|--:|--:|--:|--:|--:|--:|--:|"
cat "$work/steps"
