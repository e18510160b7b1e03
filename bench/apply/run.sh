#!/bin/sh
# Measures `Tables::apply` against `sqlite3changeset_apply` on a database in memory, and prints a table. It works on a copy of
# the checkout with what was proved there, to which it adds one crate, replay.in. RT names the prover's command where it
# isn't `rt`.
set -eu
. "$(dirname "$0")/../../checks/begin.sh"
installs gcc libc6-dev libsqlite3-dev

mkdir "$work/crates"
for crate in cs_model cs_parse cs_apply; do cp -a "crates/$crate" "$work/crates"; done
grep -E '^(cs_model|cs_parse|cs_apply):' crates.txt >"$work/crates.txt"
echo 'replay: cs_model cs_parse cs_apply' >>"$work/crates.txt"
mkdir -p "$work/crates/replay/src"
cp bench/apply/replay.in "$work/crates/replay/src/main.rt"
(cd "$work/crates/replay" && "$RT" run -- apply </dev/null >&2)
ours="$work/crates/replay/out/replay"
gcc -O2 -Wall -Wextra bench/apply/*.c bench/fields.c -lsqlite3 -o "$work/apply"

[ -x "$ours" ] || fail "no program: the command $RT has not made it"

# row FILE WORDS..: the median of the time, and the peak of memory
row() { "$work/apply" measure "$@"; }

# changes COMMAND..: how many changes of the input it applies
changes() { "$@" <"$work/input" | sed -n 's/^\([0-9]*\) changes.*/\1/p'; }

echo "| rows, each inserted, updated and deleted | ours, ms | lean SQLite's, ms | ratio | SQLite's, ms | ratio | ours, MB | SQLite's, MB |"
echo "|---|--:|--:|--:|--:|--:|--:|--:|"
for kind in integers texts blobs; do
    for rows in 1000 10000 100000 1000000; do
        [ "$kind$rows" = blobs1000000 ] && continue
        "$work/apply" make "$rows" "$kind" >"$work/input"
        applied="$(changes "$ours" apply)"
        [ "${applied:-0}" -gt 0 ] && [ "$applied" = "$(changes "$work/apply" sqlite)" ] ||
            fail "$rows $kind: both don't apply the same number of changes"
        us="$(row "$work/input" "$ours" apply)" lean="$(row "$work/input" "$work/apply" lean)"
        sqlite="$(row "$work/input" "$work/apply" sqlite)"
        echo "$rows $kind $us $lean $sqlite" |
            awk '{ printf "| %d rows, %s | %s | %s | %.1f | %s | %.1f | %d | %d |\n", $1, $2, $3, $5, $5 / $3, $7, $7 / $3, $4 / 1024, $6 / 1024 }'
    done
done
