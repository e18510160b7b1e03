#!/bin/sh
# Starts three servers on the loopback, an origin and three replicas, and compares all files when the origin has made
# its transactions. It stops what it started. The status is 0 if all files are equal (docs/MACHINES.md).
#   sh examples/machines/run.sh [TRANSACTIONS [BATCH]]    2000, and 16: the most changesets in a replica's transaction
# It installs gcc, libsqlite3-dev, sqlite3, nats-server and libnats-dev where they are missing, and needs the two
# libraries (docs/C.md). What it made stays in examples/machines/out, or in the new folder that OUT names. parts.sh names the
# variables that change ports and tools.
here=$(cd "$(dirname "$0")" && pwd) || exit 2
top=$(cd "$here/../.." && pwd) work=${OUT:-$here/out}
fail() {
    echo "run.sh: $1" >&2
    exit 1
}
# shellcheck source=parts.sh
. "$here/parts.sh"

[ -z "$OUT" ] || [ ! -e "$OUT" ] || fail "$OUT is there already"
rm -rf "$work"
mkdir -p "$work" && work=$(cd "$work" && pwd) || fail "no folder $work: OUT names another"
trap stop_all EXIT
trap 'exit 2' INT TERM HUP
prepare
make_origin
begin_servers
for replica in 1 2 3; do begin_replica $replica "${2:-16}"; done
begin_origin "${1:-2000}" 0
ended origin || fail "the origin fails: $(tail -n 1 "$work/origin.log")"
wait_for_replicas 120
stop_replicas
cat "$work/origin.log" "$work"/replica?.log
compare
