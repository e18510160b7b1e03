#!/bin/sh
# Measures examples/machines: three servers, an origin and three replicas on this machine, with batches of 1, 16 and
# 256. Of each batch it prints how fast three replicas catch up with a stream, how fast all go while the origin commits
# as fast as it can, and how long after the origin's commit the last replica commits when the origin makes a transaction
# each 10 ms.
#   sh bench/machines/run.sh [TRANSACTIONS]      10000; needs and installs what examples/machines/run.sh does
cd "$(dirname "$0")/../.." || exit 2
top=$PWD transactions=${1:-10000}
fail() {
    echo "bench/machines/run.sh: $1 (in $work)" >&2
    trap 'stop_all; rmdir "$work" 2>/dev/null' EXIT
    exit 1
}
work=$(mktemp -d) || exit 2
# shellcheck source=../../examples/machines/parts.sh
. examples/machines/parts.sh
trap 'stop_all; rm -rf "$work"' EXIT
trap 'exit 2' INT TERM HUP
prepare

# note_times FILE EVENT: lets a file note when it stores a number, in milliseconds
note_times() {
    sql "$1" "CREATE TABLE machines_times (number INTEGER PRIMARY KEY, ms REAL);
        CREATE TRIGGER machines_timing AFTER $2 BEGIN INSERT INTO machines_times VALUES (new.number, 
            (julianday('now') - 2440587.5) * 86400000); END" || fail "$1"
}

# work_to TRANSACTIONS PAUSE: lets the origin work, and prints how many changes that were
work_to() {
    begin_origin "$1" "$2"
    ended origin || fail "the origin fails: $(tail -n 1 "$work/origin.log")"
    changes=$(tail -n 1 "$work/origin.log" | sed 's/.* and \([0-9]*\) changes.*/\1/')
}

# last_time: when the last replica stored its last number
last_time() {
    for replica in 1 2 3; do sql replica$replica.db 'SELECT max(ms) FROM machines_times'; done | sort -n | tail -n 1
}

# rate MS MS: changes a second
rate() {
    echo "$1 $2 $changes" | awk '{ printf "%.0f", $3 * 1000 / ($2 - $1) }'
}

# lag FROM: the median and the longest time from a row of the outbox until all replicas have stored its number or a later
# one
lag() {
    later='.machines_times later WHERE later.number >= o.number ORDER BY later.number LIMIT 1)'
    sql origin.db "ATTACH '$work/replica1.db' AS a; ATTACH '$work/replica2.db' AS b; ATTACH '$work/replica3.db' AS c;
        CREATE TEMP TABLE lag AS SELECT max((SELECT ms FROM a$later, (SELECT ms FROM b$later, (SELECT ms FROM c$later)
            - ms AS ms FROM main.machines_times o WHERE number > $1 ORDER BY ms;
        SELECT printf('%.1f | %.1f', (SELECT ms FROM lag WHERE rowid = (SELECT count(*) / 2 FROM lag)),
            max(ms)) FROM lag"
}

# begin_anew: an origin, and replicas' files without rows
begin_anew() {
    rm -rf "$work"/*.db* "$work"/server? "$work"/*.log
    for replica in 1 2 3; do
        begin_replica $replica "$1"
        sleep 1
        note_times replica$replica.db 'UPDATE ON machines_at'
        stop replica$replica KILL
    done
    make_origin
    begin_servers
    work_to 0 0
    note_times origin.db 'INSERT ON machines_outbox WHEN new.ends'
}

# measure BATCH
measure() {
    begin_anew "$1"
    work_to "$transactions" 0
    for replica in 1 2 3; do begin_replica $replica "$1"; done
    begun=$(date +%s%3N)
    wait_for_replicas 300
    caught=$(rate "$begun" "$(last_time)")
    stop_replicas
    split=$(sed 's/.*then//; s/ s: /|/; s/ [a-z]*,/|/g; s/ [a-z]*$//; s/|/ | /g' "$work/replica1.log" | tail -n 1)
    for replica in 1 2 3; do begin_replica $replica "$1"; done
    sleep 3
    begun=$(date +%s%3N)
    work_to $((2 * transactions)) 0
    wait_for_replicas 300
    live=$(rate "$begun" "$(last_time)")
    before=$last
    work_to $((2 * transactions + 500)) 10
    wait_for_replicas 60
    echo "| $1 | $caught | $split | $live | $(lag "$before") |"
    stop_replicas
    compare >/dev/null
    stop_all
}

echo "$transactions transactions; the seconds are replica 1's, which catches up"
printf '| batch | catching up, changes/s | all, s | waiting | feeding | accepting | combining | writing '
echo '| live, changes/s | lag, ms | longest |'
echo '|--:|--:|--:|--:|--:|--:|--:|--:|--:|--:|--:|'
for batch in 1 16 256; do measure $batch; done
grep -h origin: "$work/origin.log"
