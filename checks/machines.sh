#!/bin/sh
# Kills the origin, the replicas and the servers of examples/machines (SIGKILL) at random moments for five minutes, and
# starts each again. At most one server of three is away or catching up at a time. Then all files must be equal. Each
# transaction of a replica must have left the rows of the very transaction of the origin whose number it stored, and
# numbers must only go up.
#   sh checks/machines.sh SEED [SECONDS]       needs what examples/machines/run.sh needs, and installs the same packages
# What the processes said stays in the folder that a failure names. examples/machines/parts.sh names more variables.
cd "$(dirname "$0")/.." || exit 2
top=$PWD
fail() {
    echo "FAILED: $1 (in $work)" >&2
    trap 'stop_all; rmdir "$work" 2>/dev/null' EXIT
    exit 1
}
[ $# -ge 1 ] || { echo 'usage: sh checks/machines.sh SEED [SECONDS]' >&2; exit 2; }
seed=$1 length=${2:-300}
work=$(mktemp -d) || exit 2
# shellcheck source=../examples/machines/parts.sh
. examples/machines/parts.sh
trap 'stop_all; rm -rf "$work"' EXIT
trap 'exit 2' INT TERM HUP
prepare

# trace FILE EVENT: lets a file note the transaction that its rows are of whenever a number is stored
trace() {
    sql "$1" "CREATE TABLE machines_trace (number INTEGER, done INTEGER);
        CREATE TRIGGER machines_traces AFTER $2 BEGIN
            INSERT INTO machines_trace SELECT new.number, max(number) FROM history; END" || fail "no trace in $1"
}

# begin_child NAME
begin_child() {
    case $1 in
    origin) begin_origin 10000000 2 ;;
    replica*) begin_replica "${1#replica}" $((1 + 15 * (${1#replica} - 1))) ;;
    server*) begin_server "${1#server}" ;;
    esac
}

# killed NAME: kills a child, which must not have ended by itself
killed() {
    stop "$1" KILL
    status=$?
    [ $status -eq 137 ] || fail "$1 ended by itself with status $status: $(tail -n 1 "$work/$1.log")"
}

# publish_rest: lets an origin publish what the outbox has, and end
publish_rest() {
    begin_origin 0 0
    ended origin || fail "the origin fails: $(tail -n 1 "$work/origin.log")"
}

# is_state FILE: the rows are those after a transaction, with none left out
is_state() {
    found=$(sql "$1" "SELECT count(*) = coalesce(max(number), 0) AND (SELECT count(*) FROM basket) =
        coalesce((SELECT baskets FROM history ORDER BY number DESC LIMIT 1), 0) FROM history; PRAGMA quick_check")
    [ "$found" = "1
ok" ] || fail "$1 has no state of the origin: $found"
}

# refuses NAME STATUS TEXT: a child must end by itself within a minute with this status, and say this
refuses() {
    left=600
    while runs "$1"; do
        left=$((left - 1))
        [ $left -gt 0 ] || fail "$1 goes on, and does not say '$3'"
        sleep 0.1
    done
    ended "$1"
    status=$?
    said=$(tail -n 1 "$work/$1.log")
    case $status:$said in
    "$2":*"$3"*) echo "ok $said" ;;
    *) fail "$1 ended with status $status and '$said', not with $2 and '$3'" ;;
    esac
}

# the replicas make their files before there is a server
for replica in 1 2 3; do begin_child replica$replica; done
for replica in 1 2 3; do
    for _ in 1 2 3 4 5 6 7 8 9 10; do
        sql replica$replica.db 'SELECT number FROM machines_at' >"$work/at" 2>&1 && break
        sleep 0.5
    done
    trace replica$replica.db 'UPDATE ON machines_at'
done
make_origin
begin_servers
publish_rest
trace origin.db 'INSERT ON machines_outbox WHEN new.ends'
sql origin.db 'INSERT INTO machines_trace SELECT number, NULL FROM machines_outbox' || fail 'no trace'
begin_child origin

sql origin.db ".backup '$work/older.db'" || fail 'no copy of the origin'

# each line: how long to wait, whom to kill, and for how long
awk -v seed="$seed" -v all="$length" 'BEGIN {
    srand(seed)
    count = split("origin origin replica1 replica2 replica3 replica1 replica2 replica3 server0 server1 server2", names)
    for (now = 0; now < all; now += pause) {
        pause = 0.02 + 0.6 * rand()
        printf "%.2f %s %.2f\n", pause, names[1 + int(count * rand())], 4 * rand() * rand()
    }
}' >"$work/kills"
origins=0 replicas=0 servers=0 away=
ends=$(($(date +%s) + length))
while read -r pause victim time <&3 && [ "$(date +%s)" -lt $ends ]; do
    sleep "$pause"
    if [ -n "$away" ] && ! runs "$away"; then
        # a server that was killed comes back at its time
        [ "$(date +%s)" -lt "$back" ] || begin_child "$away"
    elif [ -n "$away" ] && "$work/stream" wait "$urls" 0 2>/dev/null; then
        away=
    fi
    case $victim in
    server*)
        [ -z "$away" ] || continue
        killed "$victim"
        away=$victim back=$(($(date +%s) + ${time%.*})) servers=$((servers + 1))
        ;;
    *)
        killed "$victim"
        case $victim in
        origin) origins=$((origins + 1)) ;;
        *) replicas=$((replicas + 1)) && is_state "$victim.db" ;;
        esac
        sleep "$(echo "$time" | awk '{ print $1 / 8 }')"
        begin_child "$victim"
        ;;
    esac
done 3<"$work/kills"
[ -z "$away" ] || runs "$away" || begin_child "$away"
echo "killed: origin $origins times, replicas $replicas times, servers $servers times"
killed origin
publish_rest
wait_for_replicas 120
stop_replicas
compare
for replica in 1 2 3; do
    wrong=$(sql origin.db "ATTACH '$work/replica$replica.db' AS copy;
        SELECT (SELECT count(*) FROM (SELECT * FROM copy.machines_trace EXCEPT SELECT * FROM main.machines_trace)) +
            (SELECT count(*) FROM (SELECT number, lag(number, 1, 0) OVER (ORDER BY rowid) AS before
                FROM copy.machines_trace) WHERE number <= before)")
    [ "$wrong" = 0 ] || fail "replica $replica: $wrong transactions stored another number than that of their rows"
    count=$(sql replica$replica.db 'SELECT count(*) FROM machines_trace')
    echo "replica $replica: $count transactions, each with the right number"
done

# what must not go on: an older copy of the database, a stream with a gap, and a replica whose rows somebody changed
cp "$work/older.db" "$work/origin2.db"
begin origin2 "$work/origin" "$work/origin2.db" "$urls" 1 0
refuses origin2 1 'the database is an older copy'
sql replica1.db 'UPDATE machines_at SET number = number - 5, sequence = sequence - 2'
begin_child replica1
refuses replica1 3 'a gap: after number'
sql replica2.db 'UPDATE sold SET count = count + 1'
before=$(sql replica2.db 'SELECT number FROM machines_at')
begin_child replica2
begin_origin 10000000 2
refuses replica2 1 'a batch is not accepted: code -43'
[ "$(sql replica2.db 'SELECT number FROM machines_at')" = "$before" ] || fail 'the file of replica 2 has changed'
killed origin
publish_rest

# another outbox in a stream that is new, too: the numbers of the files are ahead of it. Replica 1 has a file without a
# name, and replica 3 begins while the stream is empty.
for server in 0 1 2; do stop server$server KILL; done
rm -rf "$work"/server[012]
sql origin.db ".backup '$work/origin3.db'" && rm -f "$work"/origin.db* && make_origin
begin_servers
begin_child replica3
sleep 4
publish_rest
refuses replica3 4 "and the stream of outbox '$(sql origin.db 'SELECT name FROM machines_name')'"
sql replica1.db 'ALTER TABLE machines_at DROP COLUMN outbox'
begin_child replica1
refuses replica1 4 "of outbox '', and the stream of outbox"
begin_child replica2
refuses replica2 4 'remove the file, and a new one reads all'
begin origin3 "$work/origin" "$work/origin3.db" "$urls" 1 0
refuses origin3 1 'it needs a stream of its own'
