# Functions of run.sh, checks/machines.sh and bench/machines/run.sh: the programs, three servers on the loopback with
# folders of their own, an origin, replicas, and the comparison. All processes are children of the script and die with
# it. They are stopped by process id. The script sets these:
#   top     the top of the repository
#   work    a folder for all files
# PORT is the first of six ports, three for clients and three between the servers. RT names the prover's command where
# it isn't `rt`; CFLAGS are more words for the compiler.
: "${PORT:=24222}"
# shellcheck source=../find.sh
. "$top/examples/find.sh"
urls=nats://127.0.0.1:$PORT,nats://127.0.0.1:$((PORT + 1)),nats://127.0.0.1:$((PORT + 2))
routes=nats-route://127.0.0.1:$((PORT + 3)),nats-route://127.0.0.1:$((PORT + 4)),nats-route://127.0.0.1:$((PORT + 5))
packages='gcc libc6-dev libsqlite3-dev sqlite3 nats-server libnats-dev'
processes=

# install_packages: installs the packages that are missing
install_packages() {
    missing=
    for package in $packages; do
        found=$(dpkg-query -W -f '${db:Status-Status}' "$package" 2>/dev/null)
        [ "$found" = installed ] || missing="$missing $package"
    done
    [ -z "$missing" ] && return
    echo "installing$missing" >&2
    # shellcheck disable=SC2086
    { apt-get update && apt-get install -y --no-install-recommends $missing; } >"$work/packages.log" 2>&1 ||
        fail "not installed:$missing (apt-get install$missing)"
}

# prepare: compiles the programs into the folder, over the two libraries
prepare() {
    with_libraries 'broker changeset' true
    install_packages
    for program in origin replica stream; do
        # shellcheck disable=SC2086
        with_libraries 'broker changeset' gcc -std=c99 -D_POSIX_C_SOURCE=200809L -Wall -Wextra -pedantic -O2 $CFLAGS \
            "$top/examples/machines/$program.c" -lnats -lsqlite3 -lpthread -o "$work/$program" ||
            fail "$program.c is not compiled"
    done
}

# begin NAME COMMAND..: starts a child, whose process id is then in $pid_NAME and whose output goes to NAME.log
begin() {
    name=$1
    shift
    setpriv --pdeathsig KILL "$@" >>"$work/$name.log" 2>&1 &
    eval "pid_$name=$!"
    processes="$processes $!"
}

# is_running PID: whether a process is a child of the script and has not ended. The number of one that ended may be
# another's.
is_running() {
    found=$(sed -n 's/^State:[[:space:]]*\(.\).*/\1/p; s/^PPid:[[:space:]]*//p' "/proc/$1/status" 2>/dev/null)
    case $found in
    Z*) return 1 ;;
    *"
$$") return 0 ;;
    *) return 1 ;;
    esac
}

# runs NAME: the same of a child
runs() {
    eval "is_running \"\$pid_$1\""
}

# ended NAME: waits for a child, and returns its status
ended() {
    eval "ending=\$pid_$1"
    wait "$ending" 2>/dev/null
    status=$?
    processes=$(echo " $processes " | sed "s/ $ending / /")
    return $status
}

# stop NAME SIGNAL: sends a child a signal until it ends, for two minutes at most, and returns its status. A signal
# between fork and exec is lost.
stop() {
    eval "stopping=\$pid_$1"
    left=240
    while is_running "$stopping"; do
        kill "-$2" "$stopping" 2>/dev/null
        [ "$2" = KILL ] && break
        left=$((left - 1))
        [ $left -gt 0 ] || fail "$1 does not end after signal $2"
        sleep 0.5
    done
    ended "$1"
}

# stop_all: stops every child that still runs
stop_all() {
    for process in $processes; do is_running "$process" && kill -KILL "$process" 2>/dev/null; done
    for process in $processes; do wait "$process" 2>/dev/null; done
    processes=
}

# begin_server 0|1|2
begin_server() {
    mkdir -p "$work/server$1"
    cat >"$work/server$1.conf" <<END
server_name: server$1
listen: 127.0.0.1:$((PORT + $1))
jetstream { store_dir: "$work/server$1", max_memory_store: 64MB, max_file_store: 16GB }
cluster { name: machines, listen: 127.0.0.1:$((PORT + 3 + $1)), routes: [$routes] }
END
    begin "server$1" nats-server -c "$work/server$1.conf"
}

# begin_servers: starts three servers and makes the stream
begin_servers() {
    for server in 0 1 2; do begin_server $server; done
    sleep 1
    for server in 0 1 2; do
        runs server$server || fail "server $server does not start (see PORT): $(tail -n 1 "$work/server$server.log")"
    done
    "$work/stream" make "$urls" && "$work/stream" wait "$urls" || fail 'the stream is not made'
}

# make_origin: the origin's database
make_origin() {
    cat "$top/examples/machines/schema.sql" "$top/examples/machines/origin.sql" | sqlite3 -bail "$work/origin.db" ||
        fail 'the database is not made'
}

# begin_origin TRANSACTIONS PAUSE
begin_origin() {
    begin origin "$work/origin" "$work/origin.db" "$urls" "$1" "$2"
}

# begin_replica 1|2|3 BATCH
begin_replica() {
    begin "replica$1" "$work/replica" "$work/replica$1.db" "$top/examples/machines/schema.sql" "$urls" "$2"
}

# sql FILE SQL
sql() {
    sqlite3 -bail -batch -cmd '.timeout 10000' "$work/$1" "$2"
}

# wait_for_replicas SECONDS: waits until each replica's file is at the outbox's last number
wait_for_replicas() {
    last=$(sql origin.db 'SELECT max(number) FROM machines_outbox')
    left=$(($1 * 10))
    for replica in 1 2 3; do
        while [ "$(sql replica$replica.db 'SELECT number FROM machines_at' 2>/dev/null)" != "$last" ]; do
            runs replica$replica || fail "replica $replica has ended: $(tail -n 1 "$work/replica$replica.log")"
            left=$((left - 1))
            [ $left -gt 0 ] || fail "replica $replica is not at number $last: $(tail -n 1 "$work/replica$replica.log")"
            sleep 0.1
        done
    done
}

# rows NAME: writes all rows of NAME.db, sorted, to NAME.rows
rows() {
    recorded="type = 'table' AND name NOT LIKE 'machines!_%' ESCAPE '!'"
    for table in $(sql "$1.db" "SELECT name FROM sqlite_schema WHERE $recorded"); do
        sql "$1.db" ".dump $table" | grep "^INSERT INTO"
    done | LC_ALL=C sort >"$work/$1.rows"
}

# stop_replicas: asks the replicas to end, which they must do without an error. With status 143 the signal came before the
# program heeded it.
stop_replicas() {
    for replica in 1 2 3; do
        stop replica$replica TERM
        status=$?
        [ $status -eq 0 ] || [ $status -eq 143 ] ||
            fail "replica $replica ends with status $status: $(tail -n 1 "$work/replica$replica.log")"
    done
}

# compare: compares the rows of the origin and of all replicas, which have ended
compare() {
    rows origin
    [ -s "$work/origin.rows" ] || fail 'the origin has no rows'
    for replica in 1 2 3; do
        [ "$(sql replica$replica.db 'PRAGMA integrity_check')" = ok ] || fail "replica $replica is not whole"
        rows replica$replica
        cmp -s "$work/origin.rows" "$work/replica$replica.rows" || fail "the rows of replica $replica differ"
        echo "replica $replica is at number $last and equal: $(($(wc -l <"$work/replica$replica.rows"))) rows"
    done
}
