#!/bin/sh
# Keeps two replicas of a database, kills the writing program and a replica (kill -9), starts both again, and compares the
# three files, examples/keeper/out/live.db, one.db and two.db. The status is 0 if they are equal.
#   sh examples/keeper/run.sh
# It needs sqlite3 beside what keeper/build.sh needs, and takes the same variables; in a release, gcc, pkg-config and
# libsqlite3-dev. OUT names another folder, a new one.
fail() {
    echo "run.sh: $1" >&2
    for process in $writer $one $two; do kill -9 "$process" 2>/dev/null; done
    exit "${2:-1}"
}

writer='' one='' two=''
here=$(cd "$(dirname "$0")" && pwd) || exit 2
top=$here/../.. out=${OUT:-$here/out}
# shellcheck source=../find.sh
. "$here/../find.sh"
[ -z "$OUT" ] || [ ! -e "$OUT" ] || fail "$OUT is there already" 2
rm -rf "$out" && mkdir -p "$out" && out=$(cd "$out" && pwd) || fail "no folder $out: OUT names another" 2
for program in write replica; do
    # shellcheck disable=SC2086
    with_libraries keeper ${CC:-gcc} -std=c11 -D_GNU_SOURCE -O2 "$here/$program.c" $CFLAGS -o "$out/$program" ||
        fail "$program.c is not compiled" 2
done
cd "$out" || exit 2

# inserts FROM TO: a line for each transaction
inserts() {
    i=$1
    while [ "$i" -le "$2" ]; do
        echo "INSERT OR REPLACE INTO item VALUES ($i, 'item $i', $i / 7.0); UPDATE total SET amount = amount + $i / 7.0;"
        i=$((i + 1))
    done
}

# writes: starts the writing program, whose input is a pipe that this script holds
writes() {
    ./write live.db <input >>write.log 2>&1 &
    writer=$!
    exec 3>input
}

# has NUMBER: waits until the database has the item
has() {
    tries=0
    while [ "$(sqlite3 -cmd '.timeout 10000' live.db "SELECT count(*) FROM item WHERE id = $1")" != 1 ]; do
        tries=$((tries + 1))
        [ $tries -lt 600 ] || fail "no item $1 after a minute: $(cat write.log)"
        sleep 0.1
    done
}

mkfifo input || exit 2
sqlite3 live.db 'CREATE TABLE item (id INTEGER PRIMARY KEY, name TEXT, price REAL);
    CREATE TABLE total (id INTEGER PRIMARY KEY, amount REAL); INSERT INTO total VALUES (1, 0.5)' || exit 2
writes
./replica one.db live.db 3>&- >>one.log &
one=$!
./replica two.db live.db 3>&- >>two.log &
two=$!
inserts 1 300 >&3
has 200
kill -9 "$one" && wait "$one" 2>/dev/null
echo 'the process of one.db is killed, and starts again'
./replica one.db live.db 3>&- >>one.log &
one=$!
kill -9 "$writer" && wait "$writer" 2>/dev/null
echo 'the writing program is killed, and starts again'
exec 3>&-
writes
inserts 1 600 >&3
has 600
kill "$one" "$two"
wait "$one" "$two"
bad=0
for name in one two; do
    # the source still listens: the file goes on until it has everything
    ./replica $name.db live.db until-equal >>$name.log || fail "$name.db is not kept"
    differing=$(sqlite3 -cmd '.timeout 10000' live.db "ATTACH '$name.db' AS copy; SELECT count(*) FROM (SELECT * FROM item EXCEPT SELECT * FROM
        copy.item) UNION ALL SELECT count(*) FROM (SELECT * FROM copy.item EXCEPT SELECT * FROM item) UNION ALL
        SELECT count(*) FROM (SELECT * FROM total EXCEPT SELECT * FROM copy.total)" | tr '\n' ' ')
    if [ "$differing" = '0 0 0 ' ]; then echo "$name.db is equal"; else echo "$name.db differs: $differing" && bad=1; fi
    sed 's/^/    /' $name.log
done
exec 3>&-
wait "$writer" || fail "the writing program ends with status $?"
rm -f input
exit $bad
