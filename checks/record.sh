#!/bin/sh
# Checks examples/record on databases of many kinds: its script's answers have the rows that SQLite has after the same SQL.
# One line for each check. checks/keeper/kinds.py has databases of many kinds for the keeper.
#   sh checks/record.sh        needs gcc, libsqlite3-dev, sqlite3, and the program as `rt run` leaves it (README.md)
. "$(dirname "$0")/begin.sh"
program=$PWD/crates/rb_run/out/rb_run
[ -x "$program" ] || fail "no program at $program: see README.md" 2
gcc -O2 -Wall -Wextra -Werror examples/record/record.c -lsqlite3 -o "$work/record" || exit 2
cd "$work" || exit 2

# told NAME COMMAND..: prints a check's line
told() {
    name=$1
    shift
    count=$((count + 1))
    if "$@"; then echo "ok $name"; else echo "FAILED $name: $(tail -n 1 err)"; bad=$((bad + 1)); fi
}

# given SCHEMA SQL: a database, and what the programs do with it and the SQL
given() {
    rm -f ./*.db ./*.db-*
    sqlite3 -bail given.db "$1" >/dev/null || fail "sqlite3 fails: $1" 2
    printf '%s' "$2" >given.sql
    before=$(sqlite3 given.db .dump | cksum)
    ./record given.db given.sql >script 2>err
    status=$?
    "$program" script <script >answers 2>answers.err
    after=$(sqlite3 given.db .dump | cksum)
}

has() { grep -q -e "$1" "$2"; }
entries() { test "$(grep -c '^turn$' script)" -eq "$1"; }
last() { test "$(tail -n "$2" answers | head -n 1)" = "$1"; }
equal() { test $status -eq 0 && has '^rows' answers; }
nothing() { test $status -eq 1 -a ! -s script && test "$(wc -l <err)" -eq 1; }

given "CREATE TABLE t (a TEXT COLLATE NOCASE PRIMARY KEY, b); INSERT INTO t VALUES ('A', 1)" \
    "BEGIN; DELETE FROM t; INSERT INTO t VALUES ('a', 1); COMMIT"
told 'NOCASE: another case in one transaction is a fault' has '^fault .* KeyChanged' answers
given "CREATE TABLE t (a TEXT COLLATE NOCASE PRIMARY KEY, b); INSERT INTO t VALUES ('A', 1)" \
    "DELETE FROM t; INSERT INTO t VALUES ('a', 1)"
told 'NOCASE: in two transactions it is not' last 'row 0 030161 010000000000000001' 1
told 'and the script is answered' equal
given "CREATE TABLE t (a TEXT COLLATE NOCASE PRIMARY KEY, b); INSERT INTO t VALUES ('A', 1)" \
    "BEGIN; UPDATE t SET a = 'a'; UPDATE t SET a = 'A'; COMMIT"
told 'NOCASE: there and back is a conflict' has 'refused Conflict 0 3' answers
given "CREATE TABLE t (a TEXT PRIMARY KEY, b); INSERT INTO t VALUES ('A', 1)" \
    "BEGIN; DELETE FROM t; INSERT INTO t VALUES ('a', 1); COMMIT"
told 'BINARY: in one transaction it is not' last 'row 0 030161 010000000000000001' 1

given "CREATE TABLE t (a PRIMARY KEY, b); INSERT INTO t VALUES (1, 1.5)" "DELETE FROM t"
told 'a REAL value is named' has 'entry 1: table t, key 1: a REAL value' err
told 'and is a fault' has '^fault .* Real' answers

given "CREATE TABLE t (a INTEGER PRIMARY KEY, b UNIQUE); CREATE TABLE log (x); CREATE TABLE u (k PRIMARY KEY, n);
    CREATE TABLE g (a PRIMARY KEY, b AS (a + 1)); CREATE VIRTUAL TABLE f USING fts5(x); CREATE UNIQUE INDEX i ON u (n);
    CREATE VIEW v AS SELECT * FROM t; INSERT INTO u VALUES ('n', 0), ('m', -7), (NULL, 7);
    CREATE TRIGGER r AFTER INSERT ON t BEGIN INSERT INTO log VALUES (new.a); UPDATE u SET n = n + 1 WHERE k = 'n'; END;
    CREATE TRIGGER w INSTEAD OF INSERT ON v BEGIN INSERT INTO t VALUES (new.a, new.b); END; INSERT INTO g VALUES (1)" \
    "INSERT INTO v VALUES (1, 'x'); INSERT OR REPLACE INTO t VALUES (2, 'x'); INSERT INTO log VALUES (1);
    INSERT INTO g VALUES (2); BEGIN; UPDATE u SET n = 9 WHERE k = 'm'; UPDATE u SET n = -7 WHERE k = 'n';
    UPDATE u SET n = 2 WHERE k = 'm'; COMMIT; SELECT 1; -- end"
told 'a table without a key is left out' has 'table log is left out: no PRIMARY KEY' err
told 'so is one with generated columns' has 'table g is left out: generated columns' err
told 'so is a virtual one' has 'table f is left out: virtual' err
told 'so are rows with NULL in the key' has 'table u: 1 rows with NULL' err
told 'one changeset for the rows and each transaction' entries 4
told 'triggers, views and unique indexes work' last 'row 0 010000000000000002 030178' 3
told 'the database is only read' test "$before" = "$after"

given "CREATE TABLE t (a INTEGER PRIMARY KEY)" "BEGIN; INSERT INTO t VALUES (1); -- open
"
told 'an open transaction is an error' nothing
told 'which is named' has 'ends in a transaction' err
given "CREATE TABLE t (a INTEGER PRIMARY KEY)" "INSERT INTO t VALUES (1); INSERT INTO t VALUES (1)"
told 'a statement that fails is an error' nothing
told 'which names the statement' has 'statement 2, `INSERT INTO t VALUES (1)`: UNIQUE' err
given "CREATE TABLE t (a INTEGER PRIMARY KEY, b)" "BEGIN; INSERT INTO t VALUES (1, 2); ROLLBACK;
    BEGIN; INSERT INTO t VALUES (3, 4); SAVEPOINT s; INSERT INTO t VALUES (5, 6); ROLLBACK TO s; COMMIT;
    SAVEPOINT q; INSERT INTO t VALUES (7, 8); INSERT INTO t VALUES (8, 8); RELEASE q; ;; DELETE FROM t WHERE a = 100"
told 'what is rolled back or changes nothing is no entry' entries 2
told 'and the script is answered' equal
given "CREATE TABLE t (a INTEGER PRIMARY KEY, b)" "INSERT INTO t VALUES (1, zeroblob(8500000))"
told 'too long a changeset is named' has 'entry 1: 8500022 bytes' err
given "CREATE TABLE t (a INTEGER PRIMARY KEY)" "CREATE TABLE n (a PRIMARY KEY); INSERT INTO t VALUES (1)"
told 'SQL that changes the schema is named' has 'the schema of n changed' err
given "CREATE TABLE t (a PRIMARY KEY, b); INSERT INTO t VALUES (1, 1), (2, 2)" "DELETE FROM t WHERE a = 1; VACUUM; ANALYZE;
    UPDATE t SET b = 2"
told 'and the script is answered' equal
given "CREATE TABLE t (a)" "INSERT INTO t VALUES (1)"
told 'no table is an error' has 'no table is left' err

while read -r kind; do
    given "$kind; CREATE TABLE \"té \"\"x\" (b, \"k\"\"1\" TEXT, c BLOB, k2, PRIMARY KEY (k2, \"k\"\"1\")) WITHOUT ROWID;
        INSERT INTO \"té \"\"x\" VALUES (1, 'ü', x'00', 2), (NULL, 'ä', x'', -2)" \
        "UPDATE \"té \"\"x\" SET c = x'00ff', b = 'ß'; UPDATE \"té \"\"x\" SET k2 = 9 - k2; DELETE FROM \"té \"\"x\" WHERE k2 = 7"
    told "$kind" equal
    told 'and its row' last 'row 0 0302c39f 0302c3a4 040200ff 01000000000000000b' 1
done <<'END'
PRAGMA encoding = 'UTF-16'
PRAGMA page_size = 512
PRAGMA page_size = 65536
PRAGMA journal_mode = WAL
END
columns=$(seq -s , 1 300 | sed 's/[0-9][0-9]*/c&/g')
given "CREATE TABLE t ($columns, PRIMARY KEY (c3, c200)); INSERT INTO t (c3, c200) VALUES (1, 2)" "UPDATE t SET c1 = 4"
told '300 columns' equal
none_failed checks
