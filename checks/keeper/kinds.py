"""Databases of many kinds, which the keeper copies and follows (checks/keeper.sh).

    python3 checks/keeper/kinds.py PROGRAMS

It works in the current folder. PROGRAMS has `load` and `keep`. Each kind has a schema and transactions. After them the replica
must have everything, and its tables must be those of the database by type and bytes, with at most so many copies.
"""
import os
import sqlite3
import sys
import types

sys.path.insert(0, os.path.dirname(os.path.abspath(__file__)))
from processes import Bad, Replica, Writer, now, rows_of  # noqa: E402

ODD = ['CREATE TABLE "té ""x" (b, "k""1" TEXT, c BLOB, k2, PRIMARY KEY (k2, "k""1")) WITHOUT ROWID',
       "INSERT INTO \"té \"\"x\" VALUES (1, 'ü', x'00', 2), (NULL, 'ä', x'', -2)"]
ODD_SQL = ["UPDATE \"té \"\"x\" SET c = x'00ff', b = 'ß'", 'UPDATE "té ""x" SET k2 = 9 - k2', 'DELETE FROM "té ""x" WHERE k2 = 7']
TABLE = ['CREATE TABLE t (a INTEGER PRIMARY KEY, b)', 'INSERT INTO t VALUES (1, 1), (2, 2)']
NOCASE = ['CREATE TABLE t (a TEXT COLLATE NOCASE PRIMARY KEY, b)', "INSERT INTO t VALUES ('A', 1)"]
MANY = ', '.join('c%d' % i for i in range(300))
# name, schema, transactions, and how many copies there may be
KINDS = [(pragma, [pragma] + ODD, ODD_SQL, 1) for pragma in ["PRAGMA encoding = 'UTF-16'", 'PRAGMA page_size = 512',
                                                             'PRAGMA page_size = 65536']] + [
    ('300 columns', ['CREATE TABLE t (%s, PRIMARY KEY (c3, c200))' % MANY, 'INSERT INTO t (c3, c200) VALUES (1, 2)'],
     ['UPDATE t SET c1 = 4.5', 'INSERT INTO t (c3, c200, c299) VALUES (2, 2, 0.1)'], 1),
    ('NOCASE, other letters in one transaction', NOCASE, ["DELETE FROM t; INSERT INTO t VALUES ('a', 1)"], 2),
    ('NOCASE, in two', NOCASE, ['DELETE FROM t', "INSERT INTO t VALUES ('a', 1)"], 1),
    ('NOCASE, there and back', NOCASE, ["UPDATE t SET a = 'a'; UPDATE t SET a = 'A'"], 2),
    ('two rows swap values of an index', TABLE + ['CREATE UNIQUE INDEX i ON t (b)'],
     ['UPDATE t SET b = 3 WHERE a = 1; UPDATE t SET b = 1 WHERE a = 2; UPDATE t SET b = 2 WHERE a = 1'], 1),
    ('two rows swap values of a constraint', ['CREATE TABLE t (a INTEGER PRIMARY KEY, b UNIQUE)', TABLE[1]],
     ['UPDATE t SET b = 3 WHERE a = 1; UPDATE t SET b = 1 WHERE a = 2; UPDATE t SET b = 2 WHERE a = 1'], 2),
    ('triggers, views and REPLACE', TABLE + [
        'CREATE TABLE u (k PRIMARY KEY, n)', "INSERT INTO u VALUES ('n', 0)", 'CREATE VIEW v AS SELECT * FROM t',
        "CREATE TRIGGER r AFTER INSERT ON t BEGIN UPDATE u SET n = n + 1.5 WHERE k = 'n'; END",
        'CREATE TRIGGER w INSTEAD OF INSERT ON v BEGIN INSERT INTO t VALUES (new.a, new.b); END'],
     ["INSERT INTO v VALUES (7, 'x')", "INSERT OR REPLACE INTO t VALUES (2, 'x')"], 1),
    ('rows with NULL in the key stay as they were', ['CREATE TABLE t (a PRIMARY KEY, b)', 'INSERT INTO t VALUES (NULL, 1), (2, 2)'],
     ['UPDATE t SET b = 3 WHERE a IS NOT NULL', 'DELETE FROM t WHERE a = 2'], 1),
    ('a virtual table and generated columns beside', TABLE + ['CREATE VIRTUAL TABLE made USING fts5(x)'],
     ['UPDATE t SET b = 9', 'INSERT INTO t VALUES (3, 0.5)'], 1),
    ('savepoints, and what changes nothing', TABLE,
     ['INSERT INTO t VALUES (3, 4); SAVEPOINT s; INSERT INTO t VALUES (5, 6); ROLLBACK TO s', 'SAVEPOINT q; DELETE FROM t WHERE'
      ' a = 1; RELEASE q', 'DELETE FROM t WHERE a = 100', 'UPDATE t SET b = b'], 1),
    ('VACUUM and ANALYZE', TABLE, ['DELETE FROM t WHERE a = 1', 'o VACUUM', 'o ANALYZE', 'UPDATE t SET b = 2'], 1),
    ('ALTER TABLE in a transaction', TABLE,
     ['UPDATE t SET b = 3', 'ALTER TABLE t ADD COLUMN c; UPDATE t SET c = 4.5', 'UPDATE t SET b = 5'], 2),
    ('another schema from outside', TABLE, ['o CREATE TABLE n (a PRIMARY KEY)', 'INSERT INTO n VALUES (1)'], 2),
    ('no table at all', [], ['CREATE TABLE t (a PRIMARY KEY)', 'INSERT INTO t VALUES (1)'], 2),
    ('brokers that follow each other', TABLE, ['INSERT INTO t VALUES (NULL, zeroblob(300))'] * 130, 9),
]


def check(programs, schema, transactions, copies):
    for name in os.listdir('.'):
        os.remove(name)
    db = sqlite3.connect('live.db', isolation_level=None)
    for sql in schema:
        db.execute(sql)
    db.close()
    run = types.SimpleNamespace(programs=programs, max_bytes=20000, reasons={}, count=lambda what: None)
    writer, replica = Writer(run), Replica(run, 'copy.db')
    try:
        for sql in transactions:
            # the copy is there first, so that the changes travel
            while not (replica.last and replica.last['code'] == 1):
                replica.read()
            answer = writer.say(sql if sql.startswith('o ') else 't ' + sql)
            if answer != 'ok':
                raise Bad('%s: %s' % (answer, sql))
        begun = now()
        while not (replica.last['code'] == 1 and replica.last['begun'] >= begun):
            replica.read()
            if now() > begun + 60000:
                raise Bad('not in 60 s: %s' % replica.last)
        live, copy = rows_of('live.db'), rows_of('copy.db')
        if live != copy:
            raise Bad('the replica has %s, and not %s' % (copy, live))
        if replica.copies > copies:
            raise Bad('%d copies: %s' % (replica.copies, run.reasons))
        writer.end()
        replica.end()
    finally:
        for process in (writer.process, replica.process):
            process.kill()
            process.wait()


def main():
    for name, schema, transactions, copies in KINDS:
        try:
            check(sys.argv[1], schema, transactions, copies)
        except Bad as bad:
            print('FAILED %s: %s' % (name, bad), file=sys.stderr)
            return 1
    print('%d kinds of databases are followed' % len(KINDS))
    return 0


if __name__ == '__main__':
    sys.exit(main())
