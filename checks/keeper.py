"""A live run of keeper/ over a random load, with kills (checks/keeper.sh).

    python3 checks/keeper.py PROGRAMS SECONDS SEED

It works in the current folder. PROGRAMS has `load` and `keep`. Rounds follow each other on one database with four replicas.
In each one the writer gets random transactions. The writer and the replicas are killed (SIGKILL), replicas are stopped and
locked, others write to the files. At the end of a round each replica must say that it has everything, and all files must
have equal tables, by type and bytes. After a foreign write no replica may say so before the next commit.
"""
import os
import random
import select
import signal
import sqlite3
import sys
import time

sys.path.insert(0, os.path.join(os.path.dirname(os.path.abspath(__file__)), 'keeper'))
from processes import Bad, Replica, Writer, now, rows_of  # noqa: E402

OK, IDLE, AWAY, LAGS = 0, 1, 2, 3
REPLICAS = ['one.db', 'two.db', 'three.db', 'four.db']
SCHEMA = [
    "CREATE TABLE account (id INTEGER PRIMARY KEY, owner TEXT, balance INTEGER, rate REAL)",
    "CREATE UNIQUE INDEX owners ON account (owner)",
    "CREATE TABLE note (name TEXT COLLATE NOCASE PRIMARY KEY, body BLOB)",
    "CREATE TABLE pair (a, b, v, w, PRIMARY KEY (b, a)) WITHOUT ROWID",
    "CREATE TABLE bin (v NUMERIC, k BLOB PRIMARY KEY NOT NULL, w REAL DEFAULT 1.5)",
    "CREATE TABLE child (id INTEGER PRIMARY KEY, parent REFERENCES account (id) ON DELETE CASCADE ON UPDATE CASCADE, x)",
    "CREATE TABLE log (id INTEGER PRIMARY KEY AUTOINCREMENT, line TEXT, was REAL)",
    "CREATE TABLE uniq (id INTEGER PRIMARY KEY, u UNIQUE)",
    "CREATE TABLE odd (k PRIMARY KEY, v)",
    "CREATE TABLE keyless (x)",
    "CREATE TABLE made (id INTEGER PRIMARY KEY, a, b GENERATED ALWAYS AS (a || 'b'))",
    "CREATE TABLE grown (id INTEGER PRIMARY KEY, v)",
    "CREATE TABLE large (id INTEGER PRIMARY KEY, body BLOB)",
    "CREATE TRIGGER logging AFTER UPDATE OF balance ON account BEGIN"
    " INSERT INTO log (line, was) VALUES (new.owner || ' has ' || new.balance, old.rate); END",
    "CREATE VIEW owned AS SELECT owner FROM account",
    "WITH RECURSIVE n (i) AS (SELECT 1 UNION ALL SELECT i + 1 FROM n WHERE i < 200) INSERT INTO account"
    " SELECT i, 'owner ' || i, 1000, i / 7.0 FROM n",
    "WITH RECURSIVE n (i) AS (SELECT 1 UNION ALL SELECT i + 1 FROM n WHERE i < 50) INSERT INTO grown SELECT i, i FROM n",
    "WITH RECURSIVE n (i) AS (SELECT 1 UNION ALL SELECT i + 1 FROM n WHERE i < 20) INSERT INTO uniq SELECT i, i FROM n",
]


class Run:
    """the whole run"""

    def __init__(self, programs, seconds, seed):
        self.programs, self.dice = programs, random.Random(seed)
        self.end_at = time.monotonic() + seconds
        self.counts, self.reasons, self.columns = {}, {}, 0
        self.max_bytes = 200000
        # in a calm round no transaction costs a copy, and brokers follow one another
        self.is_calm = False
        db = sqlite3.connect('live.db')
        db.execute('PRAGMA journal_mode = WAL')
        for sql in SCHEMA:
            db.execute(sql)
        db.commit()
        db.close()
        self.writer = Writer(self)
        self.replicas = [Replica(self, path) for path in REPLICAS]

    def count(self, what, number=1):
        self.counts[what] = self.counts.get(what, 0) + number

    def value(self):
        """a random value as SQL"""
        return self.dice.choice(['NULL', '%d' % self.dice.randrange(5), '%d.5' % self.dice.randrange(5), '0.0', '1e300', '9e999',
                                 "'t%d'" % self.dice.randrange(5), "x'00%02x'" % self.dice.randrange(5),
                                 '%d.0' % self.dice.randrange(5), '0.1 + %d' % self.dice.randrange(9)])

    def statement(self):
        """a random statement"""
        n = self.dice.randrange
        one, two = 1 + n(200), 1 + n(200)
        return self.dice.choice([
            lambda: 'UPDATE account SET balance = balance - %d WHERE id = %d; UPDATE account SET balance = balance + %d'
                    ' WHERE id = %d' % (one, one, one, two),
            lambda: 'UPDATE account SET rate = %s WHERE id = %d' % (self.value(), one),
            lambda: "INSERT OR REPLACE INTO note VALUES ('n%d', randomblob(%d))" % (n(100), self.dice.choice([5, 50, 2000])),
            lambda: "DELETE FROM note WHERE name = 'n%d'" % n(100),
            lambda: 'INSERT OR REPLACE INTO pair VALUES (%d, x\'%02x\', %s, %s)' % (n(9), n(9), self.value(), self.value()),
            lambda: 'UPDATE pair SET v = %s WHERE a = %d' % (self.value(), n(9)),
            lambda: 'UPDATE OR IGNORE pair SET a = %d WHERE a = %d' % (n(9), n(9)),
            lambda: 'DELETE FROM pair WHERE a = %d' % n(9),
            lambda: "INSERT OR REPLACE INTO bin (k, v, w) VALUES (x'%02x', %s, %s)" % (n(60), self.value(), self.value()),
            lambda: "INSERT OR IGNORE INTO bin (k) VALUES (x'%02x')" % n(60),
            lambda: "UPDATE bin SET v = %s, w = w * 1.25 WHERE k > x'%02x'" % (self.value(), n(60)),
            lambda: 'INSERT OR IGNORE INTO child VALUES (%d, %d, %s)' % (n(300), one, self.value()),
            lambda: "DELETE FROM account WHERE id = %d; INSERT INTO account VALUES (%d, 'owner %d', 1000, 0.5)" % (one, one, one),
            lambda: 'UPDATE OR IGNORE account SET id = id + 1000 WHERE id = %d; UPDATE OR IGNORE account SET id = id - 1000'
                    ' WHERE id > 1000' % one,
            lambda: 'INSERT OR REPLACE INTO odd VALUES (%s, %s)' % (n(9) if self.is_calm else self.value(), self.value()),
            lambda: 'DELETE FROM odd WHERE k = %s' % (n(9) if self.is_calm else self.value()),
            lambda: 'INSERT INTO keyless VALUES (%d); INSERT INTO made (a) VALUES (%d)' % (one, two),
            lambda: 'UPDATE grown SET v = %s WHERE id %% 7 = %d' % (self.value(), n(7)),
            lambda: 'DELETE FROM grown WHERE id = %d; INSERT INTO grown (id, v) VALUES (%d, %s)' % (n(60), 60 + n(60), self.value())
                    if n(2) else 'INSERT OR REPLACE INTO grown (id, v) VALUES (%d, 7)' % n(60),
            lambda: 'SAVEPOINT s; DELETE FROM account; DELETE FROM note; ROLLBACK TO s; RELEASE s',
        ])()

    def swap(self):
        """two rows swap what an index or a table keeps apart"""
        a = 2 * self.dice.randrange(1, 9)
        if self.dice.randrange(3):
            return ("UPDATE account SET owner = '-' WHERE id = %d; UPDATE account SET owner = 'owner %d' WHERE id = %d; UPDATE"
                    " account SET owner = 'owner %d' WHERE id = %d" % (a, a, a + 1, a + 1, a))
        return 'UPDATE uniq SET u = -1 WHERE id = %d; UPDATE uniq SET u = %d WHERE id = %d; UPDATE uniq SET u = %d WHERE id = %d' % (
            a, a, a + 1, a + 1, a)

    def transaction(self):
        parts = [self.statement() for _ in range(1 + self.dice.randrange(4))]
        if self.is_calm:
            return '%s %s' % ('r' if self.dice.randrange(20) == 0 else 't', '; '.join(parts))
        if self.dice.randrange(40) == 0:
            parts.append(self.swap())
        if self.dice.randrange(150) == 0:
            parts.append('INSERT OR REPLACE INTO large VALUES (%d, randomblob(%d))'
                         % (self.dice.randrange(3), self.dice.choice([100000, 1000000, 1000000, 6000000, 20000000])))
            self.count('large blobs')
        if self.dice.randrange(100) == 0:
            parts.append("UPDATE OR IGNORE note SET name = upper(name) WHERE name = 'n%d'" % self.dice.randrange(100))
        return '%s %s' % ('r' if self.dice.randrange(20) == 0 else 't', '; '.join(parts))

    def commit(self, line):
        answer = self.writer.say(line)
        if answer != 'ok' and not answer.startswith('refused'):
            raise Bad('%s: %s' % (answer, line[:300]))
        self.count('transactions' if answer == 'ok' else 'refused')

    def alter(self):
        """another schema"""
        self.columns += 1
        value = self.dice.choice(["%d", "%d.5", "'d%d'"]) % self.columns
        sql = 'ALTER TABLE grown ADD COLUMN c%d DEFAULT %s' % (self.columns, value)
        if self.dice.randrange(3) == 0:
            sql = 'DROP TABLE IF EXISTS more; CREATE TABLE more (a PRIMARY KEY, b DEFAULT 3); INSERT INTO more VALUES (%d, 0.5)' % (
                self.columns)
        if self.dice.randrange(2):
            sql += '; ' + self.statement()
        self.count('changes of the schema')
        kind = self.dice.choice('tto')
        if kind == 'o':
            self.writer.say('o BEGIN; %s; COMMIT' % sql)
        else:
            self.commit('t ' + sql)

    def write_foreign(self, path):
        """another connection writes; returns whether it could"""
        db = sqlite3.connect(path, timeout=5)
        try:
            db.execute('UPDATE account SET balance = balance + 1 WHERE id = %d' % (1 + self.dice.randrange(200)))
            db.execute('INSERT INTO log (line) VALUES (1)')
            db.commit()
            return True
        except sqlite3.OperationalError:
            return False
        finally:
            db.close()

    def lock(self, path):
        """another connection locks a replica's file for a while"""
        db = sqlite3.connect(path, timeout=5, isolation_level=None)
        try:
            db.execute('BEGIN IMMEDIATE')
            for _ in range(20):
                self.commit(self.transaction())
                time.sleep(0.01)
            db.execute('ROLLBACK')
            self.count('locks')
        except sqlite3.OperationalError:
            pass
        db.close()

    def event(self):
        """something that happens to the processes or the files"""
        replica = self.dice.choice(self.replicas)
        kind = self.dice.randrange(55 if self.is_calm else 100)
        if self.is_calm and 35 <= kind < 45:
            return
        if kind < 25:
            replica.kill()
            self.count('kills of replicas')
        elif kind < 35:
            if not replica.is_stopped:
                replica.signal(signal.SIGSTOP)
                self.count('stops')
            else:
                replica.signal(signal.SIGCONT)
        elif kind < 45:
            self.writer.kill(self.transaction() if self.dice.randrange(2) else None)
            self.writer.start()
            self.count('kills of the writer')
        elif kind < 55:
            self.lock(replica.path)
        elif kind < 62:
            # while no process keeps the file, only a later conflict finds a foreign write
            self.count('foreign writes to a replica', self.write_foreign(replica.path) if replica.last else 0)
        elif kind < 68:
            self.count('foreign writes to the source', self.write_foreign('live.db'))
        elif kind < 72:
            self.writer.say('o ' + self.transaction()[2:])
            self.count('own writes outside')
        elif kind < 80:
            self.writer.say('o ' + self.dice.choice(['VACUUM', 'ANALYZE', 'PRAGMA wal_checkpoint(TRUNCATE)', 'REINDEX',
                                                     'CREATE TEMP TABLE IF NOT EXISTS tt (a); INSERT INTO tt VALUES (1)']))
            self.count('VACUUM and its kind')
        elif kind < 88:
            self.alter()

    def read_all(self):
        for replica in self.replicas:
            replica.read()

    def wait_for(self, what, holds, seconds=60):
        end = time.monotonic() + seconds
        while not holds():
            if time.monotonic() > end:
                raise Bad('%s: not in %d s: %s; %s' % (what, seconds, [r.last for r in self.replicas], self.writer.say('s')))
            select.select([r.process.stdout for r in self.replicas], [], [], 0.1)
            self.read_all()

    def compare(self):
        """each replica says that it has everything, and has it"""
        since = now()
        self.wait_for('all replicas have everything', lambda: all(
            r.last and r.last['code'] == IDLE and r.last['begun'] >= since for r in self.replicas))
        live = rows_of('live.db')
        place = live.pop('mark')
        for replica in self.replicas:
            rows = rows_of(replica.path)
            mark = rows.pop('mark')
            if rows != live:
                names = [name for name in set(rows) | set(live) if rows.get(name) != live.get(name)]
                table = names[0]
                a, b = live.get(table, []), rows.get(table, [])
                raise Bad('%s says that it has everything, and differs in %s: live only %.500s, replica only %.500s; steps %s, mark'
                          ' %s, live %s' % (replica.path, names, [x for x in a if x not in b], [x for x in b if x not in a],
                                            replica.last, mark, place))
            db = sqlite3.connect(replica.path, timeout=30)
            if db.execute('PRAGMA quick_check').fetchall() != [('ok',)]:
                raise Bad('%s: quick_check' % replica.path)
            db.close()
        self.count('comparisons')

    def foreign_at_rest(self):
        """after a foreign write no replica says that it has everything, until the next commit"""
        if not self.write_foreign('live.db'):
            raise Bad('no foreign write')
        since = now()
        self.wait_for('a step after a foreign write', lambda: all(r.last['begun'] >= since for r in self.replicas))
        for _ in range(5):
            time.sleep(0.1)
            for replica in self.replicas:
                for step in replica.read():
                    if step['begun'] >= since and step['code'] == IDLE:
                        raise Bad('%s says that it has everything after a foreign write: %s' % (replica.path, step))
        self.commit('t UPDATE uniq SET id = id')
        self.count('foreign writes at rest')

    def round(self):
        self.is_calm = self.dice.randrange(2) == 0
        for _ in range(1500 if self.is_calm else self.dice.choice([20, 100, 300])):
            if time.monotonic() > self.end_at:
                break
            self.commit(self.transaction())
            self.read_all()
            if self.dice.randrange(100 if self.is_calm else 12) == 0:
                self.event()
        for replica in self.replicas:
            if replica.is_stopped:
                replica.signal(signal.SIGCONT)
        if self.dice.randrange(3) == 0:
            # the writer's last words: nothing may be needed after the kill but a new start
            self.writer.kill()
            self.writer.start()
            self.count('kills of the writer')
        self.commit('t UPDATE uniq SET id = id')
        self.compare()
        brokers = int(self.writer.say('s').split(' ')[5])
        self.count('brokers', brokers)
        if self.dice.randrange(3) == 0:
            self.foreign_at_rest()
            self.compare()
        words = self.writer.say('s').split(' ', 8)
        if int(words[4]) > 2 or int(words[3]) > 2 * (self.max_bytes + 17000000):
            raise Bad('the brokers hold too much: %s' % words)
        self.count('rounds')

    def end(self):
        for replica in self.replicas:
            replica.end()
        self.writer.end()


def main():
    run = Run(sys.argv[1], float(sys.argv[2]), int(sys.argv[3]))
    try:
        while time.monotonic() < run.end_at:
            run.round()
        run.end()
    except Bad as bad:
        print('FAILED seed %s: %s' % (sys.argv[3], bad), file=sys.stderr)
        print(run.counts, run.reasons, file=sys.stderr)
        for process in [run.writer.process] + [r.process for r in run.replicas]:
            process.kill()
        return 1
    print('ok: ' + ', '.join('%s %d' % it for it in sorted(run.counts.items())))
    print('copies because: ' + '; '.join('%d %s' % (n, why) for why, n in sorted(run.reasons.items(), key=lambda x: -x[1])))
    return 0


if __name__ == '__main__':
    sys.exit(main())
