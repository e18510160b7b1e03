"""A writing process and a replica's process are killed (kill -9) again and again. At the end the files are equal, by type
and bytes, and no process ever said that a file has everything when it hadn't."""
import os
import signal
import sqlite3
import subprocess
import sys
import time
import unittest

from keeper_shared import InFolder, started
from shared import chance

SECONDS = float(os.environ.get('SECONDS', '8'))

WRITES = '''
import os, random, sys, gubzelk
draws = random.Random(sys.argv[1])
with gubzelk.Source('live.db', timeout=30, max_entries=50) as s:
    with s.transaction() as t:
        t.execute('CREATE TABLE IF NOT EXISTS t (id INTEGER PRIMARY KEY, a, b)')
        t.execute('CREATE TABLE IF NOT EXISTS k (k TEXT PRIMARY KEY NOT NULL, v REAL) WITHOUT ROWID')
    print('ready', flush=True)
    values = [lambda: None, lambda: draws.random(), lambda: draws.randrange(-9, 9), lambda: draws.randrange(1 << 62),
              lambda: 'x' * draws.randrange(99), lambda: os.urandom(draws.randrange(999)), lambda: 3.0]
    while not sys.argv[2:] or s.status().entries < int(sys.argv[2]):
        with s.transaction() as t:
            for _ in range(draws.randrange(1, 9)):
                at = draws.randrange(200)
                row = [at, draws.choice(values)(), draws.choice(values)()]
                t.execute('INSERT OR REPLACE INTO t VALUES (?, ?, ?)', row)
                t.execute('DELETE FROM t WHERE id = ?', [draws.randrange(200)])
                t.execute('INSERT OR REPLACE INTO k VALUES (?, ?)', [str(at), draws.random()])
    sys.stdin.read()
'''
FOLLOWS = '''
import sys, gubzelk
with gubzelk.Replica(sys.argv[1], 'live.db') as r:
    for step in r.steps(0.5): pass
'''


class Killed(InFolder):
    def writes(self, seed, *words):
        found = started(WRITES, str(seed), *words, stdin=subprocess.PIPE)
        self.addCleanup(self.kill, found)
        self.assertEqual(found.stdout.readline(), b'ready\n')
        return found

    def follows(self, file):
        found = started(FOLLOWS, file)
        self.addCleanup(self.kill, found)
        return found

    def kill(self, process):
        if process.poll() is None:
            process.send_signal(signal.SIGKILL)
        process.wait()
        for pipe in [process.stdin, process.stdout]:
            if pipe:
                pipe.close()

    def test_kills(self):
        draws, ends, kills = chance('killed'), time.monotonic() + SECONDS, 0
        writer, one, two = self.writes(0), self.follows('one.db'), self.follows('two.db')
        while time.monotonic() < ends or kills < 4:
            time.sleep(draws.random() / 2)
            which = draws.choice('writer one two both'.split())
            if which in ('writer', 'both'):
                self.kill(writer)
                writer = self.writes(kills)
            if which in ('one', 'both'):
                self.kill(one)
                one = self.follows('one.db')
            if which == 'two':
                self.kill(two)
                two = self.follows('two.db')
            kills += 1
            for process in [writer, one, two]:
                self.assertIsNone(process.poll())
        for process in [writer, one, two]:
            self.kill(process)
        # the last writer makes some entries, and then keeps still
        writer = self.writes('last', '20')
        self.is_kept('one.db')
        self.is_kept('two.db')
        self.assertEqual(writer.poll(), None)
        self.assertGreater(len(self.is_equal('one.db', 'two.db')[b't']), 20)
        print(f'{kills} kills', file=sys.stderr)

    def is_kept(self, file):
        """A replica comes to where the database is, once nothing is written any more."""
        replica = self.replica(file)
        while self.entries() < 20:
            replica.wait(1)
        self.assertTrue(replica.wait(60))
        self.assertTrue(replica.wait(60))
        self.assertEqual(replica.status().number, self.entries())
        replica.close()

    def entries(self):
        """How many entries the source's broker has, as the mark says."""
        connection = sqlite3.connect('live.db', timeout=30)
        try:
            return connection.execute('SELECT front FROM gz_mark').fetchone()[0]
        finally:
            connection.close()

    def test_what_a_killed_writer_has_committed(self):
        """What `commit` returned for is in the database and in a replica; a transaction that is open is in neither."""
        code = '''
import os, signal, gubzelk
s = gubzelk.Source('live.db')
with s.transaction() as t:
    t.execute('CREATE TABLE t (id INTEGER PRIMARY KEY)')
for at in range(5):
    with s.transaction() as t:
        t.execute('INSERT INTO t VALUES (?)', [at])
with s.transaction() as t:
    t.execute('INSERT INTO t VALUES (99)')
    os.kill(os.getpid(), signal.SIGKILL)
'''
        process = started(code)
        self.assertEqual(process.wait(60), -signal.SIGKILL)
        process.stdout.close()
        replica = self.replica()
        self.assertFalse(replica.wait(0.3))
        self.source()
        self.assertTrue(replica.wait(20))
        self.assertEqual(len(self.is_equal('copy.db')[b't']), 5)


if __name__ == '__main__':
    unittest.main()
