"""The calls of a Replica: its steps, what it says of itself, what it never says, and each refusal that can be provoked."""
import copy
import os
import pickle
import threading
import time
import unittest

from keeper_shared import InFolder, Step, content
from test_keeper_source import VALUES

import gubzelk


class Steps(InFolder):
    def setUp(self):
        super().setUp()
        self.s = self.source()
        self.writes('CREATE TABLE t (id INTEGER PRIMARY KEY, a, b)')

    def writes(self, sql, parameters=()):
        with self.s.transaction() as t:
            return t.execute(sql, parameters)

    def test_steps(self):
        r = self.replica()
        status = r.status()
        self.assertEqual((status.name, status.number, status.lag, status.copying, status.reason, status.error),
                         (None, 0, None, False, '', ''))
        self.assertRegex(status.id, '^[0-9a-f]{32}$')
        self.assertIs(r.step(0), Step.APPLIED)
        self.assertIsNone(r.status().lag)
        status = self.comes_to(r, Step.IDLE)
        self.assertEqual((status.name, status.number, status.lag, status.copies, status.foreign, status.copying),
                         (self.s.status().name, self.s.status().front, 0, 1, False, False))
        self.assertEqual(status.pages, status.pages_done)
        self.assertTrue(status.reason)
        for at in range(5):
            self.writes('INSERT INTO t VALUES (?, ?, ?)', [at, at / 3, b'x' * at])
        self.assertIs(r.step(), Step.APPLIED)
        self.comes_to(r, Step.IDLE)
        self.is_equal('copy.db')
        [known] = self.s.replicas()
        self.assertEqual((known.id, known.at, known.cursor, known.lag), (status.id, 2, self.s.status().front, 0))
        self.assertLess(known.since, 60)
        self.assertEqual((self.s.status().replicas, r.status().copies), (1, 1))

    def test_values_travel(self):
        """Each value in a row, alone and instead of each other one, and each in a key."""
        self.writes('CREATE TABLE k (k PRIMARY KEY NOT NULL, v) WITHOUT ROWID')
        self.writes('CREATE TABLE r (id INTEGER PRIMARY KEY, real REAL, text TEXT)')
        r = self.replica()
        self.assertTrue(r.wait(20))
        with self.s.transaction() as t:
            t.executemany('INSERT INTO t VALUES (?, ?, ?)', [(at, one, at) for at, one in enumerate(VALUES)])
            t.executemany('INSERT INTO r VALUES (?, ?, ?)', [(at, one, one) for at, one in enumerate(VALUES)])
            t.executemany('INSERT OR IGNORE INTO k VALUES (?, ?)', [(one, one) for one in VALUES
                                                                    if one is not None and not isinstance(one, float)])
        self.assertTrue(r.wait(20))
        self.is_equal('copy.db')
        for turn in range(1, 4):
            with self.s.transaction() as t:
                t.executemany('UPDATE t SET a = ?, b = ? WHERE id = ?',
                              [(one, one, (at * 7 + turn) % len(VALUES)) for at, one in enumerate(VALUES)])
            self.assertTrue(r.wait(20))
        self.writes('DELETE FROM k WHERE v > 0')
        self.assertTrue(r.wait(20))
        found, live = content('copy.db'), content('live.db')
        self.assertEqual((found[b'k'], found[b'r']), (live[b'k'], live[b'r']))
        # sessions see no change from 0.0 to -0.0
        zeros = {b'\0' * 8: b'\0' * 7 + b'\x80'}
        self.assertEqual([[zeros.get(one, one) for one in row] for row in found[b't']],
                         [[zeros.get(one, one) for one in row] for row in live[b't']])
        self.assertEqual(r.status().copies, 1)

    def test_a_real_in_a_key_does_not_travel(self):
        self.writes('CREATE TABLE k (k PRIMARY KEY, v)')
        r = self.replica()
        self.assertTrue(r.wait(20))
        self.writes('INSERT INTO k VALUES (1.5, 1), (NULL, 2), (3, 3)')
        self.assertTrue(r.wait(20))
        self.assertEqual([row[1] for row in content('copy.db')[b'k']], [3])
        self.assertIn(('k', '1.5'), [(one.table, one.key) for one in self.s.left()])

    def test_two_replicas(self):
        one, two = self.replica('one.db'), self.replica('two.db')
        for at in range(60):
            self.writes('INSERT OR REPLACE INTO t VALUES (?, ?, ?)', [at % 7, at / 3, os.urandom(at)])
            one.step(0)
            if at % 20 == 0:
                two.step(0)
        self.assertTrue(one.wait(20) and two.wait(20))
        self.is_equal('one.db', 'two.db')
        self.assertEqual({known.id for known in self.s.replicas()}, {one.status().id, two.status().id})
        self.refuses(gubzelk.FileTaken, gubzelk.Replica, 'one.db', 'live.db')

    def test_a_long_transaction(self):
        """More than 16 MiB of changes: a new broker, and a copy."""
        r = self.replica()
        self.assertTrue(r.wait(20))
        with self.s.transaction() as t:
            t.executemany('INSERT INTO t VALUES (?, ?, 1)', [(at, os.urandom(1 << 20)) for at in range(20)])
        self.assertIn('16,777,216', self.s.status().reason)
        self.assertTrue(r.wait(60))
        self.assertEqual((r.status().copies, len(self.is_equal('copy.db')[b't'])), (2, 20))

    def test_limits_of_a_broker(self):
        self.s.close()
        self.s = self.source(max_entries=10, max_bytes=2000)
        r = self.replica()
        self.assertTrue(r.wait(20))
        for at in range(100):
            self.writes('INSERT INTO t VALUES (?, ?, 0)', [at, 'x' * at])
            r.step(0)
            self.assertLessEqual(self.s.status().held, 2)
        self.assertTrue(r.wait(20))
        self.is_equal('copy.db')
        self.assertEqual(r.status().copies, 1)
        self.assertGreater(self.s.status().brokers, 9)

    def test_loops(self):
        r = self.replica()
        found = []
        for step in r.steps(0.1):
            found.append(step)
            if step is Step.IDLE:
                r.close()
        self.assertEqual((found[0], found[-1], found.count(Step.IDLE), list(r.steps())), (Step.APPLIED, Step.IDLE, 1, []))
        self.writes('INSERT INTO t VALUES (1, 1, 1)')
        r = self.replica()
        self.assertFalse(r.wait(0))
        self.assertTrue(r.wait())
        self.is_equal('copy.db')


class NotSilent(InFolder):
    """Nothing looks like up to date that isn't."""

    def setUp(self):
        super().setUp()
        self.s = self.source()
        with self.s.transaction() as t:
            t.execute('CREATE TABLE t (id INTEGER PRIMARY KEY, a)')
        self.r = self.replica()
        self.assertTrue(self.r.wait(20))

    def never_idle(self, steps=4):
        """No step is idle, no wait is true, and no lag is 0."""
        found = set()
        for _ in range(steps):
            found.add(self.r.step(0.1))
            self.assertIsNone(self.r.status().lag)
        self.assertFalse(self.r.wait(0.2))
        self.assertIsNone(self.r.status().lag)
        self.assertNotIn(Step.IDLE, found)
        return found

    def test_away(self):
        self.s.close()
        self.assertEqual(self.never_idle(), {Step.AWAY})
        begun = time.monotonic()
        self.assertIs(self.r.step(0.6), Step.AWAY)
        self.assertGreater(time.monotonic() - begun, 0.4)
        self.s = self.source()
        self.assertTrue(self.r.wait(20))
        self.assertEqual((self.r.status().copies, self.r.status().lag), (2, 0))

    def test_a_foreign_write(self):
        self.other('live.db').execute('INSERT INTO t VALUES (1, 1)')
        self.assertEqual(self.never_idle(), {Step.LAGS})
        self.assertTrue(self.r.status().foreign)
        self.assertIn('others wrote', self.r.status().error)
        with self.s.transaction() as t:
            t.execute('INSERT INTO t VALUES (2, 2)')
        self.assertIn('another connection', self.s.status().reason)
        self.assertTrue(self.r.wait(20))
        self.is_equal('copy.db')

    def test_a_locked_file(self):
        other = self.other('copy.db')
        other.execute('BEGIN IMMEDIATE')
        with self.s.transaction() as t:
            t.execute('INSERT INTO t VALUES (1, 1)')
        for _ in range(3):
            self.assertIs(self.r.step(0.1), Step.LAGS)
            self.assertNotEqual(self.r.status().lag, 0)
        self.assertIn('locked', self.r.status().error)
        self.assertFalse(self.r.wait(0.2))
        other.execute('ROLLBACK')
        self.assertTrue(self.r.wait(20))
        self.is_equal('copy.db')
        self.assertEqual(self.r.status().copies, 1)

    def test_a_foreign_write_to_the_file(self):
        self.other('copy.db').execute('INSERT INTO t VALUES (9, 9)')
        self.assertTrue(self.r.wait(20))
        self.is_equal('copy.db')
        self.assertEqual(self.r.status().copies, 2)

    def test_a_lock_that_ends_within_a_step(self):
        """A step goes on after a LAGS while it has time."""
        other = self.other('copy.db', check_same_thread=False)
        other.execute('BEGIN IMMEDIATE')
        with self.s.transaction() as t:
            t.execute('INSERT INTO t VALUES (1, 1)')
        timer = threading.Timer(0.4, other.execute, ['ROLLBACK'])
        timer.start()
        self.assertIs(self.r.step(5), Step.APPLIED)
        timer.join()


class Opening(InFolder):
    def test_refusals(self):
        error = self.refuses(gubzelk.LongPath, gubzelk.Replica, 'copy.db', 'x' * 200)
        self.assertEqual(error.call, 'replica_open')
        self.refuses(gubzelk.SystemRefused, gubzelk.Replica, 'absent/copy.db', 'live.db')
        self.assertEqual(os.listdir('.'), [])
        r = self.replica()
        self.refuses(gubzelk.FileTaken, gubzelk.Replica, 'copy.db', 'live.db')
        self.refuses(gubzelk.FileTaken, gubzelk.Source, 'copy.db')
        self.assertIs(r.step(0), Step.AWAY)
        self.assertEqual((r.closed, repr(r)), (False, '<Replica>'))
        for call in [copy.copy, pickle.dumps]:
            with self.assertRaises(TypeError):
                call(r)
        r.close()
        r.close()
        self.assertEqual((r.closed, repr(r)), (True, '<Replica, closed>'))
        for call in [r.step, r.status, r.wait]:
            with self.assertRaises(gubzelk.KeeperClosed):
                call()

    def test_files_of_others(self):
        self.source().close()
        self.other('copy.db').execute('CREATE TABLE precious (a)')
        r = self.replica()
        for _ in range(2):
            error = self.refuses(gubzelk.NotReplica, r.step, 0.1)
            self.assertEqual(error.call, 'replica_step')
        with self.assertRaises(gubzelk.NotReplica):
            list(r.steps())
        with self.assertRaises(gubzelk.NotReplica):
            r.wait(1)
        r.close()
        self.assertEqual(list(content('copy.db')), [b'precious'])
        r = self.replica('live.db', 'other.db')
        self.refuses(gubzelk.OtherRole, r.step, 0.1)
        r.close()
        self.source()
        self.assertTrue(self.replica('copy.db', replace=True).wait(20))
        self.assertEqual(list(content('copy.db')), [b'gz_mark'])

    def test_options(self):
        self.source(prefix='own_', socket='here')
        r = self.replica(socket='here', prefix='own_')
        self.assertTrue(r.wait(20))
        self.assertEqual(list(content('copy.db')), [b'own_mark'])
        for options in [{'prefix': 5}, {'socket': 5}, {'replace': 0}]:
            with self.assertRaises(TypeError):
                gubzelk.Replica('x.db', 'live.db', **options)
        for file, source in [('a\0', 'live.db'), ('x.db', 'a\0')]:
            with self.assertRaises(ValueError):
                gubzelk.Replica(file, source)


if __name__ == '__main__':
    unittest.main()
