"""The calls of a Source: transactions, values, statements, and each refusal that can be provoked."""
import copy
import ctypes
import os
import pickle
import sqlite3
import unittest

from keeper_shared import InFolder, content

import gubzelk
from gubzelk import KeeperCode

VALUES = [None, 0, 1, -1, (1 << 63) - 1, -1 << 63, 0.0, -0.0, 0.1, -1.5, 1e300, 5e-324, float('inf'), -float('inf'), '',
          'x', 'žluťoučký \U0001f600', 'é' * 70000, b'', b'\0', b'\0\xff' * 3, bytes(70000), 3.0, 1 << 53]


class Transactions(InFolder):
    def setUp(self):
        super().setUp()
        self.s = self.source()
        with self.s.transaction() as t:
            t.execute('CREATE TABLE t (id INTEGER PRIMARY KEY, a, b)')

    def ids(self):
        return [row[0] for row in self.s.execute('SELECT id FROM t ORDER BY id')]

    def test_commit_and_rollback(self):
        with self.s.transaction() as t:
            self.assertTrue(self.s.in_transaction)
            self.assertEqual(t.execute('INSERT INTO t VALUES (1, 2, 3) RETURNING id, b'), [(1, 3)])
            self.assertEqual((self.ids(), content('live.db', ['gz_mark'])), ([1], {b't': []}))
        self.assertFalse(self.s.in_transaction)
        with self.assertRaises(ZeroDivisionError):
            with self.s.transaction() as t:
                t.execute('DELETE FROM t')
                1 / 0
        with self.assertRaises(KeyboardInterrupt):
            with self.s.transaction() as t:
                t.execute('DELETE FROM t')
                raise KeyboardInterrupt
        self.assertEqual((self.ids(), self.s.in_transaction), ([1], False))
        self.s.begin()
        self.s.execute('INSERT INTO t VALUES (2, 0, 0)')
        self.assertIsNone(self.s.rollback())
        self.s.begin()
        self.s.execute('INSERT INTO t VALUES (3, 0, 0)')
        self.assertIsNone(self.s.commit())
        self.assertEqual(self.ids(), [1, 3])
        self.assertEqual(self.s.status().brokers, 2)

    def test_what_sql_refuses_leaves_the_transaction_open(self):
        with self.s.transaction() as t:
            t.execute('INSERT INTO t VALUES (1, 0, 0)')
            with self.assertRaises(sqlite3.IntegrityError) as caught:
                t.execute('INSERT INTO t VALUES (1, 0, 0)')
            self.assertEqual(caught.exception.sqlite_errorcode, 1555)
            self.assertIn('UNIQUE', str(caught.exception))
            for wrong in ['nonsense', 'SELECT * FROM absent', 'INSERT INTO t VALUES (1)']:
                with self.assertRaises(sqlite3.OperationalError):
                    t.execute(wrong)
            with self.assertRaises(sqlite3.IntegrityError):
                t.executemany('INSERT INTO t VALUES (?, 0, 0)', [[2], [1], [3]])
            t.execute('SAVEPOINT p')
            t.execute('INSERT INTO t VALUES (9, 0, 0)')
            t.execute('ROLLBACK TO p')
            t.execute('RELEASE p')
        self.assertEqual(self.ids(), [1, 2])

    def test_sql_that_ends_the_transaction(self):
        for sql in ['COMMIT', 'ROLLBACK']:
            with self.assertRaises(gubzelk.NoTransaction):
                with self.s.transaction() as t:
                    t.execute('DELETE FROM t')
                    t.execute('INSERT INTO t VALUES (1, 0, 0)')
                    t.execute(sql)
                    with self.assertRaises(gubzelk.NoTransaction):
                        t.execute('INSERT INTO t VALUES (2, 0, 0)')
            self.assertEqual(self.ids(), [1])
            brokers = self.s.status().brokers
            with self.s.transaction():
                pass
            self.assertEqual(self.s.status().brokers - brokers, sql == 'COMMIT')
        with self.assertRaises(sqlite3.IntegrityError):
            with self.s.transaction() as t:
                t.execute('INSERT OR ROLLBACK INTO t VALUES (1, 0, 0)')
        self.assertEqual((self.ids(), self.s.in_transaction), ([1], False))
        for call in [t.execute, t.executescript, lambda sql: t.executemany(sql, [])]:
            self.refuses(gubzelk.NoTransaction, call, 'SELECT 1')

    def test_a_commit_that_is_refused(self):
        with self.s.transaction() as t:
            t.executescript('CREATE TABLE p (id INTEGER PRIMARY KEY); CREATE TABLE c (id INTEGER PRIMARY KEY, '
                            'p REFERENCES p (id) DEFERRABLE INITIALLY DEFERRED)')
        self.s.execute('PRAGMA foreign_keys = 1')
        with self.assertRaises(gubzelk.SQLiteRefused) as caught:
            with self.s.transaction() as t:
                t.execute('INSERT INTO c VALUES (1, 7)')
        self.assertIn('FOREIGN KEY', caught.exception.detail)
        self.assertIn('FOREIGN KEY', str(caught.exception))
        self.assertEqual((self.s.execute('SELECT count(*) FROM c'), self.s.in_transaction), ([(0,)], False))
        self.s.begin()
        self.s.execute('INSERT INTO c VALUES (1, 7)')
        self.refuses(gubzelk.SQLiteRefused, self.s.commit)
        self.assertTrue(self.s.in_transaction)
        self.s.execute('INSERT INTO p VALUES (7)')
        self.s.commit()
        self.assertEqual(self.s.execute('SELECT count(*) FROM c'), [(1,)])

    def test_each_code_of_a_commit(self):
        """What each refusal leaves, by a commit that returns the code: the block is rolled back, and others get in."""
        commit = self.s._library.calls['commit']
        self.addCleanup(self.s._library.calls.__setitem__, 'commit', commit)
        for code in KeeperCode:
            if code >= 0 or code == KeeperCode.NO_TRANSACTION:
                continue
            self.s._library.calls['commit'] = lambda handle: code
            with self.assertRaises(gubzelk.keeper_errors.CLASSES[code]) as caught:
                with self.s.transaction() as t:
                    t.execute('INSERT INTO t VALUES (1, 0, 0)')
            self.assertEqual((caught.exception.code, caught.exception.call), (code, 'commit'))
            self.assertEqual((self.s.in_transaction, self.s._opener, self.ids()), (False, None, []))
        self.assertEqual(str(gubzelk.keeper_errors.keeper_refusal('x', -99, 'words')), 'x: words')

    def test_reading_outside(self):
        self.assertEqual(self.s.execute('SELECT ?1 + :b', (1, 2)), [(3,)])
        self.assertEqual(self.s.execute('-- nothing'), [])
        self.assertEqual(self.s.execute('PRAGMA user_version'), [(0,)])
        self.s.execute('PRAGMA wal_checkpoint(TRUNCATE)')
        self.s.execute(' vacuum')
        for wrong in ['INSERT INTO t VALUES (1, 0, 0)', 'CREATE TABLE x (a)', 'BEGIN', 'BEGIN IMMEDIATE', 'SAVEPOINT x',
                      'SELECT 1; SELECT 2', 'SELECT 1; nonsense']:
            with self.assertRaises(sqlite3.ProgrammingError):
                self.s.execute(wrong)
            self.assertFalse(self.s.in_transaction)
        self.assertEqual(self.ids(), [])

    def test_values(self):
        with self.s.transaction() as t:
            t.executemany('INSERT INTO t VALUES (?, ?, ?)', [(at, value, at) for at, value in enumerate(VALUES)])
            t.execute('INSERT INTO t VALUES (:id, @a, $b)', {'id': 99, 'a': True, 'b': bytearray(b'xy'), 'more': 1})
            t.execute('INSERT INTO t VALUES (100, ?, ?)', [memoryview(b'abcd')[::2], False])
        found = [row[0] for row in self.s.execute('SELECT a FROM t ORDER BY id')]
        self.assertEqual(list(map(repr, found[:len(VALUES)])), list(map(repr, VALUES)))
        self.assertEqual(self.s.execute('SELECT a, b FROM t WHERE id > 98'), [(1, b'xy'), (b'ac', 0)])
        read = self.other('live.db').execute('SELECT a FROM t ORDER BY id').fetchall()
        self.assertEqual(list(map(repr, [row[0] for row in read])), list(map(repr, found)))

    def test_values_that_are_refused(self):
        with self.s.transaction() as t:
            for value, kind, words in [
                    ('a\0b', ValueError, 'NUL'), ('\ud800', ValueError, 'surrogate'), (float('nan'), ValueError, 'NULL'),
                    (1 << 63, OverflowError, '2'), (-1 - (1 << 63), OverflowError, '2'), (object(), TypeError, 'object'),
                    ([1], TypeError, 'list'), (1j, TypeError, 'complex')]:
                with self.assertRaisesRegex(kind, f'parameter 1 .*{words}'):
                    t.execute('INSERT INTO t VALUES (1, ?, 0)', [value])
            for parameters, kind in [('ab', TypeError), (b'ab', TypeError), (5, TypeError), ({1, 2}, TypeError),
                                     ([1], sqlite3.ProgrammingError), ([1, 2, 3], sqlite3.ProgrammingError)]:
                with self.assertRaises(kind):
                    t.execute('INSERT INTO t VALUES (1, ?, ?)', parameters)
            for parameters in [{}, {'a': 1}]:
                with self.assertRaises(sqlite3.ProgrammingError):
                    t.execute('INSERT INTO t VALUES (:a, :b, 0)', parameters)
            with self.assertRaises(sqlite3.ProgrammingError):
                t.execute('INSERT INTO t VALUES (?, 0, 0)', {'a': 1})
            for sql, kind in [('SELECT "\0"', ValueError), ('SELECT \'\udfff\'', ValueError), (b'SELECT 1', TypeError)]:
                with self.assertRaises(kind):
                    t.execute(sql)
        self.assertEqual(self.ids(), [])
        with self.s.transaction() as t:
            t.execute("INSERT INTO t VALUES (1, CAST(x'61ff' AS TEXT), CAST(x'610062' AS TEXT))")
        self.assertEqual(self.s.execute('SELECT b FROM t'), [('a\0b',)])
        with self.assertRaisesRegex(sqlite3.OperationalError, 'UTF-8'):
            self.s.execute('SELECT a FROM t')

    def test_scripts(self):
        with self.s.transaction() as t:
            t.executescript("INSERT INTO t VALUES (1, ';', 0); -- one\n /* two */ INSERT INTO t VALUES (2, 0, 0);;\n")
            t.executescript('')
            t.executescript('SELECT * FROM t')
            with self.assertRaises(sqlite3.OperationalError):
                t.executescript('INSERT INTO t VALUES (3, 0, 0); nonsense')
            t.executemany('', [])
            t.executemany('SELECT ?', iter([[1], [2]]))
            t.executemany('INSERT INTO t VALUES (?, 0, 0)', ([at] for at in range(10, 13) if t.execute('SELECT 1')))
        self.assertEqual(self.ids(), [1, 2, 3, 10, 11, 12])

    def test_what_does_not_travel(self):
        with self.s.transaction() as t:
            t.executescript('CREATE TABLE odd (k PRIMARY KEY, v); CREATE TABLE bare (a)')
        with self.s.transaction() as t:
            t.execute('INSERT INTO odd VALUES (1.5, 1), (2, 2), (NULL, 3)')
        found = {(one.table, one.key) for one in self.s.left()}
        self.assertLessEqual({('bare', ''), ('odd', '1.5')}, found)
        self.assertTrue(all(one.why for one in self.s.left()))
        self.assertGreaterEqual(self.s.status().left, len(found))


class Opening(InFolder):
    def test_refusals(self):
        for kind, path, options in [(gubzelk.NoFile, ':memory:', {}), (gubzelk.NoFile, '', {}),
                                    (gubzelk.LongPath, 'live.db', {'socket': 'x' * 200}),
                                    (gubzelk.NotWal, 'live.db', {'set_wal': False})]:
            error = self.refuses(kind, gubzelk.Source, path, **options)
            self.assertEqual(error.call, 'source_open')
        os.mkdir('folder')
        error = self.refuses(gubzelk.SystemRefused, gubzelk.Source, 'live.db', socket='folder')
        self.assertTrue(error.detail)
        with self.assertRaises(sqlite3.OperationalError):
            gubzelk.Source('absent/live.db')
        self.other('live.db').executescript('CREATE TABLE own_mark (a)')
        self.refuses(gubzelk.TableTaken, gubzelk.Source, 'live.db', prefix='own_')
        self.source(prefix='other_')
        self.refuses(gubzelk.FileTaken, gubzelk.Source, 'live.db')

    def test_not_a_database(self):
        with open('live.db', 'wb') as file:
            file.write(b'words' * 1000)
        error = self.refuses(gubzelk.SQLiteRefused, gubzelk.Source, 'live.db')
        self.assertIn('not a database', error.detail)

    def test_locked(self):
        self.source().close()
        other = self.other('live.db')
        other.execute('BEGIN IMMEDIATE')
        error = self.refuses(gubzelk.Locked, gubzelk.Source, 'live.db', timeout=0.3)
        self.assertIn('locked', error.detail)
        other.execute('ROLLBACK')
        s = self.source(timeout=0.3)
        other.execute('BEGIN IMMEDIATE')
        self.assertIn('locked', self.refuses(gubzelk.Locked, s.begin).detail)
        self.assertFalse(s.in_transaction)
        other.execute('ROLLBACK')
        s.begin()
        self.refuses(gubzelk.InTransaction, s.begin)
        self.assertTrue(s.in_transaction)
        s.rollback()
        self.assertIsNone(s._opener)
        for call in [s.commit, s.rollback]:
            self.refuses(gubzelk.NoTransaction, call)

    def test_roles(self):
        self.source()
        self.assertTrue(self.replica().wait(20))
        self.refuses(gubzelk.FileTaken, gubzelk.Source, 'copy.db')

    def test_a_replica_becomes_a_source(self):
        with gubzelk.Source('live.db'), gubzelk.Replica('copy.db', 'live.db') as replica:
            self.assertTrue(replica.wait(20))
        self.refuses(gubzelk.OtherRole, gubzelk.Source, 'copy.db')
        with gubzelk.Source('copy.db', replace=True) as source:
            self.assertEqual(source.status().brokers, 1)

    def test_operands(self):
        for options in [{'prefix': 5}, {'socket': 5}, {'max_bytes': 1.5}, {'max_entries': True}, {'set_wal': 1},
                        {'replace': None}]:
            with self.assertRaises(TypeError):
                gubzelk.Source('live.db', **options)
        for path, options in [('a\0b', {}), ('live.db', {'prefix': 'a\0'}), ('live.db', {'socket': 'a\0'}),
                              ('live.db', {'max_bytes': -1})]:
            with self.assertRaises(ValueError):
                gubzelk.Source(path, **options)
        with self.assertRaises(TypeError):
            gubzelk.Source(5j)
        self.assertEqual(os.listdir('.'), [])

    def test_closed(self):
        s = self.source()
        t = s.transaction()
        self.assertEqual((s.closed, repr(s)), (False, '<Source>'))
        for call in [copy.copy, pickle.dumps]:
            with self.assertRaises(TypeError):
                call(s)
        s.begin()
        s.execute('CREATE TABLE t (id INTEGER PRIMARY KEY)')
        s.close()
        s.close()
        self.assertEqual((s.closed, s.in_transaction, repr(s)), (True, False, '<Source, closed>'))
        for call in [s.begin, s.commit, s.rollback, s.status, s.left, s.replicas, t.__enter__,
                     lambda: s.execute('SELECT 1'), lambda: t.execute('SELECT 1')]:
            with self.assertRaises(gubzelk.KeeperClosed):
                call()
        with gubzelk.Source('live.db') as source:
            with self.assertRaises(sqlite3.OperationalError):
                source.execute('SELECT * FROM t')
        self.assertTrue(source.closed)
        source = self.source()
        with self.assertRaises(gubzelk.KeeperClosed):
            with source.transaction() as t:
                t.execute('CREATE TABLE t (id INTEGER PRIMARY KEY)')
                source.close()
        self.assertEqual(content('live.db', ['gz_mark']), {})

    def test_library(self):
        with self.assertRaises(gubzelk.LibraryError):
            gubzelk.Source('live.db', library='absent.so')
        with self.assertRaises(gubzelk.LibraryError):
            gubzelk.Source('live.db', library=ctypes.util.find_library('c'))
        with self.assertRaises(TypeError):
            gubzelk.Source('live.db', library=5j)

    def test_refusals_are_pickled(self):
        error = self.refuses(gubzelk.NoFile, gubzelk.Source, ':memory:')
        again = pickle.loads(pickle.dumps(error))
        self.assertEqual((type(again), str(again), again.code), (gubzelk.NoFile, str(error), KeeperCode.NO_FILE))


if __name__ == '__main__':
    unittest.main()
