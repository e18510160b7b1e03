"""Tables from names and keys, and from connections."""
import pickle
import sqlite3
import unittest

import gubzelk
from gubzelk import Table, tables_of
from gubzelk.tables import table


class Tables(unittest.TestCase):
    def test_operands(self):
        for words in [(5, (1,)), (None, (1,)), (bytearray(b't'), (1,)), ('t', 5), ('t', None), ('t', 'pk'), ('t', (1.0,)),
                      ('t', (True,)), ('t', (None,))]:
            with self.assertRaisesRegex(TypeError, "a table's (name|key)"):
                Table(*words)
        for words in [('', (1,)), ('t' * 1025, (1,)), ('a\0b', (1,)), ('\ud800', (1,)), ('t', ()), ('t', (1,) * 2001),
                      ('t', (0, 0)), ('t', (256,)), ('t', (-1,)), ('t', (1 << 64,))]:
            with self.assertRaisesRegex(ValueError, 'table'):
                Table(*words)
        for words in [('t', (1,)), (b't', b'\1'), ('t', [1, 0]), ('t', range(1, 200)), ('ä' * 512, (1,)), (b'\xff', b'\1')]:
            with gubzelk.Broker([Table(*words)]) as broker:
                self.assertEqual(broker.tables, (Table(*words),))
        for wrong in ['t', 5, ('t',), ('t', (1,), 0), None]:
            with self.assertRaises(TypeError):
                table(wrong)

    def test_object(self):
        one = Table('größe', (1, 0))
        self.assertEqual((one, hash(one)), (Table('größe'.encode(), b'\1\0'), hash(Table('größe', b'\1\0'))))
        self.assertEqual((one.name, one.encoded, one.key), ('größe', 'größe'.encode(), b'\1\0'))
        self.assertNotEqual(one, Table('größe', (1, 2)))
        self.assertNotEqual(one, 'größe')
        self.assertEqual(pickle.loads(pickle.dumps(one)), one)
        self.assertEqual(repr(Table('t', (1, 0))), "Table('t', (1, 0))")
        self.assertEqual(Table(b'\xff', b'\1').name, '\udcff')
        self.assertEqual(Table('\udcff', b'\1').encoded, b'\xff')
        with self.assertRaises(AttributeError):
            one.name = 't'
        with self.assertRaises(AttributeError):
            one.other = 1

    def test_connection(self):
        db = sqlite3.connect(':memory:')
        self.addCleanup(db.close)
        db.executescript('''
            CREATE TABLE Item (id INTEGER PRIMARY KEY, name TEXT, price INTEGER);
            CREATE TABLE "a ""b" (x, y, z, PRIMARY KEY (z, x)) WITHOUT ROWID;
            CREATE TABLE made (a PRIMARY KEY, b AS (a + 1), c);
            CREATE TABLE bare (x);
            CREATE VIEW seen AS SELECT * FROM Item;
            CREATE TEMP TABLE passing (id INTEGER PRIMARY KEY);
            ATTACH ':memory:' AS "o'ther"; CREATE TABLE "o'ther".t (a, b PRIMARY KEY);
            ANALYZE;''')
        for set_up in [lambda: None, lambda: setattr(db, 'row_factory', sqlite3.Row),
                       lambda: setattr(db, 'row_factory', lambda cursor, row: {}), lambda: setattr(db, 'text_factory', bytes)]:
            set_up()
            self.assertEqual(Table.of(db, 'ITEM'), Table('Item', (1, 0, 0)))
            self.assertEqual(Table.of(db, 'a "b'), Table('a "b', (2, 0, 1)))
            self.assertEqual(Table.of(db, 't', "o'ther"), Table('t', (0, 1)))
            self.assertEqual(Table.of(db, 'passing', 'temp'), Table('passing', (1,)))
            self.assertEqual(tables_of(db), [Table('Item', (1, 0, 0)), Table('a "b', (2, 0, 1)), Table('made', (1, 0))])
            self.assertEqual(tables_of(db, "o'ther"), [Table('t', (0, 1))])
        with self.assertRaisesRegex(LookupError, 'no table none'):
            Table.of(db, 'none')
        with self.assertRaisesRegex(LookupError, 'no table seen'):
            Table.of(db, 'seen')
        with self.assertRaisesRegex(ValueError, 'primary key'):
            Table.of(db, 'bare')

    def test_virtual(self):
        db = sqlite3.connect(':memory:')
        self.addCleanup(db.close)
        try:
            db.execute('CREATE VIRTUAL TABLE found USING fts5 (words)')
        except sqlite3.OperationalError:
            self.skipTest('no fts5')
        self.assertNotIn('found', [one.name for one in tables_of(db)])


if __name__ == '__main__':
    unittest.main()
