#!/usr/bin/env python3
"""Records the histories of examples/recorded by SQLite's sessions again, and compares them with the cases `recorded-..`.

    python3 checks/recorded.py [FOLDER]

It runs the blocks of each NAME.sql, each under a session of its own (examples/recorded/README.md). From what the sessions
record and from the rows that the tables then have it makes a script and its answers. Both must be those of the case of
rb_cases, to the byte; no model and no program of this repository takes part. With FOLDER it writes them
there, as files NAME.script and NAME.answers.
It takes SQLite 3.40.1: another version may record in another order. The variable SQLITE names a library, as for
checks/groups.py. The status is 1 if a text differs.
"""
import ctypes
import glob
import os
import re
import sys

import groups
import packs

TOP = os.path.join(os.path.dirname(os.path.abspath(__file__)), '..')
INTEGER, REAL, TEXT, BLOB, NULL = 1, 2, 3, 4, 5
ROW = 100
sqlite = groups.sqlite
sqlite.sqlite3_column_int64.restype = ctypes.c_int64
sqlite.sqlite3_column_blob.restype = ctypes.c_void_p
sqlite.sqlite3_errmsg.restype = ctypes.c_char_p


def length(n):
    """a length as SQLite's sessions write it"""
    digits = [n & 127]
    while n > 127:
        n >>= 7
        digits.append(n & 127 | 128)
    return bytes(reversed(digits))


def field(query, i):
    """a column of the row that a query is at, as a changeset spells it"""
    kind = sqlite.sqlite3_column_type(query, i)
    if kind == INTEGER:
        return bytes([kind]) + sqlite.sqlite3_column_int64(query, i).to_bytes(8, 'big', signed=True)
    if kind == NULL:
        return bytes([kind])
    assert kind != REAL
    # of a text these are its bytes in UTF-8
    at = sqlite.sqlite3_column_blob(query, i)
    size = sqlite.sqlite3_column_bytes(query, i)
    return bytes([kind]) + length(size) + (ctypes.string_at(at, size) if size else b'')


class Database:
    """a database in memory"""

    def __init__(self):
        self.handle = ctypes.c_void_p()
        assert sqlite.sqlite3_open(b':memory:', ctypes.byref(self.handle)) == 0

    def run(self, sql):
        """runs statements; one that fails leaves nothing, and the next one goes on"""
        rest = ctypes.c_char_p(sql)
        while rest.value and rest.value.strip():
            statement = ctypes.c_void_p()
            code = sqlite.sqlite3_prepare_v2(self.handle, rest, -1, ctypes.byref(statement), ctypes.byref(rest))
            assert code == 0, sqlite.sqlite3_errmsg(self.handle)
            while sqlite.sqlite3_step(statement) == ROW:
                pass
            sqlite.sqlite3_finalize(statement)

    def rows(self, sql):
        """the rows of a query, each a list of fields"""
        query, found = ctypes.c_void_p(), []
        assert sqlite.sqlite3_prepare_v2(self.handle, sql, -1, ctypes.byref(query), None) == 0, sql
        while sqlite.sqlite3_step(query) == ROW:
            found.append([field(query, i) for i in range(sqlite.sqlite3_column_count(query))])
        sqlite.sqlite3_finalize(query)
        return found

    def recorded(self, block):
        """the changeset that a session records of a block"""
        session, size, text = ctypes.c_void_p(), ctypes.c_int(), ctypes.c_void_p()
        assert sqlite.sqlite3session_create(self.handle, b'main', ctypes.byref(session)) == 0
        assert sqlite.sqlite3session_attach(session, None) == 0
        # statements, and between them the marks
        for i, part in enumerate(re.split(rb'(?m)^--indirect ([01])$', block)):
            if i % 2:
                sqlite.sqlite3session_indirect(session, int(part))
            else:
                self.run(part)
        assert sqlite.sqlite3session_changeset(session, ctypes.byref(size), ctypes.byref(text)) == 0
        made = ctypes.string_at(text, size.value) if size.value else b''
        sqlite.sqlite3_free(text)
        sqlite.sqlite3session_delete(session)
        return made


def text_of(field_bytes):
    """the text that a field is"""
    size = 1
    while field_bytes[size] & 128:
        size += 1
    return field_bytes[size + 1:]


def number_of(field_bytes):
    """the number that a field is"""
    return int.from_bytes(field_bytes[1:], 'big')


def case_of(sql):
    """the script and the answers of a history"""
    schema, *blocks = sql.split(b'--session\n')
    database = Database()
    database.run(schema)
    script, answers, tables = [], [], []
    for (name,) in database.rows(b"SELECT name FROM sqlite_schema WHERE type = 'table' ORDER BY rowid"):
        quoted = b'"' + text_of(name).replace(b'"', b'""') + b'"'
        keys = [number_of(pk) for (pk,) in database.rows(b'SELECT pk FROM pragma_table_info(' + b"'"
                + text_of(name).replace(b"'", b"''") + b"')")]
        tables.append((quoted, keys))
        script.append('table 54%02x%s%s00' % (len(keys), bytes(keys).hex(), text_of(name).hex()))
        answers.append('ok')
    script += ['publisher', 'subscribe 0']
    answers += ['publisher 0', 'subscriber 0 link 1']
    for n, block in enumerate(blocks, 1):
        text = database.recorded(block).hex() or '-'
        script += ['feed 0 ' + text, 'end 0', 'send 0', 'turn', 'entry %d' % n, 'take 0 0', 'accept %d' % n, 'rows 0']
        answers += ['ok', 'staged', 'sent %d' % n, 'placed %d' % n, 'entry %d 0 %d s %s' % (n, n, text),
                    'delivery %d 0 %d %d' % (n, n, n), 'accepted %d' % n]
        found = []
        for t, (quoted, keys) in enumerate(tables):
            rows = [row for row in database.rows(b'SELECT * FROM ' + quoted)
                    if all(f[0] != NULL for f, key in zip(row, keys) if key)]
            for row in sorted(rows, key=lambda row: b''.join(f for f, key in zip(row, keys) if key)):
                found.append('row %d %s' % (t, ' '.join(f.hex() for f in row)))
        answers += ['rows %d' % len(found)] + found
    return {'script': '\n'.join(script) + '\n', 'answers': '\n'.join(answers) + '\n'}


def main():
    compared = others = 0
    if len(sys.argv) > 1 and not os.path.isdir(sys.argv[1]):
        sys.exit('recorded.py: no folder %s' % sys.argv[1])
    for path in sorted(glob.glob(os.path.join(TOP, 'examples', 'recorded', '*.sql'))):
        name = 'recorded-' + os.path.basename(path)[:-len('.sql')]
        with open(path, 'rb') as f:
            made = case_of(f.read())
        for end, text in made.items():
            same = packs.texts_of('rb_cases', end).get(name) == text.encode()
            print('%s.%s: %s' % (name, end, 'the same' if same else 'another text'))
            compared += 1
            others += not same
            if len(sys.argv) > 1:
                with open(os.path.join(sys.argv[1], '%s.%s' % (name, end)), 'w') as f:
                    f.write(text)
    if not compared or others:
        sys.exit('recorded.py: %s' % ('%d texts differ' % others if compared else 'no history was found'))


if __name__ == '__main__':
    main()
