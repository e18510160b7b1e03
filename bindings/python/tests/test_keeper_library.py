"""Which library the package loads for sources and replicas, and which SQLite that calls."""
import os
import shutil
import subprocess
import sys
import unittest
from unittest import mock

from keeper_shared import InFolder, started

import gubzelk
from gubzelk import keeper_native
from gubzelk.keeper_native import FILE, found_keeper

#: An SQLite that opens nothing, as a program may show it to all libraries.
STUB = 'int sqlite3_open_v2(void) { return 1; } int sqlite3_step(void) { return 1; } int sqlite3_prepare_v2(void) { return 1; }'


class Found(InFolder):
    def test_where(self):
        library = os.path.abspath(found_keeper())
        with mock.patch.dict(os.environ):
            os.environ.pop('GUBZELK_REPLICAS_LIBRARY', None)
            os.environ['GUBZELK_LIBRARY'] = os.path.abspath('libgubzelk.so')
            shutil.copy(library, FILE)
            self.assertEqual(found_keeper(), os.path.abspath(FILE))
            os.environ['GUBZELK_REPLICAS_LIBRARY'] = 'other.so'
            self.assertEqual(found_keeper(), 'other.so')
            self.assertEqual(found_keeper('this.so'), 'this.so')
            del os.environ['GUBZELK_REPLICAS_LIBRARY'], os.environ['GUBZELK_LIBRARY']
            with mock.patch.object(keeper_native, '__file__', os.path.abspath('x.py')):
                self.assertEqual(found_keeper(), os.path.abspath(FILE))
                os.remove(FILE)
                with mock.patch('ctypes.util.find_library', return_value=None):
                    with self.assertRaisesRegex(gubzelk.LibraryError, FILE):
                        found_keeper()

    def test_an_old_sqlite(self):
        with mock.patch.object(keeper_native, 'SQLITE', 1 << 30):
            with self.assertRaisesRegex(gubzelk.LibraryError, 'needs 3.37'):
                keeper_native.opened_keeper.__wrapped__(found_keeper())

    def test_another_copy_of_sqlite(self):
        with mock.patch.object(keeper_native, 'is_shared', return_value=False):
            with self.assertWarnsRegex(RuntimeWarning, 'another copy of SQLite'):
                keeper_native.opened_keeper.__wrapped__(found_keeper())

    @unittest.skipUnless(shutil.which('gcc') and sys.platform == 'linux', 'no gcc')
    def test_a_process_that_shows_its_own_sqlite(self):
        """As an interpreter with an SQLite inside: the keeper's library takes none of that, and a warning comes."""
        subprocess.run(['gcc', '-shared', '-fPIC', '-x', 'c', '-', '-o', 'stub.so'], input=STUB.encode(), check=True)
        code = """
import sys, types
for name in 'sqlite3', '_sqlite3':
    sys.modules[name] = types.ModuleType(name)
for name in 'Internal Database Data Integrity Interface Operational'.split():
    setattr(sys.modules['sqlite3'], name + 'Error', type(name, (Exception,), {}))
sys.modules['sqlite3'].Connection = object
import gubzelk
with gubzelk.Source('live.db') as s, gubzelk.Replica('copy.db', 'live.db') as r:
    with s.transaction() as t: t.execute('CREATE TABLE t (id INTEGER PRIMARY KEY)')
    print(r.wait(20), s.execute('SELECT count(*) FROM t'))
"""
        with mock.patch.dict(os.environ, LD_PRELOAD=os.path.abspath('stub.so')):
            process = started(code, stderr=subprocess.PIPE)
        found, warned = process.communicate(timeout=60)
        self.assertEqual(found, b'True [(0,)]\n')
        self.assertIn(b"<string>:9: RuntimeWarning: Python's sqlite3 module has another copy", warned)


if __name__ == '__main__':
    unittest.main()
