"""What the tests of sources and replicas share: folders, files that are compared, and processes that are killed."""
import os
import pathlib
import shutil
import sqlite3
import struct
import subprocess
import sys
import tempfile
import unittest

TOP = pathlib.Path(__file__).resolve().parents[3]
KEEPER = TOP / 'keeper'

import gubzelk  # noqa: E402
from gubzelk import Step  # noqa: E402


class InFolder(unittest.TestCase):
    """A test in a folder of its own, with a source's file `live.db`."""

    def setUp(self):
        before, folder = os.getcwd(), tempfile.mkdtemp()
        os.chdir(folder)
        self.addCleanup(shutil.rmtree, folder)
        self.addCleanup(os.chdir, before)

    def source(self, path='live.db', **options):
        found = gubzelk.Source(path, **options)
        self.addCleanup(found.close)
        return found

    def replica(self, file='copy.db', source_file='live.db', **options):
        found = gubzelk.Replica(file, source_file, **options)
        self.addCleanup(found.close)
        return found

    def other(self, file, **options):
        """A connection of Python's own to a file."""
        found = sqlite3.connect(file, isolation_level=None, **options)
        self.addCleanup(found.close)
        return found

    def refuses(self, kind, call, *words, **options):
        """The exception of a call that is refused, with words of its own."""
        with self.assertRaises(kind) as caught:
            call(*words, **options)
        self.assertTrue(caught.exception.words)
        self.assertIn(caught.exception.words, str(caught.exception))
        return caught.exception

    def comes_to(self, replica, step, timeout=20.0):
        """Makes steps until one is this one, and returns the status then."""
        for found in replica.steps(0.2):
            timeout -= 0.2
            if found is step:
                return replica.status()
            self.assertGreater(timeout, 0, replica.status())

    def is_equal(self, *files, but=('gz_mark',)):
        """All files have the same tables and rows, by type and bytes."""
        first = content('live.db', but)
        for file in files:
            self.assertEqual(content(file, but), first)
        return first


def content(file, but=()):
    """The rows of each table of a file, sorted: each value with its type, and a REAL as its eight bytes."""
    connection = sqlite3.connect(f'file:{file}?mode=ro', uri=True, timeout=20, isolation_level=None)
    connection.text_factory = bytes
    try:
        connection.execute('BEGIN')
        found = {}
        for name, in connection.execute("SELECT name FROM sqlite_master WHERE type = 'table' ORDER BY 1").fetchall():
            if name.decode() not in but and not name.startswith(b'sqlite_'):
                columns = [row[1].decode() for row in connection.execute(f'PRAGMA table_info("{name.decode()}")')]
                shown = ', '.join(f'typeof("{one}"), "{one}"' for one in columns)
                rows = connection.execute(f'SELECT {shown} FROM "{name.decode()}"').fetchall()
                found[name] = sorted((tuple(map(packed, row)) for row in rows), key=repr)
        return found
    finally:
        connection.close()


def packed(value):
    return struct.pack('<d', value) if isinstance(value, float) else value


def started(code, *words, **options):
    """A process of this interpreter that runs a text of Python."""
    path = str(pathlib.Path(gubzelk.__file__).resolve().parents[1])
    return subprocess.Popen([sys.executable, '-c', code, *words], stdout=subprocess.PIPE,
                            env={**os.environ, 'PYTHONPATH': path}, **options)


__all__ = ['InFolder', 'KEEPER', 'Step', 'TOP', 'content', 'started']
