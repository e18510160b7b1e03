"""The processes of a source and of replicas, which write, follow and are killed, and the rows of their files (checks/keeper.py,
checks/keeper/kinds.py)."""
import os
import signal
import sqlite3
import struct
import subprocess
import time

# tables that don't travel, and the rows of others that don't
LEFT = {'keyless', 'made'}
ROWS = {'odd': "WHERE typeof(k) NOT IN ('real', 'null')"}


class Bad(Exception):
    """What must not be."""


def now():
    """milliseconds of the monotonic clock, as keep.c prints them"""
    return time.clock_gettime_ns(time.CLOCK_MONOTONIC) // 1000000


def rows_of(path):
    """all tables with their columns and rows, by type and bytes; but -0.0 as 0.0, between which sessions see no change"""
    db = sqlite3.connect('file:%s?mode=ro' % path, uri=True, timeout=30)
    db.text_factory = bytes
    found = {}
    names = [name.decode() for (name,) in db.execute("SELECT name FROM sqlite_schema WHERE type = 'table' AND"
                                                     " name NOT LIKE 'sqlite_%' AND name <> 'gz_mark'")]
    for name in sorted(set(names) - LEFT):
        query = db.execute('SELECT * FROM "%s" %s' % (name.replace('"', '""'), ROWS.get(name, '')))
        found[name] = [tuple(column[0] for column in query.description)]
        found[name] += sorted((tuple((type(v).__name__, struct.pack('>d', v + 0.0) if isinstance(v, float) else v) for v in row)
                               for row in query), key=repr)
    found['mark'] = db.execute('SELECT name, front FROM gz_mark').fetchall()
    db.close()
    return found


class Writer:
    """the process of the source"""

    def __init__(self, run):
        self.run = run
        self.process = None
        self.start()

    def start(self):
        self.process = subprocess.Popen([self.run.programs + '/load', 'live.db', str(self.run.max_bytes)], stdin=subprocess.PIPE,
                                        stdout=subprocess.PIPE, bufsize=0)
        if self.process.stdout.readline() != b'open\n':
            raise Bad('the writer does not start')

    def say(self, line):
        """a line, and its answer"""
        self.process.stdin.write(line.encode() + b'\n')
        answer = self.process.stdout.readline().decode()
        if not answer.endswith('\n'):
            raise Bad('the writer has ended at: ' + line[:200])
        return answer[:-1]

    def kill(self, line=None):
        """kills it, in the midst of a transaction if there is one"""
        if line:
            self.process.stdin.write(line.encode() + b'\n')
            time.sleep(self.run.dice.random() * 0.01)
        self.process.kill()
        self.process.wait()

    def end(self):
        self.process.stdin.close()
        if self.process.wait() != 0:
            raise Bad('the writer ends with status %d' % self.process.returncode)


class Replica:
    """the process of a replica, and its last step"""

    def __init__(self, run, path):
        self.run, self.path = run, path
        self.start()

    def start(self):
        self.process = subprocess.Popen([self.run.programs + '/keep', self.path, 'live.db', '100'], stdin=subprocess.PIPE,
                                        stdout=subprocess.PIPE, bufsize=0)
        os.set_blocking(self.process.stdout.fileno(), False)
        self.rest, self.last, self.copies = b'', None, 0
        self.is_stopped = False

    def read(self):
        """reads the lines that are there; returns the steps"""
        found = []
        while True:
            piece = self.process.stdout.read(65536)
            if not piece:
                break
            self.rest += piece
        *lines, self.rest = self.rest.split(b'\n')
        for line in lines:
            words = line.decode().split(' ', 6)
            step = {'begun': int(words[0]), 'code': int(words[1]), 'name': words[2], 'number': int(words[3]),
                    'lag': int(words[4]), 'copies': int(words[5]), 'words': words[6]}
            if step['copies'] > self.copies:
                self.run.count('copies')
                self.run.reasons[step['words'][:90]] = self.run.reasons.get(step['words'][:90], 0) + 1
            self.copies = step['copies']
            if step['code'] < 0:
                raise Bad('%s: step returns %d' % (self.path, step['code']))
            found.append(step)
            self.last = step
        if self.process.poll() is not None:
            raise Bad('%s: its process has ended with status %d' % (self.path, self.process.returncode))
        return found

    def kill(self):
        self.process.kill()
        self.process.wait()
        self.start()

    def signal(self, number):
        self.process.send_signal(number)
        self.is_stopped = number == signal.SIGSTOP

    def end(self):
        self.process.stdin.close()
        if self.process.wait() != 0:
            raise Bad('%s: status %d' % (self.path, self.process.returncode))
