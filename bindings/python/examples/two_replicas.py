#!/usr/bin/env python3
"""Keeps two replicas of a database, kills the writing process and a replica's (kill -9), starts both again, and compares.

    python3 two_replicas.py [FOLDER]      a new folder for live.db, one.db and two.db; `replicas` where none is named

Each process is this program with other words: `write COUNT` commits transactions, and `follow FILE` keeps a file."""
import atexit, os, sqlite3, subprocess, sys, time

import gubzelk

def write(count):
    with gubzelk.Source('live.db') as source:
        with source.transaction() as t:
            t.execute('CREATE TABLE IF NOT EXISTS item (id INTEGER PRIMARY KEY, name TEXT, price REAL)')
        for number in range(1, int(count) + 1):
            with source.transaction() as t:
                t.execute('INSERT OR REPLACE INTO item VALUES (?, ?, ?)', (number, f'item {number}', number / 7))
        print('all is written', flush=True)
        sys.stdin.read()  # replicas need a source that listens

def follow(file):
    copies = 0
    with gubzelk.Replica(file, 'live.db') as replica:
        for step in replica.steps():
            status = replica.status()
            if status.copies > copies:
                print(f'{file} becomes a copy: {status.reason}', file=sys.stderr, flush=True)
            copies = status.copies

def starts(*words):
    process = subprocess.Popen([sys.executable, PROGRAM, *words], stdin=subprocess.PIPE, stdout=subprocess.PIPE)
    atexit.register(process.kill)
    return process

def rows(file):
    """The items of a file, by a connection that only reads; none while the file or the table isn't there."""
    try:
        return sqlite3.connect(f'file:{file}?mode=ro', uri=True).execute('SELECT * FROM item ORDER BY id').fetchall()
    except sqlite3.OperationalError:
        return []

def main(folder='replicas'):
    os.mkdir(folder), os.chdir(folder)
    writer, one, two = starts('write', '100000'), starts('follow', 'one.db'), starts('follow', 'two.db')
    while not rows('one.db') or not rows('two.db'):
        time.sleep(0.1)
    writer.kill(), one.kill(), writer.wait(), one.wait()
    print('the writer and the process of one.db are killed, and start again')
    writer, one = starts('write', '300'), starts('follow', 'one.db')
    writer.stdout.readline()
    for process, file in ((one, 'one.db'), (two, 'two.db')):
        process.kill(), process.wait()
        with gubzelk.Replica(file, 'live.db') as replica:
            replica.wait()
        print(file, 'is equal' if rows(file) == rows('live.db') else 'differs')
    writer.communicate()  # its input ends, and so does it

PROGRAM = os.path.abspath(__file__)
ROLE = {'write': write, 'follow': follow}.get(''.join(sys.argv[1:2]))
ROLE(*sys.argv[2:]) if ROLE else main(*sys.argv[1:])
