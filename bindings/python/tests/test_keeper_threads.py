"""Threads that share a source or a replica, interrupts, forks, and the end of a process that closes nothing."""
import gc
import os
import signal
import subprocess
import sys
import threading
import time
import unittest

from keeper_shared import InFolder, Step, started
from test_threads import together

import gubzelk

SECONDS = float(os.environ.get('SECONDS', '3'))


class Threads(InFolder):
    def setUp(self):
        super().setUp()
        self.s = self.source()
        with self.s.transaction() as t:
            t.execute('CREATE TABLE t (id INTEGER PRIMARY KEY, n, m)')
            t.execute('INSERT INTO t VALUES (0, 0, 0), (1, 0, 0), (2, 0, 0), (3, 0, 0)')

    def test_four_threads_on_one_source(self):
        """No transaction sees another one's middle, each thread gets its turn, and a replica has all."""
        r, done, ends = self.replica(), [0] * 4, time.monotonic() + SECONDS

        def writes(at):
            while time.monotonic() < ends:
                with self.s.transaction() as t:
                    [(before,)] = t.execute('SELECT n FROM t WHERE id = ?', [at])
                    t.execute('UPDATE t SET n = n + 1 WHERE id = ?', [at])
                    [(n, m)] = t.execute('SELECT sum(n), sum(m) FROM t')
                    self.assertEqual(n, m + 1)
                    t.execute('UPDATE t SET m = ? WHERE id = ?', [before + 1, at])
                done[at] += 1
                [(n, m)] = self.s.execute('SELECT sum(n), sum(m) FROM t')
                self.assertEqual((n, self.s.in_transaction), (m, False))
                self.s.status(), list(self.s.replicas()), list(self.s.left())

        def follows():
            while time.monotonic() < ends:
                r.step(0.1)
        together(*[lambda at=at: writes(at) for at in range(4)], follows)
        self.assertEqual([row[0] for row in self.s.execute('SELECT n FROM t ORDER BY id')], done)
        self.assertGreater(min(done), max(done) // 4)
        self.assertTrue(r.wait(20))
        self.is_equal('copy.db')
        self.assertEqual((self.s.status().front, r.status().copies), (sum(done), 1))
        print(f'{sum(done)} transactions', file=sys.stderr)

    def test_a_transaction_keeps_others_out(self):
        order, begun = [], threading.Event()

        def other():
            begun.wait()
            with self.s.transaction() as t:
                order.append(t.execute('SELECT n FROM t WHERE id = 0'))
        thread = threading.Thread(target=other)
        thread.start()
        with self.s.transaction() as t:
            begun.set()
            time.sleep(0.2)
            reads = threading.Thread(target=lambda: (self.s.status(), self.s.replicas(), self.s.left()))
            reads.start()
            reads.join(10)
            self.assertFalse(reads.is_alive())
            t.execute('UPDATE t SET n = 5 WHERE id = 0')
            order.append('first')
        thread.join()
        self.assertEqual(order, ['first', [(5,)]])

    def test_a_transaction_of_another_thread(self):
        with self.s.transaction() as t:
            with self.assertRaises(gubzelk.NoTransaction):
                # the other thread waits for the turn until this one gives it
                result = []
                thread = threading.Thread(target=lambda: result.append(self.outcome(t.execute, 'SELECT 1')))
                thread.start()
                self.s.rollback()
                thread.join()
                raise result[0]
            self.s.begin()

    def outcome(self, call, *words):
        try:
            return call(*words)
        except Exception as error:
            return error

    def test_a_thread_that_leaves_a_transaction_open(self):
        thread = threading.Thread(target=self.s.begin)
        thread.start()
        thread.join()
        self.refuses(gubzelk.InTransaction, self.s.begin)
        self.s.rollback()
        with self.s.transaction() as t:
            t.execute('UPDATE t SET n = 1')
        self.assertFalse(self.s.in_transaction)

    def test_a_step_lets_other_threads_in(self):
        """During a step of a second, other threads run, read the status, and close."""
        r, counted, found = self.replica(), [0], []
        self.assertTrue(r.wait(20))
        thread = threading.Thread(target=lambda: found.extend(r.steps(5)))
        thread.start()
        ends = time.monotonic() + 0.5
        while time.monotonic() < ends:
            counted[0] += 1
        self.assertGreater(counted[0], 10000)
        for call in [r.status, r.status, r.close]:
            begun = time.monotonic()
            call()
            self.assertLess(time.monotonic() - begun, 1)
        thread.join(2)
        self.assertFalse(thread.is_alive())
        self.assertEqual(found, [])

    def test_close_during_calls(self):
        for _ in range(20):
            s, r = self.source('other.db'), self.replica('third.db', 'other.db')

            def works(call):
                try:
                    for _ in range(1000):
                        call()
                except gubzelk.KeeperClosed:
                    pass

            def writes():
                with s.transaction() as t:
                    t.execute('CREATE TABLE IF NOT EXISTS t (id INTEGER PRIMARY KEY)')
            together(lambda: works(writes), lambda: works(s.status), lambda: works(lambda: r.step(0.05)), s.close,
                     r.close)
            self.assertTrue(s.closed and r.closed)

    def test_a_handler_inside_a_call(self):
        r, errors = self.replica(), []

        def handler(number, frame):
            for call in [r.status, r.step, r.close]:
                errors.append(type(self.outcome(call)))
        before = signal.signal(signal.SIGALRM, handler)
        self.addCleanup(signal.signal, signal.SIGALRM, before)
        call = r._library.calls['replica_status']
        self.addCleanup(r._library.calls.__setitem__, 'replica_status', call)

        def interrupted(*words):
            os.kill(os.getpid(), signal.SIGALRM)
            return call(*words)
        r._library.calls['replica_status'] = interrupted
        r.status()
        self.assertEqual(errors, [gubzelk.Reentered] * 3)
        r._library.calls['replica_status'] = call
        self.assertFalse(r._calling.locked())


class Interrupts(InFolder):
    def interrupted(self, call, after=0.3):
        """How long after control-C a call ends by it."""
        sent = []

        def interrupts():
            time.sleep(after)
            sent.append(time.monotonic())
            os.kill(os.getpid(), signal.SIGINT)
        thread = threading.Thread(target=interrupts)
        thread.start()
        with self.assertRaises(KeyboardInterrupt):
            call()
        found = time.monotonic() - sent[0]
        thread.join()
        return found

    def test_control_c(self):
        s, r = self.source(), self.replica()
        self.assertTrue(r.wait(20))
        for call in [lambda: r.step(60), lambda: list(r.steps(60))]:
            self.assertLess(self.interrupted(call), 0.5)
            self.assertIs(r.step(0), Step.IDLE)
        s.close()
        for call in [lambda: r.step(60), lambda: list(r.steps(60)), lambda: r.wait(60), r.wait]:
            self.assertLess(self.interrupted(call), 0.5)
            self.assertIs(r.step(0), Step.AWAY)
        s = self.source(timeout=60)
        other = subprocess.Popen([sys.executable, '-c', 'import sqlite3, time; c = sqlite3.connect("live.db"); '
                                  'c.execute("BEGIN IMMEDIATE"); print(flush=True); time.sleep(60)'], stdout=subprocess.PIPE)
        with other, other.stdout:
            other.stdout.readline()
            self.assertLess(self.interrupted(s.begin), 0.5)
            other.kill()
        self.assertEqual((s.in_transaction, s._opener), (False, None))
        with s.transaction() as t:
            t.execute('CREATE TABLE t (id INTEGER PRIMARY KEY)')
        self.assertTrue(r.wait(20))

    def test_interrupts_at_any_moment(self):
        """After an interrupt at a random moment of a transaction, the next one begins, and nothing is half there."""
        code = '''
import os, random, signal, sys, threading, time, gubzelk
with gubzelk.Source('live.db') as s:
    with s.transaction() as t:
        t.execute('CREATE TABLE t (id INTEGER PRIMARY KEY, n)')
        t.execute('INSERT INTO t VALUES (1, 0), (2, 0)')
    draws, armed = random.Random(int(sys.argv[1])), False
    def handler(number, frame):
        global armed
        if armed:
            armed = False
            raise KeyboardInterrupt
    def interrupts():
        while True:
            time.sleep(draws.random() / 200)
            os.kill(os.getpid(), signal.SIGINT)
    signal.signal(signal.SIGINT, handler)
    ends, count = time.monotonic() + 2, 0
    threading.Thread(target=interrupts, daemon=True).start()
    while time.monotonic() < ends:
        try:
            armed = True
            try:
                with s.transaction() as t:
                    t.execute('UPDATE t SET n = n + 1 WHERE id = 1')
                    t.execute('UPDATE t SET n = n + 1 WHERE id = 2')
            except gubzelk.InTransaction:
                # the interrupt came before the body or after it
                s.rollback()
            armed = False
        except KeyboardInterrupt:
            count += 1
    if s.in_transaction: s.rollback()
    [(one,), (two,)] = s.execute('SELECT n FROM t ORDER BY id')
    print(one == two and one > 10 and count > 10, one, two, count, s._opener)
'''
        found = started(code, os.environ.get('SEED', '1')).communicate(timeout=60)[0].decode()
        self.assertRegex(found, '^True .* None\n$')


@unittest.skipUnless(hasattr(os, 'fork'), 'no fork')
class Forks(InFolder):
    def child(self, work):
        """What a work returns or raises in a forked child."""
        reader, writer = os.pipe()
        child = os.fork()
        if child == 0:
            try:
                os.write(writer, repr(work()).encode())
            except BaseException as error:
                os.write(writer, repr(error).encode())
            finally:
                os._exit(0)
        os.close(writer)
        with os.fdopen(reader, 'rb') as file:
            found = file.read().decode()
        self.assertEqual(os.waitpid(child, 0)[1], 0)
        return found

    def test_a_child_is_refused(self):
        s, r = self.source(), self.replica()
        self.assertTrue(r.wait(20))
        for work in [s.begin, s.commit, s.rollback, s.status, s.left, lambda: s.execute('SELECT 1'),
                     lambda: s.transaction().__enter__()]:
            self.assertEqual(self.child(work), "WrongProcess('this source was opened by another process')")
        for work in [r.step, r.wait, r.status, lambda: list(r.steps())]:
            self.assertEqual(self.child(work), "WrongProcess('this replica was opened by another process')")
        for work in [lambda: gubzelk.Source('new.db'), lambda: gubzelk.Replica('new.db', 'live.db')]:
            self.assertRegex(self.child(work), r"WrongProcess\('the forked child .* opens none: use spawn'\)")

        def forgets():
            s.close(), r.close(), gc.collect()
            return s.closed, r.closed
        self.assertEqual(self.child(forgets), '(True, True)')
        with s.transaction() as t:
            t.execute('CREATE TABLE t (id INTEGER PRIMARY KEY)')
            self.assertIn('WrongProcess', self.child(s.commit))
        self.assertTrue(r.wait(20))
        self.is_equal('copy.db')

    def test_a_child_may_open_its_own(self):
        code = '''
import os, gubzelk
with gubzelk.Source('live.db'): pass
if os.fork() == 0:
    with gubzelk.Source('live.db') as s: print(s.status().brokers, flush=True)
    os._exit(0)
os.wait()
'''
        self.assertEqual(started(code).communicate(timeout=60)[0], b'1\n')


class Ends(InFolder):
    OPENS = '''
import sys, threading, time, gubzelk
s = gubzelk.Source('live.db')
with s.transaction() as t: t.execute('CREATE TABLE IF NOT EXISTS t (id INTEGER PRIMARY KEY)')
r = gubzelk.Replica('copy.db', 'live.db')
assert r.wait(20)
'''

    def ends(self, code, status=0):
        """A process that runs this ends in time, by itself."""
        process = started(self.OPENS + code, stderr=subprocess.PIPE)
        found = process.communicate(timeout=30)
        self.assertEqual(process.returncode, status, found)
        return found[1].decode()

    def test_left_open(self):
        for code in ['', 's.begin(); t.execute', 'cycle = [s, r]; cycle.append(cycle)', 'import builtins; builtins.s = s']:
            self.assertEqual(self.ends(code), '')
        self.assertEqual(self.ends('sys.exit(3)', 3), '')
        self.assertIn('ZeroDivisionError', self.ends('1 / 0', 1))
        for code in ['threading.Thread(target=list, args=[r.steps()], daemon=True).start(); time.sleep(0.3)',
                     'threading.Thread(target=lambda: (s.begin(), time.sleep(60)), daemon=True).start(); time.sleep(0.3)']:
            self.assertEqual(self.ends(code), '')
        self.source()
        self.assertTrue(self.replica().wait(20))

    def test_collected(self):
        """Handles that nobody has are closed, also in another thread and in cycles."""
        for _ in range(5):
            s, r = gubzelk.Source('live.db'), gubzelk.Replica('copy.db', 'live.db')
            r.step(0)
            cycle = [s, r]
            cycle.append(cycle)
            del s, r, cycle
            thread = threading.Thread(target=gc.collect)
            thread.start()
            thread.join()
        s = gubzelk.Source('live.db')
        s.begin()
        t = s.transaction()
        del s
        gc.collect()
        self.refuses(gubzelk.FileTaken, gubzelk.Source, 'live.db')
        del t
        gc.collect()
        self.assertFalse(self.source().in_transaction)


if __name__ == '__main__':
    unittest.main()
