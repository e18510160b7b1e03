"""Threads that share a broker, brokers of their own in threads, and forks."""
import gc
import os
import sys
import threading
import time
import unittest

from shared import chance, insert, opened

import gubzelk

SECONDS = float(os.environ.get('SECONDS', '3'))


def together(*works):
    """Runs each work in a thread, and raises what one of them raised."""
    errors = []

    def runs(work):
        try:
            work()
        except BaseException as error:
            errors.append(error)
    threads = [threading.Thread(target=runs, args=[work]) for work in works]
    for thread in threads:
        thread.start()
    for thread in threads:
        thread.join()
    if errors:
        raise errors[0]


class Threads(unittest.TestCase):
    def setUp(self):
        interval = sys.getswitchinterval()
        sys.setswitchinterval(1e-5)
        self.addCleanup(sys.setswitchinterval, interval)

    def test_four_threads_on_one_broker(self):
        """Two publishers, a subscriber and a reader. No call is Busy or Shut, and all entries come in order."""
        broker = opened(capacity=1 << 20, batch=4)
        broker.publisher(), broker.publisher()
        broker.subscribe(0)
        ends, placed, accepted, reads = time.monotonic() + SECONDS, [[], []], [], [0]

        def publishes(publisher):
            key = publisher
            while time.monotonic() < ends:
                placed[publisher].append((broker.place(publisher, insert(key)), key))
                key += 2

        def subscribes():
            while time.monotonic() < ends or broker.status(0).floor < broker.front():
                for delivery in broker.deliveries(0):
                    with delivery:
                        for change in gubzelk.changesets.read(delivery.text()):
                            accepted.append(change.key[0])
                        self.assertEqual(delivery.accept(), delivery.last)
                        delivery.ack()

        def reads_on():
            draws = chance('threads')
            while time.monotonic() < ends:
                front = broker.front()
                if front:
                    at = draws.randrange(1, front + 1)
                    broker.entry(at), broker.text(at), broker.left(), broker.cursor(0)
                    broker.combined(max(1, at - 3), at)
                for wrong in [lambda: broker.text(0), lambda: broker.reset(2), lambda: broker.accept(1 << 40)]:
                    with self.assertRaises(gubzelk.Refused) as caught:
                        wrong()
                    self.assertNotIn(caught.exception.code, (gubzelk.Code.BUSY, gubzelk.Code.SHUT))
                    self.assertEqual(caught.exception.numbers, (0, 0))
                reads[0] += 1
        together(lambda: publishes(0), lambda: publishes(1), subscribes, reads_on)
        entries = sorted(placed[0] + placed[1])
        self.assertEqual([entry for entry, _ in entries], list(range(1, len(entries) + 1)))
        self.assertEqual(sorted(accepted), sorted(key for _, key in entries))
        self.assertGreater(min(len(placed[0]), len(placed[1]), reads[0]), 20)
        print(f'{len(entries)} entries, {reads[0]} rounds of reads', file=sys.stderr)
        broker.free()

    def test_numbers_of_a_refusal_are_its_own(self):
        broker = opened()
        broker.publisher()
        for _ in range(3):
            broker.place(0, b'')
        ends = time.monotonic() + SECONDS / 3

        def refused(kind, numbers, call):
            while time.monotonic() < ends:
                with self.assertRaises(kind) as caught:
                    call()
                self.assertEqual(caught.exception.numbers, numbers)
        together(lambda: refused(gubzelk.StartAhead, (3, 0), lambda: broker.subscribe(9)),
                 lambda: refused(gubzelk.Fault, (0, 2), lambda: broker.place(0, b'P')),
                 lambda: refused(gubzelk.Fault, (1, 16), lambda: broker.place(0, b'T')),
                 lambda: refused(gubzelk.NoDelivery, (0, 0), lambda: broker.accept(9)))

    def test_two_brokers_in_two_threads(self):
        def runs():
            for _ in range(40):
                with opened(capacity=200) as broker:
                    broker.publisher()
                    broker.subscribe(0)
                    for key in range(50):
                        broker.place(0, insert(key))
                    for delivery in broker.deliveries(0):
                        delivery.accept()
                        delivery.ack()
                    self.assertEqual(broker.status(0).floor, 50)
        together(runs, runs)

    def test_free_during_calls(self):
        for _ in range(50):
            broker = opened()
            broker.publisher()

            def places():
                try:
                    for key in range(1000):
                        broker.place(0, insert(key))
                except gubzelk.Shut:
                    pass
            together(places, places, broker.free, broker.free)
            self.assertTrue(broker.freed)
        del broker
        gc.collect()


@unittest.skipUnless(hasattr(os, 'fork'), 'no fork')
class Forks(unittest.TestCase):
    def child(self, work):
        """Runs a work in a forked child, and returns what it writes."""
        reader, writer = os.pipe()
        child = os.fork()
        if child == 0:
            try:
                os.write(writer, repr(work()).encode())
            except BaseException as error:
                os.write(writer, repr(error).encode())
            finally:
                os._exit(0)
        os.close(writer)
        with os.fdopen(reader, 'rb') as file:
            found = file.read().decode()
        self.assertEqual(os.waitpid(child, 0)[1], 0)
        return found

    def test_a_child_is_refused(self):
        broker = opened()
        broker.publisher()
        broker.subscribe(0)
        broker.place(0, insert(1))
        for work in [broker.front, broker.shut, broker.version, lambda: broker.text(1), lambda: broker.take(0),
                     lambda: broker.message(0), lambda: list(broker.deliveries(0))]:
            self.assertEqual(self.child(work), "WrongProcess('this broker was opened by another process')")
        self.assertEqual(self.child(lambda: [broker.free(), broker.free(), broker.freed]), '[None, None, True]')
        [delivery] = broker.deliveries(0)

        def fails():
            with broker, delivery:
                1 / 0
        self.assertEqual(self.child(fails), repr(ZeroDivisionError('division by zero')))
        self.assertEqual((broker.front(), delivery.accept(), delivery.ack()), (1, 1, 1))
        broker.free()

    def test_a_child_may_open_its_own(self):
        def opens():
            with opened() as broker:
                return broker.publisher()
        self.assertEqual(threading.active_count(), 1)
        self.assertEqual(self.child(opens), '0')

    def test_a_child_of_threads_opens_none(self):
        done = threading.Event()
        thread = threading.Thread(target=done.wait)
        thread.start()
        try:
            found = self.child(lambda: [opened()])
        finally:
            done.set()
            thread.join()
        self.assertEqual(found, "WrongProcess('the forked child of a process with threads opens no broker')")
        opened().free()

    def test_the_lock_is_held(self):
        """A fork in the middle of another thread's call: the child is refused, and doesn't wait."""
        broker, ends = opened(), threading.Event()

        def calls():
            while not ends.is_set():
                with broker._lock:
                    time.sleep(0.001)
        thread = threading.Thread(target=calls)
        thread.start()
        try:
            for _ in range(20):
                self.assertIn('WrongProcess', self.child(broker.front))
                self.child(broker.free)
        finally:
            ends.set()
            thread.join()
        self.assertEqual(broker.front(), 0)


if __name__ == '__main__':
    unittest.main()
