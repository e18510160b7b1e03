"""Each refusal as an exception, and the lock, over a stub of the library (stub.c)."""
import copy
import ctypes
import gc
import os
import pickle
import signal
import threading
import unittest

from shared import STUB, opened

import gubzelk
from gubzelk import Code, errors, native

WORDS = dict(n=0, t=b'', b=True)
# what an exception names: its property and its value, with the numbers 5 and 2
NAMED = {
    Code.FAULT: [('at', 5), ('kind', gubzelk.FaultKind.PATCHSET)], Code.BAD_LIMIT: [('limit', 'appliers')],
    Code.BAD_TABLE: [('table', 5), ('duplicate', False)], Code.UNKNOWN_TABLE: [('section', 5)],
    Code.SHAPE_DIFFERS: [('section', 5)], Code.WAITING: [('count', 5)], Code.DRAINED: [('last', 5)],
    Code.NOT_ACCEPTED: [('cursor', 5)], Code.BAD_CURSOR: [('floor', 5), ('offered', 2)],
    Code.START_AHEAD: [('front', 5)], Code.GAP: [('expected', 5)], Code.SHAPE: [('entry', 5)],
    Code.CONFLICT: [('position', 5), ('kind', gubzelk.ConflictKind.NOTFOUND)]}


@unittest.skipUnless(STUB, 'no stub')
class Refusals(unittest.TestCase):
    def setUp(self):
        self.stub = ctypes.CDLL(STUB)
        for name in ('code', 'overlaps', 'wait', 'made', 'shut', 'freed', 'version'):
            self.set(name, native.VERSION_NUMBER if name == 'version' else 0)
        ctypes.c_uint64.in_dll(self.stub, 'stub_first').value = 5
        ctypes.c_uint64.in_dll(self.stub, 'stub_second').value = 2
        self.broker = gubzelk.Broker([('t', (1, 0))], library=STUB)

    def set(self, name, value):
        ctypes.c_int.in_dll(self.stub, 'stub_' + name).value = value

    def get(self, name):
        return ctypes.c_int.in_dll(self.stub, 'stub_' + name).value

    def made(self, name):
        """Makes a call with some operands."""
        return getattr(self.broker, name)(*(WORDS[letter] for letter in native.CALLS[name] if letter in WORDS))

    def test_each_code_of_each_call(self):
        for name in sorted(native.CALLS.keys() - {'why'}):
            for code, kind in errors.CLASSES.items():
                self.set('code', code)
                with self.assertRaises(kind) as caught:
                    self.made(name)
                found = caught.exception
                numbers = (5, 2)
                if name in native.READS or code in (Code.SHUT, Code.NO_MEMORY, Code.BUSY):
                    numbers = (0, 0)
                self.assertIs(type(found), kind)
                self.assertEqual(found.args, (code, 'words', *numbers))
                self.assertEqual((found.code, found.words, found.numbers, found.call), (code, 'words', numbers, name))
                if numbers == (5, 2):
                    for word, value in NAMED.get(code, []):
                        self.assertEqual(getattr(found, word), value)
                    self.assertTrue(str(found).startswith(f'{name}: words'), str(found))
                    self.assertEqual('(' in str(found), bool(kind.shows))
                    self.assertEqual(list(kind.shows), [word for word, _ in NAMED.get(code, [])])
                again = pickle.loads(pickle.dumps(found))
                self.assertEqual((type(again), again.args, again.call), (kind, found.args, name))
        self.assertTrue(issubclass(gubzelk.OutOfMemory, MemoryError))

    def test_open(self):
        for code in [Code.BAD_LIMIT, Code.BAD_TABLE, Code.NO_MEMORY]:
            self.set('code', code)
            with self.assertRaises(errors.CLASSES[code]) as caught:
                gubzelk.Broker([], library=STUB)
            self.assertEqual((caught.exception.numbers, caught.exception.call), ((5, 2), 'open'))
        gc.collect()
        self.assertEqual(self.get('freed'), 0)

    def test_a_code_of_no_header(self):
        self.set('code', -99)
        with self.assertRaises(gubzelk.Refused) as caught:
            self.broker.turn()
        self.assertEqual((type(caught.exception), caught.exception.code), (gubzelk.Refused, -99))

    def test_what_is_no_refusal(self):
        self.set('code', Code.EMPTY)
        self.assertEqual((self.broker.take(0, 0), self.broker.take_any(0)), (None, None))
        self.assertEqual(list(self.broker.deliveries(0)), [])
        self.set('code', Code.IDLE)
        self.assertIsNone(self.broker.turn())
        for code in [Code.DRAINED, Code.WINDOW_FULL]:
            self.set('code', code)
            self.assertEqual(list(self.broker.deliveries(0)), [])
        self.set('code', Code.CLOSED)
        with self.assertRaises(gubzelk.Closed):
            list(self.broker.deliveries(0))

    def test_a_conflict_without_its_delivery(self):
        self.set('code', Code.CONFLICT)
        with self.assertRaises(gubzelk.Conflict) as caught:
            self.broker.accept(3)
        for found in [caught.exception, pickle.loads(pickle.dumps(caught.exception))]:
            with self.assertRaises(LookupError):
                found.key

    def test_free_and_shut(self):
        for _ in range(2):
            self.broker.shut()
        self.assertEqual(self.get('shut'), 2)
        for _ in range(2):
            self.broker.free()
        self.broker.shut()
        self.assertEqual((self.get('shut'), self.get('freed'), self.broker.freed), (2, 1, True))
        made = self.get('made')
        for name in native.CALLS:
            with self.assertRaises(gubzelk.Shut):
                self.made(name)
        self.assertEqual(self.get('made'), made)
        self.assertIn('freed', repr(self.broker))
        del self.broker
        with gubzelk.Broker([], library=STUB) as broker:
            pass
        with self.assertRaises(ZeroDivisionError), gubzelk.Broker([], library=STUB):
            1 / 0
        gubzelk.Broker([], library=STUB)
        gc.collect()
        self.assertEqual(self.get('freed'), 4)
        self.assertTrue(broker.freed)

    def test_copies(self):
        for copying in [copy.copy, copy.deepcopy, pickle.dumps]:
            with self.assertRaises(TypeError):
                copying(self.broker)

    def test_no_call_overlaps_another(self):
        self.set('wait', 50)
        names = [name for name in native.CALLS]

        def runs(number):
            for at in range(300):
                self.made(names[(at * 7 + number) % len(names)])
        threads = [threading.Thread(target=runs, args=[number]) for number in range(4)]
        for thread in threads:
            thread.start()
        for thread in threads:
            thread.join()
        self.assertEqual((self.get('overlaps'), self.get('made')), (0, 1200))

    def test_the_stub_sees_overlaps(self):
        """Without the lock the stub counts overlaps."""
        self.set('wait', 200)
        handle, out = self.broker._handle, ctypes.c_uint64()
        call = self.broker._library.calls['front']
        threads = [threading.Thread(target=lambda: [call(handle, ctypes.byref(out)) for _ in range(50)]) for _ in range(4)]
        for thread in threads:
            thread.start()
        for thread in threads:
            thread.join()
        self.assertGreater(self.get('overlaps'), 0)

    def test_a_call_inside_a_call(self):
        """A signal handler between two calls works; one inside a call is refused, and nothing is locked after it."""
        outcomes = {'done': 0, 'reentered': 0}

        def handler(number, frame):
            try:
                self.broker.front()
                outcomes['done'] += 1
            except gubzelk.Reentered:
                outcomes['reentered'] += 1
        before = signal.signal(signal.SIGALRM, handler)
        signal.setitimer(signal.ITIMER_REAL, 0.0005, 0.0005)
        self.set('wait', 100)
        try:
            for _ in range(1500):
                self.broker.left()
        finally:
            signal.setitimer(signal.ITIMER_REAL, 0)
            signal.signal(signal.SIGALRM, before)
        self.broker.front()
        self.assertEqual(self.get('overlaps'), 0)
        self.assertGreater(outcomes['reentered'], 0)

    def test_interrupts_leave_the_lock(self):
        def handler(number, frame):
            raise KeyboardInterrupt
        before = signal.signal(signal.SIGALRM, handler)
        self.set('wait', 100)
        interrupted = 0
        try:
            for _ in range(200):
                try:
                    signal.setitimer(signal.ITIMER_REAL, 0.0008)
                    while True:
                        self.broker.left()
                except KeyboardInterrupt:
                    interrupted += 1
        finally:
            signal.setitimer(signal.ITIMER_REAL, 0)
            signal.signal(signal.SIGALRM, before)
        self.assertEqual(interrupted, 200)
        thread = threading.Thread(target=self.broker.front, daemon=True)
        thread.start()
        thread.join(10)
        self.assertFalse(thread.is_alive())

    def test_versions(self):
        native.opened.cache_clear()
        self.addCleanup(native.opened.cache_clear)
        self.set('version', 2003004)
        with self.assertRaisesRegex(gubzelk.LibraryError, 'has version 2.3.4, and this package is for 0.1.0'):
            gubzelk.Broker([], library=STUB)

    def test_finding(self):
        for named, why in [('/none/libgubzelk.so', 'cannot be loaded'), (os.__file__, 'cannot be loaded'),
                           (b'/none', 'cannot be loaded'), ('', 'no libgubzelk of this version')]:
            with self.assertRaisesRegex(gubzelk.LibraryError, why):
                gubzelk.Broker([], library=named)
        with self.assertRaises(TypeError):
            gubzelk.Broker([], library=5)
        kept = os.environ.get('GUBZELK_LIBRARY')
        try:
            os.environ['GUBZELK_LIBRARY'] = STUB
            self.assertEqual(native.found(), STUB)
            opened().free()
            del os.environ['GUBZELK_LIBRARY']
            try:
                native.found()
            except gubzelk.LibraryError as error:
                self.assertIn('GUBZELK_LIBRARY', str(error))
        finally:
            if kept is not None:
                os.environ['GUBZELK_LIBRARY'] = kept


if __name__ == '__main__':
    unittest.main()
