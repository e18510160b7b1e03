"""Each call of a Broker, and what it returns, as broker.h says."""
import unittest

from shared import DELETE, INSERT, KEY, insert, opened, update

import gubzelk
from gubzelk import Code, ConflictKind, FaultKind, Limits, Operation


class Calls(unittest.TestCase):
    def setUp(self):
        self.broker = opened(batch=2, capacity=16, intake=4)
        self.addCleanup(self.broker.free)

    def refuses(self, error, name, *words, **numbers):
        with self.assertRaises(error) as caught:
            getattr(self.broker, name)(*words)
        for number, value in numbers.items():
            self.assertEqual(getattr(caught.exception, number), value)
        self.assertTrue(caught.exception.words)
        self.assertEqual(caught.exception.call, name)
        return caught.exception

    def test_pieces(self):
        b = self.broker
        self.assertEqual(b.publisher(), 0)
        self.assertIsNone(b.feed(0, INSERT[:7]))
        self.assertIsNone(b.reset(0))
        b.feed(0, INSERT[:9])
        b.feed(0, b'')
        b.feed(0, INSERT[9:])
        self.assertIsNone(b.end(0))
        self.assertEqual((b.left(), b.front(), b.send(0), b.left()), (0, 0, 1, 1))
        self.assertEqual((b.turn(), b.turn(), b.front()), (1, None, 1))
        self.assertEqual((b.entry(1), b.text(1)), ((0, 1, 0), INSERT))
        self.assertEqual(b.entry(1).publisher, 0)
        self.refuses(gubzelk.NothingStaged, 'send', 0)
        self.assertIsNone(b.withdraw(0, 1))
        self.refuses(gubzelk.Holding, 'withdraw', 0, 1)
        self.refuses(gubzelk.Holding, 'end', 0)
        self.assertEqual((b.send(0), b.turn()), (2, 2))
        self.assertEqual((b.entry(2), b.text(2), b.combined(1, 2)), ((0, 2, 1), DELETE, b''))
        self.refuses(gubzelk.AlreadyWithdrawn, 'withdraw', 0, 1)
        self.refuses(gubzelk.NotPlaced, 'withdraw', 0, 3)
        for words in [(0, 1), (2, 1), (1, 3)]:
            self.refuses(gubzelk.NotPlaced, 'combined', *words)
        self.assertEqual(b.publisher(), 1)
        self.refuses(gubzelk.NotYours, 'withdraw', 1, 1)
        self.refuses(gubzelk.NoPublisher, 'feed', 2, b'')

    def test_place(self):
        b = self.broker
        self.refuses(gubzelk.NoPublisher, 'place', 0, INSERT)
        b.publisher()
        self.assertEqual((b.place(0, INSERT), b.place(0, b''), b.text(2)), (1, 2, b''))
        fault = self.refuses(gubzelk.Fault, 'place', 0, INSERT[:1], at=1, kind=FaultKind.TRUNCATED)
        self.assertEqual((fault.code, b.why()), (Code.FAULT, (1, 16)))
        self.assertRegex(str(fault), r'^place: .* \(at 1, kind TRUNCATED\)$')
        self.refuses(gubzelk.UnknownTable, 'place', 0, b'T\1\1x\0', section=0)
        self.refuses(gubzelk.ShapeDiffers, 'place', 0, INSERT + b'T\1\1t\0', section=1)
        self.refuses(gubzelk.Fault, 'feed', 0, b'P', at=0, kind=FaultKind.PATCHSET)
        self.refuses(gubzelk.Fault, 'feed', 0, INSERT, at=0, kind=FaultKind.PATCHSET)
        b.reset(0)
        b.end(0)
        self.refuses(gubzelk.Holding, 'place', 0, INSERT)
        b.send(0)
        self.refuses(gubzelk.Waiting, 'place', 0, INSERT, count=1)
        b.turn()
        for _ in range(4):
            b.end(0)
            b.send(0)
        b.end(0)
        self.refuses(gubzelk.Full, 'send', 0)
        while b.turn():
            pass
        b.send(0)
        while b.front() < 16:
            b.turn() or b.place(0, b'')
        self.refuses(gubzelk.SequenceFull, 'place', 0, INSERT)
        self.assertEqual((b.close(), b.close()), (16, 16))
        self.refuses(gubzelk.Closed, 'place', 0, INSERT)
        b.end(0)
        self.refuses(gubzelk.Closed, 'send', 0)

    def test_deliveries(self):
        b = self.broker
        b.publisher()
        b.place(0, INSERT)
        self.refuses(gubzelk.StartAhead, 'subscribe', 2, front=1)
        self.refuses(gubzelk.StartAhead, 'subscribe_bare', 2, front=1)
        subscribed = b.subscribe(0)
        self.assertEqual((subscribed, subscribed.link), ((0, 1), 1))
        taken = b.take(0, 5)
        self.assertEqual((taken, taken.last), ((1, 0, 1, 1), 1))
        self.assertIsNone(b.take(0))
        self.refuses(gubzelk.NotAccepted, 'ack', 1, cursor=0)
        self.assertEqual((b.accept(1), b.cursor(0), b.rows(0)), (1, 1, INSERT))
        self.assertEqual((b.row(0, 0, KEY), b.row(0, 0, (1,))), (INSERT, INSERT))
        self.refuses(gubzelk.NoRow, 'row', 0, 0, (2,))
        self.refuses(gubzelk.NoTable, 'row', 0, 1, KEY)
        self.refuses(gubzelk.NoSuch, 'row', 1, 0, KEY)
        self.refuses(gubzelk.Seen, 'accept', 1)
        self.assertEqual(b.ack(1), 1)
        self.refuses(gubzelk.NotInFlight, 'nack', 1)
        b.place(0, insert(2))
        self.assertEqual(b.take_any(5), (2, 0, 2, 2))
        self.assertIsNone(b.take_any())
        self.assertIsNone(b.nack(2))
        self.assertEqual((b.take_any(5), b.nack_opened(3), b.take(0, 5), b.expire(15)), ((3, 0, 2, 2), 1, (4, 0, 2, 2), 1))
        self.assertEqual(b.take(0, 15), (5, 0, 2, 2))
        self.assertEqual(b.status(0), (0, 1, 1, 2, 1, 0, 1, 2, False, False))
        self.assertEqual(b.crash(5, True), 2)
        status = b.status(0)
        self.assertEqual((status.fallen, status.closed, status.front - status.floor), (True, False, 1))
        self.refuses(gubzelk.Store, 'accept', 5)
        self.assertEqual(b.resume(0), 2)
        self.refuses(gubzelk.NotFallen, 'resume', 0)
        self.refuses(gubzelk.StaleLink, 'ack', 5)
        self.refuses(gubzelk.BadCursor, 'reconnect', 0, 3, floor=2, offered=2)
        self.assertEqual(b.reconnect(0, 2), 3)
        self.assertIsNone(b.unsubscribe(0))
        self.assertEqual(b.status(0), (0, 2, 2, 2, 3, 0, 0, 2, True, False))
        self.refuses(gubzelk.Closed, 'take', 0, 15)
        self.refuses(gubzelk.NoSuch, 'status', 1)
        self.refuses(gubzelk.NotPlaced, 'entry', 3)
        self.refuses(gubzelk.NoDelivery, 'ack', 7)
        self.assertEqual(b.subscribe_bare(1), (1, 4))
        self.assertEqual((b.take(1, 15), b.accept(6), b.rows(1)), ((6, 1, 2, 2), 2, b''))
        b.close()
        b.ack(6)
        self.refuses(gubzelk.Drained, 'take', 1, 15, last=2)
        self.assertEqual(list(b.deliveries(1)), [])

    def test_window_and_gap(self):
        b = self.broker
        b.publisher()
        b.subscribe(0)
        for key in range(10):
            b.place(0, insert(key))
        for at in range(4):
            self.assertEqual(b.take(0).last, 2 * at + 2)
        self.refuses(gubzelk.WindowFull, 'take', 0)
        self.refuses(gubzelk.Gap, 'accept', 2, expected=1)
        self.assertRegex(str(self.refuses(gubzelk.Gap, 'accept', 2)), r'\(expected 1\)$')

    def test_conflicts(self):
        b = self.broker
        b.publisher()
        b.subscribe(0)
        b.place(0, insert(1, b'a') + insert(-5 % (1 << 64), b'b'))
        b.place(0, insert(2, b'a'))
        self.assertEqual(b.accept(b.take(0).number), 2)
        for text, position, kind, key in [(insert(3) + update(2, b'z', b'c'), 1, ConflictKind.DATA, 2),
                                          (update(9, b'z', b'c'), 0, ConflictKind.NOTFOUND, 9),
                                          (insert(3) + insert(4) + insert(-5 % (1 << 64)), 2, ConflictKind.CONFLICT, -5)]:
            entry = b.place(0, text)
            link = b.reconnect(0, b.cursor(0))
            self.assertGreater(link, 0)
            taken = b.take(0)
            found = self.refuses(gubzelk.Conflict, 'accept', taken.number, position=position, kind=kind)
            self.assertEqual((found.table, found.key, found.change.table), ('t', (key,), 't'))
            self.assertIn(found.change.operation, Operation)
            again = self.refuses(gubzelk.Conflict, 'crash', taken.number, True)
            self.assertEqual(again.key, (key,))
            b.withdraw(0, entry)
            b.send(0)
            self.assertEqual(b.turn(), entry + 1)
            b.reconnect(0, b.cursor(0))
            b.accept(b.take(0).number)
        b.place(0, insert(1))
        found = self.refuses(gubzelk.Conflict, 'accept', b.take(0).number)
        b.shut()
        with self.assertRaises(gubzelk.Shut):
            found.key

    def test_many(self):
        b = self.broker
        for number in range(64):
            self.assertEqual(b.publisher(), number)
        self.refuses(gubzelk.TooMany, 'publisher')
        for number in range(1024):
            b.subscribe_bare(0)
        self.refuses(gubzelk.TooMany, 'subscribe', 0)

    def test_long_texts(self):
        """Texts of any length around the room of the first call."""
        b = self.broker
        b.publisher()
        b.subscribe(0)
        head = insert(1)[:6] + b'\x12\0\1'
        for at, length in enumerate([65535 - 26, 65536 - 26, 65537 - 26, 5000000]):
            text = head + at.to_bytes(8, 'big') + b'\4' + gubzelk.changesets.varint(length) + b'v' * length
            entry = b.place(0, text)
            self.assertEqual(b.text(entry), text)
            self.assertEqual(b.combined(entry, entry), text)
            self.assertEqual(b.accept(b.take(0).number), entry)
            self.assertEqual(b.row(0, 0, (at,)), text)
        self.assertEqual([change.key for change in gubzelk.changesets.read(b.rows(0))], [(0,), (1,), (2,), (3,)])
        with self.assertRaises(gubzelk.Fault) as caught:
            b.place(0, head + b'\1' * 8 + b'\4' + gubzelk.changesets.varint(1 << 24) + bytes(1 << 24))
        self.assertEqual(caught.exception.kind, FaultKind.TOO_LONG)

    def test_opening(self):
        for at, name in enumerate(Limits._fields):
            for value in [0, (1 << 64) - 1]:
                with self.assertRaises(gubzelk.BadLimit) as caught:
                    gubzelk.Broker([('t', (1,))], Limits()._replace(**{name: value}))
                self.assertEqual((caught.exception.limit, caught.exception.numbers), (name, (at, 0)))
        with self.assertRaises(gubzelk.BadTable) as caught:
            gubzelk.Broker([('t', (1,)), ('u', (1,)), (b't', b'\0\1')])
        self.assertEqual((caught.exception.table, caught.exception.duplicate), (2, True))
        with self.assertRaises(gubzelk.BadTable) as caught:
            gubzelk.Broker([(f't{at}', (1,)) for at in range(1025)])
        self.assertEqual((caught.exception.table, caught.exception.duplicate), (1024, False))
        with gubzelk.Broker([]) as broker, gubzelk.Broker(((f't{at}', (1,)) for at in range(1024)), (1,) * 6) as other:
            self.assertEqual((broker.tables, broker.limits, other.limits), ((), Limits(), (1,) * 6))
            self.assertRegex(broker.name, '^[0-9a-f]{32}$')
            self.assertNotEqual(broker.name, other.name)
            self.assertIn(broker.name, repr(broker))

    def test_words(self):
        self.assertEqual(self.broker.message(Code.NOT_PLACED), 'no entry has this number')
        words = {self.broker.message(code) for code in Code}
        self.assertEqual(len(words), len(Code))
        for code in [12345, -(1 << 31), (1 << 31) - 1]:
            self.assertTrue(self.broker.message(code))

    def test_shut(self):
        b = self.broker
        self.assertEqual(b.why(), (0, 0))
        b.shut()
        b.shut()
        self.refuses(gubzelk.Shut, 'front')
        self.refuses(gubzelk.Shut, 'text', 1)
        self.refuses(gubzelk.Shut, 'why')
        b.free()
        self.refuses(gubzelk.Shut, 'front')
        b.free()


if __name__ == '__main__':
    unittest.main()
