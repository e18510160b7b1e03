"""Deliveries as objects, and the iterator over them."""
import unittest

from shared import insert, opened

import gubzelk


class Deliveries(unittest.TestCase):
    def setUp(self):
        self.broker = opened(batch=2, window=2, timeout=5)
        self.addCleanup(self.broker.free)
        self.broker.publisher()
        self.broker.subscribe(0)

    def place(self, *keys):
        for key in keys:
            self.broker.place(0, insert(key))

    def test_all(self):
        self.place(1, 2, 3)
        found = []
        for delivery in self.broker.deliveries(0):
            self.assertEqual(delivery.text(), self.broker.combined(delivery.first, delivery.last))
            cursor = delivery.accept()
            found.append((delivery.number, delivery.subscription, delivery.first, delivery.last, cursor, delivery.ack()))
            if cursor == 3:
                self.place(4)
        self.assertEqual(found, [(1, 0, 1, 2, 2, 2), (2, 0, 3, 3, 3, 3), (3, 0, 4, 4, 4, 4)])
        self.assertEqual(list(self.broker.deliveries(0)), [])

    def test_a_full_window(self):
        self.place(*range(10))
        found = list(self.broker.deliveries(0))
        self.assertEqual([delivery.last for delivery in found], [2, 4])
        self.assertEqual(self.broker.status(0).ready, 3)
        for delivery in found:
            delivery.accept()
            delivery.ack()
        self.assertEqual([delivery.last for delivery in self.broker.deliveries(0)], [6, 8])

    def test_an_exception_gives_back(self):
        self.place(1)
        for error in [ZeroDivisionError, KeyboardInterrupt]:
            with self.assertRaises(error):
                for delivery in self.broker.deliveries(0):
                    with delivery as same:
                        self.assertIs(same, delivery)
                        raise error
            status = self.broker.status(0)
            self.assertEqual((status.ready, status.in_flight), (1, 0))
        [delivery] = self.broker.deliveries(0)
        with delivery:
            self.assertEqual(delivery.accept(), 1)
        self.assertEqual(self.broker.status(0).in_flight, 1)
        with self.assertRaises(ZeroDivisionError), delivery:
            delivery.ack()
            1 / 0
        self.assertEqual(self.broker.status(0).floor, 1)

    def test_an_exception_with_nothing_to_give_back(self):
        self.place(1)
        for ends in [lambda: self.broker.expire(5), lambda: self.broker.reconnect(0, 0),
                     lambda: self.broker.unsubscribe(0), self.broker.shut, self.broker.free]:
            [delivery] = self.broker.deliveries(0) if not self.broker.freed and self.live() else [delivery]
            with self.assertRaises(ZeroDivisionError), delivery:
                ends()
                1 / 0

    def live(self):
        try:
            return not self.broker.status(0).closed
        except gubzelk.Shut:
            return False

    def test_conflicts(self):
        """A delivery that conflicts comes again, until it is opened or the loop ends."""
        self.place(1)
        for delivery in self.broker.deliveries(0):
            delivery.accept()
            delivery.ack()
        self.place(2, 1)
        found, opens = [], [False, False, True, False]
        for delivery in self.broker.deliveries(0):
            try:
                with delivery:
                    delivery.accept()
                    found.append((delivery.first, delivery.last))
                    delivery.ack()
            except gubzelk.Conflict as conflict:
                found.append((delivery.first, delivery.last, conflict.key))
                if not opens:
                    break
                if opens.pop(0):
                    [delivery] = self.broker.deliveries(0)
                    delivery.nack_opened()
        self.assertEqual(found, [(2, 3, (1,))] * 3 + [(2, 2)] + [(3, 3, (1,))] * 2)

    def test_opened(self):
        self.place(1)
        self.place(2)
        [delivery] = self.broker.deliveries(0)
        self.assertEqual(delivery.nack_opened(), 2)
        alone = list(self.broker.deliveries(0))
        self.assertEqual([(one.first, one.last) for one in alone], [(1, 1), (2, 2)])
        self.assertEqual(alone[0].accept(), 1)
        self.assertIn('first=1', repr(alone[0]))
        alone[1].nack()
        with self.assertRaises(gubzelk.NotInFlight):
            alone[1].nack()

    def test_ticks(self):
        self.place(1)
        ticks = iter([3, 4])
        [delivery] = self.broker.deliveries(0, lambda: next(ticks))
        self.assertEqual((self.broker.expire(7), self.broker.expire(8)), (0, 1))
        [delivery] = self.broker.deliveries(0, now=9)
        self.assertEqual((self.broker.expire(13), self.broker.expire(14)), (0, 1))
        for wrong in [None, 1.5, 'now', lambda: None]:
            with self.assertRaisesRegex(TypeError, '^now '):
                list(self.broker.deliveries(0, wrong))
        with self.assertRaises(gubzelk.NoSuch):
            list(self.broker.deliveries(1))


if __name__ == '__main__':
    unittest.main()
