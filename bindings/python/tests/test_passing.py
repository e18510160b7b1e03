"""What reaches the library and what comes back, over a stub of it (stub.c)."""
import ctypes
import unittest

from shared import STUB

import gubzelk
from gubzelk import native

U64 = (1 << 64) - 1
# what a call returns for what the stub writes: one number, two, a record, a text, or nothing
RETURNS = dict(o=101, oo=(101, 102), a=(1, 2, 3), d=(1, 2, 3, 4), s=(1, 2, 3, 4, 5, 6, 7, 8, False, True), w=b'ww', y=(5, 6))


@unittest.skipUnless(STUB, 'no stub')
class Passing(unittest.TestCase):
    def setUp(self):
        self.stub = ctypes.CDLL(STUB)
        for name in ('code', 'strangers', 'wait'):
            ctypes.c_int.in_dll(self.stub, 'stub_' + name).value = 0
        for name, value in [('first', 5), ('second', 6), ('writes', 2)]:
            ctypes.c_uint64.in_dll(self.stub, 'stub_' + name).value = value
        self.broker = gubzelk.Broker([('t', (1, 0)), ('größe', b'\2\1\0')], gubzelk.Limits(batch=7, appliers=9), STUB)
        self.opened = self.seen()

    def seen(self):
        """The numbers and the text of the last call."""
        numbers = (ctypes.c_uint64 * 3).in_dll(self.stub, 'stub_numbers')
        length = ctypes.c_uint64.in_dll(self.stub, 'stub_length').value
        return list(numbers), bytes((ctypes.c_ubyte * 64).in_dll(self.stub, 'stub_text'))[:length]

    def test_opening(self):
        self.assertEqual(self.opened, ([2, 7, 9], b't\1\0' + 'größe'.encode() + b'\2\1\0'))

    def test_each_call(self):
        for name, letters in native.CALLS.items():
            for numbers in [(U64, 1 << 63), (1, 0), (0, (1 << 32) + 1)]:
                inputs = [letter for letter in letters if letter in 'ntb']
                values = iter(numbers)
                words = [next(values) if letter == 'n' else b'\0text\0' if letter == 't' else numbers[1] % 2 == 1
                         for letter in inputs]
                found = getattr(self.broker, name)(*words)
                outs = letters.lstrip('ntb')
                self.assertEqual(found, RETURNS.get(outs), name)
                self.assertEqual(type(found), {'a': gubzelk.About, 'd': gubzelk.Taken, 's': gubzelk.Status}.get(
                    outs, gubzelk.Subscribed if outs == 'oo' else type(found)))
                sent = [int(word) for word in words if not isinstance(word, bytes)]
                given, text = self.seen()
                self.assertEqual(given[:2], (sent + [0, 0])[:2], name)
                self.assertEqual(text, b'\0text\0' if 't' in inputs else b'', name)
        self.assertEqual(ctypes.c_int.in_dll(self.stub, 'stub_strangers').value, 0)

    def test_lengths_of_texts(self):
        """The second call is made only for a text above the room of the first."""
        made = ctypes.c_int.in_dll(self.stub, 'stub_made')
        for length, calls in [(0, 1), (1, 1), (65535, 1), (65536, 1), (65537, 2), (1 << 22, 2)]:
            ctypes.c_uint64.in_dll(self.stub, 'stub_writes').value = length
            for ask in [lambda: self.broker.text(1), lambda: self.broker.row(0, 0, b'')]:
                before = made.value
                self.assertEqual(ask(), b'w' * length)
                self.assertEqual(made.value - before, calls)

    def test_empty_texts(self):
        """No pointer is NULL."""
        for empty in [b'', bytearray(), memoryview(b'')]:
            self.broker.feed(0, empty)
            self.assertEqual(self.seen()[1], b'')
        gubzelk.Broker([], library=STUB).free()
        self.assertEqual(self.seen()[0][0], 0)
        self.assertEqual(ctypes.c_int.in_dll(self.stub, 'stub_strangers').value, 0)


if __name__ == '__main__':
    unittest.main()
