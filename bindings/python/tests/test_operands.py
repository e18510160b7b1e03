"""Operands of every wrong kind: each is a TypeError or a ValueError that names the operand, and no call is made."""
import array
import mmap
import unittest
from fractions import Fraction

from shared import INSERT, KEY, opened

import gubzelk
from gubzelk import native, operands


class Index:
    """An integer by its __index__."""

    def __init__(self, value):
        self.value = value

    def __index__(self):
        return self.value


class Text(bytes):
    """Bytes with another length than they say."""

    def __len__(self):
        return 1 << 40


NOT_NUMBERS = [None, True, False, 1.0, '1', b'1', [], (), {}, object(), Fraction(1), 1j, float('nan'), Index]
OUT_OF_RANGE = [-1, 1 << 64, -(1 << 63), 1 << 100, 10 ** 5000, Index(-1), Index(1 << 64)]
NOT_TEXTS = [None, 5, 1.5, True, 'text', [1], {}, object(), bytes, memoryview(bytes(8)).cast('I'),
             array.array('i', [1, 2])]
NOT_BOOLS = [None, 0, 1, 'True', b'', [], 1.0]
WRONG = dict(n=(NOT_NUMBERS, OUT_OF_RANGE), t=(NOT_TEXTS, []), b=(NOT_BOOLS, []))
RIGHT = dict(n=0, t=b'', b=True)


def names_of(name):
    code = getattr(gubzelk.Broker, name).__code__
    return code.co_varnames[1:code.co_argcount]


class Operands(unittest.TestCase):
    def setUp(self):
        self.broker = opened()
        self.addCleanup(self.broker.free)
        self.calls = dict(self.broker._library.calls)
        self.made = []
        self.broker._library.calls.update({name: lambda *words, name=name: self.made.append(name) for name in self.calls})
        self.addCleanup(self.broker._library.calls.update, self.calls)

    def refused(self, kind, name, words, operand):
        with self.assertRaises(kind) as caught:
            getattr(self.broker, name)(*words)
        self.assertTrue(str(caught.exception).startswith(operand), f'{name}: {caught.exception}')
        self.assertEqual(self.made, [])

    def test_each_operand_of_each_call(self):
        count = 0
        for name, letters in native.CALLS.items():
            inputs = [letter for letter in letters if letter in RIGHT]
            for at, letter in enumerate(inputs):
                for kind, values in zip((TypeError, ValueError), WRONG[letter]):
                    for value in values:
                        if (name, letter) == ('row', 't') and isinstance(value, list):
                            continue
                        words = [RIGHT[one] for one in inputs]
                        words[at] = value
                        self.refused(kind, name, words, names_of(name)[at])
                        count += 1
        self.assertGreater(count, 600)

    def test_keys(self):
        for value in [None, 1.5, True]:
            self.refused(TypeError, 'row', [0, 0, [value]], "a key's value")
        self.refused(ValueError, 'row', [0, 0, (1 << 63,)], "a key's integer")

    def test_codes(self):
        for value in NOT_NUMBERS:
            self.refused(TypeError, 'message', [value], 'code')
        for value in [1 << 31, -(1 << 31) - 1, 1 << 70]:
            self.refused(ValueError, 'message', [value], 'code')


class Opening(unittest.TestCase):
    def test_tables(self):
        for wrong in ['t', b't', gubzelk.Table('t', (1,)), 5, None, [5], ['t'], [('t',)], [(5, (1,))], [('t', 5)]]:
            with self.assertRaisesRegex(TypeError, 'table'):
                gubzelk.Broker(wrong)
        for wrong in [[('', (1,))], [('t', ())], [('t', (0,))]]:
            with self.assertRaises(ValueError):
                gubzelk.Broker(wrong)

    def test_limits(self):
        usual = gubzelk.Limits()
        for at, name in enumerate(usual._fields):
            for kind, values in [(TypeError, NOT_NUMBERS), (ValueError, OUT_OF_RANGE)]:
                for value in values:
                    with self.assertRaisesRegex(kind, f'^limit {name} '):
                        gubzelk.Broker([], usual._replace(**{name: value}))
        for wrong in [(), (1,), (1,) * 5, (1,) * 7]:
            with self.assertRaisesRegex(ValueError, 'limits has 6 numbers'):
                gubzelk.Broker([], wrong)
        for wrong in [None, 5]:
            with self.assertRaisesRegex(TypeError, '^limits is an iterable'):
                gubzelk.Broker([], wrong)


class Right(unittest.TestCase):
    """Operands of every right kind."""

    def setUp(self):
        self.broker = opened()
        self.addCleanup(self.broker.free)
        self.broker.publisher()

    def test_texts(self):
        mapped = mmap.mmap(-1, len(INSERT))
        mapped[:] = INSERT
        kinds = [INSERT, bytearray(INSERT), memoryview(INSERT), memoryview(b'-' + INSERT)[1:], memoryview(INSERT)[::1],
                 memoryview(INSERT[::-1])[::-1], array.array('B', INSERT), mapped, Text(INSERT),
                 memoryview(INSERT).cast('c'), memoryview(INSERT).cast('b')]
        for at, value in enumerate(kinds):
            self.assertEqual(self.broker.place(0, value), at + 1)
            self.assertEqual(self.broker.text(at + 1), INSERT)
        mapped.close()
        for same in [INSERT, memoryview(INSERT), memoryview(INSERT).cast('c')]:
            self.assertIs(operands.text(same, 'text'), INSERT)
        self.assertEqual(operands.text(memoryview(INSERT)[::-1], 'text'), INSERT[::-1])
        free = bytearray(INSERT)
        self.broker.place(0, free)
        free.append(0)

    def test_numbers(self):
        self.assertEqual(self.broker.place(Index(0), INSERT), 1)
        self.assertEqual(self.broker.text(Index(1)), INSERT)
        for number in [1 << 63, (1 << 64) - 1]:
            with self.assertRaises(gubzelk.NotPlaced):
                self.broker.text(number)
            with self.assertRaises(gubzelk.NoPublisher):
                self.broker.reset(number)

    def test_keys(self):
        self.broker.place(0, INSERT)
        self.broker.subscribe(0)
        self.broker.accept(self.broker.take(0, (1 << 64) - 1).number)
        for key in [KEY, bytearray(KEY), (1,), [1]]:
            self.assertEqual(self.broker.row(0, 0, key), INSERT)
        for key in [b'', (), (2,), ('1',), b'\1' * 5000]:
            with self.assertRaises(gubzelk.NoRow):
                self.broker.row(0, 0, key)

    def test_names(self):
        """Operands have the names of the header."""
        self.assertEqual(self.broker.place(publisher=0, bytes=INSERT), 1)
        self.assertEqual(self.broker.subscribe(start=0).subscription, 0)
        self.assertEqual(self.broker.take(subscription=0, now=5).last, 1)
        self.assertEqual(self.broker.crash(delivery=1, kept=True), 1)


if __name__ == '__main__':
    unittest.main()
