"""The reader of changesets against checks/model.py, on right and on damaged bytes, and against SQLite's values."""
import unittest

from shared import HEAD, INSERT, chance, update

import changesets as made
import gubzelk
import model
from gubzelk import UNDEFINED, Operation, changesets

FIELD = {0: lambda rest: UNDEFINED, 5: lambda rest: None, 1: lambda rest: int.from_bytes(rest, 'big', signed=True)}


def value(field):
    """The Python value of a field of the model: None, or its canonical bytes."""
    if field is None:
        return UNDEFINED
    if field[0] in FIELD:
        return FIELD[field[0]](field[1:])
    at = 1
    while field[at] > 127:
        at += 1
    found = field[at + 1:]
    return found if field[0] == 4 else found.decode('utf-8', 'surrogateescape')


def modelled(text):
    """The changes as the model reads them; None if they are no changeset."""
    try:
        sections = model.parse(text)
    except model.Fault as fault:
        return None if fault.kind != 'Real' else 'real'
    return [(name.decode('utf-8', 'surrogateescape'), op, indirect == 1, old and tuple(map(value, old)),
             new and tuple(map(value, new)), flags) for name, flags, changes in sections
            for op, indirect, old, new in changes]


def found(text):
    try:
        return [tuple(change) for change in changesets.read(text)]
    except gubzelk.ChangesetError as error:
        assert 0 <= error.at <= len(text) and str(error)
        return None


class Reader(unittest.TestCase):
    def compare(self, text):
        wanted = modelled(text)
        result = found(text)
        if wanted != 'real':
            self.assertEqual(result, wanted, text.hex())
        return result is not None

    def test_random(self):
        draws = chance('reader')
        right = total = 0
        for _ in range(300):
            schema = made.shapes(draws, draws.choice([1, 2, 3]))
            author = made.Author(draws, schema, {}, 0)
            for _ in range(3):
                text = author.changeset()
                self.assertTrue(self.compare(text))
                for _ in range(10):
                    right += self.compare(self.damaged(draws, text))
                    total += 1
        self.assertGreater(right, total // 20)
        self.assertLess(right, total)

    def damaged(self, draws, text):
        kind = draws.randrange(5)
        bad = bytearray(text)
        at = draws.randrange(len(bad) + 1)
        if kind == 0:
            return bytes(bad[:at])
        if kind == 1 and bad:
            bad[at % len(bad)] = draws.randrange(256)
        elif kind == 2:
            bad[at:at] = bytes(draws.randrange(256) for _ in range(draws.randrange(1, 4)))
        elif kind == 3:
            del bad[at:at + draws.randrange(1, 4)]
        else:
            bad += bytes(draws.choice(b'\0\1\2\3\4\5\x09\x12\x17TP\x80\xff') for _ in range(draws.randrange(1, 20)))
        return bytes(bad)

    def test_noise(self):
        draws = chance('noise')
        for _ in range(3000):
            length = draws.randrange(40)
            start = draws.choice([b'', HEAD, INSERT])
            self.compare(start + bytes(draws.choice(b'\0\1\2\3\4\5\x09\x12\x17TP\x80\xff') for _ in range(length)))

    def test_lengths_beyond_the_bytes(self):
        for text in [HEAD + b'\x12\0\3' + b'\xff' * 9, HEAD + b'\x12\0\4' + b'\xff' * 8 + b'\0', b'T' + b'\xff' * 9,
                     b'T\x8f\x51' + b'\1' * 10, b'T\1\1' + b'n' * 2000]:
            self.assertIsNone(found(text))

    def test_values(self):
        [change] = changesets.read(update(7, b'a', b'b'))
        self.assertEqual(change, ('t', 23, False, (7, 'a'), (UNDEFINED, 'b'), b'\1\0'))
        self.assertEqual((change.key, change.operation), ((7,), Operation.UPDATE))
        [real] = changesets.read(HEAD + b'\x12\1\1' + b'\xff' * 8 + b'\2\x3f\xf8' + bytes(6))
        self.assertEqual((real.new, real.indirect, real.old, real.key), ((-1, 1.5), True, None, (-1,)))
        [text] = changesets.read(HEAD + b'\x12\0\4\2\0\1\3\2\xc3\x28')
        self.assertEqual(text.new, (b'\0\1', '\udcc3('))
        self.assertEqual(repr(UNDEFINED), 'UNDEFINED')

    def test_operands(self):
        for wrong in ['T', 5, None, memoryview(b'abcd').cast('I')]:
            with self.assertRaises(TypeError):
                list(changesets.read(wrong))
        for right in [bytearray(INSERT), memoryview(INSERT), memoryview(b'-' + INSERT)[1:]]:
            self.assertEqual(len(list(changesets.read(right))), 1)

    def test_keys(self):
        self.assertEqual(changesets.key_text([1, 'x', b'\0']), b'\1' + bytes(7) + b'\1\3\1x\4\1\0')
        self.assertEqual(changesets.key_text(['a' * 200])[:3], b'\3\x81\x48')
        self.assertEqual(changesets.varint(1 << 40), model.short_varint(1 << 40))
        for wrong in [1.5, None, True, bytearray(b'x'), UNDEFINED]:
            with self.assertRaisesRegex(TypeError, "key's value"):
                changesets.key_text([wrong])
        for wrong in [1 << 63, -(1 << 63) - 1, '\ud800']:
            with self.assertRaisesRegex(ValueError, "key's"):
                changesets.key_text([wrong])


if __name__ == '__main__':
    unittest.main()
