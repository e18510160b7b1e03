"""Makes tables and changesets by chance, right ones and faulty ones, for checks/drives.py and checks/rings.py.

An author has rows of its own, under keys that no other author has, so the changesets of two authors commute. A right
changeset applies after the author's earlier ones.
"""
from model import DEL, INS, UPD, short_varint

NULL = b'\x05'
UNDEFINED = b'\x00'
NUMBERS = [0, 1, -1, 127, 128, 255, 256, 1 << 32, (1 << 63) - 1, -(1 << 63)]
STRINGS = [b'', b'x', b"it's", 'ä€'.encode(), b'\xc3\x28', b'a b\n', b'0' * 127, b'1' * 128]
NAMES = [b't', b'u', b'Orders', b'a b', 'größe'.encode(), b'T"x', b'sqlite_x']


def integer(number):
    return b'\x01' + (number % (1 << 64)).to_bytes(8, 'big')


def string(kind, value):
    return bytes([kind]) + short_varint(len(value)) + value


def value(chance, is_key):
    """a value's canonical bytes; that of a key isn't NULL"""
    kind = chance.choice('iiitb' if is_key else 'niittb')
    if kind == 'n':
        return NULL
    if kind == 'i':
        return integer(chance.choice(NUMBERS) if chance.random() < 0.4 else chance.randrange(100000))
    if chance.random() < 0.3:
        found = chance.choice(STRINGS[:6] if chance.random() < 0.8 else STRINGS)
    else:
        found = bytes(chance.choice(b'abcdefgh') for _ in range(chance.randrange(1, 5)))
    return string(3 if kind == 't' else 4, found)


def header(shape):
    name, flags = shape
    return b'T' + short_varint(len(flags)) + flags + name + b'\x00'


def shapes(chance, count):
    """tables of one to five columns, with keys of one to three of them"""
    found = []
    for name in chance.sample(NAMES, count):
        columns = chance.choice([1, 2, 2, 3, 4, 5])
        places = chance.sample(range(columns), min(columns, chance.choice([1, 1, 2, 3])))
        found.append((name, bytes(places.index(i) + 1 if i in places else 0 for i in range(columns))))
    return found


def spelled(chance, field):
    """the field as a text may spell it: a length may have more bytes than it needs"""
    if field[0] in (3, 4) and chance.random() < 0.1:
        return field[:1] + b'\x80' * chance.randrange(1, 4) + field[1:]
    return field


def change(chance, op, *records):
    indirect = chance.choice([0, 0, 0, 1, 5])
    return bytes([op, indirect]) + b''.join(spelled(chance, field) for record in records for field in record)


class Author:
    """a publisher's rows, {(table, key): fields}; `owners` says whose a key is, for all authors"""

    def __init__(self, chance, schema, owners, number):
        self.chance, self.schema, self.owners, self.number, self.rows = chance, schema, owners, number, {}

    def apart(self):
        """an author with the same rows, whose changes don't change these"""
        other = Author(self.chance, self.schema, dict(self.owners), self.number)
        other.rows = dict(self.rows)
        return other

    def key(self, table, fields):
        return table, b''.join(field for field, flag in zip(fields, self.schema[table][1]) if flag)

    def fresh(self, table):
        """a row that isn't there, under a key of this author's"""
        while True:
            fields = [value(self.chance, flag != 0) for flag in self.schema[table][1]]
            key = self.key(table, fields)
            if key not in self.rows and self.owners.get(key, self.number) == self.number:
                self.owners[key] = self.number
                return key, fields

    def some_row(self, table):
        """a row of the table that is there, or None"""
        return self.chance.choice(sorted(key for key in self.rows if key[0] == table) or [None])

    def step(self, table):
        """the bytes of a change that applies"""
        key = self.some_row(table)
        draw = self.chance.random()
        if key is None or draw < 0.4:
            return self.insert(table)
        if draw < 0.75:
            return self.update(key)
        return change(self.chance, DEL, self.rows.pop(key))

    def insert(self, table):
        key, fields = self.fresh(table)
        self.rows[key] = fields
        return change(self.chance, INS, fields)

    def update(self, key):
        old, new, row = [], [], self.rows[key]
        for field, flag in zip(row, self.schema[key[0]][1]):
            draw = self.chance.random()
            other = value(self.chance, False) if draw < 0.7 else field
            says = draw < 0.8
            old.append(field if flag or says else UNDEFINED)
            new.append(other if says and not flag else UNDEFINED)
        self.rows[key] = [one if other == UNDEFINED else other for one, other in zip(row, new)]
        return change(self.chance, UPD, old, new)

    def section(self, table, most):
        count = self.chance.randrange(0, most + 1)
        return header(self.schema[table]) + b''.join(self.step(table) for _ in range(count))

    def changeset(self, most=3):
        """the bytes of a changeset that applies, now and then one without changes"""
        if self.chance.random() < 0.04:
            return b''
        return b''.join(self.section(self.chance.randrange(len(self.schema)), most)
                        for _ in range(self.chance.choice([1, 1, 1, 2, 3])))


# ---------------------------------------------------------------- faults
# Each takes an author whose changes don't count, and gives bytes that are no changeset of the tables.
PAIR = (b'pair', b'\x01\x00')
ONE, X, LONG_NAME = integer(1), string(3, b'x'), b'n' * 1025


def cut(author):
    text = author.section(0, 2)
    last = author.insert(0)
    return text + last[:author.chance.randrange(1, len(last))]


def after(*parts):
    """these bytes after a right front"""
    return lambda author: author.changeset() + b''.join(parts)


def pair(*records):
    """a change of the table `pair`, wherever the fault is, after a right front"""
    return after(header(PAIR), *records)


def other_shape(author):
    name, flags = author.chance.choice(author.schema)
    return author.changeset() + header((name, flags + b'\x00')) + bytes([DEL, 0]) + ONE * (len(flags) + 1)


FAULTS = {
    'a-cut-change': cut,
    'a-cut-header': after(b'T\x03\x01\x00'),
    'a-cut-length': pair(b'\x12\x00', ONE, b'\x03\x81'),
    'a-cut-value': pair(b'\x12\x00', ONE, b'\x03\x05abcd'),
    'a-patchset': lambda author: b'P' + author.section(0, 2)[1:],
    'a-bad-marker': lambda author: bytes([author.chance.choice([0, 0x12, 0x53, 0xff])]) + author.section(0, 1)[1:],
    'no-columns': after(b'T\x00t\x00'),
    'too-many-columns': after(b'T' + short_varint(2001)),
    'a-long-column-count': after(b'T' + b'\xff' * 9),
    'no-key': after(b'T\x02\x00\x00t\x00'),
    'no-name': after(b'T\x01\x01\x00'),
    'a-long-name': lambda author: b'T\x01\x01' + LONG_NAME + b'\x00',
    'a-bad-operation': pair(b'\x13\x00', ONE, X),
    'a-byte-more': lambda author: author.section(0, 1) + author.insert(0) + bytes([author.chance.choice([0, 1, 0xff])]),
    'a-length-above-the-limit': pair(b'\x12\x00', ONE, b'\x03\x88\x80\x80\x01'),
    'a-length-of-nine-bytes': pair(b'\x12\x00', ONE, b'\x04' + b'\xff' * 9),
    'a-bad-type': pair(b'\x12\x00', ONE, b'\x06'),
    'a-real': pair(b'\x12\x00', ONE, b'\x02\x40\x14\x00\x00\x00\x00\x00\x00'),
    'a-real-key': pair(b'\x12\x00\x02\x40\x14\x00\x00\x00\x00\x00\x00', X),
    'a-null-key': pair(b'\x12\x00', NULL, X),
    'a-key-that-is-missing': pair(b'\x17\x00', UNDEFINED, X, UNDEFINED, NULL),
    'a-key-that-changes': pair(b'\x17\x00', ONE, X, ONE, NULL),
    'a-value-that-is-missing': pair(b'\x12\x00', ONE, UNDEFINED),
    'an-old-value-alone': pair(b'\x17\x00', ONE, X, UNDEFINED, UNDEFINED),
    'a-new-value-alone': pair(b'\x17\x00', ONE, UNDEFINED, UNDEFINED, X),
    'no-such-table': pair(b'\x12\x00', ONE, X),
    'no-such-table-and-no-change': pair(),
    'another-shape': other_shape,
}


# ---------------------------------------------------------------- conflicts
# Each takes an author with a row of table 0 and one more column than its key, and gives a change that conflicts.
def row_of(author):
    key = author.some_row(0)
    return author.rows[key], author.schema[0][1]


def again(author):
    """inserts a row that is there"""
    return change(author.chance, INS, row_of(author)[0])


def of_no_row(op):
    def made(author):
        _, fields = author.fresh(0)
        flags = author.schema[0][1]
        new = [UNDEFINED if flag else NULL for flag in flags]
        return change(author.chance, op, fields, *([new] if op == UPD else []))
    return made


def of_other_values(op):
    def made(author):
        row, flags = row_of(author)
        old = [field if flag else string(4, b'other' + field) for field, flag in zip(row, flags)]
        new = [UNDEFINED if flag else NULL for flag in flags]
        return change(author.chance, op, old, *([new] if op == UPD else []))
    return made


CONFLICTS = {
    'an-insert-of-a-row': again,
    'an-update-of-no-row': of_no_row(UPD),
    'a-delete-of-no-row': of_no_row(DEL),
    'an-update-of-other-values': of_other_values(UPD),
    'a-delete-of-other-values': of_other_values(DEL),
}
