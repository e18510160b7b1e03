"""A broker in this process, by the calls of broker.h through ctypes. A program can copy this file (docs/C.md).

A call is a method of a Broker: take(0, 7) makes broker_take. It gets numbers, and bytes without their length, and returns
what the call writes: one number, a tuple of numbers, or a text as bytes. It returns None if the call writes nothing, if
nothing is ready, or if nothing waits. Each other refusal is an error. broker.h says what each number means. Threads that
share a Broker need a lock, since ctypes runs a call without Python's own lock.

A replica's file stores `name` beside each number of the broker: under another name the number says nothing."""
import collections, ctypes, os
from ctypes import byref, c_int64, c_size_t, c_uint64

Status = collections.namedtuple('Status', 'start floor cursor offered link ready in_flight front closed fallen')
BUSY, EMPTY, IDLE, NO_MEMORY = -6, -37, 1, -2
# of each call that writes numbers, how many go to each of its pointers
NUMBERS = dict(publisher=[1], send=[1], turn=[1], place=[1], close=[1], left=[1], front=[1], entry=[3],
               subscribe=[1, 1], subscribe_bare=[1, 1], take=[4], take_any=[4], accept=[1], crash=[1], cursor=[1],
               ack=[1], nack_opened=[1], expire=[1], reconnect=[1], resume=[1])
TEXTS = 'text', 'combined', 'rows', 'row'
# the calls that only read, whose refusals have no numbers
READS = (*TEXTS, 'entry', 'cursor', 'status')


class Refused(Exception):
    """A call is refused (broker.h says what that leaves): its code, what that means, and the two numbers that go with it."""


class Table(ctypes.Structure):
    _fields_ = [('name', ctypes.c_char_p), ('name_len', c_size_t), ('key', ctypes.c_char_p), ('columns', c_size_t)]


class Broker:
    handle = None

    def __init__(self, library, tables, limits=(16, 4, 10, 65536, 64, 1)):
        """Opens a broker of libgubzelk.so for tables (name, key): a byte for each column, its place in the key, or 0."""
        self.lib, self.handle, why = ctypes.CDLL(library), ctypes.c_void_p(), (c_uint64 * 2)()
        self.name = os.urandom(16).hex()
        for name in (*TEXTS, 'message'):
            getattr(self.lib, 'broker_' + name).restype = c_int64
        rows = (Table * len(tables))(*(Table(name, len(name), key, len(key)) for name, key in tables))
        code = self.lib.broker_open(byref(self.handle), (c_uint64 * 6)(*limits), rows, c_size_t(len(rows)), why)
        if code < 0:
            raise Refused(code, self.message(code), *why)

    def __del__(self):
        if self.handle:
            self.lib.broker_free(self.handle)

    def shut(self):
        """Frees what is behind the handle: each later call is refused."""
        self.lib.broker_shut(self.handle)

    def version(self):
        """The version of the library, as one number."""
        return self.lib.broker_version()

    def status(self, subscription):
        """How far a subscription has come: a Status, whose fields are those of struct broker_status."""
        out = (c_uint64 * 9)()
        self.ask('status', c_uint64(subscription), out)
        return Status(*out[:8], *(byte != 0 for byte in bytes(out)[64:66]))

    def __getattr__(self, name):
        return lambda *operands: self.call(name, *operands)

    def call(self, name, *operands):
        words = []
        for it in operands:
            words += [it, c_size_t(len(it))] if isinstance(it, bytes) else [c_uint64(it)]
        if name in TEXTS:
            text = ctypes.create_string_buffer(self.ask(name, *words, b'', c_size_t(0)))
            self.ask(name, *words, text, c_size_t(len(text)))
            return text.raw
        outs = [(c_uint64 * count)() for count in NUMBERS.get(name, [])]
        code = self.ask(name, *words, *outs)
        if code in (EMPTY, IDLE):
            return None
        numbers = [number for out in outs for number in out]
        return numbers[0] if len(numbers) == 1 else tuple(numbers) or None

    def ask(self, name, *words):
        code = getattr(self.lib, 'broker_' + name)(self.handle, *words)
        if code < 0 and code != EMPTY:
            why = (c_uint64 * 2)()
            if name not in READS and code not in (BUSY, NO_MEMORY):
                self.lib.broker_why(self.handle, why)
            raise Refused(code, self.message(code), *why)
        return code

    def message(self, code):
        words = ctypes.create_string_buffer(64)
        self.lib.broker_message(code, words, c_size_t(64))
        return words.value.decode()
