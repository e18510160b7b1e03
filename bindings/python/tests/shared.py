"""What the tests share: where things lie, the seed, a broker of one table, and texts for it.

GUBZELK_LIBRARY names the library, GUBZELK_STUB the stub, and SEED the seed. checks/python.sh sets them."""
import os
import pathlib
import random
import sys

TOP = pathlib.Path(__file__).resolve().parents[3]
sys.path.insert(0, str(TOP / 'checks'))

import gubzelk  # noqa: E402

SEED = int(os.environ.get('SEED', '1'))
STUB = os.environ.get('GUBZELK_STUB', '')
HEADER = (TOP / 'include/broker.h').read_text()

HEAD, KEY = b'T\2\1\0t\0', b'\1' + bytes(7) + b'\1'
INSERT, DELETE = HEAD + b'\x12\0' + KEY + b'\3\1x', HEAD + b'\x09\0' + KEY + b'\3\1x'


def chance(name: str) -> random.Random:
    return random.Random(f'{name}-{SEED}')


def opened(**limits: int) -> gubzelk.Broker:
    return gubzelk.Broker([gubzelk.Table('t', (1, 0))], gubzelk.Limits()._replace(**limits))


def insert(key: int, value: bytes = b'x') -> bytes:
    """A changeset that inserts a row into `t`; the value is shorter than 128 bytes."""
    return HEAD + b'\x12\0\1' + key.to_bytes(8, 'big') + b'\3' + bytes([len(value)]) + value


def update(key: int, old: bytes, new: bytes) -> bytes:
    return (HEAD + b'\x17\0\1' + key.to_bytes(8, 'big') + b'\3' + bytes([len(old)]) + old
            + b'\0\3' + bytes([len(new)]) + new)
