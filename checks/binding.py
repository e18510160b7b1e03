#!/usr/bin/env python3
"""Makes each call of examples/library/broker.py, and compares what it returns with what broker.h says. It prints nothing,
and ends with status 1 and a traceback where one differs, or where a call of the header is missing.

    python3 checks/binding.py PREFIX/lib/libgubzelk.so        checks/examples.sh runs it
"""
import pathlib
import re
import sys

top = pathlib.Path(__file__).resolve().parent.parent
sys.path.insert(0, str(top / 'examples/library'))
from broker import Broker, Refused

HEAD, KEY = b'T\2\1\0t\0', b'\1' + bytes(7) + b'\1'
INSERT, DELETE = HEAD + b'\x12\0' + KEY + b'\3\1x', HEAD + b'\x09\0' + KEY + b'\3\1x'
header = (top / 'include/broker.h').read_text()
called = set()


def call(name, *operands):
    called.add(name)
    return getattr(broker, name)(*operands)


def expect(name, *operands, gives=None):
    found = call(name, *operands)
    assert found == gives, f'{name}{operands} gives {found}, and not {gives}'


def refuses(code, why, name, *operands):
    try:
        found = call(name, *operands)
    except Refused as refused:
        assert (refused.args[0], refused.args[2:]) == (code, why) and refused.args[1], f'{name}: {refused.args}'
    else:
        raise AssertionError(f'{name}{operands} gives {found}, and is not refused')


try:
    Broker(sys.argv[1], [(b't', b'\1\0')], limits=(0, 4, 10, 16, 4, 1))
except Refused as refused:
    assert (refused.args[0], refused.args[2:]) == (-4, (0, 0)), refused.args
broker = Broker(sys.argv[1], [(b't', b'\1\0')], limits=(2, 4, 10, 16, 4, 1))
expect('publisher', gives=0)
expect('feed', 0, INSERT[:7])
expect('reset', 0)
expect('feed', 0, INSERT)
expect('end', 0)
expect('left', gives=0)
expect('send', 0, gives=1)
expect('left', gives=1)
expect('turn', gives=1)
expect('turn')
expect('front', gives=1)
expect('entry', 1, gives=(0, 1, 0))
expect('text', 1, gives=INSERT)
expect('subscribe', 0, gives=(0, 1))
expect('take', 0, 5, gives=(1, 0, 1, 1))
expect('take', 0, 5)
expect('accept', 1, gives=1)
expect('cursor', 0, gives=1)
expect('ack', 1, gives=1)
expect('rows', 0, gives=INSERT)
expect('row', 0, 0, KEY, gives=INSERT)
expect('withdraw', 0, 1)
expect('send', 0, gives=2)
expect('turn', gives=2)
expect('entry', 2, gives=(0, 2, 1))
expect('text', 2, gives=DELETE)
expect('combined', 1, 2, gives=b'')
expect('take_any', 5, gives=(2, 0, 2, 2))
expect('nack', 2)
expect('take_any', 5, gives=(3, 0, 2, 2))
expect('nack_opened', 3, gives=1)
expect('take', 0, 5, gives=(4, 0, 2, 2))
expect('expire', 15, gives=1)
expect('take', 0, 15, gives=(5, 0, 2, 2))
refuses(-38, (1, 0), 'ack', 5)
expect('status', 0, gives=(0, 1, 1, 2, 1, 0, 1, 2, False, False))
expect('crash', 5, True, gives=2)
found = call('status', 0)
assert found.fallen is True and found.closed is False and found.front - found.floor == 1, found
refuses(-45, (0, 0), 'accept', 5)
expect('resume', 0, gives=2)
expect('reconnect', 0, 2, gives=3)
expect('unsubscribe', 0)
expect('status', 0, gives=(0, 2, 2, 2, 3, 0, 0, 2, True, False))
refuses(-40, (2, 0), 'subscribe_bare', 3)
refuses(-30, (0, 0), 'status', 1)
refuses(-16, (0, 0), 'entry', 3)
expect('subscribe_bare', 1, gives=(1, 4))
expect('take', 1, 15, gives=(6, 1, 2, 2))
expect('accept', 6, gives=2)
expect('rows', 1, gives=b'')
expect('place', 0, INSERT, gives=3)
expect('text', 3, gives=INSERT)
refuses(-3, (1, 16), 'place', 0, INSERT[:1])
refuses(-20, (0, 0), 'place', 0, b'T\1\1x\0')
expect('end', 0)
refuses(-12, (0, 0), 'place', 0, INSERT)
expect('send', 0, gives=4)
refuses(-23, (1, 0), 'place', 0, INSERT)
expect('turn', gives=4)
expect('close', gives=4)
refuses(-14, (0, 0), 'place', 0, INSERT)
refuses(-14, (0, 0), 'take', 0, 15)
refuses(-33, (0, 0), 'ack', 7)
assert broker.version() == int(re.search(r'BROKER_VERSION_NUMBER (\d+)', header).group(1))
called.add('version')
expect('shut')
refuses(-1, (0, 0), 'place', 0, INSERT)
refuses(-1, (0, 0), 'status', 0)
refuses(-1, (0, 0), 'front')

listed = set(re.findall(r'broker_(\w+)\(', re.sub(r'/\*.*?\*/', '', header, flags=re.S)))
missing = listed - called - {'open', 'free', 'why', 'message'}
assert not missing, f'no call of {missing}'
