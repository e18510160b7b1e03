#!/usr/bin/env python3
"""Runs scripts made by chance, in which deliveries are accepted, settled, given back and opened, against the model.

    python3 checks/deliveries.py [COUNT [FIRST]]     needs the program as `rt run` leaves it (README.md)
    python3 checks/deliveries.py --script SEED       prints one script, and its options on standard error

Script number N is made from the seed N, from FIRST on; there are 300 from 1 on where nothing is said. Each has limits of
its own, up to three subscriptions and some 400 lines. A changeset in twenty or so conflicts with the rows that the earlier
ones leave, so that batches are refused and opened. The program's answers are compared with those of checks/model.py. It
prints each script that differs, and then how many ran and differed. The status is 1 if one differed.
"""
import os
import random
import subprocess
import sys

import model
from changesets import integer, string

TOP = os.path.join(os.path.dirname(os.path.abspath(__file__)), '..')
PROGRAM = os.path.normpath(os.path.join(TOP, os.environ.get('PROGRAM', 'crates/rb_run/out/rb_run')))
TABLE = bytes.fromhex('540201007400')


def change_of(chance, rows):
    """one change of a row: mostly one that applies after the earlier ones, which `rows` has"""
    key = chance.randrange(8)
    old, new = rows.get(key), b'%c' % chance.choice(b'abcdef')
    if chance.random() < 0.04:
        old = None if old else b'z'
    if old is None:
        rows[key] = new
        return bytes([model.INS, 0]) + integer(key) + string(3, new)
    if chance.random() < 0.4:
        rows.pop(key, None)
        return bytes([model.DEL, 0]) + integer(key) + string(3, old)
    rows[key] = new
    return bytes([model.UPD, 0]) + integer(key) + string(3, old) + b'\x00' + string(3, new)


def put(chance, rows):
    changes = b''.join(change_of(chance, rows) for _ in range(chance.choice([1, 1, 1, 2])))
    return ['feed 0 %s' % (TABLE + changes).hex(), 'end 0', 'send 0', 'turn']


def fitting(chance, world):
    """a delivery that its subscription may accept next, or any other"""
    fit = [number for number, sub, _, first, _ in world.deliveries if first == sub.cursor + 1]
    if fit and chance.random() < 0.8:
        return fit[-1]
    return len(world.deliveries) - chance.choice([0, 0, 0, 1, 2, 4])


def in_flight(chance, world):
    """a delivery that is in flight, or any other"""
    if world.flight and chance.random() < 0.8:
        return chance.choice(world.flight).number
    return len(world.deliveries) - chance.choice([-1, 0, 0, 1, 2, 4])


def script_of(seed):
    """the script's lines, and its options; the model steps along, so that most lines fit"""
    chance = random.Random('deliveries-%d' % seed)
    options = {'batch': chance.choice([1, 2, 3, 5, 16]), 'window': chance.choice([1, 2, 3, 8]),
               'timeout': chance.choice([1, 3, 10])}
    world, lines, rows, clock = model.World(**options), [], {}, 0

    def say(*added):
        for line in added:
            lines.append(line)
            world.line(line.encode())

    subs = chance.choice([1, 1, 2, 3])
    say('table ' + TABLE.hex(), 'publisher', *['subscribe 0'] * subs)
    while len(lines) < 400:
        sub = chance.randrange(subs)
        kind = chance.choice(['put'] * 4 + ['take'] * 5 + ['takeany'] * 2 + ['accept'] * 6 + ['ack'] * 3 + ['nack']
                             + ['nackopen'] * 3 + ['expire', 'reconnect', 'rows', 'rare'])
        if kind == 'put':
            say(*put(chance, rows) * chance.choice([1, 1, 1, 2]))
        elif kind in ('take', 'takeany', 'expire'):
            clock += chance.choice([0, 0, 0, 1])
            say('%s %d %d' % (kind, sub, clock) if kind == 'take' else '%s %d' % (kind, clock))
        elif kind == 'reconnect':
            found = world.subs[sub]
            say('reconnect %d %d' % (sub, chance.choice([found.cursor, found.cursor, found.floor, found.offered + 1])))
        elif kind == 'rows':
            say('rows %d' % sub)
        elif kind == 'rare':
            say(chance.choice(['crash %d 0' % fitting(chance, world), 'crash %d 1' % fitting(chance, world),
                               'subscribe %d' % chance.randrange(5), 'unsubscribe %d' % (sub + subs)]))
            say('resume %d' % sub)
        else:
            number = fitting(chance, world) if kind == 'accept' else in_flight(chance, world)
            say('%s %d' % (kind, max(0, number)))
    say(*['rows %d' % s for s in range(subs)])
    return ''.join(line + '\n' for line in lines).encode(), options


def differs(seed):
    script, options = script_of(seed)
    words = [word for name, value in options.items() for word in ('--' + name, str(value))]
    done = subprocess.run([PROGRAM, 'script'] + words, input=script, stdout=subprocess.PIPE, check=True)
    return done.stdout.decode() != model.answers(script, **options)


def main():
    words = sys.argv[1:]
    if words[:1] == ['--script']:
        script, options = script_of(int(words[1]))
        print(' '.join('--%s %d' % option for option in options.items()), file=sys.stderr)
        sys.stdout.write(script.decode())
        return
    count, first = ([int(word) for word in words] + [300, 1][len(words):])[:2]
    found = [seed for seed in range(first, first + count) if differs(seed)]
    for seed in found:
        print('script %d differs' % seed)
    print('%d scripts, %d differ' % (count, len(found)))
    sys.exit(1 if found else 0)


if __name__ == '__main__':
    main()
