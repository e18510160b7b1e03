"""Scripts made by chance, as calls of a Broker, against checks/model.py. COUNT scripts of two kinds are run, 40 without it."""
import os
import random
import unittest

from shared import SEED

import changesets as made
import deliveries
import gubzelk
import model
from gubzelk import FaultKind, changesets

CALLS = dict(takeany='take_any', nackopen='nack_opened')
# how a script shows what a call returns
SHOWN = dict(publisher='publisher {0}', send='sent {0}', turn='placed {0}', close='closed {0}', accept='accepted {0}',
             crash='crashed {0}', ack='floor {0}', nackopen='opened {0}', expire='expired {0}', reconnect='link {0}',
             resume='link {0}', left='left {0}', subscribe='subscriber {0} link {1}', take='delivery {0} {1} {2} {3}',
             takeany='delivery {0} {1} {2} {3}', end='staged', withdraw='staged')


def camel(kind):
    return ''.join(word.capitalize() for word in FaultKind(kind).name.split('_'))


class Script:
    """Answers the lines of a script by calls."""

    def __init__(self, options):
        self.limits, self.tables, self.broker = gubzelk.Limits(**options), [], None
        self.subscriptions, self.conflicts = {}, 0

    def line(self, raw):
        if model.World.form(model.World, raw) is None:
            return ['refused Line']
        name, *words = raw.decode().split(' ')
        if name == 'table':
            header = changesets.Source(bytes.fromhex(words[0])[1:]).header()
            self.tables.append(header)
            return ['ok']
        if self.broker is None:
            self.broker = gubzelk.Broker(self.tables, self.limits)
        operands = [b'' if word == '-' else bytes.fromhex(word) if form == 'h' else word == '1' if form == 'b'
                    else int(word) for form, word in zip(model.World.FORMS[name], words)]
        try:
            return getattr(self, name, lambda *words: self.shown(name, *words))(*operands)
        except gubzelk.Fault as fault:
            return [f'fault {fault.at} {camel(fault.kind)}']
        except gubzelk.Conflict as conflict:
            self.conflict(operands[0], conflict)
            return [f'refused Conflict {conflict.position} {int(conflict.kind)}']
        except gubzelk.Refused as refused:
            kind = type(refused).__name__
            return [' '.join(['refused', kind] + [str(getattr(refused, word)) for word in refused.shows])]

    def conflict(self, delivery, conflict):
        """The change that a conflict names agrees with the rows of its delivery's subscription."""
        place = [table.name for table in self.broker.tables].index(conflict.table)
        try:
            row = self.broker.row(self.subscriptions[delivery], place, conflict.key)
        except gubzelk.NoRow:
            row = None
        assert (row is None) == (conflict.kind == gubzelk.ConflictKind.NOTFOUND)
        assert (conflict.change.operation == gubzelk.Operation.INSERT) == (conflict.kind == gubzelk.ConflictKind.CONFLICT)
        self.conflicts += 1

    def shown(self, name, *operands):
        found = getattr(self.broker, CALLS.get(name, name))(*operands)
        if isinstance(found, gubzelk.Taken):
            self.subscriptions[found.number] = found.subscription
        if found is None and name in ('take', 'takeany'):
            return [f'refused Empty {self.broker.why()[0]}']
        if found is None and name == 'turn':
            return ['idle']
        return [SHOWN.get(name, 'ok').format(*(found if isinstance(found, tuple) else [found]))]

    def entry(self, entry):
        about, text = self.broker.entry(entry), self.broker.text(entry)
        origin = f'w{about.withdraws}' if about.withdraws else 's'
        return [f'entry {entry} {about.publisher} {about.own} {origin} {text.hex() or "-"}']

    def combine(self, first, last):
        return ['text ' + (self.broker.combined(first, last).hex() or '-')]

    def rows(self, subscription):
        found, places = [], {table.name: at for at, table in enumerate(self.broker.tables)}
        for change in changesets.read(self.broker.rows(subscription)):
            fields = [b'\5' if field is None else changesets.spelled(field) for field in change.new]
            assert self.broker.row(subscription, places[change.table], change.key)
            found.append(' '.join(['row', str(places[change.table])] + [field.hex() for field in fields]))
        return [f'rows {len(found)}'] + found


def wide(draws):
    """A script with several tables, publishers and kinds of values, faulty texts, pieces and withdrawals."""
    options = dict(batch=draws.choice([1, 2, 5]), window=draws.choice([1, 3]), timeout=draws.choice([1, 4]),
                   capacity=draws.choice([5, 40]), intake=draws.choice([1, 3]))
    schema, owners = made.shapes(draws, draws.choice([1, 2, 3])), {}
    authors = [made.Author(draws, schema, owners, number) for number in range(2)]
    lines = ['table ' + made.header(shape).hex() for shape in schema] + ['publisher'] * 2 + ['subscribe 0'] * 2
    for _ in range(250):
        p, s, n = draws.randrange(2), draws.randrange(3), draws.randrange(12)
        kind = draws.choice(['put'] * 5 + ['bad', 'send', 'turn', 'turn', 'withdraw', 'entry', 'combine', 'left', 'rows'] +
                            ['take', 'takeany', 'accept', 'accept', 'ack'] * 2 + ['nack', 'nackopen', 'expire', 'rare'])
        if kind == 'put':
            text = authors[p].changeset()
            at = draws.randrange(len(text) + 1)
            pieces = [text[:at], text[at:]] if draws.random() < 0.3 else [text]
            lines += [f'feed {p} {piece.hex() or "-"}' for piece in pieces] + [f'end {p}', f'send {p}', 'turn']
        elif kind == 'bad':
            text = bytearray(authors[p].apart().changeset() + b'T')
            text[draws.randrange(len(text))] = draws.randrange(256)
            lines += [f'feed {p} {text.hex()}', f'end {p}', f'reset {p}']
        elif kind in ('withdraw', 'combine', 'take'):
            one = {'withdraw': p, 'combine': draws.randrange(9), 'take': s}[kind]
            lines.append(f'{kind} {one} {n}')
        elif kind == 'rare':
            lines.append(draws.choice([f'crash {n} {p}', f'resume {s}', f'reconnect {s} {n}', f'subscribe {n}',
                                       f'unsubscribe {s + 1}', 'close' if draws.random() < 0.2 else 'left']))
        else:
            form = model.World.FORMS[kind]
            lines.append(' '.join([kind] + [str({'send': p, 'rows': s}.get(kind, n)) for _ in form]))
    return ''.join(line + '\n' for line in lines).encode(), options


class Model(unittest.TestCase):
    def compare(self, script, options, seen):
        world, calls = model.World(**options), Script(options)
        for at, raw in enumerate(model.lines_of(script)):
            wanted = world.line(raw)
            self.assertEqual(calls.line(raw), wanted, f'line {at}: {raw.decode()}')
            seen.update(' '.join(answer.split()[:2]) for answer in wanted if answer.startswith('refused'))
        calls.broker.free()
        return calls.conflicts

    def test_scripts(self):
        seen, count, conflicts = set(), int(os.environ.get('COUNT', '40')), 0
        for number in range(count):
            conflicts += self.compare(*deliveries.script_of(SEED * 1000 + number), seen)
            conflicts += self.compare(*wide(random.Random(f'wide-{SEED}-{number}')), seen)
        self.assertGreater(len(seen), 15, sorted(seen))
        self.assertGreater(conflicts, count // 10)


if __name__ == '__main__':
    unittest.main()
