#!/usr/bin/env python3
"""Makes drives by chance (docs/DRIVE.md) with their reports, which must be the same whatever the schedule.

    python3 checks/drives.py           makes the drives of crates/rb_drive_cases anew, and compares them with its packs
    python3 checks/drives.py FOLDER    writes them into a folder, as files NAME.KIND

Each drive is made from a seed, its name. Its report comes from a script with the same changesets: they are fed, sent
and placed one at a time in the order of the lines, and then a subscriber applies them one by one. The program answers
the script, and checks/model.py must give the same answers. The report is put together from these answers. So the
program must be there as `rt run` leaves it (README.md); the variable PROGRAM names another one.

| drives | what is in them |
|---|---|
| `commuting-..` | publishers whose changesets commute, as each has keys of its own; faulty lines among them |
| `faulty-..` | one kind of fault, in lines of all publishers |
| `conflict-..` | one publisher and deliveries of one entry; a changeset conflicts |
| `opened-..-N` | one publisher and deliveries of up to 16 entries, which N threads apply; a changeset conflicts |
| `recorded-..`, `sqlite-..` | one publisher with a history that SQLite recorded; the rows are those that SQLite had |
| `bad-..` | a line of no form, first, in the middle or last |
| `drive-two`, `drive-two-N` | an INSERT, and an UPDATE of its row, by one and by N appliers |
| `drive-faults-..` | a conflict, a faulty line, no changeset |
| the others | limits |

Those of REPLICAS are driven with a replica too. What it must have comes from the rows of the report: each row's key is
its fields that the table's flags name.
"""
import os
import random
import subprocess
import sys

import histories
import model
import packs
from bad_lines import bad_inputs
from changesets import CONFLICTS, FAULTS, Author, header, integer, shapes, string

TOP = os.path.join(os.path.dirname(os.path.abspath(__file__)), '..')
# the conflicts of drives `opened-..`, and how many threads apply a delivery of each
OPENED = {'an-insert-of-a-row': [1, 16], 'an-update-of-other-values': [1, 4], 'a-delete-of-no-row': [4, 16]}
REPLICAS = ['drive-two', 'commuting-085', 'conflict-an-insert-of-a-row-1', 'recorded-text-keys']
PROGRAM = os.path.normpath(os.path.join(TOP, os.environ.get('PROGRAM', 'crates/rb_run/out/rb_run')))


class Drive:
    """tables and changesets (publisher, bytes); `broken` are the places of those that are made faulty"""

    def __init__(self, name, tables, givens, options, broken=()):
        self.name, self.tables, self.givens, self.options = name, tables, givens, options
        self.broken = set(broken)

    def input(self):
        lines = [b'table ' + table.hex().encode() for table in self.tables]
        lines += [b'changeset %d %s' % (p, text.hex().encode() or b'-') for p, text in self.givens]
        return b''.join(line + b'\n' for line in lines)

    def args(self):
        return ' '.join('--%s %d' % option for option in self.options.items())


# ---------------------------------------------------------------- the report
def script_of(drive):
    lines = [b'table ' + table.hex().encode() for table in drive.tables]
    lines += [b'publisher'] * (max((p for p, _ in drive.givens), default=-1) + 1) + [b'subscribe 0']
    for p, text in drive.givens:
        lines += [b'feed %d %s' % (p, text.hex().encode() or b'-'), b'end %d' % p, b'send %d' % p]
        lines += [b'reset %d' % p, b'turn']
    lines += [b'close', b'left']
    for d in range(1, len(drive.givens) + 1):
        lines += [b'take 0 0', b'accept %d' % d, b'ack %d' % d]
    return lines + [b'rows 0']


def by_model(script, options):
    return model.answers(script, **options)


def by_program(script, options):
    words = [word for name, value in options.items() for word in ('--' + name, str(value))]
    done = subprocess.run([PROGRAM, 'script'] + words, input=script, stdout=subprocess.PIPE, check=True)
    return done.stdout.decode()


def by_both(script, options):
    ours, theirs = by_model(script, options), by_program(script, options)
    assert ours == theirs, 'the model answers otherwise than the program'
    return theirs


def outcome(drive, answers_of):
    """the report and the status of a drive, from the answers to its script"""
    lines = script_of(drive)
    options = {'batch': 1}
    if 'capacity' in drive.options:
        options['capacity'] = drive.options['capacity']
    answers = answers_of(b''.join(line + b'\n' for line in lines), options).splitlines()
    rows = answers[len(lines) - 1:]
    said = [(line.split(b' ')[0], answer) for line, answer in zip(lines, answers)]
    ends = [answer for word, answer in said if word == b'end']
    faulty = [place for place, answer in enumerate(ends) if answer != 'staged']
    assert set(faulty) == drive.broken, 'other lines are faulty'
    sent = sum(word == b'send' and answer.startswith('sent ') for word, answer in said)
    placed = sum(word == b'turn' and answer.startswith('placed ') for word, answer in said)
    left = [answer for word, answer in said if word == b'left'][0]
    report = ['placed %d' % placed, left, 'unsent %d' % (len(ends) - len(faulty) - sent)]
    report += ['publisher %d line %d %s' % (drive.givens[place][0], len(drive.tables) + place + 1, ends[place])
               for place in faulty]
    ended, status = end_of([answer for word, answer in said if word == b'accept'], placed)
    for number in range(drive.options.get('subscribers', 1)):
        report += ['subscriber %d %s' % (number, ended)] + rows
    return '\n'.join(report) + '\n', status


def end_of(accepts, placed):
    """how a subscriber ends, and the status"""
    cursor = 0
    for answer in accepts:
        words = answer.split(' ')
        if words[0] == 'accepted':
            cursor = int(words[1])
        elif words[1] == 'Conflict':
            return 'cursor %d conflict %s %s' % (cursor, words[2], words[3]), 3
    assert cursor == placed, 'not drained'
    return 'cursor %d drained' % cursor, 0


def replica(drive, report):
    """what the replica of subscriber 0 has: its cursor, and each row with its table, its key and its body"""
    lines = report.split('subscriber ')[1].splitlines()
    rows = []
    for line in lines[2:]:
        _, table, *fields = line.split(' ')
        flags = shapes_of(drive)[int(table)][1]
        key = ''.join(field for field, flag in zip(fields, flags) if flag)
        rows.append((int(table), bytes.fromhex(key), 'row %s %s %s' % (table, key, ''.join(fields))))
    words = lines[0].split(' ')
    assert words[:2] == ['0', 'cursor'] and lines[1] == 'rows %d' % len(rows), 'no such report'
    return '\n'.join(['cursor ' + words[2]] + [line for _, _, line in sorted(rows)]) + '\n'


# ---------------------------------------------------------------- the drives
def chosen(chance, **choices):
    """some of these options"""
    options = {name: chance.choice(values) for name, values in choices.items()}
    return {name: value for name, value in options.items() if value is not None}


def mixed(name, chance, schema, publishers, count, options, faults=(), share=0.0):
    """a drive of so many lines; a share of them is faulty"""
    owners = {}
    authors = [Author(chance, schema, owners, number) for number in range(publishers)]
    givens, broken = [], []
    for place in range(count):
        author = chance.choice(authors)
        if chance.random() < share:
            givens.append((author.number, FAULTS[chance.choice(faults)](author.apart())))
            broken.append(place)
        else:
            givens.append((author.number, author.changeset()))
    return Drive(name, [header(shape) for shape in schema], givens, options, broken)


def commuting(name):
    chance = random.Random(name)
    options = chosen(chance, subscribers=[None, None, 2, 2, 16], batch=[1, 1, 3, 3, None, 256], window=[None, None, 1],
                     intake=[1, 1, None, 2])
    count = chance.randrange(4, 9 if options.get('subscribers') == 16 else 24)
    kinds = sorted(set(FAULTS) - {'a-long-name'})
    return mixed(name, chance, shapes(chance, chance.randrange(1, 5)), chance.randrange(1, 9), count, options, kinds,
                 chance.choice([0, 0, 0.1, 0.4]))


def faulty(kind):
    """each publisher has a line of this kind between right ones"""
    name = 'faulty-' + kind
    chance = random.Random(name)
    options = chosen(chance, subscribers=[None, 2], batch=[1, 3, None, 256], intake=[1, None])
    right = mixed(name, chance, shapes(chance, 2), 3, 9, options)
    owners = {}
    for number in range(3):
        author = Author(chance, shapes_of(right), owners, number)
        place = chance.randrange(len(right.givens) + 1)
        right.givens.insert(place, (number, FAULTS[kind](author)))
        right.broken = {other + (other >= place) for other in right.broken} | {place}
    return right


def shapes_of(drive):
    return [model.parse(table)[0][:2] for table in drive.tables]


def conflict(kind, number):
    name = 'conflict-%s-%d' % (kind, number)
    chance = random.Random(name)
    schema = shapes(chance, 2)
    while 0 not in schema[0][1]:
        schema = shapes(chance, 2)
    author = Author(chance, schema, {}, 0)
    head = header(schema[0])
    texts = [head + author.insert(0) + author.insert(0)]
    texts += [author.section(1, 3) for _ in range(chance.randrange(3))]
    front = b''.join(author.apart().insert(0) for _ in range(chance.randrange(3)))
    texts += [author.apart().section(1, 2) + head + front + CONFLICTS[kind](author)]
    texts += [author.changeset() for _ in range(chance.randrange(3))]
    options = chosen(chance, subscribers=[None, 2, 16], intake=[None, 1])
    return Drive(name, [header(shape) for shape in schema], [(0, text) for text in texts], dict(options, batch=1))


def opened(kind, appliers):
    """One changeset conflicts, with a row that no changeset of the 16 before it and none after it changes. So each
    delivery that has it conflicts, whichever others it has."""
    name = 'opened-%s-%d' % (kind, appliers)
    chance = random.Random(name)
    schema = shapes(chance, 2)
    while 0 not in schema[0][1]:
        schema = shapes(chance, 2)
    owners = {}
    author, other = Author(chance, schema, owners, 0), Author(chance, schema, owners, 1)
    head = header(schema[0])
    texts = [other.changeset() for _ in range(chance.randrange(4))] + [head + author.insert(0)]
    texts += [other.changeset() for _ in range(chance.randrange(16, 36))]
    bad = CONFLICTS[kind](author)
    front = b''.join(other.apart().insert(0) for _ in range(chance.randrange(2)))
    texts += [other.apart().section(1, 2) + head + front + bad]
    texts += [other.changeset() for _ in range(chance.randrange(2, 20))]
    options = chosen(chance, subscribers=[None, 2], intake=[None, 1], batch=[None, 16])
    return Drive(name, [header(shape) for shape in schema], [(0, text) for text in texts],
                 dict(options, appliers=appliers))


def lone_delete():
    """a DELETE of a row that isn't there"""
    head = header((b't', b'\x01\x00'))
    delete = head + b'\x09\x00' + integer(1) + string(3, b'x')
    return Drive('drive-faults-conflict', [head], [(0, delete)], {})


def recorded():
    """the histories that SQLite recorded, each with the rows that SQLite had"""
    for name, tables, texts, rows in histories.histories():
        chance = random.Random(name)
        options = chosen(chance, subscribers=[None, None, 2], batch=[1, 3, 256, None], intake=[1, None],
                         window=[1, None])
        headers = [model.octets(table.split(b' ')[1]) for table in tables]
        yield Drive(name, headers, [(0, text) for text in texts], options), rows.decode()


def limits():
    one = (b't', b'\x01\x00')
    head = header(one)

    def row(number):
        return head + b'\x12\x00' + integer(number) + string(3, b'x')

    for publishers in (1, 3):
        givens = [(number % publishers, row(number)) for number in range(12)]
        yield Drive('as-many-as-the-capacity-%d' % publishers, [head], givens, {'capacity': 12, 'batch': 3})
    for subscribers in (1, 16):
        givens = [(0, row(number)) for number in range(6)] + [(0, b'P')]
        yield Drive('one-more-than-the-capacity-%d' % subscribers, [head], givens,
                    {'subscribers': subscribers, 'capacity': 5, 'intake': 1}, [6])
    update = head + b'\x17\x00' + integer(1) + string(3, b'x') + b'\x00' + string(3, b'y')
    yield Drive('drive-two', [head], [(0, row(1)), (0, update)], {})
    for appliers in (4, 16):
        yield Drive('drive-two-%d' % appliers, [head], [(0, row(1)), (0, update)], {'appliers': appliers})
    yield Drive('drive-faults-faulty', [head], [(0, row(1)), (1, b'P')], {}, [1])
    yield Drive('drive-faults-nothing', [head], [], {})
    givens = [(number % 2, row(number)) for number in range(600)]
    yield Drive('a-full-intake', [head], givens, {'intake': 1})
    long = b''.join(b'\x12\x00' + integer(number) + string(3, b'x') for number in range(2300))
    givens = [(0, head + long), (1, row(2300)), (0, row(2301))]
    yield Drive('nothing-sent-at-first', [head], givens, {'batch': 1})
    yield Drive('sixty-four-publishers', [head], [(number, row(number)) for number in range(64)], {'intake': 1})
    yield Drive('the-last-publisher-alone', [head], [(63, row(number)) for number in range(8)], {'subscribers': 2})
    yield Drive('no-line', [], [], {})
    yield Drive('no-table', [], [(0, b''), (1, b''), (1, row(1)), (0, b'')], {'subscribers': 2}, [2])
    yield Drive('no-changeset', [head, header((b'u', b'\x01'))], [], {'subscribers': 16})
    givens = [(number, b'P') for number in range(8)]
    yield Drive('faulty-lines-alone', [head], givens, {'subscribers': 2, 'batch': 1}, range(8))
    tables = [header((b'%x' % number, b'\x01')) for number in range(1024)]
    yield Drive('as-many-tables-as-may-be', tables, [(0, tables[-1] + b'\x12\x00' + integer(7))], {})
    wide = (65536 - len(b'changeset 0 ')) // 2 - len(head) - 2 - 9 - 4
    yield Drive('the-longest-line', [head], [(0, head + b'\x12\x00' + integer(1) + string(4, b'b' * wide))], {})


def all_drives():
    """the files of each drive: name, {end: bytes}"""
    made = [commuting('commuting-%03d' % number) for number in range(1, 101)]
    made += [faulty(kind) for kind in FAULTS] + list(limits())
    for drive in made:
        yield files_of(drive, 0)
    yield files_of(lone_delete(), 3)
    for kind in CONFLICTS:
        for number in (1, 2, 3):
            yield files_of(conflict(kind, number), 3)
    for kind in OPENED:
        for appliers in OPENED[kind]:
            yield files_of(opened(kind, appliers), 3)
    for drive, rows in recorded():
        name, files = files_of(drive, 0)
        assert files['report'].decode().endswith(rows), '%s: other rows than SQLite had' % name
        yield name, files
    for name, text, line in bad_inputs():
        yield name, {'drive': text, 'fault': b'line %d\n' % line}


def files_of(drive, wanted):
    try:
        report, status = outcome(drive, by_both)
        assert status == wanted, 'status %d' % status
    except AssertionError as why:
        sys.exit('drives.py: %s: %s' % (drive.name, why))
    files = {'drive': drive.input(), 'report': report.encode()}
    if drive.options:
        files['args'] = drive.args().encode() + b'\n'
    if status:
        files['status'] = b'%d\n' % status
    if drive.name in REPLICAS:
        files['replica'] = replica(drive, report).encode()
    return drive.name, files


def main():
    if not os.access(PROGRAM, os.X_OK):
        sys.exit('drives.py: no program at %s: see README.md' % PROGRAM)
    folder = sys.argv[1] if len(sys.argv) > 1 else None
    if folder and not os.path.isdir(folder):
        sys.exit('drives.py: no folder %s' % folder)
    made = {'%s.%s' % (name, end): text for name, files in all_drives() for end, text in files.items()}
    count = sum(name.endswith('.drive') for name in made)
    if folder:
        for name, text in made.items():
            with open(os.path.join(folder, name), 'wb') as f:
                f.write(text)
        print('%d drives, %d files, %d bytes' % (count, len(made), sum(map(len, made.values()))))
        return
    kept = {'%s.%s' % (name, kind): text for kind, texts in packs.kinds_of('rb_drive_cases').items()
            for name, text in texts.items()}
    others = sorted(name for name in made.keys() | kept.keys() if made.get(name) != kept.get(name))
    for name in others:
        print('%s differs' % name)
    print('%d drives made anew' % count)
    if others:
        sys.exit('drives.py: %d texts differ' % len(others))


if __name__ == '__main__':
    main()
