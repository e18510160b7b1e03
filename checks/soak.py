#!/usr/bin/env python3
"""Long runs of one broker with as many publishers and subscriptions as there may be, judged answer by answer.

    python3 checks/soak.py SEED [SECONDS [ENTRIES]]      needs the program as `rt run` leaves it (README.md)

Each run has the next seed, and runs follow one another until the program has taken SECONDS of processor time, 600 where
nothing is said. A script has 64 publishers, 1,024 subscriptions and ENTRIES entries, 100,000 where nothing is said.
Sixteen of the subscriptions lag, take, accept, settle, give back, open, let expire, fall and reconnect by chance; the
others accept little, and what they began after makes conflicts. In the end the sixteen are drained, and every entry,
their rows and what is left are shown. After each script comes a drive of 64 publishers and 16 subscribers.

The expected answers are made along with the lines, by the rules of docs/ and without the program. A row is what the
changesets up to the cursor give, applied one after another. It prints a line for each run, with the time and the
greatest memory that it took, and ends with status 1 at the first answer that differs, or where a run takes more than
MOST_KB or hangs for an hour.
"""
import os
import random
import subprocess
import sys
import tempfile
import time

import model
from changesets import integer, string

TOP = os.path.normpath(os.path.join(os.path.dirname(os.path.abspath(__file__)), '..'))
PROGRAM = os.path.join(TOP, os.environ.get('PROGRAM', 'crates/rb_run/out/rb_run'))
PUBLISHERS, SUBSCRIPTIONS, RUNNERS, KEYS = 64, 1024, 16, 400
MOST_KB = int(os.environ.get('MOST_KB', 200000))
# a run that has not ended after so many looks, a hundredth of a second apart, hangs
MOST_LOOKS = 360000
TABLE = bytes.fromhex('540201007400')
SHAPE = (b't', b'\x01\x00')


class Span:
    """numbers that were taken: ready again, in flight with number and moment, or settled"""

    def __init__(self, first, last):
        self.first, self.last, self.number, self.moment, self.settled = first, last, None, None, False


class Sub:
    """a subscription: what it ever took of the numbers after its floor, and from where on it took nothing"""

    def __init__(self, number, start, link):
        self.number, self.start, self.link, self.cursor = number, start, link, start
        self.floor, self.offered, self.spans, self.tail = start, start, [], start + 1
        self.rows, self.fallen = {}, False

    def flying(self):
        return [span for span in self.spans if span.number is not None]


class Soak:
    def __init__(self, seed, entries):
        self.chance = random.Random('soak-%d' % seed)
        self.options = {'batch': self.chance.choice([32, 64, 100, 256]), 'window': self.chance.choice([2, 4, 8]),
                        'timeout': self.chance.choice([3, 10, 50]), 'capacity': entries, 'intake': 64}
        for name, value in self.options.items():
            setattr(self, name, value)
        self.entries = entries
        self.lines, self.wanted = [], []
        # of each entry: publisher, own number, origin, sections, and the rows that it leaves
        self.sequence, self.waiting = [], []
        self.own, self.rows, self.touched, self.withdrawn = [0] * PUBLISHERS, {}, {}, set()
        self.subs, self.deliveries, self.flight = [], [], []
        self.clock, self.links, self.closing = 0, 0, None

    def say(self, line, *answers):
        self.lines.append(line)
        self.wanted.extend(answers)

    # ------------------------------------------------------------ publishers
    def change(self):
        """a change that applies after all that were sent, and the row that it leaves"""
        key = self.chance.randrange(KEYS)
        row, new = self.rows.get(key), b'%x' % self.chance.randrange(1 << 24)
        field, value = integer(key), string(3, new)
        if row is None:
            return key, (model.INS, 0, None, [field, value]), value
        if self.chance.random() < 0.3:
            return key, (model.DEL, 0, [field, row], None), None
        if row == value:
            return self.change()
        return key, (model.UPD, 0, [field, row], [None, value]), value

    def send(self):
        publisher = self.chance.randrange(PUBLISHERS)
        sections, left, origin = [], {}, 's'
        back = self.to_withdraw(publisher) if self.chance.random() < 0.02 else None
        if back is not None:
            sections, left, origin = back
            self.say('withdraw %d %s' % (publisher, origin[1:]), 'staged')
        else:
            if self.chance.random() > 0.01:
                key, change, row = self.change()
                sections, left = [(SHAPE[0], SHAPE[1], [change])], {key: row}
            text = model.canonical(sections)
            cut = self.chance.randrange(len(text)) if text and self.chance.random() < 0.02 else len(text)
            for piece in (text[:cut], text[cut:]):
                if piece or not text:
                    self.say('feed %d %s' % (publisher, piece.hex() or '-'), 'ok')
                if not text:
                    break
            self.say('end %d' % publisher, 'staged')
        self.own[publisher] += 1
        self.say('send %d' % publisher, 'sent %d' % self.own[publisher])
        self.waiting.append((publisher, self.own[publisher], origin, sections, left))
        number = len(self.sequence) + len(self.waiting)
        for key, row in left.items():
            self.touched[key] = number
            if row is None:
                self.rows.pop(key, None)
            else:
                self.rows[key] = row

    def to_withdraw(self, publisher):
        """the withdrawal of one of the last entries, whose row nothing has changed since"""
        for number in range(len(self.sequence), max(0, len(self.sequence) - 300), -1):
            sender, _, origin, sections, left = self.sequence[number - 1]
            if sender != publisher or number in self.withdrawn or not left:
                continue
            if any(self.touched[key] != number for key in left):
                continue
            self.withdrawn.add(number)
            undone = model.inverse(model.group(sections))
            rows = {}
            for _, _, changes in undone:
                for op, _, old, new in changes:
                    field = new[0] if op == model.INS else old[0]
                    rows[int.from_bytes(field[1:], 'big')] = None if op == model.DEL else new[1]
            return undone, rows, 'w%d' % number
        return None

    def turn(self):
        if not self.waiting:
            return self.say('turn', 'idle')
        self.sequence.append(self.waiting.pop(0))
        return self.say('turn', 'placed %d' % len(self.sequence))

    # ------------------------------------------------------------ subscriptions
    def subscribe(self, start):
        self.links += 1
        self.subs.append(Sub(len(self.subs), start, self.links))
        self.say('subscribe %d' % start, 'subscriber %d link %d' % (self.subs[-1].number, self.links))

    def take(self, sub, now):
        line, front = 'take %d %d' % (sub.number, now), len(self.sequence)
        if len(sub.flying()) == self.window:
            return self.say(line, 'refused WindowFull')
        if self.closing is not None and not sub.spans and sub.tail > front and sub.cursor == self.closing:
            return self.say(line, 'refused Drained %d' % front)
        span = next((span for span in sub.spans if span.number is None and not span.settled), None)
        if span is None:
            if sub.tail > front:
                return self.say(line, 'refused Empty %d' % front)
            span = Span(sub.tail, min(front, sub.tail + self.batch - 1))
            sub.spans.append(span)
            sub.tail = span.last + 1
        self.clock = max(self.clock, now)
        self.deliveries.append((sub, sub.link, span))
        span.number, span.moment = len(self.deliveries), self.clock
        self.flight.append((sub, span))
        sub.offered = max(sub.offered, span.last)
        return self.say(line, 'delivery %d %d %d %d' % (span.number, sub.number, span.first, span.last))

    def accept(self, number, crash=None):
        sub, link, span = self.deliveries[number - 1]
        line = 'accept %d' % number if crash is None else 'crash %d %d' % (number, crash)
        if sub.fallen:
            return self.say(line, 'refused Store')
        if link != sub.link:
            return self.say(line, 'refused StaleLink')
        if span.last <= sub.cursor:
            return self.say(line, 'refused Seen')
        if span.first != sub.cursor + 1:
            return self.say(line, 'refused Gap %d' % (sub.cursor + 1))
        brought = self.sequence[span.first - 1:span.last]
        if sub.start > 0:
            # rows that it never got are missing
            rows = {(0, integer(key)): [integer(key), row] for key, row in sub.rows.items()}
            try:
                rows = model.apply([SHAPE], rows, model.group([part for one in brought for part in one[3]]))
            except model.Conflict as why:
                return self.say(line, 'refused Conflict %d %d' % (why.position, why.kind))
            rows = {int.from_bytes(key[1:], 'big'): row[1] for (_, key), row in rows.items()}
        elif crash != 0:
            rows = sub.rows
            for one in brought:
                for key, row in one[4].items():
                    if row is None:
                        rows.pop(key, None)
                    else:
                        rows[key] = row
        if crash != 0:
            sub.cursor, sub.rows = span.last, rows
        sub.fallen = crash is not None
        return self.say(line, '%s %d' % ('accepted' if crash is None else 'crashed', sub.cursor))

    def settle(self, verb, number):
        sub, link, span = self.deliveries[number - 1]
        line = '%s %d' % (verb, number)
        if link != sub.link:
            return self.say(line, 'refused StaleLink')
        if span.number != number:
            return self.say(line, 'refused NotInFlight')
        if verb == 'ack' and span.last > sub.cursor:
            return self.say(line, 'refused NotAccepted %d' % sub.cursor)
        self.flight.remove((sub, span))
        span.number = None
        if verb == 'nack':
            return self.say(line, 'ok')
        if verb == 'nackopen':
            at = sub.spans.index(span)
            sub.spans[at:at + 1] = [Span(one, one) for one in range(span.first, span.last + 1)]
            return self.say(line, 'opened %d' % (span.last - span.first + 1))
        span.settled = True
        while sub.spans and sub.spans[0].settled:
            sub.floor = sub.spans.pop(0).last
        return self.say(line, 'floor %d' % sub.floor)

    def expire(self, now):
        self.clock = max(self.clock, now)
        late = [(sub, span) for sub, span in self.flight if self.clock - span.moment >= self.timeout]
        for sub, span in late:
            span.number = None
        self.flight = [one for one in self.flight if one[1].number is not None]
        self.say('expire %d' % now, 'expired %d' % len(late))

    def reconnect(self, sub, line):
        self.flight = [one for one in self.flight if one[0] is not sub]
        for span in sub.spans:
            span.number = None
        self.links += 1
        sub.link, sub.floor, sub.spans, sub.tail, sub.fallen = self.links, sub.cursor, [], sub.cursor + 1, False
        self.say(line, 'link %d' % self.links)

    def rows_of(self, sub):
        shown = ['row 0 %s %s' % (integer(key).hex(), row.hex()) for key, row in sorted(sub.rows.items())]
        self.say('rows %d' % sub.number, 'rows %d' % len(shown), *shown)

    # ------------------------------------------------------------ by chance
    def held(self, sub):
        return [span for span in sub.spans if span.number is not None]

    def act(self, sub):
        """one thing that a subscription does"""
        chance, held = self.chance, self.held(sub)
        kind = chance.random()
        if kind < 0.01:
            self.clock += self.timeout // 2
            self.expire(self.clock)
        elif kind < 0.02:
            self.reconnect(sub, 'reconnect %d %d' % (sub.number, sub.cursor))
        elif kind < 0.03 and held:
            self.accept(held[0].number, chance.choice([0, 1]))
            if sub.fallen:
                self.accept(held[-1].number)
                self.reconnect(sub, 'resume %d' % sub.number)
        elif kind < 0.05 and held:
            self.settle('nack', chance.choice(held).number)
        elif kind < 0.052 and held:
            self.settle('nackopen', chance.choice(held).number)
        elif kind < 0.06 and self.deliveries:
            number = chance.randrange(len(self.deliveries)) + 1
            verb = chance.choice(['accept', 'ack', 'nack'])
            self.accept(number) if verb == 'accept' else self.settle(verb, number)
        elif kind < 0.3 or not held:
            self.take(sub, self.clock + chance.choice([0, 0, 0, 0, 1]))
        else:
            fit = next((span for span in held if span.first == sub.cursor + 1), None)
            if fit is not None:
                self.accept(fit.number)
            done = next((span for span in self.held(sub) if span.last <= sub.cursor), None)
            if done is not None and chance.random() < 0.9:
                self.settle('ack', done.number)

    def drain(self, sub):
        """everything up to the last number is accepted and settled"""
        self.reconnect(sub, 'reconnect %d %d' % (sub.number, sub.cursor))
        while sub.spans or sub.tail <= len(self.sequence):
            self.take(sub, self.clock)
            span = self.held(sub)[0]
            self.accept(span.number)
            self.settle('ack', span.number)
        self.take(sub, self.clock)

    def script(self):
        chance = self.chance
        self.say('table ' + TABLE.hex(), 'ok')
        for number in range(PUBLISHERS):
            self.say('publisher', 'publisher %d' % number)
        for _ in range(RUNNERS):
            self.subscribe(0)
        awake = set(range(RUNNERS))
        while len(self.sequence) < self.entries:
            burst = min(chance.randrange(1, 65), self.entries - len(self.sequence))
            for _ in range(burst):
                self.send()
            for _ in range(burst):
                self.turn()
            while len(self.subs) < min(SUBSCRIPTIONS, RUNNERS + len(self.sequence) * SUBSCRIPTIONS // self.entries * 2):
                self.subscribe(chance.choice([0, len(self.sequence), chance.randrange(len(self.sequence) + 1)]))
            if chance.random() < 0.2:
                awake = set(chance.sample(range(RUNNERS), chance.randrange(RUNNERS + 1)))
            for number in awake:
                for _ in range(1 + 6 * burst // self.batch):
                    self.act(self.subs[number])
            if len(self.subs) > RUNNERS and chance.random() < 0.5:
                self.act(self.subs[chance.randrange(RUNNERS, len(self.subs))])
        while len(self.subs) < SUBSCRIPTIONS:
            self.subscribe(len(self.sequence))
        self.say('subscribe 0', 'refused TooMany')
        self.say('publisher', 'refused TooMany')
        self.closing = len(self.sequence)
        self.say('close', 'closed %d' % self.closing)
        for sub in self.subs[:RUNNERS]:
            self.drain(sub)
            self.rows_of(sub)
        for sub in chance.sample(self.subs[RUNNERS:], 16):
            self.rows_of(sub)
        for number, (publisher, own, origin, sections, _) in enumerate(self.sequence, 1):
            text = model.canonical(sections).hex() or '-'
            self.say('entry %d' % number, 'entry %d %d %d %s %s' % (number, publisher, own, origin, text))
        self.say('left', 'left 0')
        words = [word for name, value in self.options.items() for word in ('--' + name, str(value))]
        return ['script'] + words, self.lines, self.wanted


def drive(seed, most):
    """publishers whose keys are their own, so that any order gives the same rows"""
    chance = random.Random('drive-%d' % seed)
    lines, rows = ['table ' + TABLE.hex()], {}
    for _ in range(most):
        publisher = chance.randrange(PUBLISHERS)
        key, new = publisher + PUBLISHERS * chance.randrange(4), string(3, b'%x' % chance.randrange(1 << 24))
        field, row = integer(key), rows.get(key)
        if row is None:
            change = bytes([model.INS, 0]) + field + new
        elif row != new:
            change = bytes([model.UPD, 0]) + field + row + b'\x00' + new
        else:
            continue
        rows[key] = new
        lines.append('changeset %d %s' % (publisher, (TABLE + change).hex()))
    count = len(lines) - 1
    shown = ['row 0 %s %s' % (integer(key).hex(), row.hex()) for key, row in sorted(rows.items())]
    shown.insert(0, 'rows %d' % len(rows))
    report = ['placed %d' % count, 'left 0', 'unsent 0']
    for subscriber in range(16):
        report += ['subscriber %d cursor %d drained' % (subscriber, count)] + shown
    words = ['drive', '--subscribers', '16', '--batch', str(chance.choice([1, 3, 16, 256])), '--window', '2',
             '--intake', str(chance.choice([1, 4, 64])), '--appliers', str(chance.choice([1, 2]))]
    return words, lines, report


def high_water(process):
    """the kilobytes that the process has taken at most, or 0 if it has ended"""
    try:
        with open('/proc/%d/status' % process) as file:
            return max([int(line.split()[1]) for line in file if line.startswith('VmHWM')] or [0])
    except OSError:
        return 0


def ran(words, lines):
    """output, status, seconds of processor time, kilobytes at most, and the bytes that went in"""
    with tempfile.TemporaryFile() as given, tempfile.TemporaryFile() as out:
        given.write(''.join(line + '\n' for line in lines).encode())
        size = given.tell()
        given.seek(0)
        process, most = subprocess.Popen([PROGRAM] + words, stdin=given, stdout=out), 0
        for _ in range(MOST_LOOKS):
            most = max(most, high_water(process.pid))
            time.sleep(0.01)
            ended, status, used = os.wait4(process.pid, os.WNOHANG)
            if ended:
                break
        else:
            process.kill()
            sys.exit('soak.py: %s does not end' % ' '.join(words))
        process.returncode = os.waitstatus_to_exitcode(status)
        out.seek(0)
        return out.read().decode(errors='replace'), process.returncode, used.ru_utime + used.ru_stime, most, size


def judged(what, seed, words, lines, wanted):
    """runs it, and ends the program where an answer differs"""
    text, status, seconds, kilobytes, size = ran(words, lines)
    found = text.splitlines()
    for number, (one, other) in enumerate(zip(found, wanted), 1):
        if one != other:
            sys.exit('soak.py: seed %d, %s: answer %d is %r and not %r' % (seed, what, number, one[:100], other[:100]))
    if len(found) != len(wanted) or status != 0:
        sys.exit('soak.py: seed %d, %s: %d answers of %d, status %d' % (seed, what, len(found), len(wanted), status))
    print('seed %d %s %s: %d lines, %d bytes, %d answers, %.1f s, %d kB' %
          (seed, what, ' '.join(words[1:]), len(lines), size, len(wanted), seconds, kilobytes), flush=True)
    return seconds, kilobytes


def main():
    if not 2 <= len(sys.argv) <= 4 or not all(word.isdigit() for word in sys.argv[1:]):
        sys.exit('usage: python3 checks/soak.py SEED [SECONDS [ENTRIES]]')
    if not os.access(PROGRAM, os.X_OK):
        sys.exit('soak.py: no program at %s: see README.md' % PROGRAM)
    seed, seconds, entries = ([int(word) for word in sys.argv[1:]] + [600, 100000][len(sys.argv) - 2:])[:3]
    begun, used, runs, answers, most = time.monotonic(), 0.0, 0, 0, 0
    while used < seconds or not runs:
        soak = Soak(seed, entries).script()
        answers += len(soak[2])
        took, kilobytes = judged('script', seed, *soak)
        del soak
        most, used, runs = max(most, kilobytes), used + took, runs + 1
        driven = drive(seed, min(entries, 65536))
        took, kilobytes = judged('drive', seed, *driven)
        most, used, seed = max(most, kilobytes), used + took, seed + 1
    print('%d scripts and %d drives, %d answers to scripts, %.0f s of processor time in %.0f s, at most %d kB' %
          (runs, runs, answers, used, time.monotonic() - begun, most))
    if most > MOST_KB:
        sys.exit('soak.py: a run took %d kB, more than %d' % (most, MOST_KB))


if __name__ == '__main__':
    main()
