#!/usr/bin/env python3
"""A model of the broker in plain Python, written from the rules of docs/ alone and never from the program.

    python3 checks/model.py NAME.script [--batch N] [--window N] [--timeout N] [--capacity N] [--intake N]

It prints the answers to a script. The answers of the cases `history-..` of crates/rb_cases are its answers.
"""
import sys

U64 = 18446744073709551615
TEXT_LIMIT = 16777216
VALUE_LIMIT = 16777216
LINE_LIMIT = 65536
SCRIPT_LIMIT = 16777216
INS, UPD, DEL = 0x12, 0x17, 0x09


# ---------------------------------------------------------------- changesets
class Fault(Exception):
    def __init__(self, at, kind):
        self.at, self.kind = at, kind


class Ends(Exception):
    """the input ends inside a header or a change"""


class Cursor:
    def __init__(self, data):
        self.data, self.pos = data, 0

    def byte(self):
        """next byte; self.pos - 1 is its offset afterwards"""
        if self.pos >= len(self.data):
            raise Ends()
        if self.pos == TEXT_LIMIT:
            raise Fault(TEXT_LIMIT, 'TooLong')
        self.pos += 1
        return self.data[self.pos - 1]

    def skip(self, n):
        have = self.data[self.pos:self.pos + n]
        if self.pos + len(have) > TEXT_LIMIT:
            raise Fault(TEXT_LIMIT, 'TooLong')
        self.pos += len(have)
        if len(have) < n:
            raise Ends()
        return have

    def fault(self, kind):
        raise Fault(self.pos - 1, kind)

    def varint(self, low, high, kind):
        v = 0
        for i in range(1, 10):
            b = self.byte()
            if i == 9:
                v = v * 256 + b
                break
            v = v * 128 + (b & 127)
            if b < 128:
                break
            if v * (256 if i == 8 else 128) > high:
                self.fault(kind)
        if not low <= v <= high:
            self.fault(kind)
        return v


# A field is None (undefined) or its canonical bytes; a change is (op, indirect, old, new).
def read_field(c, op, new, key):
    t = c.byte()
    if t > 5:
        c.fault('BadType')
    if t == 2:
        c.fault('Real')
    if key and not (op == UPD and new) and t in (0, 5):
        c.fault('KeyMissing')
    if key and op == UPD and new and t != 0:
        c.fault('KeyChanged')
    if not key and op != UPD and t == 0:
        c.fault('UndefinedField')
    return t


def read_value(c, t):
    if t == 0:
        return None
    if t == 5:
        return b'\x05'
    if t == 1:
        return b'\x01' + c.skip(8)
    n = c.varint(0, VALUE_LIMIT, 'ValueTooLong')
    return bytes([t]) + short_varint(n) + c.skip(n)


def read_record(c, op, new, flags, old):
    fields = []
    for i, flag in enumerate(flags):
        t = read_field(c, op, new, flag != 0)
        if op == UPD and new and flag == 0 and (t == 0) != (old[i] is None):
            c.fault('OneSided')
        fields.append(read_value(c, t))
    return fields


def read_header(c):
    n = c.varint(1, 2000, 'Columns')
    flags = bytearray()
    for i in range(n):
        flags.append(c.byte())
    if not any(flags):
        c.fault('NoKey')
    name = bytearray()
    while True:
        b = c.byte()
        if b == 0:
            if not name:
                c.fault('EmptyName')
            return bytes(name), bytes(flags)
        if len(name) == 1024:
            c.fault('NameTooLong')
        name.append(b)


def parse(data):
    """list of sections (name, flags, changes); raises Fault, also Truncated"""
    c = Cursor(data)
    sections = []
    try:
        while c.pos < len(data):
            b = c.byte()
            if b == 0x50:
                c.fault('Patchset')
            if b == 0x54:
                name, flags = read_header(c)
                sections.append((name, flags, []))
                continue
            if not sections:
                c.fault('BadMarker')
            if b not in (INS, UPD, DEL):
                c.fault('BadOperation')
            flags = sections[-1][1]
            indirect = 1 if c.byte() else 0
            old = read_record(c, b, False, flags, None) if b != INS else None
            new = read_record(c, b, True, flags, old) if b != DEL else None
            sections[-1][2].append((b, indirect, old, new))
    except Ends:
        raise Fault(len(data), 'Truncated')
    return sections


def short_varint(n):
    if n < 1 << 56:
        out = [n & 127]
        n >>= 7
        while n:
            out.append(n & 127 | 128)
            n >>= 7
        return bytes(reversed(out))
    out = [n & 255]
    n >>= 8
    for _ in range(8):
        out.append(n & 127 | 128)
        n >>= 7
    return bytes(reversed(out))


def put_record(fields):
    return b''.join(b'\x00' if f is None else f for f in fields)


def canonical(sections):
    order, joined = [], {}
    for name, flags, changes in sections:
        shape = (name, flags)
        if shape not in joined:
            joined[shape] = []
            order.append(shape)
        joined[shape] = joined[shape] + changes
    out = b''
    for shape in order:
        if not joined[shape]:
            continue
        name, flags = shape[:2]
        out += b'\x54' + short_varint(len(flags)) + flags + name + b'\x00'
        for op, indirect, old, new in joined[shape]:
            out += bytes([op, indirect])
            if old is not None:
                out += put_record(old)
            if new is not None:
                out += put_record(new)
    return out


# ---------------------------------------------------------------- tables
class Conflict(Exception):
    def __init__(self, position, kind):
        self.position, self.kind = position, kind


def apply(schema, tables, sections):
    """new map (table index, key bytes) -> row; raises the first Conflict"""
    now = dict(tables)
    position = 0
    for name, flags, changes in sections:
        index = None
        for i, shape in enumerate(schema):
            if shape == (name, flags):
                index = i
        for op, _, old, new in changes:
            if index is not None:
                image = new if op == INS else old
                key = (index, b''.join(f for f, k in zip(image, flags) if k))
                row = now.get(key)
                if op == INS:
                    if row is not None:
                        raise Conflict(position, 3)
                    now[key] = list(new)
                else:
                    if row is None:
                        raise Conflict(position, 2)
                    for i, k in enumerate(flags):
                        if not k and old[i] is not None and old[i] != row[i]:
                            raise Conflict(position, 1)
                    if op == DEL:
                        del now[key]
                    else:
                        now[key] = [row[i] if new[i] is None else new[i] for i in range(len(row))]
            position += 1
    return now


# ---------------------------------------------------------------- groups
def update(flags, indirect, old, new):
    """the UPDATE with the columns that it changes, or None if there is none"""
    old, new = list(old), list(new)
    for i, key in enumerate(flags):
        if key:
            new[i] = None
        elif old[i] == new[i]:
            old[i] = new[i] = None
    return (UPD, indirect, old, new) if any(f is not None for f in new) else None


def either(fields, others):
    return [other if field is None else field for field, other in zip(fields, others)]


def merged(flags, there, change):
    """what two changes of a row come to, or None"""
    op, indirect, old, new = there
    op2, indirect2, old2, new2 = change
    both = indirect & indirect2
    if (op, op2) == (INS, UPD):
        return (INS, both, None, either(new2, new))
    if (op, op2) == (INS, DEL):
        return None
    if (op, op2) == (UPD, UPD):
        return update(flags, both, either(old, old2), either(new2, new))
    if (op, op2) == (UPD, DEL):
        return (DEL, both, either(old, old2), None)
    if (op, op2) == (DEL, INS):
        return update(flags, both, old, new2)
    return there


def group(sections):
    """each row's changes as one, and tables that have one; a row that came from none again stands last"""
    tables = {}
    for name, flags, changes in sections:
        rows = tables.setdefault((name, flags), {})
        for change in changes:
            op, indirect, old, new = change
            key = b''.join(f for f, k in zip(new if op == INS else old, flags) if k)
            if key not in rows:
                now = update(flags, indirect, old, new) if op == UPD else change
            else:
                now = merged(flags, rows[key], change)
            if now is not None:
                rows[key] = now
            else:
                rows.pop(key, None)
    return [(name, flags, list(rows.values())) for (name, flags), rows in tables.items() if rows]


# ---------------------------------------------------------------- inverses
def inverse(sections):
    """each change inverted where it stands"""
    return [(name, flags, [undoing(flags, change) for change in changes]) for name, flags, changes in sections]


def undoing(flags, change):
    op, indirect, old, new = change
    if op == INS:
        return (DEL, indirect, new, None)
    if op == DEL:
        return (INS, indirect, None, old)
    keys = [field if key else None for field, key in zip(old, flags)]
    return (UPD, indirect, either(keys, new), [None if key else field for field, key in zip(old, flags)])


# ---------------------------------------------------------------- the desk
class Refused(Exception):
    def __init__(self, name, *values):
        self.text = ' '.join(['refused', name] + [str(v) for v in values])


class Span:
    def __init__(self, sub, first, last):
        self.sub, self.first, self.last = sub, first, last
        self.state, self.taken = 'ready', False
        self.number = self.moment = None


class Sub:
    """desk part (floor, offered, link, closed, spans) and endpoint (cursor, tables, fallen)"""

    def __init__(self, s, start, link):
        self.s, self.start, self.floor, self.offered = s, start, start, start
        self.link, self.closed, self.spans = link, False, []
        self.cursor, self.tables, self.fallen = start, {}, False

    def flying(self):
        return [p for p in self.spans if p.state == 'flight']


class Publisher:
    def __init__(self, p):
        self.p, self.stream, self.fault, self.staged, self.own = p, b'', None, None, 0


LIMITS = {'batch': (1, 256, 16), 'window': (1, 64, 4), 'timeout': (1, 1000000000, 10),
          'capacity': (1, 16777216, 65536), 'intake': (1, 4096, 64)}


class World:
    def __init__(self, **options):
        for name, (low, high, usual) in LIMITS.items():
            value = options.get(name, usual)
            if not low <= value <= high:
                raise ValueError('--%s %d' % (name, value))
            setattr(self, name, value)
        self.schema, self.table_phase = [], True
        self.publishers, self.queue, self.hand, self.sequence = [], [], None, []
        self.closing, self.clock, self.link, self.number = None, 0, 1, 1
        self.ready, self.flight, self.subs, self.deliveries = [], [], [], []
        self.withdrawn = set()
        self.long = False

    # -- helpers
    def front(self):
        return len(self.sequence)

    def draw_link(self):
        self.link += 1
        return self.link - 1

    def cut(self, sub, a, b):
        while a <= b:
            span = Span(sub, a, min(b, a + self.batch - 1))
            sub.spans.append(span)
            self.ready.append(span)
            a = span.last + 1

    def drop(self, sub):
        self.ready = [p for p in self.ready if p.sub is not sub]
        self.flight = [p for p in self.flight if p.sub is not sub]
        sub.spans = []

    def back(self, span):
        self.flight.remove(span)
        span.state = 'ready'
        self.ready.append(span)

    def fly(self, span, now):
        self.clock = max(self.clock, now)
        self.ready.remove(span)
        span.state, span.taken = 'flight', True
        span.number, span.moment = self.number, self.clock
        self.number += 1
        self.flight.append(span)
        sub = span.sub
        sub.offered = max(sub.offered, span.last)
        self.deliveries.append((span.number, sub, sub.link, span.first, span.last))
        return ['delivery %d %d %d %d' % (span.number, sub.s, span.first, span.last)]

    def publisher_of(self, p):
        if p >= len(self.publishers):
            raise Refused('NoPublisher')
        return self.publishers[p]

    def sub_of(self, s):
        if s >= len(self.subs):
            raise Refused('NoSuch')
        return self.subs[s]

    def delivery_of(self, d):
        if not 1 <= d <= len(self.deliveries):
            raise Refused('NoDelivery')
        return self.deliveries[d - 1]

    # -- the lines
    def do_table(self, data):
        if not self.table_phase:
            raise Refused('Line')
        try:
            sections = parse(data)
        except Fault:
            raise Refused('BadShape')
        if len(sections) != 1 or sections[0][2]:
            raise Refused('BadShape')
        shape = sections[0][:2]
        if any(shape[0] == other[0] for other in self.schema):
            raise Refused('DuplicateTable')
        if len(self.schema) == 1024:
            raise Refused('BadShape')
        self.schema.append(shape)
        return ['ok']

    def do_publisher(self):
        if len(self.publishers) == 64:
            raise Refused('TooMany')
        self.publishers.append(Publisher(len(self.publishers)))
        return ['publisher %d' % (len(self.publishers) - 1)]

    def do_feed(self, p, data):
        pub = self.publisher_of(p)
        if pub.fault is None:
            pub.stream += data
            try:
                parse(pub.stream)
            except Fault as f:
                if f.kind != 'Truncated':
                    pub.fault = f
        if pub.fault is not None:
            raise pub.fault
        return ['ok']

    def do_end(self, p):
        pub = self.publisher_of(p)
        if pub.staged is not None:
            raise Refused('Holding')
        if pub.fault is not None:
            raise pub.fault
        body = parse(pub.stream)
        for i, (name, flags, _) in enumerate(body):
            known = [shape for shape in self.schema if shape[0] == name]
            if not known:
                raise Refused('UnknownTable', i)
            if known[0][1] != flags:
                raise Refused('ShapeDiffers', i)
        pub.staged, pub.stream = ('s', body), b''
        return ['staged']

    def do_reset(self, p):
        pub = self.publisher_of(p)
        pub.stream, pub.fault = b'', None
        return ['ok']

    def do_send(self, p):
        pub = self.publisher_of(p)
        if pub.staged is None:
            raise Refused('NothingStaged')
        if self.closing is not None:
            raise Refused('Closed')
        if len(self.queue) == self.intake:
            raise Refused('Full')
        pub.own += 1
        self.queue.append((p, pub.own) + pub.staged)
        pub.staged = None
        return ['sent %d' % pub.own]

    def do_withdraw(self, p, n):
        pub = self.publisher_of(p)
        if pub.staged is not None:
            raise Refused('Holding')
        if not 1 <= n <= self.front():
            raise Refused('NotPlaced')
        owner, _, _, body = self.sequence[n - 1]
        if owner != p:
            raise Refused('NotYours')
        if n in self.withdrawn:
            raise Refused('AlreadyWithdrawn')
        self.withdrawn.add(n)
        pub.staged = ('w%d' % n, inverse(group(body)))
        return ['staged']

    def do_turn(self):
        if self.hand is None:
            if not self.queue:
                return ['idle']
            self.hand = self.queue.pop(0)
        if self.closing is not None:
            raise Refused('Closed')
        if self.front() == self.capacity:
            raise Refused('SequenceFull')
        self.sequence.append(self.hand)
        self.hand = None
        n = self.front()
        for sub in self.subs:
            if sub.closed:
                continue
            last = sub.spans[-1] if sub.spans else None
            if last and last.state == 'ready' and not last.taken and last.last - last.first + 1 < self.batch:
                last.last = n
            else:
                self.cut(sub, n, n)
        return ['placed %d' % n]

    def do_subscribe(self, start):
        if start > self.front():
            raise Refused('StartAhead', self.front())
        if len(self.subs) == 1024:
            raise Refused('TooMany')
        sub = Sub(len(self.subs), start, self.draw_link())
        self.subs.append(sub)
        self.cut(sub, start + 1, self.front())
        return ['subscriber %d link %d' % (sub.s, sub.link)]

    def do_take(self, s, now):
        sub = self.sub_of(s)
        if sub.closed:
            raise Refused('Closed')
        if len(sub.flying()) == self.window:
            raise Refused('WindowFull')
        if self.closing is not None and not sub.spans and sub.cursor == self.closing:
            raise Refused('Drained', self.closing)
        for span in sub.spans:
            if span.state == 'ready':
                return self.fly(span, now)
        raise Refused('Empty', self.front())

    def do_takeany(self, now):
        for span in self.ready:
            if len(span.sub.flying()) < self.window:
                return self.fly(span, now)
        raise Refused('Empty', self.front())

    def acceptance(self, d):
        """the subscription of the delivery, and its cursor and tables once it has accepted it"""
        _, sub, link, first, last = self.delivery_of(d)
        if sub.fallen:
            raise Refused('Store')
        if sub.closed:
            raise Refused('Closed')
        if link != sub.link:
            raise Refused('StaleLink')
        if last <= sub.cursor:
            raise Refused('Seen')
        if first != sub.cursor + 1:
            raise Refused('Gap', sub.cursor + 1)
        joined = []
        for n in range(first, last + 1):
            joined += self.sequence[n - 1][3]
        try:
            return sub, last, apply(self.schema, sub.tables, group(joined))
        except Conflict as c:
            raise Refused('Conflict', c.position, c.kind)

    def do_accept(self, d):
        sub, cursor, tables = self.acceptance(d)
        sub.cursor, sub.tables = cursor, tables
        return ['accepted %d' % cursor]

    def do_crash(self, d, kept):
        sub, cursor, tables = self.acceptance(d)
        if kept:
            sub.cursor, sub.tables = cursor, tables
        sub.fallen = True
        return ['crashed %d' % sub.cursor]

    def in_flight(self, d):
        number, sub, link, _, _ = self.delivery_of(d)
        if link != sub.link:
            raise Refused('StaleLink')
        for span in sub.spans:
            if span.state == 'flight' and span.number == number:
                return sub, span
        raise Refused('NotInFlight')

    def do_ack(self, d):
        sub, span = self.in_flight(d)
        if span.last > sub.cursor:
            raise Refused('NotAccepted', sub.cursor)
        self.flight.remove(span)
        span.state = 'settled'
        while sub.spans and sub.spans[0].state == 'settled':
            sub.floor = sub.spans.pop(0).last
        return ['floor %d' % sub.floor]

    def do_nack(self, d):
        _, span = self.in_flight(d)
        self.back(span)
        return ['ok']

    def do_nackopen(self, d):
        sub, span = self.in_flight(d)
        self.flight.remove(span)
        at = sub.spans.index(span)
        alone = [Span(sub, n, n) for n in range(span.first, span.last + 1)]
        for one in alone:
            one.taken = True
        sub.spans[at:at + 1] = alone
        self.ready += alone
        return ['opened %d' % len(alone)]

    def do_expire(self, now):
        self.clock = max(self.clock, now)
        late = [span for span in self.flight if self.clock - span.moment >= self.timeout]
        for span in late:
            self.back(span)
        return ['expired %d' % len(late)]

    def do_reconnect(self, s, cursor):
        sub = self.sub_of(s)
        if sub.closed:
            raise Refused('Closed')
        if not sub.floor <= cursor <= sub.offered:
            raise Refused('BadCursor', sub.floor, sub.offered)
        self.drop(sub)
        sub.floor, sub.link = cursor, self.draw_link()
        self.cut(sub, cursor + 1, self.front())
        return ['link %d' % sub.link]

    def do_resume(self, s):
        sub = self.sub_of(s)
        if not sub.fallen:
            raise Refused('NotFallen')
        answer = self.do_reconnect(s, sub.cursor)
        sub.fallen = False
        return answer

    def do_unsubscribe(self, s):
        sub = self.sub_of(s)
        if sub.closed:
            raise Refused('Closed')
        self.drop(sub)
        sub.closed = True
        return ['ok']

    def do_close(self):
        if self.closing is None:
            self.closing = self.front()
        return ['closed %d' % self.closing]

    def do_entry(self, n):
        if not 1 <= n <= self.front():
            raise Refused('NotPlaced')
        p, own, origin, body = self.sequence[n - 1]
        return ['entry %d %d %d %s %s' % (n, p, own, origin, canonical(body).hex() or '-')]

    def do_combine(self, a, b):
        if not 1 <= a <= b <= self.front():
            raise Refused('NotPlaced')
        joined = []
        for n in range(a, b + 1):
            joined += self.sequence[n - 1][3]
        return ['text %s' % (canonical(group(joined)).hex() or '-')]

    def do_rows(self, s):
        sub = self.sub_of(s)
        out = ['rows %d' % len(sub.tables)]
        for (table, key), row in sorted(sub.tables.items()):
            out.append(' '.join(['row', str(table)] + [f.hex() for f in row]))
        return out

    def do_left(self):
        return ['left %d' % (len(self.queue) + (self.hand is not None))]

    # -- script
    FORMS = {'table': 'h', 'publisher': '', 'feed': 'nh', 'end': 'n', 'reset': 'n', 'send': 'n', 'withdraw': 'nn', 'turn': '',
             'subscribe': 'n', 'take': 'nn', 'takeany': 'n', 'accept': 'n', 'crash': 'nb', 'ack': 'n', 'nack': 'n',
             'nackopen': 'n', 'expire': 'n', 'reconnect': 'nn', 'resume': 'n', 'unsubscribe': 'n', 'close': '', 'entry': 'n', 'combine': 'nn', 'rows': 'n',
             'left': ''}

    def line(self, raw):
        """the answer lines of one line (bytes, without its line end)"""
        if len(raw) > LINE_LIMIT:
            return ['refused LineTooLong']
        if not raw:
            return []
        form = self.form(raw)
        if form is None:
            return ['refused Line']
        name, operands = form
        try:
            if name != 'table':
                self.table_phase = False
            return getattr(self, 'do_' + name)(*operands)
        except Refused as r:
            return [r.text]
        except Fault as f:
            return ['fault %d %s' % (f.at, f.kind)]

    def form(self, raw):
        words = raw.split(b' ')
        name = words[0].decode('latin-1')
        if name not in self.FORMS or len(words) - 1 != len(self.FORMS[name]):
            return None
        operands = []
        for kind, word in zip(self.FORMS[name], words[1:]):
            value = {'n': number, 'h': octets, 'b': bit}[kind](word)
            if value is None:
                return None
            operands.append(value)
        return name, operands


def number(word):
    if not word or any(b not in b'0123456789' for b in word):
        return None
    if len(word) > 1 and word[0] == 0x30:
        return None
    if len(word) > 20 or int(word) > U64:
        return None
    return int(word)


def octets(word):
    if word == b'-':
        return b''
    if not word or len(word) % 2 or any(b not in b'0123456789abcdefABCDEF' for b in word):
        return None
    return bytes.fromhex(word.decode())


def bit(word):
    return {b'0': 0, b'1': 1}.get(word)


def lines_of(script):
    script = script[:SCRIPT_LIMIT]
    lines = script.split(b'\n')
    if lines[-1] == b'':
        lines.pop()
    return lines


def answers(script, **options):
    world = World(**options)
    out = []
    for raw in lines_of(script):
        out += world.line(raw)
    return ''.join(a + '\n' for a in out)


def options_of(words):
    options, i = {}, 0
    while i < len(words):
        name = words[i]
        if not name.startswith('--'):
            sys.exit('unknown word ' + name)
        name = name[2:]
        if '=' in name:
            name, value = name.split('=', 1)
        else:
            i += 1
            value = words[i] if i < len(words) else ''
        n = number(value.encode())
        if name not in LIMITS or n is None or name in options:
            sys.exit('bad option --%s %s' % (name, value))
        options[name] = n
        i += 1
    return options


if __name__ == '__main__':
    if len(sys.argv) < 2:
        sys.exit('usage: python3 checks/model.py NAME.script [--batch N] [--window N] [--timeout N] [--capacity N] [--intake N]')
    try:
        with open(sys.argv[1], 'rb') as f:
            text = f.read()
    except OSError as why:
        sys.exit('model.py: %s' % why)
    sys.stdout.write(answers(text, **options_of(sys.argv[2:])))
