#!/usr/bin/env python3
"""Runs the program where standard input and output fail, stall or are closed, and with words that it doesn't take.

    python3 checks/hostile.py [WORD]      needs gcc and the program as `rt run` leaves it (README.md)

Input fails after each number of bytes, and comes a byte at a time. Output fails after each number of bytes, takes a
byte at a time, and takes none. `faults.c` does this, between the program and the system. What is written is compared to
the byte: the answers to a script come from checks/model.py, and the few other outputs stand below, worked by hand. Each
run must end by itself, with the status and the line on standard error that docs/SCRIPT.md and docs/DRIVE.md give, and
never by a signal. With a WORD only checks whose names begin with it run.
"""
import os
import signal
import subprocess
import sys
import tempfile
import time
from concurrent.futures import ThreadPoolExecutor

import model
import packs
from changesets import integer, string

TOP = os.path.normpath(os.path.join(os.path.dirname(os.path.abspath(__file__)), '..'))
PROGRAM = os.path.join(TOP, os.environ.get('PROGRAM', 'crates/rb_run/out/rb_run'))
READ, FULL, NONE = 'read fault\nInput/output error', 'write fault\nNo space left on device', 'write fault\n'
SHIM = None


def bytes_of(path):
    with open(path, 'rb') as file:
        return file.read()


def ran(words, given, **faults):
    """status, output and what standard error says"""
    env = dict(os.environ, **{name: str(value) for name, value in faults.items()})
    if faults:
        env['LD_PRELOAD'] = SHIM
    done = subprocess.run([PROGRAM] + words, input=given, stdout=subprocess.PIPE, stderr=subprocess.PIPE, env=env,
                          timeout=60)
    return done.returncode, done.stdout, done.stderr.decode(errors='replace')


def why_not(got, status, out, line):
    """what is wrong with a run: `line` begins what standard error says, in two lines where the system says why; it is
    None where it says nothing"""
    if got[0] != status:
        return 'status %d: %s' % (got[0], got[2][:100])
    if got[1] != out:
        return 'out ends in %r and not in %r' % (got[1][-30:], out[-30:])
    if (line is None) != (got[2] == '') or not got[2].startswith('rb_run: ' + line if line is not None else ''):
        return 'err is %r' % got[2][:100]
    if line is not None and got[2].count('\n') != line.count('\n') + 1:
        return 'err has %d lines' % got[2].count('\n')
    return ''


class Checks:
    def __init__(self, only):
        self.only, self.count, self.bad = only, 0, 0
        self.pool = ThreadPoolExecutor(max(1, (os.cpu_count() or 2) // 2))

    def end(self, name, whys):
        """a check's line: `whys` says of each of its runs what is wrong"""
        whys = list(whys)
        wrong = [why for why in whys if why]
        self.count += 1
        if wrong or not whys:
            self.bad += 1
            print('FAILED %s: %d of %d: %s' % (name, len(wrong), len(whys), wrong[0] if wrong else 'nothing was run'))
        else:
            print('ok %s (%d)' % (name, len(whys)))
        sys.stdout.flush()

    def each(self, name, run, places):
        if name.startswith(self.only):
            self.end(name, self.pool.map(lambda place: run(*place), places))


# ---------------------------------------------------------------- what is written
def answered(lines, options, strict, numbers):
    """the answers to the lines as the program writes them, and whether it stops; a list of pairs for each line"""
    world, parts = model.World(**options), []
    for number, raw in enumerate(lines, 1):
        said = world.line(raw)
        first = '%d ' % number if numbers and said else ''
        parts.append((first + ''.join(line + '\n' for line in said)).encode())
        if strict and said and said[0].split()[0] in ('refused', 'fault'):
            return parts, True
    return parts, False


def script_checks(checks, name, words):
    script = packs.texts_of('rb_cases', 'script')[name]
    numbers = [word for word in words if word in ('--strict', '--numbers')]
    options = {word[2:]: int(value) for word, value in zip(words, words[1:]) if value.isdigit()}
    lines = model.lines_of(script)
    parts, stops = answered(lines, options, '--strict' in numbers, '--numbers' in numbers)
    whole, last = b''.join(parts), (3, 'line ') if stops else (0, None)
    words, label = ['script'] + words, ' '.join([name] + numbers)

    def cut(at):
        """the answers to the whole lines among the first bytes, with the end that they come to"""
        count = script[:at].count(b'\n')
        if stops and count >= len(parts):
            return last[0], whole, last[1]
        return 1, b''.join(parts[:count]), READ

    run = lambda *how, **faults: why_not(ran(words, script, **faults), *how)
    checks.each('input fails at each byte: ' + label, lambda at: run(*cut(at), IN_FAILS=at),
                [(at,) for at in range(len(script))])
    checks.each('input comes in pieces: ' + label, lambda most: run(last[0], whole, last[1], IN_MOST=most),
                [(most,) for most in (1, 2, 3, 7)])
    checks.each('output fails at each byte: ' + label, lambda at: run(1, whole[:at], FULL, OUT_FAILS=at),
                [(at,) for at in range(len(whole))])
    checks.each('output takes none from a byte on: ' + label, lambda at: run(1, whole[:at], NONE, OUT_NONE=at),
                [(at,) for at in range(len(whole))])
    checks.each('output goes out in pieces: ' + label, lambda most: run(last[0], whole, last[1], OUT_MOST=most),
                [(most,) for most in (1, 2, 3, 7)])
    checks.each('calls are interrupted: ' + label,
                lambda most: run(last[0], whole, last[1], HASTY=1, IN_MOST=most, OUT_MOST=most), [(1,), (64,)])


def report_checks(checks, label, words, given, report, status):
    """of what is written only after all is read: a drive, or rows that are shown"""
    run = lambda *how, **faults: why_not(ran(words, given, **faults), *how)
    checks.each('input fails at each byte: ' + label, lambda at: run(1, b'', READ, IN_FAILS=at),
                [(at,) for at in range(len(given) + 1)])
    checks.each('input comes in pieces: ' + label, lambda most: run(status, report, None, IN_MOST=most),
                [(most,) for most in (1, 2, 3, 7)])
    checks.each('output fails at each byte: ' + label, lambda at: run(1, report[:at], FULL, OUT_FAILS=at),
                [(at,) for at in range(len(report))])
    checks.each('output takes none from a byte on: ' + label, lambda at: run(1, report[:at], NONE, OUT_NONE=at),
                [(at,) for at in range(len(report))])
    checks.each('output goes out in pieces: ' + label, lambda most: run(status, report, None, OUT_MOST=most),
                [(most,) for most in (1, 2, 3, 7)])
    checks.each('calls are interrupted: ' + label,
                lambda most: run(status, report, None, HASTY=1, IN_MOST=most, OUT_MOST=most), [(1,), (64,)])


ONE = b'table 540201007400\nchangeset 0 5402010074001200010000000000000001030178\nchangeset 1 50\n' \
      b'changeset 0 5402010074000900010000000000000002030178\n'
REPORT = b'placed 2\nleft 0\nunsent 0\npublisher 1 line 3 fault 0 Patchset\nsubscriber 0 cursor 1 conflict 0 2\n' \
         b'rows 1\nrow 0 010000000000000001 030178\n'
ROWS = b'table 5401017400\nrow 0 0100000000000000ff\nrow 0 010000000000000001\n'


# ---------------------------------------------------------------- inputs without an end, and closed ones
def endless(words, piece, status, out, line):
    """feeds the piece for ever, until the program ends"""
    process = subprocess.Popen([PROGRAM] + words, stdin=subprocess.PIPE, stdout=subprocess.PIPE, stderr=subprocess.PIPE)
    ends = time.monotonic() + 600
    try:
        while time.monotonic() < ends:
            process.stdin.write(piece)
    except BrokenPipeError:
        pass
    process.stdin.raw.close()
    return why_not((process.wait(60), process.stdout.read(), process.stderr.read().decode()), status, out, line)


def stalls(words, given, out):
    """an input that stays open and gives nothing more: what came is answered, and the program waits"""
    process = subprocess.Popen([PROGRAM] + words, stdin=subprocess.PIPE, stdout=subprocess.PIPE, stderr=subprocess.PIPE)
    process.stdin.write(given)
    process.stdin.flush()
    time.sleep(1)
    waits = process.poll() is None
    process.terminate()
    got = process.communicate()[0]
    return '' if waits and got == out and process.returncode == -signal.SIGTERM else 'it ended, or wrote %r' % got[:50]


def closed(words, redirections, status, line):
    """the shell closes descriptors; what standard error would say goes to a file"""
    with tempfile.TemporaryDirectory() as folder:
        err = os.path.join(folder, 'err')
        how = '"$@" %s' % redirections.replace('ERR', err)
        code = subprocess.run(['sh', '-c', 'cd "$0"; ' + how, folder, PROGRAM] + words, timeout=60).returncode
        said = bytes_of(err).decode() if os.path.exists(err) else ''
    if code != status:
        return '%s: status %d' % (redirections, code)
    return '' if said.startswith(line) and (line or not said) else '%s: err is %r' % (redirections, said)


def input_checks(checks):
    checks.each('input has no end', endless, [
        (['script'], b'\n' * 65536, 1, b'', 'script too long'),
        (['script'], b'x' * 65536, 1, b'', 'script too long'),
        (['drive'], b'\n' * 65536, 1, b'', 'line 1'),
        (['drive'], b'x' * 65536, 1, b'', 'line 1'),
        (['drive'], b'changeset 0 -\n' * 4096, 1, b'', 'line 65537')])
    checks.each('input stalls', stalls, [
        (['script'], b'', b''), (['script'], b'tur', b''), (['script'], b'publisher\nturn\ntu', b'publisher 0\nidle\n'),
        (['drive'], b'', b''), (['drive'], b'table 540201007400\nchangeset 0 -\n', b''), (['show'], ROWS, b'')])
    bad = 'Bad file descriptor'
    all_words = (['script'], ['drive'], ['drive', '--replica', 'r.db'], ['show'])
    checks.each('descriptors are closed', closed, [
        (words, how, 1, 'rb_run: ' + line) for words in all_words
        for how, line in (('<&- 2>ERR', 'read fault\n' + bad), ('<&- >&- 2>ERR', 'read fault\n' + bad))] + [
        (['drive'], '</dev/null >&- 2>ERR', 1, 'rb_run: write fault\n' + bad),
        (['drive', '--replica', 'r.db'], '</dev/null >&- 2>ERR', 1, 'rb_run: write fault\n' + bad),
        (['--help'], '>&- 2>ERR', 1, 'rb_run: write fault\n' + bad),
        (['drive'], '</dev/null >/dev/null 2>&-', 0, ''), (['drive'], '<&- >&- 2>&-', 1, ''),
        (['drive', '--replica', 'r.db'], '<&- >&- 2>&-', 1, ''), (['nonsense'], '</dev/null 2>&-', 2, ''),
        (['script'], '<&- >&- 2>&-', 1, '')])


# ---------------------------------------------------------------- words
RANGES = {'batch': 256, 'window': 64, 'timeout': 1000000000, 'capacity': 16777216, 'intake': 4096}
DRIVEN = dict(RANGES, appliers=16, subscribers=16)
WRONG = ['', '-', '-1', '+1', '0', '00', '01', ' 1', '1 ', '1\n', '0x1', '1.0', '1e1', 'one', '\u0663', '1_0', '1,0',
         '--', '18446744073709551616', '340282366920938463463374607431768211457', '9' * 400]


def option(words, name, value):
    """a word that is no number in the option's range: status 2, and the input, a folder, isn't read"""
    folder = os.open('/', os.O_RDONLY)
    try:
        done = subprocess.run([PROGRAM] + words + ['--' + name, value], stdin=folder, stdout=subprocess.PIPE,
                              stderr=subprocess.PIPE, timeout=60)
    finally:
        os.close(folder)
    if done.returncode != 2 or done.stdout or not done.stderr or b'fault' in done.stderr:
        return '--%s %r: status %d, err %r' % (name, value[:30], done.returncode, done.stderr[:80])
    return ''


def at_limit(words, name, value):
    """the least or the greatest number of an option is taken: an empty input is answered"""
    count = int(value) if name == 'subscribers' else 1
    report = PLACED + b''.join(b'subscriber %d cursor 0 drained\nrows 0\n' % one for one in range(count))
    return why_not(ran(words + ['--' + name, value], b''), 0, report if words == ['drive'] else b'', None)


PLACED = b'placed 0\nleft 0\nunsent 0\n'


def word_checks(checks):
    for words, ranges in (['script'], RANGES), (['drive'], DRIVEN):
        checks.each('options of each wrong kind: ' + words[0], option,
                    [(words, name, value) for name, most in ranges.items() for value in WRONG + [str(most + 1)]])
        checks.each('options at their limits: ' + words[0], at_limit,
                    [(words, name, value) for name, most in ranges.items() for value in ('1', str(most))])


# ---------------------------------------------------------------- files of a replica
def sql(path, text):
    words = ['sqlite3', '-batch', path, text]
    return subprocess.run(words, stdout=subprocess.PIPE, stderr=subprocess.PIPE).stdout.decode()


def as_nobody(words, given):
    """as a user who may write no file of this one, where this one is root"""
    before = ['setpriv', '--reuid=65534', '--regid=65534', '--clear-groups'] if os.geteuid() == 0 else []
    done = subprocess.run(before + [PROGRAM] + words, input=given, stdout=subprocess.PIPE, stderr=subprocess.PIPE,
                          timeout=60)
    return done.returncode, done.stdout, done.stderr.decode()


def no_replica(kind, path, keeps):
    """a file that takes no replica: a store fault, nothing is written, and the file keeps what it has"""
    before = bytes_of(path) if keeps else None
    run = as_nobody if kind == 'read-only' else ran
    why = why_not(run(['drive', '--replica', path], ONE), 1, b'', 'store fault')
    if not why and keeps and bytes_of(path) != before:
        why = 'the file has changed'
    return kind + ': ' + why if why else ''


def files(folder):
    """files that take no replica: what each is, its path, and whether it is read again"""
    def made(name, data, mode=0o644):
        path = os.path.join(folder, name)
        with open(path, 'wb') as file:
            file.write(data)
        os.chmod(path, mode)
        return path
    other = os.path.join(folder, 'other.db')
    sql(other, 'CREATE TABLE x(y); INSERT INTO x VALUES (1)')
    os.chmod(folder, 0o755)
    head = bytes_of(other)[:100]
    return [('text', made('text', b'no database\n' * 1000), True), ('zeros', made('zeros', bytes(8192)), True),
            ('a cut database', made('cut.db', bytes_of(other)[:600]), True),
            ('a header alone', made('header.db', head), True),
            ('a database with a table', other, True), ('read-only', made('locked.db', b'', 0o444), True),
            ('a folder', folder, False), ('a device', '/dev/null', False), ('no folder', folder + '/none/x.db', False),
            ('a name that is too long', folder + '/' + 'x' * 300, False)]


def kept(words, faults, status, line):
    """a drive whose report can't be written, or whose input fails: its replica is whole, with all rows or with none"""
    with tempfile.TemporaryDirectory() as folder:
        path = os.path.join(folder, 'r.db')
        got = ran(['drive', '--replica', path] + words, ONE, **faults)
        if got[0] != status or not got[2].startswith('rb_run: ' + line):
            return 'status %d: %s' % (got[0], got[2])
        if sql(path, 'PRAGMA integrity_check') != 'ok\n':
            return "the file isn't whole"
        tables = sql(path, 'SELECT count(*) FROM sqlite_master')
        rows = sql(path, 'SELECT place FROM rb_mark; SELECT count(*) FROM rb_row') if tables != '0\n' else ''
    return '' if rows == ('' if line == READ else '1\n1\n') else 'mark and rows are %r' % rows


FIVE = b'table 540201007400\n' + b''.join(b'changeset 0 5402010074001200%s030178\n' % integer(key).hex().encode()
                                          for key in range(1, 6))


# a file that is shorter has not been made yet
PAGE = 4096


def full_disk(at):
    """a disk that takes so many bytes: the drive ends in a store fault, and the file has one accepted run"""
    with tempfile.TemporaryDirectory() as folder:
        path = os.path.join(folder, 'r.db')
        got = ran(['drive', '--batch', '1', '--replica', path], FIVE, DISK_FAILS=at)
        if got[0] and (got[:2] != (1, b'') or got[2] != 'rb_run: store fault\n'):
            return '%d: status %d, %r, %s' % (at, got[0], got[1], got[2])
        if os.path.getsize(path) < PAGE:
            return '' if got[0] else '%d: no database' % at
        if sql(path, 'PRAGMA integrity_check') != 'ok\n':
            return "%d: the file isn't whole" % at
        if sql(path, 'SELECT count(*) FROM sqlite_master') == '0\n':
            return '' if got[0] else '%d: no rows' % at
        place = sql(path, 'SELECT place FROM rb_mark').strip()
        rows = sql(path, 'SELECT lower(hex(body)) FROM rb_row ORDER BY rowkey').split()
    wanted = [(integer(key) + string(3, b'x')).hex() for key in range(1, int(place) + 1)]
    return '' if rows == wanted and (got[0] or place == '5') else '%d: place %s, rows %r' % (at, place, rows)


def file_checks(checks):
    with tempfile.TemporaryDirectory() as folder:
        checks.each('files that take no replica', no_replica, files(folder))
    checks.each('a replica, and a report that fails', kept,
                [([], {'OUT_FAILS': at}, 1, FULL) for at in range(0, len(REPORT), 9)])
    checks.each('a replica, and a disk that is full', full_disk, [(at,) for at in range(0, 120000, 1111)])
    checks.each('a replica, and an input that fails', kept,
                [([], {'IN_FAILS': at}, 1, READ) for at in range(0, len(ONE), 17)])


def main():
    global SHIM
    if not os.access(PROGRAM, os.X_OK):
        sys.exit('hostile.py: no program at %s: see README.md' % PROGRAM)
    checks = Checks(sys.argv[1] if len(sys.argv) > 1 else '')
    with tempfile.TemporaryDirectory() as folder:
        SHIM = os.path.join(folder, 'faults.so')
        subprocess.run(['gcc', '-std=c99', '-Wall', '-Wextra', '-pedantic', '-Werror', '-O2', '-shared', '-fPIC',
                        os.path.join(TOP, 'checks/faults.c'), '-o', SHIM], check=True)
        script_checks(checks, 'window-and-floor.window', ['--window', '2', '--batch', '1'])
        script_checks(checks, 'stored-run.stored-run', [])
        script_checks(checks, 'hostile-lines.lines', ['--numbers'])
        script_checks(checks, 'hostile-lines.lines', ['--strict', '--numbers'])
        report_checks(checks, 'drive', ['drive'], ONE, REPORT, 3)
        report_checks(checks, 'show', ['show'], ROWS, b't: 255\nt: 1\n', 0)
        report_checks(checks, 'show --json', ['show', '--json'], ROWS,
                      b'{"row":[255],"table":"t"}\n{"row":[1],"table":"t"}\n', 0)
        input_checks(checks)
        word_checks(checks)
        file_checks(checks)
    print('%d checks, %d bad' % (checks.count, checks.bad))
    if checks.bad or not checks.count:
        sys.exit('hostile.py: %d of %d checks failed' % (checks.bad, checks.count))


if __name__ == '__main__':
    main()
