#!/usr/bin/env python3
"""Checks what `rb_run drive --progress` shows (docs/DRIVE.md), on a terminal and elsewhere.

    python3 checks/progress.py        needs the program as `rt run` leaves it (README.md)

It prints `ok NAME` or `FAILED NAME: why` for each check. One drive gets its input slowly, so that it lasts for more than
two seconds; another one is long. What they write on standard error is compared with the form of a line, byte for byte, and
its numbers with the input. Report and status must be those of the same drive without the option.
"""
import os
import pty
import re
import subprocess
import sys
import threading
import time
import tty

TOP = os.path.normpath(os.path.join(os.path.dirname(os.path.abspath(__file__)), '..'))
PROGRAM = os.path.normpath(os.path.join(TOP, os.environ.get('PROGRAM', 'crates/rb_run/out/rb_run')))
LINE = re.compile(rb'\rread (\d+)  placed (\d+)  accepted (\d+)\.\.(\d+)  (\d+)/s\x1b\[K')
CLEAR = b'\r\x1b[K'
TABLE = b'table 540201007400\n'
# how many changesets the slow input has in each of its parts, and the long drive
FEW, MANY = 100, 30000
PAUSE = 1.2
LONG = ['--subscribers', '16', '--batch', '1', '--window', '1', '--appliers', '2']


def inserts(first, count):
    """changesets of new rows"""
    return b''.join(b'changeset 0 5402010074001200010000000000%06x030178\n' % key for key in range(first, first + count))


SLOW = [TABLE + inserts(0, FEW), inserts(FEW, FEW), inserts(2 * FEW, FEW)]


class Ran:
    """what came of a drive: status, standard output, standard error, and how long it took"""

    def __init__(self, words, parts, terminals=('err',), closes=False):
        """Parts of the input come with a pause before each but the first. `terminals` names the streams that go to a
        terminal; with `closes` nobody looks at it any more after a part."""
        pipes, self.out, self.err = {}, b'', b''
        if terminals:
            ours, theirs = pty.openpty()
            tty.setraw(theirs)
            pipes = {'std' + name: theirs for name in terminals}
        begun = time.monotonic()
        self.process = subprocess.Popen([PROGRAM, 'drive'] + words, **{
            'stdin': subprocess.PIPE, 'stdout': subprocess.PIPE, 'stderr': subprocess.PIPE, **pipes})
        readers = [threading.Thread(target=self.read, args=(name, getattr(self.process, 'std' + name).fileno()))
                   for name in ('out', 'err') if name not in terminals]
        if terminals:
            os.close(theirs)
            if not closes:
                readers.append(threading.Thread(target=self.read, args=('err', ours)))
        for reader in readers:
            reader.start()
        self.feed(parts, ours if closes else None)
        self.status = self.process.wait(120)
        self.took = time.monotonic() - begun
        for reader in readers:
            reader.join()
        if terminals and not closes:
            os.close(ours)

    def feed(self, parts, closed):
        try:
            for number, part in enumerate(parts):
                if number:
                    time.sleep(PAUSE)
                    if number == 1 and closed is not None:
                        os.close(closed)
                self.process.stdin.write(part)
                self.process.stdin.flush()
            self.process.stdin.close()
        except BrokenPipeError:
            pass

    def read(self, name, stream):
        try:
            while piece := os.read(stream, 65536):
                setattr(self, name, getattr(self, name) + piece)
        except OSError:
            # a terminal whose other end is closed
            pass


def lines_of(text, rest):
    """the numbers of each line, where the text is lines and then this rest; else nothing"""
    if not text.endswith(CLEAR + rest):
        return []
    shown = text[:len(text) - len(CLEAR + rest)]
    lines = [tuple(map(int, found.groups())) for found in LINE.finditer(shown)]
    return lines if LINE.sub(b'', shown) == b'' else []


def why_not(ran, plain, rest, least, total):
    """what is wrong with a drive that shows lines, `least` of them at least, over an input of so many lines"""
    lines = lines_of(ran.err, rest)
    if (ran.status, ran.out) != (plain.status, plain.out):
        return 'another report, or status %d' % ran.status
    if not least <= len(lines) <= ran.took + 1:
        return '%d lines in %.1f s: %r' % (len(lines), ran.took, ran.err[-200:])
    for read, placed, first, last, _ in lines:
        if not first <= last <= placed <= read <= total:
            return 'numbers that cannot be: %r' % (lines,)
    if any(before > after for one, two in zip(lines, lines[1:]) for before, after in zip(one[:4], two[:4])):
        return 'numbers that fall: %r' % (lines,)
    return '' if any(line[4] for line in lines) else 'no rate'


def slow_input(plain):
    ran = Ran(['--progress'], SLOW)
    lines = lines_of(ran.err, b'')
    if lines and (lines[0][0], lines[-1][1:4]) != (1 + FEW, (0, 0, 0)):
        return 'the numbers are %r' % (lines,)
    return why_not(ran, plain, b'', 2, 1 + 3 * FEW)


def long_drive(plain):
    given = [TABLE + inserts(0, MANY)]
    ran = Ran(LONG + ['--progress'], given)
    wrong = why_not(ran, Ran(LONG, given), b'', 2, 1 + MANY)
    return wrong or ('' if any(line[2] for line in lines_of(ran.err, b'')) else 'nothing is accepted')


def short_drive(plain):
    ran = Ran(['--progress'], [TABLE + inserts(0, FEW)])
    return '' if (ran.status, ran.err) == (0, b'') and ran.took < 0.9 else '%r in %.1f s' % (ran.err, ran.took)


def no_terminal(plain):
    ran = Ran(['--progress'], SLOW, ())
    return '' if (ran.status, ran.out, ran.err) == (plain.status, plain.out, b'') else repr(ran.err)


def no_option(plain):
    return '' if plain.err == b'' and plain.status == 0 and plain.out.startswith(b'placed %d\n' % (3 * FEW)) else repr(plain.err)


def bad_line(plain):
    given = SLOW + [b'nonsense\n']
    return why_not(Ran(['--progress'], given), Ran([], given), b'rb_run: line %d\n' % (2 + 3 * FEW), 2, 1 + 3 * FEW)


def one_terminal(plain):
    ran = Ran(['--progress'], SLOW, ('out', 'err'))
    ran.out = plain.out
    return why_not(ran, plain, plain.out, 2, 1 + 3 * FEW)


def gone_terminal(plain):
    ran = Ran(['--progress'], SLOW, closes=True)
    return '' if (ran.status, ran.out) == (plain.status, plain.out) else 'status %d' % ran.status


def main():
    if not os.access(PROGRAM, os.X_OK):
        sys.exit('progress.py: no program at %s: see README.md' % PROGRAM)
    plain = Ran([], SLOW)
    checks = {'a slow input': slow_input, 'a long drive': long_drive, 'a short drive': short_drive,
              'standard error is no terminal': no_terminal, 'without the option': no_option, 'a bad line': bad_line,
              'one terminal for both': one_terminal, 'the terminal is gone': gone_terminal}
    bad = 0
    for name, check in checks.items():
        why = check(plain)
        print('FAILED %s: %s' % (name, why) if why else 'ok %s' % name)
        bad += bool(why)
    if bad:
        sys.exit('progress.py: %d of %d checks failed' % (bad, len(checks)))


if __name__ == '__main__':
    main()
