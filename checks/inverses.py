#!/usr/bin/env python3
"""Compares the inverses and withdrawals of checks/model.py with those of SQLite, and writes cases from them.

    python3 checks/inverses.py [FOLDER]

It reads the recorded histories among the cases of crates/rb_cases, as checks/groups.py does. The inverse of each changeset
must be sqlite3changeset_invert's, to the byte. Its withdrawal must come to the same changes of the same rows as that function
makes of SQLite's group of the changeset alone. With FOLDER it writes a case for each history there: `withdrawn-NAME` withdraws
all changesets, the last one first, shows the withdrawals, and accepts everything one by one. Their answers are the model's.
The rows in the middle must be those of the history, which SQLite had, and none are left at the end. The status is 1 if
something differs.
"""
import ctypes
import os
import sys

import groups
import model
from histories import histories


def sqlite_inverse(text):
    """the inverse by SQLite, as a text"""
    size, made = ctypes.c_int(), ctypes.c_void_p()
    assert groups.sqlite.sqlite3changeset_invert(len(text), text, ctypes.byref(size), ctypes.byref(made)) == 0
    inverse = ctypes.string_at(made, size.value) if size.value else b''
    groups.sqlite.sqlite3_free(made)
    return inverse


def same_inverses(text):
    """whether the model and SQLite invert and withdraw the changeset alike"""
    sections = model.parse(text)
    if model.canonical(model.inverse(sections)) != sqlite_inverse(model.canonical(sections)):
        return False
    withdrawal = model.inverse(model.group(sections))
    return groups.changes_of(withdrawal) == groups.changes_of(model.parse(sqlite_inverse(groups.sqlite_group([text]))))


def script_of(tables, texts):
    lines = tables + [b'publisher', b'subscribe 0']
    for text in texts:
        lines += [b'feed 0 ' + (text.hex().encode() or b'-'), b'end 0', b'send 0', b'turn']
    count = len(texts)
    for d in range(1, count + 1):
        lines += [b'take 0 0', b'accept %d' % d, b'ack %d' % d]
    lines += [b'rows 0']
    for i in range(count):
        lines += [b'withdraw 0 %d' % (count - i), b'send 0', b'turn', b'entry %d' % (count + i + 1)]
    for d in range(count + 1, 2 * count + 1):
        lines += [b'take 0 0', b'accept %d' % d, b'ack %d' % d]
    return b'\n'.join(lines + [b'rows 0']) + b'\n'


def main():
    compared = others = 0
    if len(sys.argv) > 1 and not os.path.isdir(sys.argv[1]):
        sys.exit('inverses.py: no folder %s' % sys.argv[1])
    for name, tables, texts, rows in histories():
        for number, text in enumerate(texts, 1):
            if not same_inverses(text):
                print('%s %d: another inverse' % (name, number))
                others += 1
            compared += 1
        script = script_of(tables, texts)
        answers = model.answers(script, batch=1).encode()
        if b'\n' + rows not in answers or not answers.endswith(b'\nrows 0\n'):
            print('withdrawn-%s: other rows' % name)
            others += 1
        if len(sys.argv) > 1:
            for end, what in (('script', script), ('args', b'--batch 1\n'), ('answers', answers)):
                with open(os.path.join(sys.argv[1], 'withdrawn-%s.%s' % (name, end)), 'wb') as f:
                    f.write(what)
    print('%d inverses compared' % compared)
    if not compared or others:
        sys.exit('inverses.py: %s' % ('%d differ' % others if compared else 'no recorded history was found'))


if __name__ == '__main__':
    main()
