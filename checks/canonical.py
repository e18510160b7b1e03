#!/usr/bin/env python3
"""Tests that each changeset that SQLite recorded for the cases is its own canonical text, by the model.

    python3 checks/canonical.py

An entry keeps one buffer for such a changeset, and `parse_in_place` copies nothing of it. It reads the cases `..recorded..`
of the crates rb_cases and rb_drive_cases, and the drives `sqlite-..`. The status is 1 if one is in another form.
"""
import sys

import model
import packs


def cases():
    """the scripts and drives of what SQLite recorded"""
    for crate, kind in ('rb_cases', 'script'), ('rb_drive_cases', 'drive'):
        for name, text in packs.texts_of(crate, kind).items():
            if 'recorded' in name or kind == 'drive' and name.startswith('sqlite-'):
                yield '%s.%s' % (name, kind), text.decode()


def changesets(text):
    """the texts that a script stages, or that the lines of a drive have"""
    fed = {}
    for line in text.splitlines():
        words = line.split()
        told = bytes.fromhex('' if words[-1] == '-' else words[-1]) if words[0] in ('feed', 'changeset') else b''
        if words[0] == 'feed':
            fed[words[1]] = fed.get(words[1], b'') + told
        elif words[0] == 'reset':
            fed.pop(words[1], None)
        elif words[0] == 'end':
            yield fed.pop(words[1], b'')
        elif words[0] == 'changeset':
            yield told


def main():
    count = others = 0
    for name, case in cases():
        for text in changesets(case):
            count += 1
            if model.canonical(model.parse(text)) != text:
                others += 1
                print('%s: %s is in another form' % (name, text.hex()))
    print('%d changesets, %d in another form' % (count, others))
    if not count or others:
        sys.exit(1)


if __name__ == '__main__':
    main()
