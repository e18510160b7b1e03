#!/usr/bin/env python3
"""Compares the groups of checks/model.py with those of SQLite's own changegroups, and writes cases from them.

    python3 checks/groups.py [FOLDER]

It reads the recorded histories among the cases of crates/rb_cases (`recorded-..`, `sqlite-..`). Of each it combines every two
and every three changesets in a row, and all of them, by the model and by sqlite3changegroup_add and _output of the system's
libsqlite3, or of the one that the variable SQLITE names. Both must come to the same changes of the same rows. The order of tables and rows and the indirect mark of a
merged change are choices of this project, so they are not compared. With FOLDER it writes two cases for each history there:
`grouped-NAME` accepts runs of three and shows the groups, `whole-NAME` accepts all at once. Their answers are the model's,
and their last rows must be those of the history, which SQLite had. The status is 1 if something differs.
"""
import ctypes
import ctypes.util
import os
import sys

import model
from histories import histories

try:
    sqlite = ctypes.CDLL(os.environ.get('SQLITE') or ctypes.util.find_library('sqlite3') or 'libsqlite3.so.0')
    sqlite.sqlite3changegroup_new
except (OSError, AttributeError) as why:
    sys.exit('groups.py: no libsqlite3 with sessions: %s' % why)


def sqlite_group(texts):
    """the changesets combined by SQLite, as a text"""
    group, size, text = ctypes.c_void_p(), ctypes.c_int(), ctypes.c_void_p()
    assert sqlite.sqlite3changegroup_new(ctypes.byref(group)) == 0
    for one in texts:
        assert sqlite.sqlite3changegroup_add(group, len(one), one) == 0
    assert sqlite.sqlite3changegroup_output(group, ctypes.byref(size), ctypes.byref(text)) == 0
    made = ctypes.string_at(text, size.value) if size.value else b''
    sqlite.sqlite3_free(text)
    sqlite.sqlite3changegroup_delete(group)
    return made


def changes_of(sections):
    """the changes by table and row, without the indirect mark"""
    found = {}
    for name, flags, changes in sections:
        for op, _, old, new in changes:
            key = b''.join(f for f, k in zip(new if op == model.INS else old, flags) if k)
            assert (name, key) not in found
            found[name, key] = (op, old, new)
    return found


def spans_of(count):
    return sorted({(a, min(a + n - 1, count)) for n in (2, 3) for a in range(1, count)} | {(1, count)})


def script_of(tables, texts, batch):
    lines = tables + [b'publisher', b'subscribe 0']
    for text in texts:
        lines += [b'feed 0 ' + (text.hex().encode() or b'-'), b'end 0', b'send 0', b'turn']
    if batch == 3:
        lines += [b'combine %d %d' % span for span in spans_of(len(texts))]
    for d in range(1, (len(texts) + batch - 1) // batch + 1):
        lines += [b'take 0 0', b'accept %d' % d]
    return b'\n'.join(lines + [b'rows 0']) + b'\n'


def main():
    groups = others = 0
    if len(sys.argv) > 1 and not os.path.isdir(sys.argv[1]):
        sys.exit('groups.py: no folder %s' % sys.argv[1])
    for name, tables, texts, rows in histories():
        if len(texts) < 2:
            continue
        for first, last in spans_of(len(texts)):
            some = texts[first - 1:last]
            ours = changes_of(model.group([section for text in some for section in model.parse(text)]))
            if ours != changes_of(model.parse(sqlite_group(some))):
                print('%s %d %d: another group' % (name, first, last))
                others += 1
            groups += 1
        for batch, kind in ((3, 'grouped-'), (256, 'whole-')):
            script = script_of(tables, texts, batch)
            answers = model.answers(script, batch=batch)
            if not answers.encode().endswith(rows):
                print('%s%s: other rows at its end' % (kind, name))
                others += 1
            if len(sys.argv) > 1:
                for end, what in (('script', script), ('args', b'--batch %d\n' % batch), ('answers', answers.encode())):
                    with open(os.path.join(sys.argv[1], '%s%s.%s' % (kind, name, end)), 'wb') as f:
                        f.write(what)
    print('%d groups compared' % groups)
    if not groups or others:
        sys.exit('groups.py: %s' % ('%d differ' % others if groups else 'no recorded history was found'))


if __name__ == '__main__':
    main()
