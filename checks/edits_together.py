#!/usr/bin/env python3
"""Tries edits of crates/NAME/on-demand.edits many at a time, one in each function, in one check of a copy of the crate.

    python3 checks/edits_together.py NAME..

A function is proved by its own contract and those of what it calls, so an edit can only keep the function that it stands in
from being proved. For each edit it prints `refused` and that function, or `STILL PROVED`, or that it can't be applied or
checked. It takes a tenth of the time of checks/edits.sh, whose verdict, by the prover's own command, is the one that counts.
The copy has what is built in this checkout, which the prover's command takes as long as it was built of the same sources.
It needs the prover's command `rt`, or another one that the variable RT names. JOBS says how many crates it goes over at once,
2 where it isn't set. The status is 1 if an edit was not refused.
"""
import collections
import concurrent.futures
import glob
import os
import queue
import re
import shutil
import subprocess
import sys
import tempfile

from edit_list import edits_of

TOP = os.path.join(os.path.dirname(os.path.abspath(__file__)), '..')


def parts_of(edit):
    """the file of an edit, and its pairs of old and new text"""
    name, old, pairs = None, None, []
    for line in edit.split('\n'):
        word, _, text = line.partition(': ')
        if word == 'file':
            name = text
        elif word == 'old':
            old = text
        elif word == 'new':
            pairs.append((old, text))
    return name, pairs


def placed(source, pairs):
    """the spans of the source that an edit changes, with their new texts, and the functions that it stands in; or None"""
    spans, functions = [], set()
    for old, new in pairs:
        if source.count(old) != 1:
            return None
        at = source.index(old)
        spans.append((at, at + len(old), new))
        functions.update(re.findall(r'\bfn (\w+)', source[:at + len(old)])[-1:])
    return spans, functions


def batches(edits):
    """Lists of edits, each with its file, its spans and its functions. No two edits of a list stand in functions of one name."""
    lists = []
    for edit in edits:
        for some, names in lists:
            if edit[3] and not names & edit[3]:
                break
        else:
            some, names = [], set()
            lists.append((some, names))
        some.append(edit)
        # an edit that stands in no function is tried alone
        names |= edit[3] or {name for other in edits for name in other[3]}
    return [some for some, _ in lists]


def unproved(crate):
    """The functions that aren't proved, apart from those that only call one, and faults of the sources. None if the check did not
    come to its end, which is no proof: it stops early where a crate below can't be built, for one."""
    command = [os.environ.get('RT', 'rt'), 'check', '--allow-holes', '--jobs', '1']
    run = subprocess.run(command, cwd=crate, capture_output=True, text=True)
    lines = (run.stdout + run.stderr).split('\n')
    if not any(line.startswith('crate %s: modules loaded=' % os.path.basename(crate)) for line in lines):
        return None
    open_ = [line[3:].split(': ', 1) for line in lines if re.match(r'fn \S+: (not proved|no proof: expected)', line)]
    names = set()
    for name, _ in open_:
        # a closure's name has those of the functions around it behind `fn`
        parts = name.split('::')
        names.update(parts[parts.index('fn') + 1:] if 'fn' in parts else parts[-1:])
    return names, [line for line in lines if re.match(r'(so far: )?src/\S+: error', line)]


def tried(crate, edits):
    """tries these edits at once, and returns how many were refused"""
    kept, spans = {}, collections.defaultdict(list)
    for _, path, changes, _ in edits:
        spans[path] += changes
    for path, changes in spans.items():
        with open(path) as f:
            source = kept[path] = f.read()
        for begin, end, new in sorted(changes, reverse=True):
            source = source[:begin] + new + source[end:]
        with open(path, 'w') as f:
            f.write(source)
    found = unproved(crate)
    for path, source in kept.items():
        with open(path, 'w') as f:
            f.write(source)
    if len(edits) > 1 and (found is None or found[1]):
        # one of them keeps the others from being judged
        half = len(edits) // 2
        return tried(crate, edits[:half]) + tried(crate, edits[half:])
    name = os.path.basename(crate)
    if found is None:
        print(name, edits[0][0], "CAN'T BE CHECKED", flush=True)
        return 0
    open_, faults = found
    refused = 0
    for one in edits:
        edit, functions = one[0], one[3]
        found = sorted(functions & open_ if functions else open_) or faults[:1]
        if not found and len(edits) > 1:
            # a function that calls one that isn't proved doesn't show its own faults
            refused += tried(crate, [one])
            continue
        refused += bool(found)
        print(name, edit, 'refused: ' + ', '.join(found) if found else 'STILL PROVED', flush=True)
    return refused


def made_copy(folder):
    """a clone of this checkout, with what is built in it"""
    subprocess.run(['git', 'clone', '-q', TOP, folder], check=True)
    for built in glob.glob(os.path.join(TOP, 'crates', '*', 'out')):
        shutil.copytree(built, os.path.join(folder, 'crates', built.split(os.sep)[-2], 'out'), symlinks=True)
    return folder


def tried_all(copy, name):
    """tries all edits of a crate, and returns how many there are and how many were refused"""
    crate, edits, count = os.path.join(copy, 'crates', name), [], 0
    for edit, text in edits_of(copy, name).items():
        file, pairs = parts_of(text)
        path = os.path.join(crate, file)
        with open(path) as f:
            found = placed(f.read(), pairs)
        count += 1
        if found is None:
            print(name, edit, "CAN'T BE APPLIED", flush=True)
        else:
            edits.append((edit, path, *found))
    return count, sum(tried(crate, some) for some in batches(edits))


def main():
    if len(sys.argv) < 2:
        print('usage: python3 checks/edits_together.py NAME..', file=sys.stderr)
        sys.exit(2)
    work, copies = tempfile.mkdtemp(), queue.Queue()
    many = min(len(sys.argv) - 1, int(os.environ.get('JOBS', '2')))

    def answer(name):
        copy = copies.get()
        try:
            return tried_all(copy, name)
        finally:
            copies.put(copy)

    try:
        for number in range(many):
            copies.put(made_copy(os.path.join(work, str(number))))
        with concurrent.futures.ThreadPoolExecutor(many) as pool:
            counts = list(pool.map(answer, sys.argv[1:]))
    finally:
        shutil.rmtree(work)
    count, refused = (sum(some) for some in zip(*counts))
    if refused < count:
        sys.exit('edits_together.py: %d of %d edits were refused' % (refused, count))


if __name__ == '__main__':
    main()
