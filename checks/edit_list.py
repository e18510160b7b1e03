#!/usr/bin/env python3
"""Writes edits of the lists crates/NAME/on-demand.edits as files of crates/NAME/must-fail, which the prover's command tries.

    python3 checks/edit_list.py TOP NAME..            all edits of these crates
    python3 checks/edit_list.py TOP --some N SEED     N edits of all crates, chosen by SEED, the same ones on each machine

TOP is a clone that is there for this alone. It prints NAME/EDIT for each edit. In a list an edit is a line `edit: EDIT`, then its
lines `file:`, `old:` and `new:`. Empty lines and those that begin with # are skipped. Any other line is an error.
"""
import hashlib
import os
import sys


def list_of(top, crate):
    return os.path.join(top, 'crates', crate, 'on-demand.edits')


def edits_of(top, crate):
    """the edits of a crate's list by name, each as the text that the prover's command reads"""
    edits, path = {}, list_of(top, crate)
    with open(path if os.path.exists(path) else os.devnull, encoding='utf-8') as f:
        for line in f:
            word, _, text = line.partition(':')
            if word == 'edit' and text.strip() not in edits:
                edit = text.strip()
                edits[edit] = ''
            elif word in ('file', 'old', 'new') and edits:
                edits[edit] += line
            elif line.strip() and not line.startswith('#'):
                sys.exit('edit_list.py: crates/%s/on-demand.edits has a line out of place: %s' % (crate, line.strip()))
    if not edits:
        sys.exit('edit_list.py: crates/%s/on-demand.edits has no edit' % crate)
    return edits


def chosen(names, count, seed):
    """that many of the names, the first in an order that the seed makes"""
    return sorted(names, key=lambda name: hashlib.sha256(('%s %s' % (seed, name)).encode()).digest())[:count]


def main():
    if len(sys.argv) < 3:
        print('usage: python3 checks/edit_list.py TOP NAME.. | TOP --some N SEED', file=sys.stderr)
        sys.exit(2)
    top, words = sys.argv[1], sys.argv[2:]
    crates, is_some = words, words[0] == '--some'
    if is_some:
        if len(words) != 3 or not words[1].isdigit() or int(words[1]) < 1:
            sys.exit('edit_list.py: --some takes a number from 1 and a seed')
        crates = [crate for crate in os.listdir(os.path.join(top, 'crates')) if os.path.exists(list_of(top, crate))]
    edits = {crate + '/' + edit: text for crate in crates for edit, text in edits_of(top, crate).items()}
    if not edits:
        sys.exit('edit_list.py: no crate has an edit in on-demand.edits')
    for name in chosen(edits, int(words[1]), words[2]) if is_some else edits:
        crate, edit = name.split('/')
        folder = os.path.join(top, 'crates', crate, 'must-fail')
        os.makedirs(folder, exist_ok=True)
        with open(os.path.join(folder, edit + '.edit'), 'w', encoding='utf-8') as f:
            f.write(edits[name])
        print(name)


if __name__ == '__main__':
    main()
