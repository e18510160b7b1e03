#!/usr/bin/env python3
"""Packs: what the cases of a crate have of one kind, such as their scripts, in one file (crates/rb_cases/README.md).

    python3 checks/packs.py                         reads all packs, and tests their form
    python3 checks/packs.py unpack CRATE FOLDER     writes the texts of a crate's packs as FOLDER/NAME.KIND
    python3 checks/packs.py pack CRATE FOLDER       puts FOLDER/NAME.KIND into the crate's packs; other texts stay there

KIND.pack in crates/CRATE/data has a line `== NAME` before each text, and a line end after each. Its names stand in order.
Each name must be one of a script, a listing or a drive, and each script must have answers, each listing its rows in both
forms. The status is 1 if a pack has another form.
"""
import glob
import os
import sys

TOP = os.path.join(os.path.dirname(os.path.abspath(__file__)), '..')
MARK = b'== '
# the crates, and which kinds a case of a first kind must have
CRATES = {'rb_cases': {'script': ['answers'], 'shows': ['sql', 'json']}, 'rb_drive_cases': {'drive': []}}


def path_of(crate, kind):
    return os.path.join(TOP, 'crates', crate, 'data', kind + '.pack')


def read_pack(path):
    """the texts of a pack, by name"""
    with open(path, 'rb') as f:
        whole = f.read()
    before, *parts = (b'\n' + whole)[:-1].split(b'\n' + MARK)
    if before or not parts or not whole.endswith(b'\n'):
        sys.exit('packs.py: %s is no pack' % path)
    texts = {}
    for part in parts:
        name, _, text = part.partition(b'\n')
        if name.decode() in texts:
            sys.exit('packs.py: %s has %s twice' % (path, name.decode()))
        texts[name.decode()] = text
    return texts


def packed(texts):
    """the bytes of a pack with these texts"""
    for name, text in texts.items():
        if b'\n' in name.encode() or (b'\n' + text).find(b'\n' + MARK) >= 0:
            sys.exit('packs.py: %s has a line that begins as a name does' % name)
    # by bytes, as the programs sort names
    return b''.join(MARK + name.encode() + b'\n' + texts[name] + b'\n' for name in sorted(texts, key=str.encode))


def write_pack(path, texts):
    made = packed(texts)
    with open(path, 'wb') as f:
        f.write(made)


def texts_of(crate, kind):
    """the texts of this kind, by name; none if there is no such pack"""
    path = path_of(crate, kind)
    return read_pack(path) if os.path.exists(path) else {}


def kinds_of(crate):
    """the texts of each kind"""
    paths = sorted(glob.glob(path_of(crate, '*')))
    if not paths:
        sys.exit('packs.py: no packs of %s' % crate)
    return {os.path.basename(path)[:-len('.pack')]: read_pack(path) for path in paths}


def unpack(crate, folder):
    os.makedirs(folder, exist_ok=True)
    for kind, texts in kinds_of(crate).items():
        for name, text in texts.items():
            with open(os.path.join(folder, '%s.%s' % (name, kind)), 'wb') as f:
                f.write(text)


def pack(crate, folder):
    kinds = kinds_of(crate)
    for file in sorted(os.listdir(folder)):
        name, _, kind = file.rpartition('.')
        if not name or kind not in kinds:
            sys.exit('packs.py: %s is of no kind of %s' % (file, crate))
        with open(os.path.join(folder, file), 'rb') as f:
            kinds[kind][name] = f.read()
    for kind, texts in kinds.items():
        write_pack(path_of(crate, kind), texts)


def faults(crate, needs):
    """what is wrong with the packs of a crate"""
    kinds = kinds_of(crate)
    for kind, texts in kinds.items():
        with open(path_of(crate, kind), 'rb') as f:
            if f.read() != packed(texts):
                yield '%s/%s.pack has names out of order' % (crate, kind)
        for name in texts:
            if not any(name in kinds.get(first, {}) for first in needs):
                yield '%s/%s.pack has a text of no case: %s' % (crate, kind, name)
    for first, others in needs.items():
        for name in kinds.get(first, {}):
            for kind in others:
                if name not in kinds.get(kind, {}):
                    yield '%s/%s.pack has no text of %s' % (crate, kind, name)
    print('%s: %s' % (crate, ', '.join('%d %s' % (len(texts), kind) for kind, texts in kinds.items())))


def main(words):
    if not words:
        wrong = [why for crate, needs in CRATES.items() for why in faults(crate, needs)]
        for why in wrong:
            print(why)
        if wrong:
            sys.exit('packs.py: %d faults' % len(wrong))
    elif len(words) == 3 and words[0] in ('unpack', 'pack') and words[1] in CRATES:
        {'unpack': unpack, 'pack': pack}[words[0]](*words[1:])
    else:
        sys.exit('usage: python3 checks/packs.py [unpack|pack %s FOLDER]' % '|'.join(CRATES))


if __name__ == '__main__':
    main(sys.argv[1:])
