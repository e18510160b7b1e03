#!/usr/bin/env python3
"""Runs many small drives by chance, in which threads often wait for one another.

    python3 checks/rings.py [COUNT [FIRST]]      needs the program as `rt run` leaves it (README.md)

Drive number N is made from the seed N, from FIRST on; there are 5,000 from 1 on where nothing is said. Each has a
publisher or more, few changesets, and mostly an intake of 1, a window of 1 and deliveries of one entry, so each thread
soon finds nothing and waits for a bell (crates/rb_drive/src/signs.rt). A thread that sleeps through a ring looks again
after a second. So a lost ring shows as a drive that takes a second or longer, or that hangs; on a busy machine another
drive can take as long. The reports are compared with those of checks/model.py. It prints how many drives ran, hung,
differed, and took a second or longer, and the longest time. One that has not ended after 10 seconds hangs; the variable
LIMIT gives more of them on a busy machine. The status is 1 if one hung or differed.
"""
import os
import random
import subprocess
import sys
import time
from concurrent.futures import ThreadPoolExecutor

from changesets import shapes
from drives import PROGRAM, by_model, chosen, mixed, outcome

LIMIT = float(os.environ.get('LIMIT', '10'))


def drive_of(seed):
    chance = random.Random('ring-%d' % seed)
    options = chosen(chance, subscribers=[None, 1, 2, 4, 16], batch=[1, 1, 1, 3, 256], window=[1, 1, None],
                     intake=[1, 1, 1, 2, None])
    return mixed('ring-%d' % seed, chance, shapes(chance, chance.randrange(1, 3)), chance.randrange(1, 9),
                 chance.randrange(0, 16), options, ['a-patchset', 'a-cut-value'], chance.choice([0, 0, 0.3]))


def ran(seed):
    """what came of a drive: nothing, `hung` or `differs`; and how long it took"""
    drive = drive_of(seed)
    report, status = outcome(drive, by_model)
    begun = time.monotonic()
    try:
        done = subprocess.run([PROGRAM, 'drive'] + drive.args().split(), input=drive.input(), stdout=subprocess.PIPE,
                              stderr=subprocess.DEVNULL, timeout=LIMIT)
    except subprocess.TimeoutExpired:
        return seed, 'hung', time.monotonic() - begun
    took = time.monotonic() - begun
    same = done.stdout == report.encode() and done.returncode == status
    return seed, '' if same else 'differs', took


def main():
    if not os.access(PROGRAM, os.X_OK):
        sys.exit('rings.py: no program at %s: see README.md' % PROGRAM)
    count = int(sys.argv[1]) if len(sys.argv) > 1 else 5000
    first = int(sys.argv[2]) if len(sys.argv) > 2 else 1
    many, hung, differ, late, longest = 0, 0, 0, 0, 0.0
    with ThreadPoolExecutor(os.cpu_count()) as pool:
        for seed, what, took in pool.map(ran, range(first, first + count)):
            many, hung, differ = many + 1, hung + (what == 'hung'), differ + (what == 'differs')
            late, longest = late + (took >= 1), max(longest, took)
            if what or took >= 1:
                print('drive %d: %s%.3f seconds' % (seed, what and what + ', ', took), flush=True)
    print('%d drives, %d hung, %d differ, %d took a second or longer, the longest %.3f seconds'
          % (many, hung, differ, late, longest))
    if hung or differ or not many:
        sys.exit('rings.py: %s' % ('%d drives hung or differ' % (hung + differ) if many else 'no drive'))


if __name__ == '__main__':
    main()
