#!/usr/bin/env python3
"""What checks/killed.sh drives a broker with, and what its replica must have.

killed.py input N     a drive of N changesets of one publisher. Changeset k inserts the row (k, 'a'), sets the row before it to
                      'b' and deletes the one three before it.
killed.py rows C      the rows after the first C of them, as the SQL of killed.sh prints them: table|key|body
"""
import sys

HEADER = b'T\x02\x01\x00t\x00'
UNDEFINED = b'\x00'


def integer(value):
    return b'\x01' + value.to_bytes(8, 'big')


def text(value):
    return bytes([3, len(value)]) + value


def changeset(k):
    changes = b'\x12\x00' + integer(k) + text(b'a')
    if k > 1:
        changes += b'\x17\x00' + integer(k - 1) + text(b'a') + UNDEFINED + text(b'b')
    if k > 3:
        changes += b'\x09\x00' + integer(k - 3) + text(b'b')
    return HEADER + changes


def rows(cursor):
    for k in range(max(1, cursor - 2), cursor + 1):
        value = b'a' if k == cursor else b'b'
        yield f'0|{integer(k).hex()}|{(integer(k) + text(value)).hex()}'.upper()


def main():
    job, number = sys.argv[1], int(sys.argv[2])
    if job == 'input':
        print('table', HEADER.hex())
        for k in range(1, number + 1):
            print('changeset 0', changeset(k).hex())
    else:
        for line in rows(number):
            print(line)


main()
