"""Inputs of a drive with one bad line each, for checks/drives.py: the first one, one in the middle, or the last one."""

TABLE = b'table 540201007400'
OTHER = b'table 540201007500'
CHANGE = b'5402010074001200010000000000000001030178'
LINES = [TABLE, OTHER, b'changeset 0 ' + CHANGE, b'changeset 1 -', b'changeset 0 -']

# Bad wherever they stand.
ANYWHERE = {
    'an-empty-line': b'',
    'a-line-too-long': b'changeset 0 ' + b'0' * 65525,
    'another-word': b'row 0 010000000000000001 030178',
    'a-line-of-a-script': b'feed 0 -',
    'a-word-alone': b'changeset',
    'no-bytes': b'changeset 0',
    'no-publisher': b'changeset ' + CHANGE,
    'a-word-more': b'changeset 0 - -',
    'a-capital-letter': b'Changeset 0 -',
    'two-spaces': b'changeset  0 -',
    'a-space-at-the-end': b'changeset 0 - ',
    'a-space-at-the-beginning': b' changeset 0 -',
    'a-tab': b'changeset\t0\t-',
    'a-carriage-return': b'changeset 0 -\r',
    'a-zero-byte': b'changeset 0 -\x00',
    'bytes-that-are-no-text': b'\xff\xfe',
    'an-odd-digit': b'changeset 0 540',
    'no-hexadecimal-digit': b'changeset 0 5g',
    'a-prefix-of-digits': b'changeset 0 0x54',
    'two-dashes': b'changeset 0 --',
    'publisher-64': b'changeset 64 -',
    'publisher-beyond-64-bits': b'changeset 18446744073709551616 -',
    'a-leading-zero': b'changeset 00 -',
    'a-minus': b'changeset -1 -',
    'a-plus': b'changeset +1 -',
    'a-publisher-of-no-number': b'changeset one -',
    'a-table-alone': b'table',
    'a-table-of-no-bytes': b'table -',
    'a-table-and-a-word': b'table 540201007600 -',
    'a-table-without-a-key': b'table 540200007600',
    'a-table-of-a-patchset': b'table 500201007600',
    'a-table-without-columns': b'table 54007600',
    'a-table-without-a-name': b'table 5402010000',
    'a-table-that-is-cut': b'table 5402010076',
    'a-table-with-a-byte-more': b'table 54020100760000',
    'a-table-with-a-change': b'table 5402010076001200010000000000000001030178',
    'two-tables-in-one': b'table 540201007600540201007700',
}


def with_line(line, place, ended):
    lines = LINES[:place] + [line] + LINES[place:]
    text = b'\n'.join(lines)
    return text + b'\n' if ended else text


def bad_inputs():
    """name, input, number of the bad line"""
    last = len(LINES)
    for name, line in ANYWHERE.items():
        yield 'bad-%s-first' % name, with_line(line, 0, True), 1
        yield 'bad-%s-in-the-middle' % name, with_line(line, 2, True), 3
        # an empty line is one only by its end
        yield 'bad-%s-last' % name, with_line(line, last, not line), last + 1
    yield 'bad-a-table-again', with_line(TABLE, 2, True), 3
    yield 'bad-a-name-again', with_line(b'table 5401017500', 2, True), 3
    yield 'bad-a-table-after-a-changeset', with_line(b'table 540201007600', 3, True), 4
    yield 'bad-a-table-last', with_line(b'table 540201007600', last, False), last + 1
    yield 'bad-two-lines', b'\n'.join(LINES[:3] + [b'', LINES[3], b'row']) + b'\n', 4
    yield 'bad-a-line-end-alone', b'\n', 1
    yield 'bad-an-end-too-many', b'\n'.join(LINES) + b'\n\n', last + 1
    tables = [b'table 540101' + (b'%x' % number).hex().encode() + b'00' for number in range(1025)]
    yield 'bad-a-table-too-many', b'\n'.join(tables) + b'\n', 1025
