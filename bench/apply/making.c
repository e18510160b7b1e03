/* Makes changesets of one table, in which rows are inserted, changed and deleted. */
#include "making.h"
#include "../fields.h"
#include "measure.h"

#include <stdint.h>
#include <stdio.h>
#include <stdlib.h>
#include <string.h>

/* `integers`: a key and two numbers. `texts`: a key, a number and a text of 100 bytes. `blobs`: a key, a number and a blob of
 * 4,096 bytes, of which an UPDATE changes the number alone. */
static unsigned char *put_value(unsigned char *at, const char *kind, uint64_t row, int turn) {
    if (!strcmp(kind, "integers")) return put_integer(at, row * 7 + (uint64_t)turn);
    if (!strcmp(kind, "texts")) return put_bytes(at, TEXT, 100, 'a' + (int)(row % 13) + turn);
    return put_bytes(at, BLOB, 4096, 'a' + (int)(row % 13));
}

/* A DELETE is of a row that an UPDATE has changed, or not. */
static unsigned char *put_change(unsigned char *at, const char *kind, int op, uint64_t row, int changed) {
    /* in no order of keys */
    uint64_t key = row * 2654435761u % 4294967296u;
    int blob = !strcmp(kind, "blobs");
    *at++ = (unsigned char)op;
    *at++ = 0;
    at = put_integer(at, key);
    at = put_integer(at, changed ? row + 1 : row);
    if (op == UPDATE && blob) *at++ = UNDEFINED;
    else at = put_value(at, kind, row, changed);
    if (op != UPDATE) return at;
    *at++ = UNDEFINED;
    at = put_integer(at, row + 1);
    if (blob) *at++ = UNDEFINED;
    else at = put_value(at, kind, row, 1);
    return at;
}

static void hand_out(const unsigned char *bytes, size_t len) {
    for (int shift = 24; shift >= 0; shift -= 8) putchar((int)(len >> shift & 255));
    must(fwrite(bytes, 1, len, stdout) == len, "write");
}

static unsigned char *put_header(unsigned char *at) {
    static const unsigned char header[] = {'T', 3, 1, 0, 0, 'm', 0};
    memcpy(at, header, sizeof header);
    return at + sizeof header;
}

/* the operation on a row in one group of changesets, or none */
typedef int operation_on(uint64_t row);

static int inserted(uint64_t row) { return (void)row, INSERT; }
static int updated(uint64_t row) { return (void)row, UPDATE; }
static int deleted(uint64_t row) { return (void)row, DELETE; }

/* in turn: a new row, and two that were there */
static int mixed(uint64_t row) {
    static const int operations[] = {INSERT, UPDATE, DELETE};
    return operations[row % 3];
}

static int there_before(uint64_t row) { return row % 3 ? INSERT : 0; }

static void make_group(uint64_t rows, const char *kind, operation_on *operation, int changed) {
    unsigned char *bytes = malloc(MOST_BYTES + 20000);
    must(bytes != NULL, "memory");
    unsigned char *at = put_header(bytes);
    for (uint64_t row = 0; row < rows; row++) {
        int op = operation(row);
        if (at - bytes > MOST_BYTES) {
            hand_out(bytes, (size_t)(at - bytes));
            at = put_header(bytes);
        }
        if (op) at = put_change(at, kind, op, row, changed);
    }
    hand_out(bytes, (size_t)(at - bytes));
    free(bytes);
}

void make(uint64_t rows, const char *kind) {
    make_group(rows, kind, inserted, 0);
    make_group(rows, kind, updated, 0);
    make_group(rows, kind, deleted, 1);
}

static void end_group(void) { hand_out((const unsigned char *)"", 0); }

void make_groups(uint64_t rows, const char *kind) {
    make_group(rows, kind, inserted, 0);
    end_group();
    make_group(rows, kind, updated, 0);
    end_group();
    make_group(rows, kind, deleted, 1);
    end_group();
    end_group();
    make_group(rows, kind, there_before, 0);
    end_group();
    make_group(rows, kind, mixed, 0);
    end_group();
}
