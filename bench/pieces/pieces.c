/* Makes changesets to be read in pieces, and reads them with SQLite.
 *
 *   pieces make KIND BYTES           writes one of the kinds below on standard output, no longer than so many bytes
 *   pieces sqlite|lean PIECE TIMES   reads it from standard input and has SQLite go through it so often, by pieces of so
 *                                    many bytes, where 0 is the whole text; lean is SQLite without statistics and locks
 *   pieces measure FILE WORDS        as measure.h says
 *
 * SQLite's streaming reader asks for at most 1,024 bytes at a time, so a longer piece is given to it in several. */
#define SQLITE_ENABLE_SESSION
#define SQLITE_ENABLE_PREUPDATE_HOOK
#include "../apply/measure.h"
#include "../fields.h"
#include "../inputs.h"

#include <sqlite3.h>

#include <limits.h>
#include <stdio.h>
#include <stdlib.h>
#include <string.h>

/* more bytes than a text may have */
#define ROOM 16777217

/* ---- making */

/* more than any part takes that is put again and again */
#define MOST_OF_A_PART 1100000

/* Puts the `i`th of the parts that follow one another in a text, and gives the place behind it. */
typedef unsigned char *put_part(unsigned char *at, long i);

static void write_out(const unsigned char *bytes, size_t len) {
    must(fwrite(bytes, 1, len, stdout) == len && fflush(stdout) == 0, "write");
}

/* a header of a table whose key is its first column, and whose name is one letter so often */
static unsigned char *put_header(unsigned char *at, size_t columns, size_t letters) {
    *at++ = 'T';
    at = put_varint(at, columns);
    memset(at, 0, columns);
    *at = 1;
    at += columns;
    memset(at, 'm', letters);
    at += letters;
    *at++ = 0;
    return at;
}

static unsigned char *put_insert(unsigned char *at) {
    *at++ = INSERT;
    *at++ = 0;
    return at;
}

/* one column, the key */
static unsigned char *put_blob_row(unsigned char *at, long i) {
    return put_bytes(put_insert(at), BLOB, 1000000, 'a' + (int)(i % 26));
}

/* 2,000 columns: the key, and NULL and a small number in turn */
static unsigned char *put_wide_row(unsigned char *at, long i) {
    at = put_integer(put_insert(at), (uint64_t)i);
    for (int column = 1; column < 2000; column++) {
        if (column % 2) *at++ = SQLITE_NULL;
        else at = put_integer(at, (uint64_t)(i + column) % 100);
    }
    return at;
}

/* a section without changes, with the longest name */
static unsigned char *put_named(unsigned char *at, long i) {
    (void)i;
    return put_header(at, 1, 1024);
}

/* the shortest section that has a change: its key is an empty text */
static unsigned char *put_section(unsigned char *at, long i) {
    (void)i;
    return put_bytes(put_insert(put_header(at, 1, 1)), TEXT, 0, 0);
}

/* as many parts as fit, behind a header where columns are given */
static void make_parts(size_t limit, size_t columns, put_part *part) {
    unsigned char *bytes = malloc(limit + MOST_OF_A_PART);
    must(bytes != NULL, "memory");
    unsigned char *at = columns ? put_header(bytes, columns, 1) : bytes;
    for (long i = 0;; i++) {
        unsigned char *after = part(at, i);
        if ((size_t)(after - bytes) > limit) break;
        at = after;
    }
    write_out(bytes, (size_t)(at - bytes));
}

/* one INSERT of one BLOB, which with the 12 bytes before it fills the text */
static void make_blob(size_t limit) {
    unsigned char *bytes = malloc(limit + MOST_OF_A_PART);
    must(bytes != NULL && limit > 12, "room");
    unsigned char *end = put_bytes(put_insert(put_header(bytes, 1, 1)), BLOB, limit - 12, 'b');
    write_out(bytes, (size_t)(end - bytes));
}

/* the rows of the other comparison, INSERT, UPDATE and DELETE in turn */
static void make_rows(size_t limit, enum rows rows) {
    struct input input = make_input(rows, LONG_MAX, limit);
    write_out(input.bytes, input.len);
}

/* integers, of which the last change's key is REAL */
static void make_faulty(size_t limit) {
    struct input input = make_input(INTEGERS, LONG_MAX, limit);
    /* where the last change begins, by its operation, its mark and its key's type */
    size_t last = make_input(INTEGERS, input.changes - 1, limit).len;
    input.bytes[last + 2] = SQLITE_FLOAT;
    write_out(input.bytes, input.len);
}

static void make(const char *kind, size_t limit) {
    if (!strcmp(kind, "integers")) make_rows(limit, INTEGERS);
    else if (!strcmp(kind, "texts")) make_rows(limit, TEXTS);
    else if (!strcmp(kind, "blob1")) make_parts(limit, 1, put_blob_row);
    else if (!strcmp(kind, "blob16")) make_blob(limit);
    else if (!strcmp(kind, "wide")) make_parts(limit, 2000, put_wide_row);
    else if (!strcmp(kind, "names")) make_parts(limit, 0, put_named);
    else if (!strcmp(kind, "sections")) make_parts(limit, 0, put_section);
    else if (!strcmp(kind, "faulty")) make_faulty(limit);
    else must(0, "integers, texts, blob1, blob16, wide, names, sections or faulty");
}

/* ---- reading */

/* what is left to be given of a text, and how much of it at a time: 0 is all */
struct source {
    const unsigned char *bytes;
    size_t len, piece;
};

/* the next bytes, no more than a piece and than SQLite asks for */
static int give(void *context, void *into, int *len) {
    struct source *source = context;
    size_t count = (size_t)*len;
    if (count > source->piece) count = source->piece;
    if (count > source->len) count = source->len;
    memcpy(into, source->bytes, count);
    source->bytes += count;
    source->len -= count;
    *len = (int)count;
    return SQLITE_OK;
}

static sqlite3_changeset_iter *start(struct source *source) {
    sqlite3_changeset_iter *iter;
    int status = source->piece ? sqlite3changeset_start_strm(&iter, give, source)
                               : sqlite3changeset_start(&iter, (int)source->len, (void *)source->bytes);
    must(status == SQLITE_OK, "start");
    return iter;
}

/* how many of a change's fields have a value other than NULL, each looked at */
static long values_of(sqlite3_changeset_iter *iter, int columns, int operation) {
    long seen = 0;
    sqlite3_value *value;
    for (int column = 0; column < columns; column++) {
        if (operation != SQLITE_INSERT) {
            must(sqlite3changeset_old(iter, column, &value) == SQLITE_OK, "old");
            seen += value && sqlite3_value_type(value) != SQLITE_NULL;
        }
        if (operation != SQLITE_DELETE) {
            must(sqlite3changeset_new(iter, column, &value) == SQLITE_OK, "new");
            seen += value && sqlite3_value_type(value) != SQLITE_NULL;
        }
    }
    return seen;
}

/* how many changes the text has */
static long read_once(struct source source) {
    sqlite3_changeset_iter *iter = start(&source);
    long changes = 0;
    while (sqlite3changeset_next(iter) == SQLITE_ROW) {
        const char *table;
        int columns, operation, indirect;
        must(sqlite3changeset_op(iter, &table, &columns, &operation, &indirect) == SQLITE_OK, "op");
        /* the key's at least */
        must(values_of(iter, columns, operation) > 0, "values");
        changes++;
    }
    must(sqlite3changeset_finalize(iter) == SQLITE_OK, "finalize");
    return changes;
}

static void read_often(size_t piece, unsigned long times) {
    unsigned char *text = malloc(ROOM);
    must(text != NULL, "memory");
    struct source source = {text, fread(text, 1, ROOM, stdin), piece};
    must(source.len < ROOM, "the text is too long");
    long changes = 0;
    for (unsigned long i = 0; i < times; i++) changes = read_once(source);
    printf("%ld changes\n", changes);
}

int main(int count, char **words) {
    const char *job = count > 1 ? words[1] : "";
    if (count == 4 && !strcmp(job, "make")) make(words[2], strtoull(words[3], 0, 10));
    else if (count > 3 && !strcmp(job, "measure")) measure(words[2], words + 3);
    else if (count == 4 && (!strcmp(job, "sqlite") || !strcmp(job, "lean"))) {
        if (*job == 'l') make_lean();
        read_often(strtoull(words[2], 0, 10), strtoul(words[3], 0, 10));
    } else must(0, "make KIND BYTES, sqlite|lean PIECE TIMES, or measure FILE WORDS");
    return 0;
}
