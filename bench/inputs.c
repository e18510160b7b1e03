#include "inputs.h"

#include "fields.h"

#include <stdint.h>
#include <stdio.h>
#include <stdlib.h>
#include <string.h>

/* more than any change of these tables takes */
#define MOST_OF_A_CHANGE 20000

/* a generator of numbers, the same at every run */
static uint64_t state;

static uint64_t next_number(void) {
    state = state * 6364136223846793005u + 1442695040888963407u;
    return state >> 11;
}

static int next_letter(void) { return 'a' + (int)(next_number() % 26); }

static int columns_of(enum rows rows) { return rows == INTEGERS ? 4 : 2; }

static unsigned char *put_columns(unsigned char *at, enum rows rows) {
    if (rows == TEXTS) return put_bytes(at, TEXT, 100, next_letter());
    if (rows == BLOBS) return put_bytes(at, BLOB, 4096, next_letter());
    for (int column = 1; column < 4; column++) at = put_integer(at, next_number());
    return at;
}

/* a record with a value in each column */
static unsigned char *put_row(unsigned char *at, enum rows rows, uint64_t key) {
    return put_columns(put_integer(at, key), rows);
}

static unsigned char *put_change(unsigned char *at, enum rows rows, long i) {
    static const int operations[3] = {INSERT, UPDATE, DELETE};
    int operation = operations[i % 3];
    *at++ = (unsigned char)operation;
    *at++ = 0;
    at = put_row(at, rows, (uint64_t)i);
    if (operation == UPDATE) {
        /* all columns but the key change */
        *at++ = UNDEFINED;
        at = put_columns(at, rows);
    }
    return at;
}

static unsigned char *put_header(unsigned char *at, enum rows rows) {
    int columns = columns_of(rows);
    *at++ = 'T';
    *at++ = (unsigned char)columns;
    for (int column = 0; column < columns; column++) *at++ = column == 0;
    memcpy(at, "measured", 9);
    return at + 9;
}

static unsigned char *room_for(size_t limit) {
    unsigned char *bytes = malloc(limit + MOST_OF_A_CHANGE);
    if (!bytes) {
        fputs("out of memory\n", stderr);
        exit(1);
    }
    return bytes;
}

struct input make_input(enum rows rows, long changes, size_t limit) {
    unsigned char *bytes = room_for(limit);
    state = 1;
    unsigned char *at = put_header(bytes, rows);
    long made = 0;
    while (made < changes) {
        unsigned char *after = put_change(at, rows, made);
        if ((size_t)(after - bytes) > limit) break;
        at = after;
        made++;
    }
    return (struct input){bytes, (size_t)(at - bytes), made};
}

/* the columns of a row behind its key, after so many UPDATEs; each UPDATE changes all of them */
static unsigned char *put_columns_after(unsigned char *at, enum rows rows, uint64_t key, int updates) {
    int letter = 'a' + (int)((key + (uint64_t)updates) % 26);
    if (rows == TEXTS) return put_bytes(at, TEXT, 100, letter);
    if (rows == BLOBS) return put_bytes(at, BLOB, 4096, letter);
    for (uint64_t column = 1; column < 4; column++)
        at = put_integer(at, (key * 64 + (uint64_t)updates) * 4 + column);
    return at;
}

/* An INSERT of the row that so many UPDATEs leave, or the last of these UPDATEs. */
static unsigned char *put_step(unsigned char *at, enum rows rows, int operation, uint64_t key, int updates) {
    *at++ = (unsigned char)operation;
    *at++ = 0;
    at = put_integer(at, key);
    if (operation == INSERT) return put_columns_after(at, rows, key, updates);
    at = put_columns_after(at, rows, key, updates - 1);
    *at++ = UNDEFINED;
    return put_columns_after(at, rows, key, updates);
}

/* how many buckets SQLite's session extension has for the keys of one text */
static uint32_t buckets;

/* the bucket of a key of one integer column */
static uint32_t bucket_of(uint64_t key) {
    uint32_t hash = 9 ^ (uint32_t)key;
    return ((hash << 3) ^ hash ^ (uint32_t)(key >> 32)) % buckets;
}

static int by_bucket(const void *one, const void *other) {
    uint32_t a = bucket_of(*(const uint64_t *)one), b = bucket_of(*(const uint64_t *)other);
    return (a > b) - (a < b);
}

/* The keys of so many rows. An odd factor gives each row a key of its own. */
static void put_keys(uint64_t *out, enum keys keys, uint64_t first, long count) {
    for (long i = 0; i < count; i++) {
        uint64_t row = first + (uint64_t)i;
        out[i] = keys == SCATTERED ? row * 6364136223846793005u & INT64_MAX : row;
    }
    if (keys != RECORDED) return;
    for (buckets = 256; buckets / 2 < (uint32_t)count; buckets *= 2) continue;
    qsort(out, (size_t)count, sizeof *out, by_bucket);
}

/* One such change for each row of so many texts, in one text. */
static struct input make_steps(enum rows rows, enum keys keys, int operation, uint64_t first, int texts, long changes,
                               int updates, size_t limit) {
    unsigned char *bytes = room_for(limit);
    unsigned char *at = put_header(bytes, rows);
    uint64_t *own = (uint64_t *)room_for((size_t)changes * sizeof *own);
    for (int text = 0; text < texts; text++) {
        put_keys(own, keys, first + (uint64_t)(text * changes), changes);
        for (long i = 0; i < changes; i++) at = put_step(at, rows, operation, own[i], updates);
    }
    free(own);
    return (struct input){bytes, (size_t)(at - bytes), texts * changes};
}

struct input make_inserts(enum rows rows, long changes, size_t limit) {
    unsigned char change[MOST_OF_A_CHANGE];
    size_t each = (size_t)(put_step(change, rows, INSERT, 0, 0) - change);
    long most = (long)((limit - 100) / each);
    return make_steps(rows, APART, INSERT, 0, 1, changes < most ? changes : most, 0, limit);
}

void make_combined(struct input *inputs, enum rows rows, enum keys keys, long changes, size_t limit) {
    unsigned char change[MOST_OF_A_CHANGE];
    size_t each = (size_t)(put_step(change, rows, keys == HOT ? UPDATE : INSERT, 0, 1) - change);
    long most = (long)((limit - 100) / each);
    if (changes > most) changes = most;
    for (int i = 0; i < COMBINED; i++) {
        if (keys == HOT) inputs[i] = make_steps(rows, keys, i == 0 ? INSERT : UPDATE, 0, 1, changes, i, limit);
        else inputs[i] = make_steps(rows, keys, INSERT, (uint64_t)(i * changes), 1, changes, 0, limit);
    }
    if (keys == HOT) inputs[COMBINED] = make_steps(rows, keys, INSERT, 0, 1, changes, COMBINED - 1, limit);
    else inputs[COMBINED] = make_steps(rows, keys, INSERT, 0, COMBINED, changes, 0, COMBINED * limit);
}
