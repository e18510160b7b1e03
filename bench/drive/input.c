/* Makes the inputs of drives, on standard output.
 *
 *   input KIND CHANGES LINES PUBLISHERS [TEXT]
 *
 * The changesets of one table go to the publishers in turn. Each is of
 * CHANGES changes of rows with TEXT bytes of text, 16 where it isn't given. `inserts`: all are INSERTs of rows of their own. `updates`: each publisher's first changeset inserts its
 * part of 1,000 rows; the later ones are UPDATEs, which go round its rows. So changesets of different publishers commute. */
#include "../apply/measure.h"
#include "../fields.h"

#include <stdint.h>
#include <stdio.h>
#include <stdlib.h>
#include <string.h>

/* the bytes of a row's text that say what it is, the most that it may have, and the hot rows of all publishers */
enum { TEXT_BYTES = 16, MOST_TEXT = 4096, HOT_ROWS = 1000, MOST_PUBLISHERS = 64 };
/* the longest line of a drive */
enum { MOST_OF_LINE = 65536 };

static const unsigned char header[] = {'T', 2, 1, 0, 't', 0};

static void put_hex(const unsigned char *bytes, size_t len) {
    for (size_t i = 0; i < len; i++) printf("%02x", bytes[i]);
    putchar('\n');
}

/* A publisher's rows have keys that rise; the publishers' ranges are far apart. */
static uint64_t key_of(uint64_t publisher, uint64_t row) { return publisher * 1000000000 + row; }

/* the bytes of a row's text */
static uint64_t text_bytes = TEXT_BYTES;

/* a row's text after so many changes of it */
static unsigned char *put_text(unsigned char *at, uint64_t row, uint64_t changes) {
    char text[TEXT_BYTES + 1];
    snprintf(text, sizeof text, "%08lx%08lx", (unsigned long)(row & 0xffffffff), (unsigned long)(changes & 0xffffffff));
    *at++ = TEXT;
    at = put_varint(at, text_bytes);
    memset(at, 'x', text_bytes);
    memcpy(at, text, TEXT_BYTES);
    return at + text_bytes;
}

static unsigned char *put_insert(unsigned char *at, uint64_t publisher, uint64_t row) {
    *at++ = INSERT;
    *at++ = 0;
    at = put_integer(at, key_of(publisher, row));
    return put_text(at, row, 0);
}

/* the UPDATE that is the change with this number of its row, from 1 */
static unsigned char *put_update(unsigned char *at, uint64_t publisher, uint64_t row, uint64_t number) {
    *at++ = UPDATE;
    *at++ = 0;
    at = put_integer(at, key_of(publisher, row));
    at = put_text(at, row, number - 1);
    *at++ = UNDEFINED;
    return put_text(at, row, number);
}

/* what each publisher has made so far */
static uint64_t made[MOST_PUBLISHERS];

static unsigned char *put_changes(unsigned char *at, int hot, uint64_t publisher, uint64_t changes, uint64_t rows) {
    if (!hot) {
        for (uint64_t i = 0; i < changes; i++) at = put_insert(at, publisher, made[publisher]++);
        return at;
    }
    for (uint64_t i = 0; i < (made[publisher] == 0 ? rows : changes); i++, made[publisher]++) {
        uint64_t row = made[publisher] % rows, number = made[publisher] / rows;
        at = number == 0 ? put_insert(at, publisher, row) : put_update(at, publisher, row, number);
    }
    return at;
}

int main(int count, char **words) {
    must(count == 5 || count == 6, "inserts or updates, CHANGES, LINES, PUBLISHERS and TEXT");
    if (count == 6) text_bytes = strtoull(words[5], 0, 10);
    must(text_bytes >= TEXT_BYTES && text_bytes <= MOST_TEXT, "a text of 16 to 4096 bytes");
    int hot = !strcmp(words[1], "updates");
    uint64_t changes = strtoull(words[2], 0, 10), lines = strtoull(words[3], 0, 10), publishers = strtoull(words[4], 0, 10);
    must(publishers >= 1 && publishers <= MOST_PUBLISHERS, "1 to 64 publishers");
    uint64_t rows = HOT_ROWS / publishers, most = hot && rows > changes ? rows : changes;
    unsigned char *bytes = malloc(sizeof header + most * (64 + 2 * text_bytes) + 1);
    must(bytes != NULL, "memory");
    memcpy(bytes, header, sizeof header);
    printf("table ");
    put_hex(bytes, sizeof header);
    for (uint64_t line = 0; line < lines; line++) {
        uint64_t publisher = line % publishers;
        size_t len = (size_t)(put_changes(bytes + sizeof header, hot, publisher, changes, rows) - bytes);
        must(len * 2 + 32 <= MOST_OF_LINE, "a line is too long");
        printf("changeset %lu ", (unsigned long)publisher);
        put_hex(bytes, len);
    }
    return 0;
}
