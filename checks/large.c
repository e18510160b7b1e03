/* Feeds or places changesets of the most bytes that one may have, more than a script may have, until the sequence is
 * full. Each must come back as it was fed, and a byte more must be a fault. Prints the numbers. */
#include "broker.h"

#include <stdio.h>
#include <stdlib.h>
#include <string.h>

/* an INSERT of a key and a blob: 22 bytes beside the blob's */
enum { MOST = 16777216, BLOB = MOST - 22, ENTRIES = 3 };

/* ends the program at a result that isn't expected */
#define EXPECT(wanted, call)                                                                                           \
    do {                                                                                                               \
        int64_t found_ = (call);                                                                                       \
        if (found_ != (wanted)) return printf("%s gives %lld\n", #call, (long long)found_), 1;                         \
    } while (0)

/* fills the changeset: the key, and a blob that the key decides */
static void fill(unsigned char *text, unsigned char key) {
    memcpy(text, "T\2\1\0t\0\22\0\1\0\0\0\0\0\0\0\0\4", 18);
    text[16] = key;
    for (int i = 0; i < 4; i++) text[18 + i] = (unsigned char)((BLOB >> (7 * (3 - i)) & 127) | (i < 3 ? 128 : 0));
    memset(text + 22, key, BLOB);
    /* what may not follow */
    text[MOST] = 'T';
}

static int serves(broker *b, unsigned char *text, unsigned char *out) {
    uint64_t publisher, own, entry, subscription, link, cursor, floor;
    struct broker_delivery d;
    struct broker_numbers why;
    EXPECT(BROKER_OK, broker_publisher(b, &publisher));
    EXPECT(BROKER_OK, broker_subscribe(b, 0, &subscription, &link));
    for (unsigned char key = 1; key <= ENTRIES + 1; key++) {
        fill(text, key);
        if (key == ENTRIES) {
            EXPECT(BROKER_OK, broker_place(b, publisher, text, MOST, &entry));
            EXPECT(MOST, broker_text(b, entry, out, MOST));
            EXPECT(0, memcmp(text, out, MOST));
            EXPECT(BROKER_SEQUENCE_FULL, broker_place(b, publisher, text, MOST, &entry));
            EXPECT(BROKER_FAULT, broker_place(b, publisher, text, MOST + 1, &entry));
            continue;
        }
        EXPECT(BROKER_OK, broker_feed(b, publisher, text, MOST));
        EXPECT(BROKER_OK, broker_end(b, publisher));
        EXPECT(BROKER_OK, broker_send(b, publisher, &own));
        EXPECT(key <= ENTRIES ? BROKER_OK : BROKER_SEQUENCE_FULL, broker_turn(b, &entry));
        if (key > ENTRIES) break;
        EXPECT(MOST, broker_text(b, entry, out, MOST));
        EXPECT(0, memcmp(text, out, MOST));
    }
    EXPECT(BROKER_OK, broker_feed(b, publisher, text, MOST));
    EXPECT(BROKER_FAULT, broker_feed(b, publisher, text, 1));
    EXPECT(BROKER_OK, broker_why(b, &why));
    EXPECT(MOST, (int64_t)why.first);
    EXPECT(BROKER_FAULT_TOO_LONG, (int64_t)why.second);
    EXPECT(BROKER_OK, broker_take(b, subscription, 0, &d));
    EXPECT(BROKER_OK, broker_accept(b, d.number, &cursor));
    EXPECT(BROKER_OK, broker_ack(b, d.number, &floor));
    EXPECT(ENTRIES, (int64_t)floor);
    int64_t rows = broker_rows(b, subscription, text, 0);
    EXPECT(6 + (int64_t)ENTRIES * (MOST - 6), rows);
    return printf("%d changesets of %d bytes, rows of %lld bytes\n", ENTRIES, MOST, (long long)rows) < 0;
}

int main(void) {
    static const unsigned char key[] = {1, 0};
    static const struct broker_table table = {(const unsigned char *)"t", 1, key, 2};
    struct broker_limits limits = BROKER_LIMITS;
    struct broker_numbers why;
    unsigned char *text = malloc(MOST + 1), *out = malloc(MOST);
    broker *b = NULL;
    limits.capacity = ENTRIES;
    if (!text || !out || broker_open(&b, &limits, &table, 1, &why)) return 2;
    int status = serves(b, text, out);
    broker_free(b), free(text), free(out);
    return status;
}
