/* Opens a broker for one table, feeds it a changeset, and lets a subscription take, accept and acknowledge the entry.
 * Prints the entry's text, and what is refused. At the top of the repository these two commands build it:
 *
 *     (cd crates/broker_c && rt lib)
 *     gcc -O2 -I include examples/broker/run.c crates/broker_c/out/libbroker_c.a \
 *         "$(dirname "$(rt doc)")/c/liblibc_c.a" -o run
 *
 * With the library installed (docs/INSTALL.md) this one does:
 *
 *     gcc -O2 run.c $(pkg-config --cflags --libs gubzelk-broker) -o run
 */
#include "broker.h"
#include <inttypes.h>
#include <stdio.h>
#include <string.h>

/* an INSERT of the row (1, 5), as SQLite's session extension writes it: t has two columns, and the first is its key */
static const unsigned char inserted[] = {0x54, 2, 1, 0, 't', 0, 0x12, 0, 1, 0, 0, 0, 0,
                                         0,    0, 0, 1, 1,   0, 0,    0, 0, 0, 0, 0, 5};

/* ends the program at a result that isn't expected */
#define EXPECT(wanted, call)                                                                                           \
    do {                                                                                                               \
        int64_t found_ = (call);                                                                                       \
        if (found_ != (wanted)) return printf("%s gives %" PRId64 "\n", #call, found_), 1;                             \
    } while (0)

static int serves(broker *b) {
    uint64_t publisher, own, entry, subscription, link, cursor, floor;
    struct broker_delivery delivery;
    struct broker_numbers why;
    unsigned char text[sizeof inserted];
    EXPECT(BROKER_OK, broker_publisher(b, &publisher));
    /* in two pieces */
    EXPECT(BROKER_OK, broker_feed(b, publisher, inserted, 10));
    EXPECT(BROKER_OK, broker_feed(b, publisher, inserted + 10, sizeof inserted - 10));
    EXPECT(BROKER_OK, broker_end(b, publisher));
    EXPECT(BROKER_OK, broker_send(b, publisher, &own));
    EXPECT(BROKER_OK, broker_turn(b, &entry));
    EXPECT(BROKER_IDLE, broker_turn(b, &entry));
    printf("entry %" PRIu64 " is number %" PRIu64 " of publisher %" PRIu64 "\n", entry, own, publisher);
    EXPECT(BROKER_OK, broker_subscribe(b, 0, &subscription, &link));
    EXPECT(BROKER_OK, broker_take(b, subscription, 0, &delivery));
    EXPECT(BROKER_EMPTY, broker_take(b, subscription, 0, &delivery));
    EXPECT(BROKER_OK, broker_why(b, &why));
    printf("taken: entries %" PRIu64 " to %" PRIu64 ", and nothing after %" PRIu64 "\n", delivery.first, delivery.last,
           why.first);
    EXPECT(BROKER_OK, broker_accept(b, delivery.number, &cursor));
    EXPECT(BROKER_OK, broker_ack(b, delivery.number, &floor));
    printf("accepted up to %" PRIu64 ", settled up to %" PRIu64 "\n", cursor, floor);
    EXPECT(sizeof inserted, broker_text(b, entry, text, 0));
    EXPECT(sizeof inserted, broker_text(b, entry, text, sizeof text));
    for (size_t i = 0; i < sizeof text; i++) printf("%02x", text[i]);
    return puts(memcmp(text, inserted, sizeof text) ? ", which is another text" : ""), 0;
}

int main(void) {
    static const unsigned char key[] = {1, 0};
    struct broker_limits limits = BROKER_LIMITS;
    struct broker_table tables[] = {{(const unsigned char *)"t", 1, key, sizeof key}};
    struct broker_numbers why;
    uint64_t entry;
    broker *b = NULL;
    EXPECT(BROKER_OK, broker_open(&b, &limits, tables, 1, &why));
    int status = serves(b);
    broker_shut(b);
    EXPECT(BROKER_SHUT, broker_turn(b, &entry));
    broker_free(b);
    return status;
}
