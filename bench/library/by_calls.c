/* The jobs by calls of the library. */
#include "broker.h"
#include "jobs.h"

static broker *b;
static uint64_t publisher, subscription;

static void idle(long count) {
    uint64_t entry;
    int bad = 0;
    for (long i = 0; i < count; i++) bad |= broker_turn(b, &entry) != BROKER_IDLE;
    if (bad) fail("a turn finds something");
}

static void left(long count) {
    uint64_t waiting = 1;
    int bad = 0;
    for (long i = 0; i < count; i++) bad |= broker_left(b, &waiting) != BROKER_OK || waiting;
    if (bad) fail("something waits");
}

static void publish(uint64_t first, long count) {
    unsigned char text[TEXT];
    uint64_t own, entry = 0;
    int bad = 0;
    for (long i = 0; i < count; i++) {
        uint64_t key = first + (uint64_t)i;
        insert_of(key, text);
        bad |= broker_feed(b, publisher, text, TEXT) | broker_end(b, publisher);
        bad |= broker_send(b, publisher, &own) | broker_turn(b, &entry) | (entry != key);
    }
    if (bad) fail("a changeset isn't placed");
}

static void read_texts(uint64_t first, long count) {
    unsigned char text[TEXT];
    int bad = 0;
    for (long i = 0; i < count; i++) bad |= broker_text(b, first + (uint64_t)i, text, TEXT) != TEXT;
    if (bad) fail("an entry has another length");
}

static void follow(uint64_t first, long count) {
    struct broker_delivery d;
    uint64_t cursor, floor = 0;
    for (long i = 0; i < count; i += BATCH)
        if (broker_take(b, subscription, 0, &d) | broker_accept(b, d.number, &cursor) | broker_ack(b, d.number, &floor))
            fail("a delivery isn't settled");
    if (floor != first + (uint64_t)count - 1) fail("entries are left");
}

struct jobs jobs_by_calls(void) {
    static const unsigned char key[] = {1, 0};
    static const struct broker_table table = {(const unsigned char *)"t", 1, key, 2};
    struct broker_limits limits = BROKER_LIMITS;
    struct broker_numbers why;
    uint64_t link;
    limits.batch = BATCH, limits.capacity = 1 << 24;
    if (broker_open(&b, &limits, &table, 1, &why)) fail("no broker is opened");
    if (broker_publisher(b, &publisher) | broker_subscribe(b, 0, &subscription, &link)) fail("nothing is begun");
    return (struct jobs){idle, left, publish, read_texts, follow, processor_time, 20000, 200000};
}
