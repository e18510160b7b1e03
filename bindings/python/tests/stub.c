/* A library with the calls of broker.h, whose results a test sets: for the refusals that the real one seldom makes, and
 * for what is passed and written. It keeps the operands of the last call, and counts the calls that overlap another. */
#include "broker.h"
#include <string.h>
#include <unistd.h>

typedef uint64_t u;
typedef const unsigned char *text;
typedef unsigned char *buffer;

int stub_code, stub_overlaps, stub_wait, stub_made, stub_shut, stub_freed, stub_version = BROKER_VERSION_NUMBER;
/* the operands of the last call: its numbers, and its text; and how often a call had another handle,
 * or NULL for a text, a buffer or the tables */
u stub_numbers[3], stub_length;
unsigned char stub_text[64];
int stub_strangers;
/* what broker_why writes, and the length of the texts that are written */
u stub_first, stub_second, stub_writes;
static int inside;

static int made(const broker *b, u first, u second, text bytes, size_t len) {
    if (__atomic_add_fetch(&inside, 1, __ATOMIC_SEQ_CST) != 1) __atomic_add_fetch(&stub_overlaps, 1, __ATOMIC_SEQ_CST);
    if (stub_wait) usleep((unsigned)stub_wait);
    if (b != (const broker *)&inside) stub_strangers++;
    stub_numbers[0] = first, stub_numbers[1] = second, stub_length = len;
    if (bytes) memcpy(stub_text, bytes, len < 64 ? len : 64);
    __atomic_add_fetch(&stub_made, 1, __ATOMIC_SEQ_CST);
    __atomic_sub_fetch(&inside, 1, __ATOMIC_SEQ_CST);
    return stub_code;
}
/* The compiler believes the header that no pointer is NULL: it may not look through the volatile one. */
static const void *some(const void *pointer) {
    const void *volatile read = pointer;
    if (!read) stub_strangers++;
    return pointer;
}
static int one(int code, u *out, u number) {
    if (code >= 0) *out = number;
    return code;
}
static int64_t writes(int code, buffer out, size_t room) {
    (void)some(out);
    if (code < 0) return code;
    if (stub_writes <= room) memset(out, 'w', stub_writes);
    return (int64_t)stub_writes;
}

int64_t broker_message(int code, char *out, size_t room) {
    (void)code;
    if (room >= 6) memcpy(out, "words", 6);
    return 6;
}
int broker_version(void) { return stub_version; }
int broker_open(broker **out, const struct broker_limits *l, const struct broker_table *t, size_t n,
                struct broker_numbers *why) {
    why->first = stub_first, why->second = stub_second;
    (void)some(t);
    stub_numbers[0] = n, stub_numbers[1] = l->batch, stub_numbers[2] = l->appliers, stub_length = 0;
    for (size_t i = 0; i < n && stub_length + t[i].name_len + t[i].columns <= sizeof stub_text; i++) {
        memcpy(stub_text + stub_length, t[i].name, t[i].name_len);
        memcpy(stub_text + stub_length + t[i].name_len, t[i].key, t[i].columns);
        stub_length += t[i].name_len + t[i].columns;
    }
    if (stub_code >= 0) *out = (broker *)&inside;
    return stub_code;
}
void broker_shut(broker *b) { (void)b, stub_shut++; }
void broker_free(broker *b) { (void)b, stub_freed++; }
int broker_why(const broker *b, struct broker_numbers *why) {
    (void)made(b, 0, 0, 0, 0);
    why->first = stub_first, why->second = stub_second;
    return 0;
}
int broker_publisher(broker *b, u *p) { return one(made(b, 0, 0, 0, 0), p, 101); }
int broker_feed(broker *b, u p, text bytes, size_t len) { return made(b, p, 0, some(bytes), len); }
int broker_reset(broker *b, u p) { return made(b, p, 0, 0, 0); }
int broker_end(broker *b, u p) { return made(b, p, 0, 0, 0); }
int broker_send(broker *b, u p, u *own) { return one(made(b, p, 0, 0, 0), own, 101); }
int broker_withdraw(broker *b, u p, u entry) { return made(b, p, entry, 0, 0); }
int broker_turn(broker *b, u *entry) { return one(made(b, 0, 0, 0, 0), entry, 101); }
int broker_place(broker *b, u p, text bytes, size_t len, u *entry) { return one(made(b, p, 0, some(bytes), len), entry, 101); }
int broker_close(broker *b, u *last) { return one(made(b, 0, 0, 0, 0), last, 101); }
int broker_left(broker *b, u *count) { return one(made(b, 0, 0, 0, 0), count, 101); }
int broker_front(broker *b, u *entry) { return one(made(b, 0, 0, 0, 0), entry, 101); }
int64_t broker_text(broker *b, u entry, buffer out, size_t room) { return writes(made(b, entry, 0, 0, 0), out, room); }
int64_t broker_combined(broker *b, u first, u last, buffer out, size_t room) {
    return writes(made(b, first, last, 0, 0), out, room);
}
int broker_entry(broker *b, u entry, struct broker_about *about) {
    int code = made(b, entry, 0, 0, 0);
    if (code >= 0) *about = (struct broker_about){1, 2, 3};
    return code;
}
int broker_subscribe(broker *b, u start, u *s, u *link) { return one(one(made(b, start, 0, 0, 0), s, 101), link, 102); }
int broker_subscribe_bare(broker *b, u start, u *s, u *link) { return broker_subscribe(b, start, s, link); }
int broker_take(broker *b, u subscription, u now, struct broker_delivery *delivery) {
    int code = made(b, subscription, now, 0, 0);
    if (code >= 0) *delivery = (struct broker_delivery){1, 2, 3, 4};
    return code;
}
int broker_take_any(broker *b, u now, struct broker_delivery *delivery) { return broker_take(b, now, 0, delivery); }
int broker_accept(broker *b, u delivery, u *cursor) { return one(made(b, delivery, 0, 0, 0), cursor, 101); }
int broker_crash(broker *b, u delivery, bool kept, u *cursor) { return one(made(b, delivery, kept, 0, 0), cursor, 101); }
int broker_cursor(broker *b, u subscription, u *cursor) { return one(made(b, subscription, 0, 0, 0), cursor, 101); }
int broker_status(broker *b, u subscription, struct broker_status *status) {
    int code = made(b, subscription, 0, 0, 0);
    if (code >= 0) *status = (struct broker_status){1, 2, 3, 4, 5, 6, 7, 8, false, true};
    return code;
}
int broker_ack(broker *b, u delivery, u *floor) { return one(made(b, delivery, 0, 0, 0), floor, 101); }
int broker_nack(broker *b, u delivery) { return made(b, delivery, 0, 0, 0); }
int broker_nack_opened(broker *b, u delivery, u *count) { return one(made(b, delivery, 0, 0, 0), count, 101); }
int broker_expire(broker *b, u now, u *count) { return one(made(b, now, 0, 0, 0), count, 101); }
int broker_reconnect(broker *b, u s, u cursor, u *link) { return one(made(b, s, cursor, 0, 0), link, 101); }
int broker_resume(broker *b, u subscription, u *link) { return one(made(b, subscription, 0, 0, 0), link, 101); }
int broker_unsubscribe(broker *b, u subscription) { return made(b, subscription, 0, 0, 0); }
int64_t broker_rows(broker *b, u s, buffer out, size_t room) { return writes(made(b, s, 0, 0, 0), out, room); }
int64_t broker_row(broker *b, u s, u table, text key, size_t len, buffer out, size_t room) {
    return writes(made(b, s, table, some(key), len), out, room);
}
