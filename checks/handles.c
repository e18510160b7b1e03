/* Calls every function of broker.h in one long run, once with each allocation refused. A call without memory is made
 * again, and gives what it gives with memory, so it has changed nothing. Behind each run as many bytes are in use as
 * before it. Prints the numbers. */
#include "broker.h"
#include "changeset.h"
#include "count.h"

#include <inttypes.h>
#include <stdio.h>
#include <string.h>

enum { MOST_NOTES = 1500 };

/* both headers number a kind of fault alike: else an array would have no length */
#define ALIKE(kind) ((int)BROKER_FAULT_##kind == (int)CHANGESET_##kind ? 1 : -1)
extern char alike[ALIKE(BAD_MARKER)], alike[ALIKE(PATCHSET)], alike[ALIKE(COLUMNS)], alike[ALIKE(NO_KEY)],
    alike[ALIKE(EMPTY_NAME)], alike[ALIKE(NAME_TOO_LONG)], alike[ALIKE(BAD_OPERATION)], alike[ALIKE(BAD_TYPE)],
    alike[ALIKE(REAL)], alike[ALIKE(UNDEFINED_FIELD)], alike[ALIKE(KEY_MISSING)], alike[ALIKE(KEY_CHANGED)],
    alike[ALIKE(ONE_SIDED)], alike[ALIKE(VALUE_TOO_LONG)], alike[ALIKE(TOO_LONG)], alike[ALIKE(TRUNCATED)];

/* what the calls of a run gave: results and outputs */
struct notes {
    size_t count;
    int64_t values[MOST_NOTES];
};

static struct notes wanted, found;
static struct notes *notes;
static long runs, starved, bad;

static void note(int64_t value) {
    if (notes->count < MOST_NOTES) notes->values[notes->count] = value;
    notes->count++;
}

/* notes the result of a call, which is made again if there is no memory for it */
#define CALL(call)                                                                                                     \
    do {                                                                                                               \
        int64_t given_ = (call);                                                                                       \
        if (given_ == BROKER_NO_MEMORY) starved++, given_ = (call);                                                    \
        note(given_);                                                                                                  \
    } while (0)

/* a header of two columns, of which the first is the key */
#define HEADER 0x54, 2, 1, 0, 't', 0
/* the INTEGER n, below 256 */
#define INTEGER(n) 1, 0, 0, 0, 0, 0, 0, 0, n

static const unsigned char inserted[] = {HEADER, 0x12, 0, INTEGER(1), INTEGER(5)};
static const unsigned char updated[] = {HEADER, 0x17, 0, INTEGER(1), INTEGER(5), 0, INTEGER(6)};
static const unsigned char faulty[] = {HEADER, 0x12, 0, 2};
static const unsigned char unknown[] = {0x54, 1, 1, 'x', 0};
static const unsigned char narrow[] = {0x54, 1, 1, 't', 0};

static void why(broker *b) {
    struct broker_numbers numbers = {7, 7};
    CALL(broker_why(b, &numbers));
    note((int64_t)numbers.first);
    note((int64_t)numbers.second);
}

/* counts what isn't as it must be */
static void expect(int64_t value, int64_t wanted, const char *what) {
    if (value != wanted) bad++, printf("%s: %" PRId64 ", and not %" PRId64 "\n", what, value, wanted);
}

/* notes how far a subscription has come */
static void status(broker *b, uint64_t subscription) {
    struct broker_status it = {7, 7, 7, 7, 7, 7, 7, 7, true, true};
    CALL(broker_status(b, subscription, &it));
    uint64_t numbers[] = {it.start, it.floor, it.cursor, it.offered, it.link, it.ready, it.in_flight, it.front};
    for (int i = 0; i < 8; i++) note((int64_t)numbers[i]);
    note(it.closed * 2 + it.fallen);
}

/* feeds a text, ends it and sends it */
static void send(broker *b, uint64_t publisher, const unsigned char *text, size_t len) {
    uint64_t own = 7;
    CALL(broker_feed(b, publisher, text, 3));
    CALL(broker_feed(b, publisher, text + 3, len - 3));
    CALL(broker_end(b, publisher));
    CALL(broker_end(b, publisher));
    CALL(broker_reset(b, publisher));
    CALL(broker_send(b, publisher, &own));
    note((int64_t)own);
    why(b);
}

static void turn(broker *b) {
    uint64_t entry = 7;
    CALL(broker_turn(b, &entry));
    note((int64_t)entry);
}

static void take(broker *b, uint64_t subscription, struct broker_delivery *delivery) {
    CALL(broker_take(b, subscription, 3, delivery));
    note((int64_t)delivery->number);
    note((int64_t)delivery->first);
    note((int64_t)delivery->last);
    why(b);
}

static void accept(broker *b, uint64_t delivery) {
    uint64_t cursor = 7, floor = 7;
    CALL(broker_accept(b, delivery, &cursor));
    note((int64_t)cursor);
    why(b);
    CALL(broker_ack(b, delivery, &floor));
    note((int64_t)floor);
    why(b);
}

static void publishes(broker *b) {
    uint64_t publisher = 7, other = 7, count = 7;
    CALL(broker_publisher(b, &publisher));
    CALL(broker_publisher(b, &other));
    note((int64_t)other);
    send(b, publisher, inserted, sizeof inserted);
    send(b, other, updated, sizeof updated);
    send(b, other, faulty, sizeof faulty);
    send(b, other, unknown, sizeof unknown);
    send(b, other, narrow, sizeof narrow);
    CALL(broker_left(b, &count));
    note((int64_t)count);
    for (int i = 0; i < 3; i++) turn(b);
    CALL(broker_withdraw(b, other, 1));
    CALL(broker_withdraw(b, publisher, 1));
    CALL(broker_withdraw(b, publisher, 1));
    CALL(broker_send(b, publisher, &count));
    CALL(broker_withdraw(b, publisher, 1));
    CALL(broker_withdraw(b, publisher, 9));
    turn(b);
}

/* A text that is begun, and a byte that can't follow. Their fault's place is how much of the text the stream has. */
static const unsigned char begun[] = {HEADER, 0x12, 0}, bad_type[] = {9};

/* the stream has this many bytes, and gets a fault */
static void has(broker *b, uint64_t publisher, size_t len) {
    struct broker_numbers numbers = {7, 7};
    int code = broker_feed(b, publisher, bad_type, 1);
    if (code == BROKER_NO_MEMORY) starved++, code = broker_feed(b, publisher, bad_type, 1);
    expect(code, BROKER_FAULT, "a byte that can't follow");
    expect(broker_why(b, &numbers), BROKER_OK, "the numbers of a fault");
    expect((int64_t)numbers.first, (int64_t)len, "the stream's length");
}

/* Places a text behind one that is begun. `first` and `second` are the entry and 0, or the numbers of a refusal. */
static void place(broker *b, uint64_t publisher, const unsigned char *text, size_t len, int wanted, uint64_t first,
                  uint64_t second) {
    uint64_t entry = 7, front = 7, left = 7, after = 7;
    struct broker_numbers numbers = {7, 7};
    CALL(broker_reset(b, publisher));
    CALL(broker_feed(b, publisher, begun, sizeof begun));
    CALL(broker_front(b, &front));
    CALL(broker_left(b, &left));
    int code = broker_place(b, publisher, text, len, &entry);
    if (code == BROKER_NO_MEMORY) {
        starved++;
        expect((int64_t)entry, 7, "the entry of a place without memory");
        has(b, publisher, sizeof begun);
        code = broker_place(b, publisher, text, len, &entry);
    }
    note(code);
    expect(code, wanted, "a place");
    expect((int64_t)entry, code == BROKER_OK ? (int64_t)first : 7, "the entry of a place");
    if (code == BROKER_OK) {
        expect((int64_t)first, (int64_t)++front, "the number of a place");
    } else {
        CALL(broker_why(b, &numbers));
        expect((int64_t)numbers.first, (int64_t)first, "the first number of a place");
        expect((int64_t)numbers.second, (int64_t)second, "the second number of a place");
    }
    /* whether it is refused or not, the stream is reset, and no more waits than before */
    has(b, publisher, 0);
    CALL(broker_reset(b, publisher));
    CALL(broker_left(b, &after));
    expect((int64_t)after, (int64_t)left, "what waits after a place");
    CALL(broker_front(b, &after));
    expect((int64_t)after, (int64_t)front, "the front after a place");
}

static void places(broker *b) {
    uint64_t own = 7, next = 7, front = 7;
    CALL(broker_front(b, &front));
    place(b, 0, inserted, sizeof inserted, BROKER_OK, front + 1, 0);
    place(b, 0, faulty, 1, BROKER_FAULT, 1, BROKER_FAULT_TRUNCATED);
    place(b, 0, bad_type, 1, BROKER_FAULT, 0, BROKER_FAULT_BAD_MARKER);
    place(b, 0, unknown, sizeof unknown, BROKER_UNKNOWN_TABLE, 0, 0);
    place(b, 0, narrow, sizeof narrow, BROKER_SHAPE_DIFFERS, 0, 0);
    /* nothing is staged by a refused one; a text without changes is */
    CALL(broker_send(b, 0, &own));
    expect((int64_t)own, 7, "what was sent");
    CALL(broker_end(b, 0));
    place(b, 0, inserted, sizeof inserted, BROKER_HOLDING, 0, 0);
    place(b, 0, bad_type, 1, BROKER_FAULT, 0, BROKER_FAULT_BAD_MARKER);
    CALL(broker_send(b, 0, &own));
    note((int64_t)own);
    place(b, 0, inserted, sizeof inserted, BROKER_WAITING, 1, 0);
    place(b, 1, bad_type, 1, BROKER_WAITING, 1, 0);
    turn(b);
    place(b, 0, updated, sizeof updated, BROKER_OK, front + 3, 0);
    /* an end behind a refused one finds no bytes; its changeset is sent under the next number */
    place(b, 0, faulty, 1, BROKER_FAULT, 1, BROKER_FAULT_TRUNCATED);
    CALL(broker_end(b, 0));
    CALL(broker_send(b, 0, &next));
    expect((int64_t)next, (int64_t)own + 2, "the number of a sending");
    turn(b);
    CALL(broker_place(b, 2, inserted, sizeof inserted, &own));
}

static void subscribes(broker *b) {
    struct broker_delivery delivery = {7, 7, 7, 7};
    uint64_t subscription = 7, link = 7, second = 7, bare = 7, count = 7;
    CALL(broker_subscribe(b, 9, &subscription, &link));
    CALL(broker_subscribe(b, 0, &subscription, &link));
    CALL(broker_subscribe(b, 1, &second, &link));
    note((int64_t)second);
    status(b, subscription);
    status(b, second);
    status(b, 9);
    take(b, subscription, &delivery);
    status(b, subscription);
    CALL(broker_nack_opened(b, delivery.number, &count));
    note((int64_t)count);
    take(b, subscription, &delivery);
    accept(b, delivery.number);
    take(b, subscription, &delivery);
    CALL(broker_nack(b, delivery.number));
    accept(b, delivery.number);
    take(b, subscription, &delivery);
    CALL(broker_crash(b, delivery.number, true, &count));
    status(b, subscription);
    accept(b, delivery.number);
    CALL(broker_resume(b, subscription, &link));
    CALL(broker_resume(b, subscription, &link));
    CALL(broker_reconnect(b, subscription, 1, &link));
    why(b);
    CALL(broker_cursor(b, subscription, &count));
    note((int64_t)count);
    /* the second one has no such row */
    take(b, second, &delivery);
    accept(b, delivery.number);
    CALL(broker_expire(b, 99, &count));
    note((int64_t)count);
    CALL(broker_take_any(b, 99, &delivery));
    note((int64_t)delivery.number);
    CALL(broker_unsubscribe(b, second));
    CALL(broker_unsubscribe(b, second));
    status(b, second);
    /* nor has one that keeps no rows, and it accepts the delivery */
    CALL(broker_subscribe_bare(b, 9, &bare, &link));
    CALL(broker_subscribe_bare(b, 1, &bare, &link));
    note((int64_t)bare);
    note((int64_t)link);
    status(b, bare);
    take(b, bare, &delivery);
    count = 7;
    CALL(broker_accept(b, delivery.number, &count));
    if (count != delivery.last) bad++, printf("a subscription without rows stands at %" PRIu64 "\n", count);
    accept(b, delivery.number);
    status(b, bare);
}

static void reads(broker *b) {
    unsigned char out[100];
    struct broker_about about = {7, 7, 7};
    uint64_t entry = 7;
    CALL(broker_front(b, &entry));
    note((int64_t)entry);
    for (uint64_t number = 0; number <= 4; number++) {
        memset(out, 0xee, sizeof out);
        CALL(broker_text(b, number, out, 20));
        CALL(broker_text(b, number, out, sizeof out));
        for (size_t i = 0; i < sizeof out; i += 13) note(out[i]);
        CALL(broker_entry(b, number, &about));
        note((int64_t)(about.publisher * 10000 + about.own * 100 + about.withdraws));
        CALL(broker_combined(b, 1, number, out, sizeof out));
        for (size_t i = 0; i < sizeof out; i += 13) note(out[i]);
    }
}

/* the rows of a subscription, each of them alone, and what is refused */
static void rows(broker *b) {
    static const unsigned char key[] = {INTEGER(1)}, none[] = {INTEGER(2)};
    unsigned char out[100];
    for (uint64_t subscription = 0; subscription <= 3; subscription++) {
        memset(out, 0xee, sizeof out);
        CALL(broker_rows(b, subscription, out, 20));
        CALL(broker_rows(b, subscription, out, sizeof out));
        for (size_t i = 0; i < sizeof out; i += 5) note(out[i]);
        for (uint64_t table = 0; table <= 1; table++) {
            memset(out, 0xee, sizeof out);
            CALL(broker_row(b, subscription, table, key, sizeof key, out, sizeof out));
            CALL(broker_row(b, subscription, table, none, sizeof none, out, sizeof out));
            CALL(broker_row(b, subscription, table, key, 0, out, 0));
            for (size_t i = 0; i < sizeof out; i += 5) note(out[i]);
        }
    }
}

/* every number has words, which end with the only zero byte */
static void says(void) {
    char words[BROKER_MESSAGE_ROOM + 1];
    for (int code = 2; code >= -50; code--) {
        memset(words, 'x', sizeof words);
        int64_t len = broker_message(code, words, BROKER_MESSAGE_ROOM);
        note(len);
        note(memchr(words, 0, sizeof words) == words + len - 1 && words[len] == 'x');
        note(broker_message(code, words, (size_t)len - 1));
    }
    note(broker_message(BROKER_BUSY, words, sizeof words));
    expect(strcmp(words, "another call is in the handle"), 0, "the words of BROKER_BUSY");
    note(broker_message(BROKER_WAITING, words, sizeof words));
    expect(strcmp(words, "other changesets wait to be placed"), 0, "the words of BROKER_WAITING");
    expect(broker_version(), BROKER_VERSION_NUMBER, "the version");
}

static void run(void) {
    static const unsigned char key[] = {1, 0};
    struct broker_limits limits = BROKER_LIMITS;
    struct broker_table table = {(const unsigned char *)"t", 1, key, 2}, tables[] = {table, table};
    struct broker_numbers numbers = {7, 7};
    uint64_t last = 7;
    broker *b = NULL;
    CALL(broker_open(&b, &limits, tables, 2, &numbers));
    note((int64_t)(numbers.first * 10 + numbers.second));
    limits.window = 65;
    CALL(broker_open(&b, &limits, tables, 1, &numbers));
    note((int64_t)(numbers.first * 10 + numbers.second));
    limits.window = 4;
    CALL(broker_open(&b, &limits, tables, 1, &numbers));
    publishes(b);
    subscribes(b);
    reads(b);
    rows(b);
    says();
    places(b);
    CALL(broker_close(b, &last));
    CALL(broker_close(b, &last));
    note((int64_t)last);
    turn(b);
    place(b, 0, inserted, sizeof inserted, BROKER_CLOSED, 0, 0);
    place(b, 1, faulty, 1, BROKER_FAULT, 1, BROKER_FAULT_TRUNCATED);
    status(b, 0);
    broker_shut(b);
    expect(broker_turn(b, &last), BROKER_SHUT, "a turn of a shut handle");
    turn(b);
    why(b);
    rows(b);
    status(b, 0);
    CALL(broker_place(b, 0, inserted, sizeof inserted, &last));
    broker_free(b);
    broker_free(NULL);
}

/* a run where the allocation of this number is refused (0: none), and how many it asked for */
static unsigned long run_without(unsigned long number) {
    size_t before = in_use;
    unsigned long asked_before = asked;
    notes = number ? &found : &wanted;
    notes->count = 0;
    refused_at = number ? asked + number : 0;
    run();
    refused_at = 0;
    runs++;
    if (in_use != before) bad++, printf("%zu bytes are in use after run %lu, %zu before\n", in_use, number, before);
    return asked - asked_before;
}

int main(void) {
    unsigned long count = run_without(0);
    if (wanted.count > MOST_NOTES) return printf("a run has %zu notes\n", wanted.count), 1;
    for (unsigned long number = 1; number <= count; number++) {
        run_without(number);
        if (found.count != wanted.count || memcmp(found.values, wanted.values, wanted.count * sizeof *wanted.values)) {
            bad++;
            for (size_t i = 0; i < wanted.count; i++)
                if (found.values[i] != wanted.values[i]) {
                    printf("run %lu differs at note %zu\n", number, i);
                    break;
                }
        }
    }
    printf("%ld runs, %zu results and outputs each, %ld calls without memory, %ld bad\n", runs, wanted.count, starved,
           bad);
    return bad != 0;
}
