/* The calls of broker.h that no line of a script makes: broker_place, broker_status and broker_subscribe_bare. Prints
 * the numbers, and what differs.
 * - broker_place must do what broker_reset, broker_feed, broker_end, broker_send and broker_turn do one after another
 *   on another handle: each of TEXTS behind each of BEFORE. A refused one must leave what broker_reset leaves.
 * - Behind each of STEPS, broker_status must tell what the table says. */
#include "broker.h"

#include <inttypes.h>
#include <stdio.h>
#include <stdlib.h>
#include <string.h>

static long places, steps, bad;

static broker *opened(uint64_t batch, uint64_t window, uint64_t capacity) {
    static const unsigned char key[] = {1, 0}, keys[] = {0, 2, 1};
    static const struct broker_table tables[] = {{(const unsigned char *)"t", 1, key, 2},
                                                 {(const unsigned char *)"u", 1, keys, 3}};
    struct broker_limits limits = BROKER_LIMITS;
    struct broker_numbers why;
    broker *b = NULL;
    limits.batch = batch, limits.window = window, limits.capacity = capacity;
    if (broker_open(&b, &limits, tables, 2, &why)) exit(2);
    return b;
}

/* ---- a place, and the calls that it stands for */

/* headers of the broker's tables, and values */
#define HEADER_T "T\2\1\0t\0"
#define HEADER_U "T\3\0\2\1u\0"
#define ONE "\1\0\0\0\0\0\0\0\1"
#define TWO "\1\0\0\0\0\0\0\0\2"
#define TEXT(bytes) {(const unsigned char *)bytes, sizeof bytes - 1}

static const struct text {
    const unsigned char *bytes;
    size_t len;
} TEXTS[] = {
    TEXT(""),
    TEXT(HEADER_T),
    TEXT(HEADER_T "\22\0" ONE ONE),
    TEXT(HEADER_T "\27\1" ONE ONE "\0" TWO),
    /* two tables, and a length that is not the shortest */
    TEXT(HEADER_U "\22\0\5" ONE "\3\200\1x" HEADER_T "\11\0" ONE TWO),
    /* faults: at the first byte, in a change, behind a changeset, and at the end of the text */
    TEXT("P"),
    TEXT(HEADER_T "\22\0" ONE "\11"),
    TEXT(HEADER_T "\22\0" ONE ONE "\1"),
    TEXT(HEADER_T "\22\0" ONE),
    TEXT("T"),
    /* tables that the broker hasn't, the second one behind a right one; then with a fault, cut, and of another shape */
    TEXT("T\1\1x\0\22\0" ONE),
    TEXT(HEADER_T "\22\0" ONE ONE "T\1\1x\0\22\0" ONE),
    TEXT("T\1\1x\0\22\0\11"),
    TEXT("T\1\1x\0\22\0"),
    TEXT("T\2\1\2t\0\22\0" ONE ONE),
    TEXT(HEADER_T "\22\0" ONE ONE HEADER_U "T\1\1t\0\22\0" ONE),
};

/* What was done before. A letter is a call of publisher 0, but for `w`: `h` feeds a part of a changeset, `x` a byte
 * that is a fault, `s` stages a changeset, `n` sends it, `w` has publisher 1 send one, `t` is a turn, and `c` closes
 * the sequence, which has room for two entries. */
static const char *const BEFORE[] = {
    "",   "h",   "x",   "s",    "sh",  "sx",   "w",     "snw",   "wh",    "wsx",    "wt",      "snth",   "wtc",
    "c",  "ch",  "cs",  "csx",  "snc", "wtwt", "wtwtx", "wtwts", "wtwtc", "wtwtwt", "wtwtwtc", "wtwtsc", "wtsnth",
    "wtwtcx"};

static void does(broker *b, const char *letters) {
    static const unsigned char text[] = HEADER_T "\22\0" TWO ONE;
    uint64_t n;
    int code = 0;
    for (; *letters; letters++) {
        switch (*letters) {
        case 'h': code = broker_feed(b, 0, text, 9); break;
        case 'x': code = broker_feed(b, 0, (const unsigned char *)"x", 1) != BROKER_FAULT; break;
        case 's': code = broker_feed(b, 0, text, sizeof text - 1) | broker_end(b, 0); break;
        case 'n': code = broker_send(b, 0, &n); break;
        case 'w': code = broker_feed(b, 1, text, sizeof text - 1) | broker_end(b, 1) | broker_send(b, 1, &n); break;
        case 't': code = broker_turn(b, &n), code = code == BROKER_SEQUENCE_FULL ? 0 : code; break;
        case 'c': code = broker_close(b, &n); break;
        }
        if (code) bad++, printf("%c gives %d\n", *letters, code);
    }
}

/* what a place gives: its code, and the entry and 0, or the code's numbers */
struct given {
    int code;
    uint64_t first, second;
};

/* the numbers of a code, where it has some */
static struct given told(broker *b, int code, uint64_t entry) {
    struct broker_numbers why = {entry, 0};
    if (code < BROKER_NO_MEMORY && broker_why(b, &why) != BROKER_OK) bad++;
    return (struct given){code, why.first, why.second};
}

static struct given by_calls(broker *b, uint64_t publisher, const struct text *text) {
    uint64_t waits = 0, own, entry = 7;
    int code = broker_left(b, &waits);
    if (!code) code = broker_reset(b, publisher);
    if (!code && waits) return (struct given){BROKER_WAITING, waits, 0};
    if (!code) code = broker_feed(b, publisher, text->bytes, text->len);
    if (!code) code = broker_end(b, publisher);
    if (!code) code = broker_send(b, publisher, &own);
    if (!code) code = broker_turn(b, &entry);
    return told(b, code, entry);
}

static struct given by_one(broker *b, uint64_t publisher, const struct text *text) {
    uint64_t entry = 7;
    int code = broker_place(b, publisher, text->bytes, text->len, &entry);
    if (code && entry != 7) bad++, puts("a refused place sets the entry");
    return told(b, code, entry);
}

/* whatever can be found out of a handle, which changes by it */
struct traces {
    size_t count;
    int64_t values[600];
};

static void trace(struct traces *of, int64_t value) {
    if (of->count < sizeof of->values / sizeof *of->values) of->values[of->count] = value;
    of->count++;
}

static void trace_entries(struct traces *of, broker *b) {
    uint64_t front = 0, left = 0;
    unsigned char text[60];
    trace(of, broker_front(b, &front)), trace(of, broker_left(b, &left));
    trace(of, (int64_t)front), trace(of, (int64_t)left);
    for (uint64_t entry = 1; entry <= front; entry++) {
        struct broker_about about = {0, 0, 0};
        int64_t len = broker_text(b, entry, text, sizeof text);
        trace(of, len), trace(of, broker_entry(b, entry, &about));
        trace(of, (int64_t)(about.publisher * 100 + about.own * 10 + about.withdraws));
        for (int64_t i = 0; i < len && i < (int64_t)sizeof text; i++) trace(of, text[i]);
    }
}

static struct traces traces(broker *b) {
    static const unsigned char rest[] = ONE "\22\0" ONE ONE;
    struct traces of = {0, {0}};
    uint64_t n = 7;
    trace_entries(&of, b);
    for (uint64_t publisher = 0; publisher < 2; publisher++) {
        /* what ends a part of a changeset is a fault behind a reset */
        struct given fed = told(b, broker_feed(b, publisher, rest, sizeof rest - 1), 0);
        trace(&of, fed.code), trace(&of, (int64_t)fed.first), trace(&of, (int64_t)fed.second);
        trace(&of, broker_reset(b, publisher)), trace(&of, broker_end(b, publisher));
        trace(&of, broker_send(b, publisher, &n)), trace(&of, (int64_t)n);
    }
    for (int turn = 0; turn < 4; turn++) trace(&of, broker_turn(b, &n)), trace(&of, (int64_t)n);
    trace_entries(&of, b);
    if (of.count > sizeof of.values / sizeof *of.values) bad++, puts("too many traces");
    return of;
}

static void place(const char *before, uint64_t publisher, size_t place) {
    broker *each[] = {opened(16, 4, 2), opened(16, 4, 2), opened(16, 4, 2)};
    uint64_t n;
    for (int i = 0; i < 3; i++)
        if (broker_publisher(each[i], &n) || broker_publisher(each[i], &n)) bad++;
    for (int i = 0; i < 3; i++) does(each[i], before);
    struct given one = by_one(each[0], publisher, &TEXTS[place]), many = by_calls(each[1], publisher, &TEXTS[place]);
    /* a refused place leaves what a reset leaves, which no publisher does that isn't there */
    if (broker_reset(each[2], publisher) != (publisher < 2 ? BROKER_OK : BROKER_NO_PUBLISHER)) bad++;
    struct traces left = traces(each[0]), wanted = traces(one.code ? each[2] : each[1]);
    if (one.code != many.code || one.first != many.first || one.second != many.second)
        bad++, printf("text %zu of publisher %d behind \"%s\": %d (%d, %d), and by calls %d (%d, %d)\n", place,
                      (int)publisher, before, one.code, (int)one.first, (int)one.second, many.code, (int)many.first,
                      (int)many.second);
    if (memcmp(&left, &wanted, sizeof left))
        bad++, printf("text %zu of publisher %d behind \"%s\": other traces\n", place, (int)publisher, before);
    for (int i = 0; i < 3; i++) broker_free(each[i]);
    places++;
}

/* ---- how far a subscription has come */

enum call { OPEN, PLACE, AGAIN, SUBSCRIBE, BARE, TAKE, ACCEPT, FALL, FALL_KEPT, ACK, NACK, OPENED, EXPIRE, RECONNECT,
            RESUME, UNSUBSCRIBE, CLOSE, ROWS };

/* Each OPEN begins a broker with `a` entries in a delivery at most, and `b` deliveries in flight. PLACE places `a` rows
 * with new keys, and AGAIN one with the key `a`. TAKE and EXPIRE have the tick `a`, FALL is a crash that keeps nothing,
 * and ROWS gives a length. The others have their operand. `status` is what must be told of subscription 0 behind the
 * call: start, floor, cursor, offered, link, ready, in_flight, front, closed, fallen. It has no link where there is no
 * subscription. */
static const struct step {
    enum call call;
    uint64_t a, b;
    int64_t result;
    struct broker_status status;
} STEPS[] = {
    /* each entry alone, two in flight */
    {OPEN, 1, 2, BROKER_OK, {0}},
    {PLACE, 2, 0, BROKER_OK, {0}},
    {SUBSCRIBE, 0, 0, BROKER_OK, {0, 0, 0, 0, 1, 2, 0, 2, 0, 0}},
    {PLACE, 1, 0, BROKER_OK, {0, 0, 0, 0, 1, 3, 0, 3, 0, 0}},
    {TAKE, 0, 0, BROKER_OK, {0, 0, 0, 1, 1, 2, 1, 3, 0, 0}},
    {TAKE, 0, 0, BROKER_OK, {0, 0, 0, 2, 1, 1, 2, 3, 0, 0}},
    {TAKE, 0, 0, BROKER_WINDOW_FULL, {0, 0, 0, 2, 1, 1, 2, 3, 0, 0}},
    {ACCEPT, 2, 0, BROKER_GAP, {0, 0, 0, 2, 1, 1, 2, 3, 0, 0}},
    {ACCEPT, 1, 0, BROKER_OK, {0, 0, 1, 2, 1, 1, 2, 3, 0, 0}},
    {ACK, 2, 0, BROKER_NOT_ACCEPTED, {0, 0, 1, 2, 1, 1, 2, 3, 0, 0}},
    {ACCEPT, 2, 0, BROKER_OK, {0, 0, 2, 2, 1, 1, 2, 3, 0, 0}},
    {ACK, 2, 0, BROKER_OK, {0, 0, 2, 2, 1, 1, 1, 3, 0, 0}},
    {ACK, 1, 0, BROKER_OK, {0, 2, 2, 2, 1, 1, 0, 3, 0, 0}},
    {TAKE, 0, 0, BROKER_OK, {0, 2, 2, 3, 1, 0, 1, 3, 0, 0}},
    {NACK, 3, 0, BROKER_OK, {0, 2, 2, 3, 1, 1, 0, 3, 0, 0}},
    {TAKE, 0, 0, BROKER_OK, {0, 2, 2, 3, 1, 0, 1, 3, 0, 0}},
    {EXPIRE, 9, 0, BROKER_OK, {0, 2, 2, 3, 1, 0, 1, 3, 0, 0}},
    {EXPIRE, 10, 0, BROKER_OK, {0, 2, 2, 3, 1, 1, 0, 3, 0, 0}},
    {TAKE, 10, 0, BROKER_OK, {0, 2, 2, 3, 1, 0, 1, 3, 0, 0}},
    {RECONNECT, 2, 0, BROKER_OK, {0, 2, 2, 3, 2, 1, 0, 3, 0, 0}},
    {ACCEPT, 5, 0, BROKER_STALE_LINK, {0, 2, 2, 3, 2, 1, 0, 3, 0, 0}},
    {TAKE, 0, 0, BROKER_OK, {0, 2, 2, 3, 2, 0, 1, 3, 0, 0}},
    {ACCEPT, 6, 0, BROKER_OK, {0, 2, 3, 3, 2, 0, 1, 3, 0, 0}},
    {ACK, 6, 0, BROKER_OK, {0, 3, 3, 3, 2, 0, 0, 3, 0, 0}},
    {TAKE, 0, 0, BROKER_EMPTY, {0, 3, 3, 3, 2, 0, 0, 3, 0, 0}},
    {CLOSE, 0, 0, BROKER_OK, {0, 3, 3, 3, 2, 0, 0, 3, 0, 0}},
    {TAKE, 0, 0, BROKER_DRAINED, {0, 3, 3, 3, 2, 0, 0, 3, 0, 0}},
    {UNSUBSCRIBE, 0, 0, BROKER_OK, {0, 3, 3, 3, 2, 0, 0, 3, 1, 0}},
    {TAKE, 0, 0, BROKER_CLOSED, {0, 3, 3, 3, 2, 0, 0, 3, 1, 0}},
    /* two entries at most: a delivery is opened, and the subscription falls */
    {OPEN, 2, 4, BROKER_OK, {0}},
    {SUBSCRIBE, 0, 0, BROKER_OK, {0, 0, 0, 0, 1, 0, 0, 0, 0, 0}},
    {PLACE, 5, 0, BROKER_OK, {0, 0, 0, 0, 1, 3, 0, 5, 0, 0}},
    {PLACE, 1, 0, BROKER_OK, {0, 0, 0, 0, 1, 3, 0, 6, 0, 0}},
    {TAKE, 0, 0, BROKER_OK, {0, 0, 0, 2, 1, 2, 1, 6, 0, 0}},
    {OPENED, 1, 0, BROKER_OK, {0, 0, 0, 2, 1, 4, 0, 6, 0, 0}},
    {TAKE, 0, 0, BROKER_OK, {0, 0, 0, 2, 1, 3, 1, 6, 0, 0}},
    {ACCEPT, 2, 0, BROKER_OK, {0, 0, 1, 2, 1, 3, 1, 6, 0, 0}},
    {ACK, 2, 0, BROKER_OK, {0, 1, 1, 2, 1, 3, 0, 6, 0, 0}},
    {TAKE, 0, 0, BROKER_OK, {0, 1, 1, 2, 1, 2, 1, 6, 0, 0}},
    {FALL_KEPT, 3, 0, BROKER_OK, {0, 1, 2, 2, 1, 2, 1, 6, 0, 1}},
    {ACCEPT, 3, 0, BROKER_STORE, {0, 1, 2, 2, 1, 2, 1, 6, 0, 1}},
    {TAKE, 0, 0, BROKER_OK, {0, 1, 2, 4, 1, 1, 2, 6, 0, 1}},
    {RESUME, 0, 0, BROKER_OK, {0, 2, 2, 4, 2, 2, 0, 6, 0, 0}},
    {TAKE, 0, 0, BROKER_OK, {0, 2, 2, 4, 2, 1, 1, 6, 0, 0}},
    {FALL, 5, 0, BROKER_OK, {0, 2, 2, 4, 2, 1, 1, 6, 0, 1}},
    {RESUME, 0, 0, BROKER_OK, {0, 2, 2, 4, 3, 2, 0, 6, 0, 0}},
    {RESUME, 0, 0, BROKER_NOT_FALLEN, {0, 2, 2, 4, 3, 2, 0, 6, 0, 0}},
    {TAKE, 0, 0, BROKER_OK, {0, 2, 2, 4, 3, 1, 1, 6, 0, 0}},
    {ACCEPT, 6, 0, BROKER_OK, {0, 2, 4, 4, 3, 1, 1, 6, 0, 0}},
    {PLACE, 1, 0, BROKER_OK, {0, 2, 4, 4, 3, 2, 1, 7, 0, 0}},
    {RECONNECT, 5, 0, BROKER_BAD_CURSOR, {0, 2, 4, 4, 3, 2, 1, 7, 0, 0}},
    {RECONNECT, 4, 0, BROKER_OK, {0, 4, 4, 4, 4, 2, 0, 7, 0, 0}},
    {TAKE, 0, 0, BROKER_OK, {0, 4, 4, 6, 4, 1, 1, 7, 0, 0}},
    {TAKE, 0, 0, BROKER_OK, {0, 4, 4, 7, 4, 0, 2, 7, 0, 0}},
    {ACCEPT, 8, 0, BROKER_GAP, {0, 4, 4, 7, 4, 0, 2, 7, 0, 0}},
    {UNSUBSCRIBE, 0, 0, BROKER_OK, {0, 4, 4, 7, 4, 0, 0, 7, 1, 0}},
    {PLACE, 1, 0, BROKER_OK, {0, 4, 4, 7, 4, 0, 0, 8, 1, 0}},
    {RESUME, 0, 0, BROKER_NOT_FALLEN, {0, 4, 4, 7, 4, 0, 0, 8, 1, 0}},
    /* sixteen at most, one in flight: entry 21 has the key of entry 5 */
    {OPEN, 16, 1, BROKER_OK, {0}},
    {PLACE, 20, 0, BROKER_OK, {0}},
    {AGAIN, 5, 0, BROKER_OK, {0}},
    {SUBSCRIBE, 0, 0, BROKER_OK, {0, 0, 0, 0, 1, 2, 0, 21, 0, 0}},
    {TAKE, 0, 0, BROKER_OK, {0, 0, 0, 16, 1, 1, 1, 21, 0, 0}},
    {TAKE, 0, 0, BROKER_WINDOW_FULL, {0, 0, 0, 16, 1, 1, 1, 21, 0, 0}},
    {ACCEPT, 1, 0, BROKER_OK, {0, 0, 16, 16, 1, 1, 1, 21, 0, 0}},
    {TAKE, 0, 0, BROKER_WINDOW_FULL, {0, 0, 16, 16, 1, 1, 1, 21, 0, 0}},
    {ACK, 1, 0, BROKER_OK, {0, 16, 16, 16, 1, 1, 0, 21, 0, 0}},
    {TAKE, 0, 0, BROKER_OK, {0, 16, 16, 21, 1, 0, 1, 21, 0, 0}},
    {ACCEPT, 2, 0, BROKER_CONFLICT, {0, 16, 16, 21, 1, 0, 1, 21, 0, 0}},
    {ROWS, 0, 0, 326, {0, 16, 16, 21, 1, 0, 1, 21, 0, 0}},
    {OPENED, 2, 0, BROKER_OK, {0, 16, 16, 21, 1, 5, 0, 21, 0, 0}},
    {TAKE, 0, 0, BROKER_OK, {0, 16, 16, 21, 1, 4, 1, 21, 0, 0}},
    {ACCEPT, 3, 0, BROKER_OK, {0, 16, 17, 21, 1, 4, 1, 21, 0, 0}},
    {NACK, 3, 0, BROKER_OK, {0, 16, 17, 21, 1, 5, 0, 21, 0, 0}},
    {ROWS, 0, 0, 346, {0, 16, 17, 21, 1, 5, 0, 21, 0, 0}},
    /* the same for a subscription without rows */
    {OPEN, 16, 1, BROKER_OK, {0}},
    {PLACE, 20, 0, BROKER_OK, {0}},
    {AGAIN, 5, 0, BROKER_OK, {0}},
    {BARE, 0, 0, BROKER_OK, {0, 0, 0, 0, 1, 2, 0, 21, 0, 0}},
    {TAKE, 0, 0, BROKER_OK, {0, 0, 0, 16, 1, 1, 1, 21, 0, 0}},
    {ACCEPT, 1, 0, BROKER_OK, {0, 0, 16, 16, 1, 1, 1, 21, 0, 0}},
    {ACK, 1, 0, BROKER_OK, {0, 16, 16, 16, 1, 1, 0, 21, 0, 0}},
    {TAKE, 0, 0, BROKER_OK, {0, 16, 16, 21, 1, 0, 1, 21, 0, 0}},
    {ACCEPT, 2, 0, BROKER_OK, {0, 16, 21, 21, 1, 0, 1, 21, 0, 0}},
    {ROWS, 0, 0, 0, {0, 16, 21, 21, 1, 0, 1, 21, 0, 0}},
    {ACK, 2, 0, BROKER_OK, {0, 21, 21, 21, 1, 0, 0, 21, 0, 0}},
    {TAKE, 0, 0, BROKER_EMPTY, {0, 21, 21, 21, 1, 0, 0, 21, 0, 0}},
    /* one that begins after entry 18 */
    {OPEN, 2, 2, BROKER_OK, {0}},
    {PLACE, 20, 0, BROKER_OK, {0}},
    {AGAIN, 5, 0, BROKER_OK, {0}},
    {BARE, 22, 0, BROKER_START_AHEAD, {0}},
    {BARE, 18, 0, BROKER_OK, {18, 18, 18, 18, 1, 2, 0, 21, 0, 0}},
    {TAKE, 0, 0, BROKER_OK, {18, 18, 18, 20, 1, 1, 1, 21, 0, 0}},
    {TAKE, 0, 0, BROKER_OK, {18, 18, 18, 21, 1, 0, 2, 21, 0, 0}},
    {ACCEPT, 2, 0, BROKER_GAP, {18, 18, 18, 21, 1, 0, 2, 21, 0, 0}},
    {ACCEPT, 1, 0, BROKER_OK, {18, 18, 20, 21, 1, 0, 2, 21, 0, 0}},
    {ACCEPT, 1, 0, BROKER_SEEN, {18, 18, 20, 21, 1, 0, 2, 21, 0, 0}},
    {RECONNECT, 17, 0, BROKER_BAD_CURSOR, {18, 18, 20, 21, 1, 0, 2, 21, 0, 0}},
    {RECONNECT, 19, 0, BROKER_OK, {18, 19, 20, 21, 2, 1, 0, 21, 0, 0}},
    {TAKE, 0, 0, BROKER_OK, {18, 19, 20, 21, 2, 0, 1, 21, 0, 0}},
    {ACCEPT, 3, 0, BROKER_GAP, {18, 19, 20, 21, 2, 0, 1, 21, 0, 0}},
    {RECONNECT, 20, 0, BROKER_OK, {18, 20, 20, 21, 3, 1, 0, 21, 0, 0}},
    {TAKE, 0, 0, BROKER_OK, {18, 20, 20, 21, 3, 0, 1, 21, 0, 0}},
    {FALL, 4, 0, BROKER_OK, {18, 20, 20, 21, 3, 0, 1, 21, 0, 1}},
    {RESUME, 0, 0, BROKER_OK, {18, 20, 20, 21, 4, 1, 0, 21, 0, 0}},
    {TAKE, 0, 0, BROKER_OK, {18, 20, 20, 21, 4, 0, 1, 21, 0, 0}},
    {ACCEPT, 5, 0, BROKER_OK, {18, 20, 21, 21, 4, 0, 1, 21, 0, 0}},
    {ACK, 5, 0, BROKER_OK, {18, 21, 21, 21, 4, 0, 0, 21, 0, 0}},
    {ROWS, 0, 0, 0, {18, 21, 21, 21, 4, 0, 0, 21, 0, 0}},
    {TAKE, 0, 0, BROKER_EMPTY, {18, 21, 21, 21, 4, 0, 0, 21, 0, 0}},
    {PLACE, 1, 0, BROKER_OK, {18, 21, 21, 21, 4, 1, 0, 22, 0, 0}},
    {TAKE, 0, 0, BROKER_OK, {18, 21, 21, 22, 4, 0, 1, 22, 0, 0}},
    {CLOSE, 0, 0, BROKER_OK, {18, 21, 21, 22, 4, 0, 1, 22, 0, 0}},
    {ACCEPT, 6, 0, BROKER_OK, {18, 21, 22, 22, 4, 0, 1, 22, 0, 0}},
    {TAKE, 0, 0, BROKER_EMPTY, {18, 21, 22, 22, 4, 0, 1, 22, 0, 0}},
    {ACK, 6, 0, BROKER_OK, {18, 22, 22, 22, 4, 0, 0, 22, 0, 0}},
    {TAKE, 0, 0, BROKER_DRAINED, {18, 22, 22, 22, 4, 0, 0, 22, 0, 0}},
};

/* places the INSERT of (key, 5) */
static int insert(broker *b, uint64_t key) {
    unsigned char text[] = HEADER_T "\22\0" ONE "\1\0\0\0\0\0\0\0\5";
    uint64_t entry;
    text[16] = (unsigned char)key;
    return broker_place(b, 0, text, sizeof text - 1, &entry);
}

static broker *anew(broker *before, uint64_t batch, uint64_t window, uint64_t *keys) {
    broker *b = opened(batch, window, 100);
    uint64_t publisher;
    if (broker_publisher(b, &publisher)) bad++;
    broker_free(before);
    return *keys = 0, b;
}

static int64_t call(broker *b, const struct step *it, uint64_t *keys) {
    struct broker_delivery d;
    uint64_t n, link;
    unsigned char none;
    switch (it->call) {
    case PLACE:
        for (uint64_t i = 0; i < it->a; i++)
            if (insert(b, ++*keys)) return 1;
        return 0;
    case AGAIN: return insert(b, it->a);
    case SUBSCRIBE: return broker_subscribe(b, it->a, &n, &link);
    case BARE: return broker_subscribe_bare(b, it->a, &n, &link);
    case TAKE: return broker_take(b, 0, it->a, &d);
    case ACCEPT: return broker_accept(b, it->a, &n);
    case FALL: return broker_crash(b, it->a, false, &n);
    case FALL_KEPT: return broker_crash(b, it->a, true, &n);
    case ACK: return broker_ack(b, it->a, &n);
    case NACK: return broker_nack(b, it->a);
    case OPENED: return broker_nack_opened(b, it->a, &n);
    case EXPIRE: return broker_expire(b, it->a, &n);
    case RECONNECT: return broker_reconnect(b, 0, it->a, &n);
    case RESUME: return broker_resume(b, 0, &n);
    case UNSUBSCRIBE: return broker_unsubscribe(b, 0);
    case CLOSE: return broker_close(b, &n);
    case ROWS: return broker_rows(b, 0, &none, 0);
    default: return 0;
    }
}

static int same_status(const struct broker_status *a, const struct broker_status *b) {
    return a->start == b->start && a->floor == b->floor && a->cursor == b->cursor && a->offered == b->offered &&
           a->link == b->link && a->ready == b->ready && a->in_flight == b->in_flight && a->front == b->front &&
           a->closed == b->closed && a->fallen == b->fallen;
}

/* what is told of subscription 0, twice, is as it must be; and nothing is told if it isn't there */
static int tells(broker *b, const struct broker_status *wanted) {
    struct broker_status each[2] = {{7, 7, 7, 7, 7, 7, 7, 7, true, true}, {7, 7, 7, 7, 7, 7, 7, 7, true, true}};
    struct broker_numbers before, after;
    int there = wanted->link != 0, code = there ? BROKER_OK : BROKER_NO_SUCH;
    uint64_t cursor = 0;
    if (broker_why(b, &before) || broker_status(b, 0, &each[0]) != code || broker_why(b, &after)) return 0;
    if (before.first != after.first || before.second != after.second) return 0;
    if (broker_cursor(b, 0, &cursor) != code || (there && cursor != wanted->cursor)) return 0;
    if (!there) return same_status(&each[0], &each[1]);
    return broker_status(b, 0, &each[1]) == BROKER_OK && same_status(&each[0], wanted) && same_status(&each[1], wanted);
}

static void step_on(void) {
    broker *b = NULL;
    uint64_t keys = 0;
    for (size_t i = 0; i < sizeof STEPS / sizeof *STEPS; i++) {
        const struct step *it = &STEPS[i];
        if (it->call == OPEN) b = anew(b, it->a, it->b, &keys);
        int64_t result = call(b, it, &keys);
        if (result != it->result)
            bad++, printf("step %zu gives %" PRId64 ", and not %" PRId64 "\n", i, result, it->result);
        if (!tells(b, &it->status)) bad++, printf("the status behind step %zu is another one\n", i);
        steps++;
    }
    broker_free(b);
}

int main(void) {
    for (size_t before = 0; before < sizeof BEFORE / sizeof *BEFORE; before++)
        for (uint64_t publisher = 0; publisher < 3; publisher++)
            for (size_t text = 0; text < sizeof TEXTS / sizeof *TEXTS; text++) place(BEFORE[before], publisher, text);
    step_on();
    printf("%ld places, %ld steps, %ld bad\n", places, steps, bad);
    return bad != 0;
}
