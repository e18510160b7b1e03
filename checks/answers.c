#include "answers.h"

#include <inttypes.h>
#include <stdio.h>
#include <stdlib.h>
#include <string.h>

/* a table more than a broker may have, which it must refuse */
enum { MOST_TABLES = 1025 };

broker *b;
struct broker_limits limits = BROKER_LIMITS;
size_t cut = SIZE_MAX;
static struct broker_table tables[MOST_TABLES];
/* the bytes that each table was read from */
static unsigned char *headers[MOST_TABLES];
static size_t table_count;

void stop(const char *why) {
    fprintf(stderr, "cases: %s\n", why);
    exit(1);
}

void *some_memory(void *given) {
    if (!given) stop("out of memory");
    return given;
}

/* prints a word and the numbers after it */
static void say(const char *word, int count, uint64_t first, uint64_t second) {
    fputs(word, stdout);
    if (count > 0) printf(" %" PRIu64, first);
    if (count > 1) printf(" %" PRIu64, second);
    putchar('\n');
}

static void print_bytes(const unsigned char *bytes, size_t len) {
    putchar(' ');
    if (len == 0) putchar('-');
    for (size_t i = 0; i < len; i++) printf("%02x", bytes[i]);
}

/* ---- refusals and faults */

/* the code of each refusal, its name in a script, and how many numbers it has there */
static const struct {
    int code, numbers;
    const char *name;
} REFUSALS[] = {
    {BROKER_NO_PUBLISHER, 0, "NoPublisher"},
    {BROKER_TOO_MANY, 0, "TooMany"},
    {BROKER_HOLDING, 0, "Holding"},
    {BROKER_NOTHING_STAGED, 0, "NothingStaged"},
    {BROKER_CLOSED, 0, "Closed"},
    {BROKER_FULL, 0, "Full"},
    {BROKER_NOT_PLACED, 0, "NotPlaced"},
    {BROKER_NOT_YOURS, 0, "NotYours"},
    {BROKER_ALREADY_WITHDRAWN, 0, "AlreadyWithdrawn"},
    {BROKER_SEQUENCE_FULL, 0, "SequenceFull"},
    {BROKER_UNKNOWN_TABLE, 1, "UnknownTable"},
    {BROKER_SHAPE_DIFFERS, 1, "ShapeDiffers"},
    {BROKER_JOURNAL_FULL, 0, "JournalFull"},
    {BROKER_NO_SUCH, 0, "NoSuch"},
    {BROKER_STALE_LINK, 0, "StaleLink"},
    {BROKER_WINDOW_FULL, 0, "WindowFull"},
    {BROKER_NO_DELIVERY, 0, "NoDelivery"},
    {BROKER_NOT_IN_FLIGHT, 0, "NotInFlight"},
    {BROKER_SEEN, 0, "Seen"},
    {BROKER_DRAINED, 1, "Drained"},
    {BROKER_EMPTY, 1, "Empty"},
    {BROKER_NOT_ACCEPTED, 1, "NotAccepted"},
    {BROKER_BAD_CURSOR, 2, "BadCursor"},
    {BROKER_START_AHEAD, 1, "StartAhead"},
    {BROKER_GAP, 1, "Gap"},
    {BROKER_SHAPE, 1, "Shape"},
    {BROKER_CONFLICT, 2, "Conflict"},
    {BROKER_NOT_FALLEN, 0, "NotFallen"},
    {BROKER_STORE, 0, "Store"},
};

/* the kinds of faults in a script, from BROKER_FAULT_BAD_MARKER on */
static const char *const FAULTS[] = {"BadMarker",     "Patchset",    "Columns",      "NoKey",
                                     "EmptyName", "NameTooLong", "BadOperation", "BadType",
                                     "Real",          "UndefinedField", "KeyMissing", "KeyChanged",
                                     "OneSided",      "ValueTooLong", "TooLong",     "Truncated"};

void print_refusal(int code) {
    struct broker_numbers why = {0, 0};
    if (broker_why(b, &why) != BROKER_OK) stop("the handle is shut");
    if (code == BROKER_FAULT) {
        if (why.second < 1 || why.second > sizeof FAULTS / sizeof *FAULTS) stop("a fault of no kind");
        printf("fault %" PRIu64 " %s\n", why.first, FAULTS[why.second - 1]);
        return;
    }
    for (size_t i = 0; i < sizeof REFUSALS / sizeof *REFUSALS; i++) {
        if (REFUSALS[i].code != code) continue;
        fputs("refused ", stdout);
        say(REFUSALS[i].name, REFUSALS[i].numbers, why.first, why.second);
        return;
    }
    fprintf(stderr, "cases: a call returns %d\n", code);
    exit(1);
}

/* ---- tables */

/* Reads a varint of a changeset at `*at`, and sets `*at` to the place after it. Returns SIZE_MAX if none is there, or
 * one above all lengths. */
static size_t read_varint(const unsigned char *bytes, size_t len, size_t *at) {
    size_t value = 0;
    for (int i = 1; *at < len && value < (size_t)1 << 32; i++) {
        unsigned char byte = bytes[(*at)++];
        /* the ninth byte has eight digits */
        if (i == 9) return value * 256 + byte;
        value = value * 128 + (byte & 127);
        if (byte < 128) return value;
    }
    return SIZE_MAX;
}

/* Reads the header of a changeset. Returns its length, or 0 if the bytes begin with none. */
static size_t read_header(const unsigned char *bytes, size_t len, struct broker_table *table) {
    size_t at = 1;
    if (len == 0 || bytes[0] != 0x54) return 0;
    size_t columns = read_varint(bytes, len, &at);
    if (columns > len - at) return 0;
    const unsigned char *key = bytes + at, *name = key + columns, *end = memchr(name, 0, len - at - columns);
    if (!end) return 0;
    *table = (struct broker_table){name, (size_t)(end - name), key, columns};
    return (size_t)(end + 1 - bytes);
}

int open_anew(void) {
    broker *opened = NULL;
    struct broker_numbers why = {7, 7};
    int code = broker_open(&opened, &limits, tables, table_count, &why);
    if (code == BROKER_BAD_TABLE) {
        if (why.first != table_count - 1) stop("another table is refused than the last one");
        puts(why.second ? "refused DuplicateTable" : "refused BadShape");
        return code;
    }
    if (code != BROKER_OK) stop("no broker is opened");
    if (b) broker_free(b);
    b = opened;
    return code;
}

int add_table(struct operands *o) {
    size_t len = read_header(o->bytes, o->len, &tables[table_count]);
    if (len == 0 || len != o->len) return puts("refused BadShape"), -1;
    headers[table_count++] = o->bytes;
    int code = open_anew();
    if (code != BROKER_OK) return table_count--, code;
    o->bytes = NULL;
    return puts("ok"), code;
}

/* ---- one function for each other line: it makes the call, and prints the answer unless the code is negative */

int publisher(struct operands *o) {
    uint64_t number;
    int code = broker_publisher(b, &number);
    (void)o;
    if (code == BROKER_OK) say("publisher", 1, number, 0);
    return code;
}

int feed(struct operands *o) {
    int codes[2] = {BROKER_OK, BROKER_OK};
    size_t at = 0;
    do {
        size_t len = o->len - at < cut ? o->len - at : cut;
        codes[0] = codes[1] != BROKER_OK ? codes[1] : codes[0];
        codes[1] = broker_feed(b, o->number[0], o->bytes + at, len);
        at += len;
        if (codes[0] != BROKER_OK && codes[0] != codes[1]) stop("a piece is refused, and the next one isn't");
    } while (at < o->len);
    if (codes[1] == BROKER_OK) puts("ok");
    return codes[1];
}

int reset(struct operands *o) {
    int code = broker_reset(b, o->number[0]);
    if (code == BROKER_OK) puts("ok");
    return code;
}

int end(struct operands *o) {
    int code = broker_end(b, o->number[0]);
    if (code == BROKER_OK) puts("staged");
    return code;
}

int send_staged(struct operands *o) {
    uint64_t own;
    int code = broker_send(b, o->number[0], &own);
    if (code == BROKER_OK) say("sent", 1, own, 0);
    return code;
}

int withdraw(struct operands *o) {
    int code = broker_withdraw(b, o->number[0], o->number[1]);
    if (code == BROKER_OK) puts("staged");
    return code;
}

int turn(struct operands *o) {
    uint64_t entry;
    int code = broker_turn(b, &entry);
    (void)o;
    if (code == BROKER_OK) say("placed", 1, entry, 0);
    if (code == BROKER_IDLE) puts("idle");
    return code;
}

int close_sequence(struct operands *o) {
    uint64_t last;
    int code = broker_close(b, &last);
    (void)o;
    if (code == BROKER_OK) say("closed", 1, last, 0);
    return code;
}

int left(struct operands *o) {
    uint64_t count;
    int code = broker_left(b, &count);
    (void)o;
    if (code == BROKER_OK) say("left", 1, count, 0);
    return code;
}

int subscribe(struct operands *o) {
    uint64_t subscription, link;
    int code = broker_subscribe(b, o->number[0], &subscription, &link);
    if (code == BROKER_OK) printf("subscriber %" PRIu64 " link %" PRIu64 "\n", subscription, link);
    return code;
}

static int print_delivery(int code, const struct broker_delivery *d) {
    if (code == BROKER_OK)
        printf("delivery %" PRIu64 " %" PRIu64 " %" PRIu64 " %" PRIu64 "\n", d->number, d->subscription, d->first,
               d->last);
    return code;
}

int take(struct operands *o) {
    struct broker_delivery d;
    return print_delivery(broker_take(b, o->number[0], o->number[1], &d), &d);
}

int take_any(struct operands *o) {
    struct broker_delivery d;
    return print_delivery(broker_take_any(b, o->number[0], &d), &d);
}

int accept(struct operands *o) {
    uint64_t cursor;
    int code = broker_accept(b, o->number[0], &cursor);
    if (code == BROKER_OK) say("accepted", 1, cursor, 0);
    return code;
}

int crash(struct operands *o) {
    uint64_t cursor;
    int code = broker_crash(b, o->number[0], o->number[1] == 1, &cursor);
    if (code == BROKER_OK) say("crashed", 1, cursor, 0);
    return code;
}

int ack(struct operands *o) {
    uint64_t floor;
    int code = broker_ack(b, o->number[0], &floor);
    if (code == BROKER_OK) say("floor", 1, floor, 0);
    return code;
}

int nack(struct operands *o) {
    int code = broker_nack(b, o->number[0]);
    if (code == BROKER_OK) puts("ok");
    return code;
}

int nack_opened(struct operands *o) {
    uint64_t count;
    int code = broker_nack_opened(b, o->number[0], &count);
    if (code == BROKER_OK) say("opened", 1, count, 0);
    return code;
}

int expire(struct operands *o) {
    uint64_t count;
    int code = broker_expire(b, o->number[0], &count);
    if (code == BROKER_OK) say("expired", 1, count, 0);
    return code;
}

int reconnect(struct operands *o) {
    uint64_t link;
    int code = broker_reconnect(b, o->number[0], o->number[1], &link);
    if (code == BROKER_OK) say("link", 1, link, 0);
    return code;
}

int resume(struct operands *o) {
    uint64_t link;
    int code = broker_resume(b, o->number[0], &link);
    if (code == BROKER_OK) say("link", 1, link, 0);
    return code;
}

int unsubscribe(struct operands *o) {
    int code = broker_unsubscribe(b, o->number[0]);
    if (code == BROKER_OK) puts("ok");
    return code;
}

/* the text that a call wrote last */
static unsigned char *text;

/* Sets `text` to what a call writes, and `len` to its length: the first call returns the length, and the second writes.
 * A negative length is a code. */
#define READ_TEXT(len, call_of_out_and_room)                                                                           \
    do {                                                                                                               \
        unsigned char none_, *out = &none_;                                                                            \
        size_t room = 0;                                                                                               \
        len = call_of_out_and_room;                                                                                    \
        if (len <= 0) break;                                                                                           \
        text = out = some_memory(realloc(text, room = (size_t)len));                                                   \
        if (call_of_out_and_room != len) stop("a text has two lengths");                                               \
    } while (0)

int entry(struct operands *o) {
    struct broker_about about;
    int64_t len;
    int code = broker_entry(b, o->number[0], &about);
    READ_TEXT(len, broker_text(b, o->number[0], out, room));
    if (code != BROKER_OK) return len == code ? code : BROKER_NO_MEMORY;
    if (len < 0) stop("an entry has no text");
    printf("entry %" PRIu64 " %" PRIu64 " %" PRIu64, o->number[0], about.publisher, about.own);
    if (about.withdraws) printf(" w%" PRIu64, about.withdraws);
    else fputs(" s", stdout);
    print_bytes(text, (size_t)len), putchar('\n');
    return code;
}

int combine(struct operands *o) {
    int64_t len;
    READ_TEXT(len, broker_combined(b, o->number[0], o->number[1], out, room));
    if (len < 0) return (int)len;
    fputs("text", stdout), print_bytes(text, (size_t)len), putchar('\n');
    return BROKER_OK;
}

/* the length of the value at the beginning of these bytes, or 0 if none is there */
static size_t value_len(const unsigned char *bytes, size_t len) {
    size_t at = 1;
    if (len == 0) return 0;
    if (bytes[0] == 5) return 1;
    if (bytes[0] == 1) return len < 9 ? 0 : 9;
    if (bytes[0] != 3 && bytes[0] != 4) return 0;
    size_t more = read_varint(bytes, len, &at);
    return more > len - at ? 0 : at + more;
}

/* the place of a table among those of the broker */
static size_t place_of(const struct broker_table *table) {
    for (size_t i = 0; i < table_count; i++)
        if (tables[i].name_len == table->name_len && !memcmp(tables[i].name, table->name, table->name_len)) return i;
    stop("rows of no table");
    return 0;
}

/* Scans `text`, a subscription's rows, an INSERT each, and prints them if `prints`. Returns their number. */
static uint64_t scan_rows(size_t len, bool prints) {
    struct broker_table table = {NULL, 0, NULL, 0};
    size_t place = 0;
    uint64_t count = 0;
    for (size_t at = 0; at < len;) {
        if (text[at] == 0x54) {
            at += read_header(text + at, len - at, &table), place = place_of(&table);
            continue;
        }
        if (text[at] != 0x12 || !table.columns) stop("a row is no INSERT");
        count++, at += 2;
        if (prints) printf("row %zu", place);
        for (size_t i = 0; i < table.columns; i++) {
            size_t more = value_len(text + at, len - at);
            if (more == 0) stop("a row has too few values");
            if (prints) print_bytes(text + at, more);
            at += more;
        }
        if (prints) putchar('\n');
    }
    return count;
}

int rows(struct operands *o) {
    int64_t len;
    READ_TEXT(len, broker_rows(b, o->number[0], out, room));
    if (len < 0) return (int)len;
    printf("rows %" PRIu64 "\n", scan_rows((size_t)len, false));
    scan_rows((size_t)len, true);
    return BROKER_OK;
}

void end_all(void) {
    for (size_t i = 0; i < table_count; i++) free(headers[i]);
    free(text);
    if (b) broker_free(b);
}
