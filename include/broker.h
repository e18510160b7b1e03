/* A broker of SQLite changesets, in the caller's process. Publishers feed it changesets, a turn places each under the
 * next number of one sequence, and subscriptions take, accept and acknowledge what is placed.
 *
 * A handle is a `broker *`. broker_open gives one out, and broker_free frees it with everything behind it. broker_shut
 * lets go of everything behind a handle, which stays: its other calls return BROKER_SHUT from then on.
 *
 * Results: an int is BROKER_OK, BROKER_IDLE or a negative code. An int64_t is a length, or a negative code. A call with
 * a negative code sets no output, and changes nothing, but for four cases. broker_open sets `*why` for a bad limit or
 * table. A stream keeps its fault until broker_reset. A refused broker_turn may have taken a changeset out of the intake,
 * which the next one tries first. A refused broker_place has reset the publisher's stream. broker_why tells the two
 * numbers of the last code of -3 or less; BROKER_BUSY and calls that only read leave them as they are.
 *
 * "Refused" below lists the codes that a call may return beside BROKER_OK, BROKER_SHUT, BROKER_BUSY and
 * BROKER_NO_MEMORY, without their BROKER_. If several apply, the call returns the first of its list.
 *
 * Ownership: the caller owns every buffer before, during and after a call. The library keeps no pointer into one, and
 * gives out none but handles: texts are copied into the caller's buffers. It allocates with malloc and realloc.
 *
 * Threads: a handle is given to one call at a time, and two handles may be given to two calls at once. A handle may go
 * to another thread, if a lock, a thread's start or a join comes between the calls. A call that finds another call in its
 * handle returns BROKER_BUSY. That is help for a program with a bug, and no lock: such calls may also miss each other, and
 * the program may crash. No call waits, reads or writes a file, or starts a thread.
 *
 * Any number and any bytes may be passed. The caller must ensure all of this, and no call checks it:
 * - A handle is one that broker_open gave out and broker_free hasn't freed. Nobody else reads or writes what it leads
 *   to.
 * - No pointer is NULL, even if its length is 0; any other address serves then. Neither of a table's two pointers is NULL.
 *   Only broker_free takes NULL. Lengths, rooms, and the sizes of arrays in bytes are below 2^63.
 * - An input has `len` bytes, or `count` tables, that nobody changes during the call. Inputs may overlap.
 * - An output is aligned, and nobody else reads or changes it during the call. It overlaps no input, no other output
 *   and nothing that a handle leads to. `out` has `room` bytes.
 * - No call is made in a signal handler, or in the forked child of a process with threads. */
#ifndef BROKER_H
#define BROKER_H

#include <stdbool.h>
#include <stddef.h>
#include <stdint.h>

/* The version of this header, which the file VERSION has too. broker_version tells that of the library. */
#define BROKER_VERSION "0.1.0"
#define BROKER_VERSION_NUMBER 1000

/* A compiler that knows these attributes warns of a result that isn't used, and of NULL. */
#if defined(__GNUC__) || defined(__clang__)
#define BROKER_CALL __attribute__((warn_unused_result, nonnull))
#define BROKER_VOID __attribute__((nonnull))
#else
#define BROKER_CALL
#define BROKER_VOID
#endif

#ifdef __cplusplus
extern "C" {
#endif

/* A handle. */
typedef struct broker broker;

/* The results of the calls. Two numbers go with some of them; a number that isn't named is 0. */
enum broker_code {
    BROKER_OK = 0,
    /* broker_turn: nothing waits to be placed. Nothing changed. */
    BROKER_IDLE = 1,
    /* The handle is shut. */
    BROKER_SHUT = -1,
    /* Memory ran out. Nothing changed, and the call may be made again. */
    BROKER_NO_MEMORY = -2,
    /* The stream spells no changeset. Numbers: the place of its fault, from 0, and the fault's kind, of
     * broker_fault_kind. */
    BROKER_FAULT = -3,
    /* broker_open: a limit is out of its range. Numbers: the limit's place in broker_limits, from 0. */
    BROKER_BAD_LIMIT = -4,
    /* broker_open: a table is refused. Numbers: its place, from 0; and 0 if no table has such a shape or if it is one
     * too many, or 1 if an earlier table has its name. */
    BROKER_BAD_TABLE = -5,
    /* Another call is in the handle. Nothing changed. */
    BROKER_BUSY = -6,

    /* No publisher has this number. */
    BROKER_NO_PUBLISHER = -10,
    /* There are 64 publishers, or 1,024 subscriptions. */
    BROKER_TOO_MANY = -11,
    /* A changeset is staged already. */
    BROKER_HOLDING = -12,
    /* Nothing is staged. */
    BROKER_NOTHING_STAGED = -13,
    /* The sequence is closed, or the subscription is. */
    BROKER_CLOSED = -14,
    /* The intake is full. */
    BROKER_FULL = -15,
    /* No entry has this number. */
    BROKER_NOT_PLACED = -16,
    /* Another publisher sent the entry. */
    BROKER_NOT_YOURS = -17,
    /* The entry is withdrawn already. */
    BROKER_ALREADY_WITHDRAWN = -18,
    /* The sequence has as many entries as it may. */
    BROKER_SEQUENCE_FULL = -19,
    /* A section is of a table that isn't the broker's. Numbers: the section, from 0. */
    BROKER_UNKNOWN_TABLE = -20,
    /* A section has another shape than its table. Numbers: the section, from 0. */
    BROKER_SHAPE_DIFFERS = -21,
    /* 268,435,455 steps are made. A placement takes one, and so do subscribe, subscribe_bare, take, take_any, ack, nack,
     * nack_opened, expire, reconnect, resume, unsubscribe and the first close. */
    BROKER_JOURNAL_FULL = -22,
    /* broker_place: other changesets wait to be placed, and broker_turn places them. Numbers: how many. */
    BROKER_WAITING = -23,

    /* No subscription has this number. */
    BROKER_NO_SUCH = -30,
    /* The subscription has another link now than the delivery. */
    BROKER_STALE_LINK = -31,
    /* The subscription has as many deliveries in flight as its window holds. */
    BROKER_WINDOW_FULL = -32,
    /* No delivery has this number. */
    BROKER_NO_DELIVERY = -33,
    /* The delivery isn't in flight. */
    BROKER_NOT_IN_FLIGHT = -34,
    /* The delivery is accepted already. */
    BROKER_SEEN = -35,
    /* The sequence is closed, and the subscription has settled all of it. Numbers: the last number. */
    BROKER_DRAINED = -36,
    /* Nothing is ready. Numbers: the last number placed. */
    BROKER_EMPTY = -37,
    /* Not all of the delivery is accepted. Numbers: the subscription's cursor. */
    BROKER_NOT_ACCEPTED = -38,
    /* The cursor isn't between the floor and what was offered. Numbers: the floor, and the last number offered. */
    BROKER_BAD_CURSOR = -39,
    /* The start isn't placed. Numbers: the last number placed. */
    BROKER_START_AHEAD = -40,
    /* Other entries come first. Numbers: the number that the subscription must accept next. */
    BROKER_GAP = -41,
    /* An entry is of other tables than the subscription's. Numbers: the entry. */
    BROKER_SHAPE = -42,
    /* A change conflicts with the subscription's rows. Numbers: the change among those of the delivery's group, from
     * 0; and the conflict's kind, of broker_conflict_kind. */
    BROKER_CONFLICT = -43,
    /* The subscription hasn't fallen. */
    BROKER_NOT_FALLEN = -44,
    /* The subscription has fallen. */
    BROKER_STORE = -45,
    /* The broker has no table at this place. */
    BROKER_NO_TABLE = -46,
    /* The table has no row with this key. */
    BROKER_NO_ROW = -47
};

/* The kind of a fault. The numbers are those of changeset_fault_kind in changeset.h, which says more of each. */
enum broker_fault_kind {
    BROKER_FAULT_BAD_MARKER = 1,
    BROKER_FAULT_PATCHSET = 2,
    BROKER_FAULT_COLUMNS = 3,
    BROKER_FAULT_NO_KEY = 4,
    BROKER_FAULT_EMPTY_NAME = 5,
    BROKER_FAULT_NAME_TOO_LONG = 6,
    BROKER_FAULT_BAD_OPERATION = 7,
    BROKER_FAULT_BAD_TYPE = 8,
    BROKER_FAULT_REAL = 9,
    BROKER_FAULT_UNDEFINED_FIELD = 10,
    BROKER_FAULT_KEY_MISSING = 11,
    BROKER_FAULT_KEY_CHANGED = 12,
    BROKER_FAULT_ONE_SIDED = 13,
    BROKER_FAULT_VALUE_TOO_LONG = 14,
    BROKER_FAULT_TOO_LONG = 15,
    BROKER_FAULT_TRUNCATED = 16
};

/* The kind of a conflict. The numbers are SQLite's, of SQLITE_CHANGESET_DATA and its kind. */
enum broker_conflict_kind {
    /* The row is there with other values. */
    BROKER_CONFLICT_DATA = 1,
    /* The row isn't there. */
    BROKER_CONFLICT_NOTFOUND = 2,
    /* The row is there already. */
    BROKER_CONFLICT_CONFLICT = 3
};

/* Enough room for the words of any code. */
#define BROKER_MESSAGE_ROOM 64

/* Writes the words of a code, such as "no entry has this number", and a zero byte behind them. A number that is no code
 * has words too. Returns how many bytes these are, with the zero byte: BROKER_MESSAGE_ROOM at most. They are written
 * only if they are at most `room`; else `out` does not change. It takes no handle, and never fails. */
BROKER_VOID int64_t broker_message(int code, char *out, size_t room);

/* The version of the library as one number: 1,000,000 for the major one, 1,000 for the minor one, and the patch. A program
 * may compare it with BROKER_VERSION_NUMBER. */
int broker_version(void);

/* The numbers that go with a code. */
struct broker_numbers {
    uint64_t first, second;
};

/* ---- opening */

/* The limits of a broker. */
struct broker_limits {
    /* The most entries in a delivery, 1 to 256. */
    uint64_t batch;
    /* The most deliveries in flight to a subscription, 1 to 64. */
    uint64_t window;
    /* After how many ticks a delivery expires, 1 to 1,000,000,000. */
    uint64_t timeout;
    /* The most entries of the sequence, 1 to 16,777,216. */
    uint64_t capacity;
    /* The most changesets that wait to be placed, 1 to 4,096. */
    uint64_t intake;
    /* 1 to 16. These calls apply a changeset in the caller's thread, so it changes nothing here. */
    uint64_t appliers;
};

/* The limits that rb_run takes if none are given. */
#define BROKER_LIMITS {16, 4, 10, 65536, 64, 1}

/* A table that changesets may be of: the bytes of its name, 1 to 1,024 without a zero byte, and a byte for each of its
 * columns, 1 to 2,000. A column's byte is 0, or its place in the primary key, from 1 (`pk` of PRAGMA table_info). */
struct broker_table {
    const unsigned char *name;
    size_t name_len;
    const unsigned char *key;
    size_t columns;
};

/* Opens a broker without publishers, entries and subscriptions, for at most 1,024 tables, which it copies. Sets `*out`
 * to its handle, and returns BROKER_OK. Or returns one of these, and leaves `*out` as it is:
 * - BROKER_BAD_LIMIT for the first bad limit, with its numbers in `*why`.
 * - BROKER_BAD_TABLE for the first bad table, with its numbers in `*why`.
 * - BROKER_NO_MEMORY. The limits are in their ranges then.
 * Only BROKER_BAD_LIMIT and BROKER_BAD_TABLE set `*why`. What `*out` was before is not freed; NULL serves. */
BROKER_CALL int broker_open(broker **out, const struct broker_limits *limits, const struct broker_table *tables,
                            size_t count, struct broker_numbers *why);

/* Lets go of everything behind a handle. Its other calls return BROKER_SHUT from then on. broker_free is still owed. If
 * another call is in the handle, it does nothing. */
BROKER_VOID void broker_shut(broker *b);

/* Frees a handle, with everything behind it. For NULL it does nothing. */
void broker_free(broker *b);

/* Sets `*why` to the numbers of the handle's last code of -3 or less, at first two zeros. */
BROKER_CALL int broker_why(const broker *b, struct broker_numbers *why);

/* ---- publishers, numbered from 0 */

/* Adds a publisher, and sets `*publisher` to its number. Refused: TOO_MANY. */
BROKER_CALL int broker_publisher(broker *b, uint64_t *publisher);

/* Adds `len` bytes to a publisher's stream, which may be cut anywhere. FAULT comes as soon as no bytes behind these can
 * make the stream a changeset, and from then on until broker_reset. The bytes are copied first, so BROKER_NO_MEMORY
 * says only that nothing changed. Refused: NO_PUBLISHER, FAULT. */
BROKER_CALL int broker_feed(broker *b, uint64_t publisher, const unsigned char *bytes, size_t len);

/* Empties a publisher's stream. What is staged stays. Refused: NO_PUBLISHER. */
BROKER_CALL int broker_reset(broker *b, uint64_t publisher);

/* Stages the changeset that a publisher's stream spells, and begins a new stream. Refused: NO_PUBLISHER, HOLDING,
 * FAULT, UNKNOWN_TABLE, SHAPE_DIFFERS. The stream then stays as it is. */
BROKER_CALL int broker_end(broker *b, uint64_t publisher);

/* Moves what a publisher staged to the end of the intake. Sets `*own` to its number among the publisher's sendings,
 * from 1. Refused: NO_PUBLISHER, NOTHING_STAGED, CLOSED, FULL. */
BROKER_CALL int broker_send(broker *b, uint64_t publisher, uint64_t *own);

/* Stages the withdrawal of an entry that the publisher sent: the changeset that takes it back. Refused: NO_PUBLISHER,
 * HOLDING, NOT_PLACED, NOT_YOURS, ALREADY_WITHDRAWN. */
BROKER_CALL int broker_withdraw(broker *b, uint64_t publisher, uint64_t entry);

/* ---- the sequence, numbered from 1 */

/* Places the changeset that was sent first, and sets `*entry` to its number; or returns BROKER_IDLE. Refused:
 * JOURNAL_FULL, CLOSED, SEQUENCE_FULL. */
BROKER_CALL int broker_turn(broker *b, uint64_t *entry);

/* Places a whole changeset of `len` bytes, and sets `*entry` to its number: broker_reset, broker_feed, broker_end,
 * broker_send and broker_turn in one call. It does all of this, or only the reset where it is refused: then nothing is
 * staged, sent or placed. After BROKER_NO_MEMORY the stream too is as before. Refused: NO_PUBLISHER, WAITING, FAULT (one
 * that broker_feed finds), HOLDING, FAULT (one that broker_end finds), UNKNOWN_TABLE, SHAPE_DIFFERS, CLOSED,
 * JOURNAL_FULL, SEQUENCE_FULL. */
BROKER_CALL int broker_place(broker *b, uint64_t publisher, const unsigned char *bytes, size_t len, uint64_t *entry);

/* Closes the sequence: nothing more is sent or placed. Sets `*last` to its last number. A second call does the same.
 * What is placed can still be taken, accepted and acknowledged. */
BROKER_CALL int broker_close(broker *b, uint64_t *last);

/* Sets `*count` to the number of changesets that are sent and not placed. */
BROKER_CALL int broker_left(broker *b, uint64_t *count);

/* Sets `*entry` to the last number placed, or to 0. */
BROKER_CALL int broker_front(broker *b, uint64_t *entry);

/* The canonical text of an entry's changeset. Returns its length, or BROKER_NOT_PLACED. The text is written only if its
 * length is at most `room`: then it is at the start of `out`, and the bytes after it do not change. Else `out` does not
 * change. So a call with a room of 0 tells the length. */
BROKER_CALL int64_t broker_text(broker *b, uint64_t entry, unsigned char *out, size_t room);

/* The same of the entries `first` to `last` as one changeset: a row's changes become one change or none. It is made
 * anew by each call. Returns BROKER_NOT_PLACED unless 1 <= first <= last and `last` is placed, or BROKER_NO_MEMORY. */
BROKER_CALL int64_t broker_combined(broker *b, uint64_t first, uint64_t last, unsigned char *out, size_t room);

/* What is known of an entry beside its text. */
struct broker_about {
    /* Who sent it. */
    uint64_t publisher;
    /* Its number among that publisher's sendings, from 1. */
    uint64_t own;
    /* The entry that it withdraws, or 0. */
    uint64_t withdraws;
};

/* Sets `*about` to what is known of an entry, or returns BROKER_NOT_PLACED. */
BROKER_CALL int broker_entry(broker *b, uint64_t entry, struct broker_about *about);

/* ---- subscriptions, numbered from 0, and deliveries, numbered from 1. `now` is any tick of the caller's clock. */

/* A delivery: the entries `first` to `last` for a subscription. */
struct broker_delivery {
    uint64_t number, subscription, first, last;
};

/* Adds a subscription to the entries after `start`, with empty tables. Sets `*subscription` to its number and `*link`
 * to its link. Refused: JOURNAL_FULL, START_AHEAD, TOO_MANY. */
BROKER_CALL int broker_subscribe(broker *b, uint64_t start, uint64_t *subscription, uint64_t *link);

/* The same, but the subscription keeps no rows: broker_accept checks the order of its deliveries, applies nothing, and
 * meets no CONFLICT. Its rows are none. It may begin at any number that is placed, since it needs no rows from before.
 * Refused: JOURNAL_FULL, START_AHEAD, TOO_MANY. */
BROKER_CALL int broker_subscribe_bare(broker *b, uint64_t start, uint64_t *subscription, uint64_t *link);

/* Hands out a subscription's next ready entries. Refused: NO_SUCH, JOURNAL_FULL, CLOSED, WINDOW_FULL, DRAINED,
 * EMPTY. */
BROKER_CALL int broker_take(broker *b, uint64_t subscription, uint64_t now, struct broker_delivery *delivery);

/* Hands out the entries that have been ready the longest, of any subscription with room in its window. Refused:
 * JOURNAL_FULL, EMPTY. */
BROKER_CALL int broker_take_any(broker *b, uint64_t now, struct broker_delivery *delivery);

/* Applies all changes of a delivery's group to its subscription's tables, or none. Sets `*cursor` to the last number
 * that the subscription has accepted. Refused: NO_DELIVERY, STORE, CLOSED, STALE_LINK, SEEN, GAP, SHAPE, CONFLICT. */
BROKER_CALL int broker_accept(broker *b, uint64_t delivery, uint64_t *cursor);

/* Lets a delivery's subscription fall while it accepts the delivery: it is as after the accept if its store has `kept`
 * it, and else as before. It accepts nothing until broker_resume. Sets `*cursor` and is refused as broker_accept. */
BROKER_CALL int broker_crash(broker *b, uint64_t delivery, bool kept, uint64_t *cursor);

/* Sets `*cursor` to the last number that a subscription has accepted, or returns BROKER_NO_SUCH. */
BROKER_CALL int broker_cursor(broker *b, uint64_t subscription, uint64_t *cursor);

/* How far a subscription has come. */
struct broker_status {
    /* The number after which it began. */
    uint64_t start;
    /* The number up to which it has settled all. */
    uint64_t floor;
    /* The last number that it has accepted; `start` before the first. */
    uint64_t cursor;
    /* The greatest number that was delivered to it; `start` before the first. */
    uint64_t offered;
    /* Its link. */
    uint64_t link;
    /* How many deliveries are ready for it: broker_take hands out the first of them. */
    uint64_t ready;
    /* How many deliveries are in flight to it. */
    uint64_t in_flight;
    /* The last number placed. `front - floor` is its lag. */
    uint64_t front;
    /* Whether it is closed, and whether it has fallen. What is ready and in flight is 0 once it is closed. */
    bool closed, fallen;
};

/* Sets `*status` to how far a subscription has come, or returns BROKER_NO_SUCH. */
BROKER_CALL int broker_status(broker *b, uint64_t subscription, struct broker_status *status);

/* Settles a delivery. Sets `*floor` to the number up to which the subscription has settled all. Refused: NO_DELIVERY,
 * JOURNAL_FULL, STALE_LINK, NOT_IN_FLIGHT, NOT_ACCEPTED. */
BROKER_CALL int broker_ack(broker *b, uint64_t delivery, uint64_t *floor);

/* Gives a delivery back. Its entries are ready again. Refused: NO_DELIVERY, JOURNAL_FULL, STALE_LINK, NOT_IN_FLIGHT. */
BROKER_CALL int broker_nack(broker *b, uint64_t delivery);

/* Gives a delivery back and opens it: each of its entries is ready again, alone. Sets `*count` to how many they are.
 * Refused as broker_nack. */
BROKER_CALL int broker_nack_opened(broker *b, uint64_t delivery, uint64_t *count);

/* Gives back every delivery that has been out for the timeout or longer. Sets `*count` to how many they are. Refused:
 * JOURNAL_FULL. */
BROKER_CALL int broker_expire(broker *b, uint64_t now, uint64_t *count);

/* Lets a subscription go on after number `cursor`, under a new link, to which it sets `*link`. Its deliveries from
 * before are stale. After a number above the subscription's own cursor, broker_accept returns BROKER_GAP for good: the
 * entries between never come again. Refused: NO_SUCH, JOURNAL_FULL, CLOSED, BAD_CURSOR. */
BROKER_CALL int broker_reconnect(broker *b, uint64_t subscription, uint64_t cursor, uint64_t *link);

/* Lets a subscription that has fallen go on after its own cursor, under a new link, to which it sets `*link`. Refused:
 * NO_SUCH, NOT_FALLEN, JOURNAL_FULL, CLOSED, BAD_CURSOR. */
BROKER_CALL int broker_resume(broker *b, uint64_t subscription, uint64_t *link);

/* Closes a subscription. Refused: NO_SUCH, JOURNAL_FULL, CLOSED. */
BROKER_CALL int broker_unsubscribe(broker *b, uint64_t subscription);

/* ---- the rows of a subscription: what its accepted deliveries made of its tables. They come as the text of a
 * changeset, with an INSERT for each row: sqlite3changeset_start reads them, and sqlite3changeset_apply makes a replica
 * of them. Each table that has rows has one header, with its rows behind it. All lengths are the shortest. */

/* The rows of a subscription, in order: by their tables, in the order that broker_open was given, and then by the bytes
 * of their keys, as memcmp orders them; a key comes before one that it begins. Returns the text's length, which is 0
 * without rows. The text is written as broker_text writes one. It is made anew by each call. Returns
 * BROKER_NO_SUCH, or BROKER_NO_MEMORY, which comes only if the subscription is there. */
BROKER_CALL int64_t broker_rows(broker *b, uint64_t subscription, unsigned char *out, size_t room);

/* The same of one row: the one of the table at place `table`, from 0, with this key. `key` is the values of the table's
 * key columns, in the order of the columns, each with the bytes that it has in a changeset: an INTEGER is 1 and eight
 * bytes, the highest first; a TEXT is 3 and a BLOB 4, its length as SQLite's varint, and its bytes. Returns the first
 * of these that applies: BROKER_NO_SUCH, BROKER_NO_TABLE, BROKER_NO_ROW; or BROKER_NO_MEMORY, which comes only
 * if the subscription and the table are there. */
BROKER_CALL int64_t broker_row(broker *b, uint64_t subscription, uint64_t table, const unsigned char *key, size_t len,
                               unsigned char *out, size_t room);

#ifdef __cplusplus
}
#endif

#endif
