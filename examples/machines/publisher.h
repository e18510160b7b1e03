/* The thread that publishes an outbox. It publishes the rows in order, a window of them at a time, and looks up where
 * the stream ends whenever a window is not acknowledged whole. So it needs no memory of its own after a kill. */
#ifndef MACHINES_PUBLISHER_H
#define MACHINES_PUBLISHER_H
#include "stream.h"
#include <pthread.h>

/* The rows, and the bytes, after which a window ends. */
enum { WINDOW = 256, WINDOW_BYTES = 4 * 1024 * 1024 };

/* What the publisher and the thread that commits both see, under `lock`. */
struct shared {
    pthread_mutex_t lock;
    pthread_cond_t grown;
    /* the outbox's last number that is committed, and the last one that the stream has acknowledged */
    int64_t committed, acknowledged;
    /* whether no more numbers come */
    bool is_complete;
    /* the number before the present window, and which of its messages are acknowledged */
    int64_t before;
    bool is_stored[WINDOW];
};

struct publisher {
    const char *path, *urls;
    char outbox[NAME_ROOM];
    struct shared *shared;
    struct stream stream;
    sqlite3 *db;
    sqlite3_stmt *rows;
    /* whether the outbox had no row that follows the stream's last message */
    bool is_behind;
    /* how often the stream's end was looked up, and the seconds of publishing */
    int64_t lookups;
    double busy;
};

static inline void on_answer(jsCtx *js, natsMsg *message, jsPubAck *answer, jsPubAckErr *refusal, void *with) {
    struct shared *shared = with;
    int64_t number = number_of(message);
    (void)js, (void)refusal;
    pthread_mutex_lock(&shared->lock);
    if (answer && number > shared->before && number <= shared->before + WINDOW)
        shared->is_stored[number - shared->before - 1] = true;
    pthread_mutex_unlock(&shared->lock);
    natsMsg_Destroy(message);
}

static inline void begin_window(struct shared *shared, int64_t before) {
    pthread_mutex_lock(&shared->lock);
    shared->before = before;
    memset(shared->is_stored, 0, sizeof shared->is_stored);
    pthread_mutex_unlock(&shared->lock);
}

/* Whether the stream has all of the window up to `number`. If so, the outbox may trim it. */
static inline bool end_window(struct shared *shared, int64_t number) {
    bool is_whole = true;
    pthread_mutex_lock(&shared->lock);
    for (int64_t i = 0; i < number - shared->before; i++) is_whole = is_whole && shared->is_stored[i];
    if (is_whole) shared->acknowledged = number;
    pthread_mutex_unlock(&shared->lock);
    return is_whole;
}

/* Waits until the outbox has a number after this one. Returns whether it has one; if not, it is complete. */
static inline bool wait_for_rows(struct shared *shared, int64_t number) {
    pthread_mutex_lock(&shared->lock);
    while (shared->committed <= number && !shared->is_complete) pthread_cond_wait(&shared->grown, &shared->lock);
    bool has_rows = shared->committed > number;
    pthread_mutex_unlock(&shared->lock);
    return has_rows;
}

/* Publishes the next rows after `last`, and moves it on if the stream has acknowledged all of them. */
static inline bool publish_window(struct publisher *publisher, struct place *last) {
    struct place next = *last;
    natsStatus status = NATS_OK;
    begin_window(publisher->shared, last->number);
    check(publisher->db, sqlite3_bind_int64(publisher->rows, 1, last->number));
    for (int bytes = 0; status == NATS_OK && bytes < WINDOW_BYTES && has_row(publisher->db, publisher->rows);) {
        publisher->is_behind = sqlite3_column_int64(publisher->rows, 0) != next.number + 1;
        if (publisher->is_behind) break;
        const void *piece = sqlite3_column_blob(publisher->rows, 2);
        int len = sqlite3_column_bytes(publisher->rows, 2);
        status = publish(&publisher->stream, publisher->outbox, &next, sqlite3_column_int(publisher->rows, 1), piece,
                         len);
        next.number++, next.sequence++, bytes += len;
    }
    check(publisher->db, sqlite3_reset(publisher->rows));
    bool is_answered = wait_for_answers(&publisher->stream) == NATS_OK;
    if (!is_answered || status != NATS_OK || next.number == last->number) return false;
    if (!end_window(publisher->shared, next.number)) return false;
    *last = next;
    return true;
}

/* Ends the program if the stream's last message is not what the outbox has under its number: then another database has
 * published, or this one is an older copy. */
static inline void check_own(struct publisher *publisher, natsMsg *message, int64_t its) {
    if (strcmp(outbox_of(message), publisher->outbox))
        FAIL("the stream is of outbox '%s', and this is outbox '%s': it needs a stream of its own",
             outbox_of(message), publisher->outbox);
    check(publisher->db, sqlite3_bind_int64(publisher->rows, 1, its - 1));
    if (has_row(publisher->db, publisher->rows) && sqlite3_column_int64(publisher->rows, 0) == its) {
        int len = sqlite3_column_bytes(publisher->rows, 2);
        if (len != natsMsg_GetDataLength(message)
            || memcmp(sqlite3_column_blob(publisher->rows, 2), natsMsg_GetData(message), (size_t)len))
            FAIL("the stream has other bytes under number %" PRId64 " than the outbox", its);
    }
    check(publisher->db, sqlite3_reset(publisher->rows));
}

/* Looks up where the stream ends. What it has need not be published again. */
static inline bool look_up(struct publisher *publisher, struct place *last) {
    struct shared *shared = publisher->shared;
    natsMsg *message = NULL;
    publisher->lookups++;
    if (find_last(&publisher->stream, &message, last) != NATS_OK) return false;
    if (message) check_own(publisher, message, last->number);
    natsMsg_Destroy(message);
    int64_t end = number(publisher->db, "SELECT max(number) FROM machines_outbox");
    if (last->number > end)
        FAIL("the stream has number %" PRId64 ", and the outbox ends at %" PRId64 ": the database is an older copy",
             last->number, end);
    pthread_mutex_lock(&shared->lock);
    if (last->number > shared->acknowledged) shared->acknowledged = last->number;
    pthread_mutex_unlock(&shared->lock);
    return true;
}

/* Publishes the outbox until it is complete and the stream has all of it. */
static inline void *publish_outbox(void *with) {
    struct publisher *publisher = with;
    struct place last = {0, 0};
    bool is_known = false;
    publisher->stream = open_stream(publisher->urls, on_answer, publisher->shared);
    publisher->db = open_database(publisher->path, "FULL");
    find_name(publisher->db, "SELECT name FROM machines_name", publisher->outbox);
    publisher->rows = prepare(publisher->db, "SELECT number, ends, bytes FROM machines_outbox WHERE number > ?"
                              " ORDER BY number LIMIT %d", WINDOW);
    int64_t reached = -1;
    for (double moved = seconds(); !is_known || wait_for_rows(publisher->shared, last.number);) {
        double begun = seconds();
        if (is_known && last.number > reached) reached = last.number, moved = begun;
        is_known = is_known ? publish_window(publisher, &last) : look_up(publisher, &last);
        publisher->busy += seconds() - begun;
        if (!is_known && seconds() - moved > PATIENCE)
            FAIL(publisher->is_behind ? "the outbox no longer has number %" PRId64 ", which the stream wants"
                                      : "the stream does not take number %" PRId64, last.number + 1);
        if (!is_known) wait_ms(50);
    }
    check(publisher->db, sqlite3_finalize(publisher->rows)), check(publisher->db, sqlite3_close(publisher->db));
    close_stream(&publisher->stream);
    return NULL;
}
#endif
