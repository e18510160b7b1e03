/* A replica's file and the broker that checks what goes into it. The broker's subscription has the rows that the file
 * has: it begins with all of them, and then accepts each delivery before the file gets it. */
#ifndef MACHINES_COPY_H
#define MACHINES_COPY_H
#include "rows.h"
#include "stream.h"

/* The most entries, and the bytes of changesets, after which the broker begins anew, since its sequence stays in
 * memory. */
enum { ENTRIES = 20000, BYTES = 1 << 28 };

struct copy {
    const char *path;
    sqlite3 *db;
    sqlite3_stmt *move;
    struct tables tables;
    broker *broker;
    uint64_t batch, publisher, subscription;
    /* the last message that is in the file, which keeps this place; and the last one that the broker was fed */
    struct place at, fed;
    /* the name of the outbox whose numbers these are, which the file keeps too; "" as long as it has no number */
    char outbox[NAME_ROOM];
    /* of each entry of the broker, from 1: the place of its last message, or of the file for rows that it began with */
    struct place ends[ENTRIES + 1];
    uint64_t entries;
    int64_t bytes;
    bool is_beginning;
    unsigned char *text;
    size_t room;
    /* what was done since the start: entries, transactions of the file, and the seconds that each step took */
    int64_t applied, commits, brokers;
    double feeding, accepting, combining, writing;
};

/* Ends the program at a code of the broker that is not expected. */
static inline void agreed(struct copy *copy, int64_t code, const char *what) {
    struct broker_numbers why = {0, 0};
    if (code == BROKER_OK) return;
    if (code > BROKER_FAULT || broker_why(copy->broker, &why)) FAIL("%s: %s: code %" PRId64, copy->path, what, code);
    FAIL("%s: after number %" PRId64 ": %s: code %" PRId64 ", numbers %" PRIu64 " %" PRIu64, copy->path,
         copy->at.number, what, code, why.first, why.second);
}

/* Places what was fed as the next entry. */
static inline void place(struct copy *copy, struct place ends) {
    uint64_t own, entry;
    agreed(copy, broker_end(copy->broker, copy->publisher), "a changeset is refused");
    agreed(copy, broker_send(copy->broker, copy->publisher, &own), "send");
    agreed(copy, broker_turn(copy->broker, &entry), "turn");
    copy->ends[copy->entries = entry] = ends;
}

static inline int conflict(void *path, int kind, sqlite3_changeset_iter *change) {
    const char *name = "";
    int columns, op, indirect;
    if (kind != SQLITE_CHANGESET_FOREIGN_KEY) (void)sqlite3changeset_op(change, &name, &columns, &op, &indirect);
    SAY("%s: a conflict of kind %d in table %s", (const char *)path, kind, name);
    return SQLITE_CHANGESET_ABORT;
}

/* Finds the changes of the entries `first` to `last` as one changeset. */
static inline size_t combine(struct copy *copy, uint64_t first, uint64_t last) {
    int64_t len;
    while ((len = broker_combined(copy->broker, first, last, copy->text, copy->room)) > (int64_t)copy->room)
        copy->room = 2 * (size_t)len, copy->text = allocate(copy->text, copy->room);
    if (len < 0) agreed(copy, len, "combining");
    return (size_t)len;
}

/* Applies a changeset to the file and moves the file's place, in one transaction. */
static inline void write_file(struct copy *copy, size_t len, struct place place) {
    run(copy->db, "BEGIN IMMEDIATE");
    if (len)
        check(copy->db, sqlite3changeset_apply(copy->db, (int)len, copy->text, NULL, conflict, (void *)copy->path));
    check(copy->db, sqlite3_bind_text(copy->move, 1, copy->outbox, -1, SQLITE_STATIC));
    check(copy->db, sqlite3_bind_int64(copy->move, 2, place.number));
    check(copy->db, sqlite3_bind_int64(copy->move, 3, place.sequence));
    run_prepared(copy->db, copy->move);
    run(copy->db, "COMMIT");
    copy->at = place, copy->commits++;
}

/* Hands out what is placed, in batches. The broker accepts a batch before the file gets it, and the batch is
 * acknowledged after the file has it. The rows that the broker begins with are in the file already. */
static inline void deliver(struct copy *copy) {
    struct broker_delivery delivery;
    uint64_t cursor, floor;
    int code;
    while ((code = broker_take(copy->broker, copy->subscription, 0, &delivery)) == BROKER_OK) {
        double begun = seconds();
        agreed(copy, broker_accept(copy->broker, delivery.number, &cursor), "a batch is not accepted");
        double accepted = seconds(), combined = accepted;
        if (!copy->is_beginning) {
            size_t len = combine(copy, delivery.first, delivery.last);
            combined = seconds();
            write_file(copy, len, copy->ends[delivery.last]);
            copy->applied += (int64_t)(delivery.last - delivery.first + 1);
        }
        copy->accepting += accepted - begun, copy->combining += combined - accepted;
        copy->writing += seconds() - combined;
        agreed(copy, broker_ack(copy->broker, delivery.number, &floor), "acknowledging");
    }
    if (code != BROKER_EMPTY) agreed(copy, code, "take");
}

static inline void take_row_changes(void *with, const unsigned char *changeset, int len) {
    struct copy *copy = with;
    agreed(copy, broker_feed(copy->broker, copy->publisher, changeset, (size_t)len), "rows of the file are refused");
    place(copy, copy->at);
    deliver(copy);
}

/* Begins a broker anew from the file. Its first entries are the file's rows, as INSERTs into empty tables. */
static inline void begin_broker(struct copy *copy) {
    struct broker_limits limits = BROKER_LIMITS;
    struct broker_numbers why;
    uint64_t link;
    if (copy->broker) broker_free(copy->broker);
    copy->broker = NULL, copy->entries = 0, copy->bytes = 0, copy->fed = copy->at, copy->brokers++;
    copy->is_beginning = true;
    limits.batch = copy->batch, limits.capacity = ENTRIES;
    int code = broker_open(&copy->broker, &limits, copy->tables.list, copy->tables.count, &why);
    if (code) FAIL("%s: no broker: code %d, numbers %" PRIu64 " %" PRIu64, copy->path, code, why.first, why.second);
    agreed(copy, broker_publisher(copy->broker, &copy->publisher), "publisher");
    agreed(copy, broker_subscribe(copy->broker, 0, &copy->subscription, &link), "subscribe");
    each_rows(copy->db, &copy->tables, take_row_changes, copy);
    copy->is_beginning = false;
}

/* Ends the program with status 4 where the stream is of another outbox than the file: no number of it says anything of
 * the file's rows. A file without a number takes the name. */
static inline void check_outbox(struct copy *copy, const char *its) {
    if (!copy->fed.number && *its) snprintf(copy->outbox, sizeof copy->outbox, "%s", its);
    if (*its && !strcmp(copy->outbox, its)) return;
    SAY("%s: it is of outbox '%s', and the stream of outbox '%s': remove the file, and a new one reads all", copy->path,
        copy->outbox, its);
    fflush(NULL), _exit(4);
}

/* What came of a message. */
enum taken { TAKEN, TAKEN_BEFORE, TAKEN_GAP };

/* Feeds the broker a message. One that it was fed before is skipped; one that is not the next is not taken. */
static inline enum taken take_message(struct copy *copy, struct place its, bool ends, const char *bytes, int len) {
    if (its.number <= copy->fed.number) return TAKEN_BEFORE;
    if (its.number > copy->fed.number + 1) return TAKEN_GAP;
    double begun = seconds();
    agreed(copy, broker_feed(copy->broker, copy->publisher, (const unsigned char *)bytes, (size_t)len),
           "a message is refused");
    copy->fed = its, copy->bytes += len;
    if (ends) place(copy, its);
    copy->feeding += seconds() - begun;
    return TAKEN;
}

/* Begins the broker anew if it has no room for this many more entries. Returns whether all that it was fed is in the
 * file; if not, it must be fed what comes after the file's place again. */
static inline bool renew(struct copy *copy, uint64_t more) {
    if (copy->entries + more <= ENTRIES && copy->bytes < BYTES) return true;
    bool is_all = copy->fed.number == copy->at.number;
    begin_broker(copy);
    return is_all;
}

/* Makes a file with the tables of a schema, without triggers and unique indexes, at place 0. */
static inline void make_file(sqlite3 *db, const char *schema) {
    FILE *file = fopen(schema, "rb");
    char text[65536];
    size_t len = file ? fread(text, 1, sizeof text - 1, file) : 0;
    if (!len || !feof(file)) FAIL("no schema is read from %s", schema);
    text[len] = 0, fclose(file);
    run(db, "%s", text);
    sqlite3_stmt *actors = prepare(db, "SELECT printf('DROP %%s \"%%w\"', type, name) FROM sqlite_schema WHERE"
                                   " type = 'trigger' OR type = 'index' AND sql LIKE 'CREATE UNIQUE %%'");
    char *drops = sqlite3_mprintf("");
    while (has_row(db, actors)) {
        char *more = sqlite3_mprintf("%s%s;", drops, sqlite3_column_text(actors, 0));
        sqlite3_free(drops), drops = more;
    }
    check(db, sqlite3_finalize(actors));
    run(db, "%s", drops);
    sqlite3_free(drops);
    run(db, "CREATE TABLE machines_at (outbox TEXT, number INTEGER NOT NULL, sequence INTEGER NOT NULL);"
        "INSERT INTO machines_at VALUES ('', 0, 0)");
}

/* Opens a replica's file, or makes it, and begins a broker from it. */
static inline void open_copy(struct copy *copy, const char *path, const char *schema, uint64_t batch) {
    memset(copy, 0, sizeof *copy);
    copy->path = path, copy->batch = batch, copy->room = 65536, copy->text = allocate(NULL, copy->room);
    sqlite3 *db = copy->db = open_database(path, "NORMAL");
    run(db, "BEGIN IMMEDIATE");
    if (!number(db, "SELECT count(*) FROM sqlite_schema WHERE name = 'machines_at'")) make_file(db, schema);
    if (!number(db, "SELECT count(*) FROM pragma_table_info('machines_at') WHERE name = 'outbox'"))
        run(db, "ALTER TABLE machines_at ADD COLUMN outbox TEXT");
    run(db, "COMMIT");
    copy->tables = find_tables(db);
    find_name(db, "SELECT outbox FROM machines_at", copy->outbox);
    copy->at.number = number(db, "SELECT number FROM machines_at");
    copy->at.sequence = number(db, "SELECT sequence FROM machines_at");
    copy->move = prepare(db, "UPDATE machines_at SET outbox = ?, number = ?, sequence = ?");
    begin_broker(copy);
}

static inline void close_copy(struct copy *copy) {
    broker_free(copy->broker);
    check(copy->db, sqlite3_finalize(copy->move)), check(copy->db, sqlite3_close(copy->db));
}
#endif
