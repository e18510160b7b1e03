/* Keeps a replica of a live SQLite database up to date, through a broker in this process. A session records each
 * transaction on live.db, and the broker gets its changeset. The replica takes a delivery and accepts it. Its file,
 * replica.db, then applies the entries as one changeset, and stores the cursor in the same transaction. Then it
 * acknowledges. Once it stops after the accept, and resumes.
 *
 * Each run goes on with the files in the current folder, by a new broker with a name of its own. The file stores that
 * name beside the cursor. Where it has another name, or none, it becomes a copy of live.db. With the libraries
 * installed (docs/C.md):
 *
 *     gcc replicate.c $(pkg-config --cflags --libs gubzelk-broker sqlite3) -o replicate
 */
#define SQLITE_ENABLE_SESSION
#define SQLITE_ENABLE_PREUPDATE_HOOK
#include <broker.h>
#include <inttypes.h>
#include <sqlite3.h>
#include <stdio.h>
#include <stdlib.h>
#include <sys/random.h>

#define ITEM "item (id INTEGER PRIMARY KEY, name TEXT, price INTEGER)"
/* a byte for each column: its place in the primary key, or 0 */
static const unsigned char KEY[] = {1, 0, 0};
static const struct broker_table TABLE = {(const unsigned char *)"item", 4, KEY, 3};

static broker *b;
static sqlite3 *live, *replica;
static uint64_t publisher, subscription, cursor;
/* the broker's name: 128 random bits in hexadecimal */
static char name[33];

/* A call's code or length. Where it is negative, the program ends with its words and its numbers. */
static int64_t ask(const char *call, int64_t code) {
    char words[BROKER_MESSAGE_ROOM];
    struct broker_numbers why = {0, 0};
    if (code >= 0) return code;
    broker_message((int)code, words, sizeof words);
    if (b && broker_why(b, &why) < 0) why.first = why.second = 0;
    fprintf(stderr, "%s: %s (%" PRIu64 ", %" PRIu64 ")\n", call, words, why.first, why.second);
    exit(1);
}
#define ASK(call) ask(#call, call)

static void check(sqlite3 *db, int rc) {
    if (rc == SQLITE_OK) return;
    fprintf(stderr, "SQLite: %s\n", db ? sqlite3_errmsg(db) : sqlite3_errstr(rc));
    exit(1);
}

/* Runs SQL that sqlite3_mprintf made. */
static void run(sqlite3 *db, char *sql) {
    check(db, sql ? sqlite3_exec(db, sql, NULL, NULL, NULL) : SQLITE_NOMEM);
    sqlite3_free(sql);
}
#define RUN(db, ...) run(db, sqlite3_mprintf(__VA_ARGS__))

/* the number that a query of sqlite3_mprintf finds, or 0 */
static uint64_t number(sqlite3 *db, char *sql) {
    sqlite3_stmt *query = NULL;
    check(db, sql ? sqlite3_prepare_v2(db, sql, -1, &query, NULL) : SQLITE_NOMEM);
    uint64_t found = sqlite3_step(query) == SQLITE_ROW ? (uint64_t)sqlite3_column_int64(query, 0) : 0;
    check(db, sqlite3_finalize(query));
    sqlite3_free(sql);
    return found;
}
#define NUMBER(db, ...) number(db, sqlite3_mprintf(__VA_ARGS__))

/* Runs SQL on the live database, and places what it changed as one entry; or, without SQL, the rows that are there. */
static void publish(const char *sql) {
    sqlite3_session *session;
    void *changeset;
    int len;
    uint64_t own, entry;
    check(live, sqlite3session_create(live, "main", &session));
    check(live, sqlite3session_attach(session, "item"));
    if (sql) RUN(live, "%s", sql);
    else check(live, sqlite3session_diff(session, "empty", "item", NULL));
    check(live, sqlite3session_changeset(session, &len, &changeset));
    sqlite3session_delete(session);
    ASK(broker_feed(b, publisher, changeset ? changeset : "", (size_t)len));
    sqlite3_free(changeset);
    ASK(broker_end(b, publisher));
    ASK(broker_send(b, publisher, &own));
    ASK(broker_turn(b, &entry));
    printf("entry %" PRIu64 ": %s\n", entry, sql ? sql : "the rows that are there");
}

/* Begins a broker with a new name. Its first entry has the rows of the live database. */
static void begin_broker(void) {
    struct broker_limits limits = BROKER_LIMITS;
    struct broker_numbers why;
    unsigned char bits[16];
    uint64_t link;
    if (getrandom(bits, 16, 0) != 16) perror("getrandom"), exit(1);
    for (int i = 0; i < 16; i++) snprintf(name + 2 * i, 3, "%02x", bits[i]);
    ASK(broker_open(&b, &limits, &TABLE, 1, &why));
    ASK(broker_publisher(b, &publisher));
    ASK(broker_subscribe(b, 0, &subscription, &link));
    publish(NULL);
}

static int conflict(void *context, int kind, sqlite3_changeset_iter *change) {
    (void)context, (void)change;
    fprintf(stderr, "the replica has other rows: conflict %d\n", kind);
    return SQLITE_CHANGESET_ABORT;
}

/* Applies the entries up to `last` that aren't in the replica's file yet, and moves its cursor, in one transaction. */
static void apply(uint64_t last) {
    unsigned char none, *text;
    if (cursor >= last) return;
    int64_t len = ASK(broker_combined(b, cursor + 1, last, &none, 0));
    text = malloc(len ? (size_t)len : 1);
    if (!text) exit(1);
    ASK(broker_combined(b, cursor + 1, last, text, (size_t)len));
    RUN(replica, "BEGIN");
    check(replica, sqlite3changeset_apply(replica, (int)len, text, NULL, conflict, NULL));
    RUN(replica, "UPDATE replica_place SET broker = %Q, number = %llu; COMMIT", name, (unsigned long long)last);
    free(text);
    printf("the replica applies entries %" PRIu64 " to %" PRIu64 "\n", cursor + 1, last);
    cursor = last;
}

/* takes what is placed, and accepts, applies and acknowledges it */
static void follow(void) {
    struct broker_delivery delivery;
    uint64_t accepted, floor = 0;
    int code;
    while ((code = broker_take(b, subscription, 0, &delivery)) == BROKER_OK) {
        ASK(broker_accept(b, delivery.number, &accepted));
        apply(accepted);
        ASK(broker_ack(b, delivery.number, &floor));
    }
    if (code != BROKER_EMPTY) ask("broker_take", code);
    printf("all up to entry %" PRIu64 " is acknowledged\n", floor);
}

/* Makes the replica's file a copy of the live database, which stands at the last entry. Until it has the broker's name,
 * it has none. Then the subscription accepts what the file has. */
static void become_copy(void) {
    puts("replica.db has another broker's name, or none: it becomes a copy");
    sqlite3_backup *backup = sqlite3_backup_init(replica, "main", live, "main");
    if (backup) sqlite3_backup_step(backup, -1), sqlite3_backup_finish(backup);
    check(replica, sqlite3_errcode(replica));
    ASK(broker_front(b, &cursor));
    RUN(replica, "CREATE TABLE replica_place AS SELECT %Q AS broker, %llu AS number", name, (unsigned long long)cursor);
    follow();
}

/* Opens the replica's file. Only under this broker's name does its cursor count. The file then applies what the broker
 * has accepted beyond it. */
static void start_replica(void) {
    uint64_t accepted, link;
    check(NULL, sqlite3_open("replica.db", &replica));
    RUN(replica, "CREATE TABLE IF NOT EXISTS replica_place (broker TEXT, number INTEGER)");
    if (!NUMBER(replica, "SELECT count(*) FROM replica_place WHERE broker = %Q", name)) become_copy();
    cursor = NUMBER(replica, "SELECT number FROM replica_place");
    ASK(broker_cursor(b, subscription, &accepted));
    printf("its file is at entry %" PRIu64 ", the broker at entry %" PRIu64 "\n", cursor, accepted);
    apply(accepted);
    ASK(broker_reconnect(b, subscription, accepted, &link));
}

/* The replica stops after the broker has accepted a delivery, and before its file has it. Then it starts again. */
static void stop_and_resume(void) {
    struct broker_delivery delivery;
    uint64_t accepted;
    ASK(broker_take(b, subscription, 0, &delivery));
    ASK(broker_accept(b, delivery.number, &accepted));
    check(replica, sqlite3_close(replica));
    puts("the replica stops, and starts again");
    start_replica();
}

int main(void) {
    check(NULL, sqlite3_open("live.db", &live));
    RUN(live, "CREATE TABLE IF NOT EXISTS " ITEM "; ATTACH ':memory:' AS empty; CREATE TABLE empty." ITEM);
    begin_broker();
    start_replica();
    publish("INSERT INTO item (name, price) VALUES ('lamp', 120), ('chair', 80)");
    publish("UPDATE item SET price = price + 5");
    follow();
    publish("DELETE FROM item WHERE name = 'chair'");
    publish("INSERT INTO item (name, price) VALUES ('table', 200)");
    stop_and_resume();
    publish("UPDATE item SET name = 'oak table' WHERE name = 'table'");
    follow();
    RUN(live, "ATTACH 'replica.db' AS replica");
    uint64_t other = NUMBER(live, "SELECT count(*) FROM (SELECT * FROM main.item EXCEPT SELECT * FROM replica.item)")
        + NUMBER(live, "SELECT count(*) FROM (SELECT * FROM replica.item EXCEPT SELECT * FROM main.item)");
    printf("rows that differ: %" PRIu64 "\n", other);
    broker_free(b);
    return sqlite3_close(live) || sqlite3_close(replica) || other;
}
