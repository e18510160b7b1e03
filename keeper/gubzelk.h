/* Keeps exact copies of an SQLite database in other files.
 *
 * A source is the main database of a connection that a program writes through. A replica is a file that another process,
 * or another thread, keeps equal to it. The source records each transaction by SQLite's session extension and places it
 * in a broker (broker.h). Its service thread hands the transactions out over a Unix-domain socket.
 *
 *     gz_source *s;                                            gz_replica *r;
 *     gz_source_open(&s, db, NULL);                            gz_replica_open(&r, "copy.db", "live.db", NULL);
 *     gz_begin(s);                                             while (gz_replica_step(r, 1000) >= 0) {}
 *     sqlite3_exec(db, "INSERT ...", 0, 0, 0);                 gz_replica_close(r);
 *     gz_commit(s);
 *     gz_source_close(s);
 *
 * What it promises: a replica is never silently stale. Each snapshot of either file has a row that says where it stands:
 * the name of a broker, 16 random bytes, and the number of an entry. Names are compared, and never numbers of two
 * brokers. A replica that can't go on becomes a copy of the database, and its status has the reason.
 *
 * What doesn't travel stays in a replica as it was when the file became a copy. gz_source_left lists it: tables without
 * PRIMARY KEY, virtual tables and their shadow tables, tables with generated columns, rows with NULL or a REAL in the
 * key. sqlite_sequence and sqlite_stat1 don't travel either. SQLite's sessions see no change from 0.0 to -0.0.
 *
 * Results: GZ_OK is 0. The other positive codes are no errors. A negative code says what the call leaves (below).
 *
 * Ownership: the caller owns the connection, and every string that it passes. The library copies what it keeps. Strings
 * in a status or a list belong to the library, and stand until the next call with the same handle.
 *
 * Threads: a handle, and the connection of a source, are used by one thread at a time. Two handles may be used by two
 * threads at once. A source starts one thread, which uses no connection of the caller's. SQLite must be thread-safe
 * (sqlite3_threadsafe() isn't 0). After fork, the child uses no handle and no connection of its parent.
 *
 * Memory: a source holds at most two brokers of `max_bytes` each, and the last answer to each replica that is connected.
 * The writer never waits for a replica, and never ends for one. */
#ifndef GUBZELK_H
#define GUBZELK_H

#include <sqlite3.h>
#include <stddef.h>
#include <stdint.h>

#ifdef __cplusplus
extern "C" {
#endif

typedef struct gz_source gz_source;
typedef struct gz_replica gz_replica;

/* The results. After each name: the calls that return it, and what they leave. */
enum gz_code {
    /* Done. gz_replica_step: a batch is applied, a slice of a copy is written, or the file goes on with a new broker. */
    GZ_OK = 0,
    /* gz_replica_step: the file has everything, and nothing new came within the timeout.
     * gz_source_replica, gz_source_left: the list has no such place. */
    GZ_IDLE = 1,
    /* gz_replica_step: no source listens. The file stays as it is, and may not have everything. */
    GZ_AWAY = 2,
    /* gz_replica_step: the file doesn't have everything, and can't be brought further now: it is locked, read-only or
     * full, or the source doesn't answer, or others wrote to the database. The status has the words. A VACUUM or ANALYZE
     * of the source's own connection counts as others' until the next gz_begin. */
    GZ_LAGS = 3,

    /* Any call: memory ran out. Make the call again. gz_commit leaves the transaction open. */
    GZ_NO_MEMORY = -1,
    /* gz_source_open, gz_begin, gz_commit, gz_rollback: SQLite refuses, and sqlite3_errmsg of the connection has the
     * words. gz_source_open and gz_begin leave no transaction open, and gz_commit leaves it open. */
    GZ_SQLITE = -2,
    /* gz_source_open, gz_begin, gz_commit: the database is locked by another connection. As GZ_SQLITE. gz_source_open: or
     * by this one, for good (PRAGMA locking_mode = EXCLUSIVE). */
    GZ_BUSY = -3,
    /* gz_source_open: PRAGMA journal_mode isn't WAL, or isn't to be had. Nothing changed. */
    GZ_NOT_WAL = -4,
    /* gz_source_open: the main database is no file, or SQLite isn't thread-safe. Nothing changed. */
    GZ_NO_FILE = -5,
    /* gz_source_open, gz_replica_open: a source or a replica keeps the file already. Nothing changed. */
    GZ_TAKEN = -6,
    /* gz_source_open: a table has the name of the mark and another shape; the option `prefix` gives another name. Nothing
     * changed. */
    GZ_TABLE_TAKEN = -7,
    /* gz_source_open, gz_begin: the connection is in a transaction already. Nothing changed. */
    GZ_IN_TRANSACTION = -8,
    /* gz_commit, gz_rollback: gz_begin wasn't called, or the transaction has ended since, as by SQL of the caller's. What
     * it wrote is committed or rolled back, as SQLite says. A commit is found by the next gz_begin as a foreign write. */
    GZ_NO_TRANSACTION = -9,
    /* gz_commit: SQLite refused COMMIT and rolled the transaction back, as where the disk is full, or where memory ran out
     * in the midst of a query. */
    GZ_ROLLED_BACK = -10,
    /* gz_source_open, gz_replica_open: the path of the socket is too long (107 bytes are the most). The option `socket`
     * gives another. Nothing changed. */
    GZ_LONG_PATH = -11,
    /* gz_source_open, gz_replica_open: the system gives no socket, thread, lock file or random bytes; errno says why. Or
     * SQLite gives no WAL-index that is shared. gz_source_open may leave a table of the mark in the database. */
    GZ_SYSTEM = -12,
    /* gz_replica_step: the file is a database that no replica was. Nothing changed. The option `replace` allows it. */
    GZ_NOT_REPLICA = -13,
    /* gz_replica_step: the file is a source's. gz_source_open: the file is a replica's. Nothing changed. The option
     * `replace` allows either. */
    GZ_OTHER_ROLE = -14
};

/* The words of a code, such as "the database isn't in WAL mode: PRAGMA journal_mode=WAL". A number that is no code has
 * words too. Never NULL. */
const char *gz_message(int code);

/* Options. A struct of zeros means the defaults, and so does NULL in place of its address. */
struct gz_options {
    /* The mark is the table `<prefix>mark`; "gz_" if NULL. Sources and replicas of one database have the same prefix. */
    const char *prefix;
    /* The path of the socket; the database's file name with "-gz" after it if NULL. */
    const char *socket;
    /* Source: a broker that holds more bytes is followed by a new one; 256 MiB if 0. */
    uint64_t max_bytes;
    /* Source: the same for its entries, 16,777,216 at most; 1,000,000 if 0. */
    uint64_t max_entries;
    /* Source: if it isn't 0, gz_source_open sets PRAGMA journal_mode=WAL. */
    int set_wal;
    /* If it isn't 0, a replica may replace any database that the file has, and a source may take over a replica's
     * file. A replica's file has no triggers and no unique indexes made by CREATE UNIQUE INDEX. */
    int replace;
    /* Replica: if it isn't NULL, it is called with each connection that the library opens to the replica's file, to add
     * the functions and collations that the schema names. It returns SQLITE_OK, or a code that gz_replica_step reports
     * by GZ_LAGS. */
    int (*setup)(void *context, sqlite3 *db);
    void *context;
};

/* ---- the source */

/* Opens a source over the main database of a connection, which goes on being the caller's. Sets `*out`, or sets it to
 * NULL and returns a code. It makes the table of the mark if there is none, begins a new broker, and starts the service
 * thread. All replicas become copies then: nobody knows what was written since the last source ended.
 *
 * Where tables have columns with a DEFAULT, rows from before ALTER TABLE ADD COLUMN are rewritten once. SQLite's
 * sessions would record NULL as their old values.
 * Refused: NO_FILE, LONG_PATH, IN_TRANSACTION, TAKEN, NOT_WAL, TABLE_TAKEN, OTHER_ROLE, BUSY, SQLITE, SYSTEM, NO_MEMORY.
 */
int gz_source_open(gz_source **out, sqlite3 *db, const struct gz_options *options);

/* Ends a source. A transaction of gz_begin is rolled back. The connection stays open: close it after this. NULL is
 * allowed. */
void gz_source_close(gz_source *s);

/* Begins a transaction (BEGIN IMMEDIATE) that is recorded. The caller then writes by SQL on the same connection, and
 * may use savepoints. It finds foreign writes: what another connection has committed since the last gz_commit, and what
 * this connection has committed outside of gz_begin and gz_commit. A new broker then begins with this transaction, and
 * all replicas become copies. sqlite3_blob_write outside of gz_begin and gz_commit isn't found: don't.
 * Refused: IN_TRANSACTION, BUSY, SQLITE, NO_MEMORY. */
int gz_begin(gz_source *s);

/* Commits the transaction, and hands it to the replicas. After GZ_OK it is in the database, and will be in each replica. If
 * memory ran out right after COMMIT, replicas get GZ_LAGS until the next gz_commit, which may be of an empty transaction.
 * A code of GZ_BUSY, GZ_SQLITE or GZ_NO_MEMORY leaves the transaction open: call it again, write more, or gz_rollback.
 * Refused: NO_TRANSACTION, BUSY, SQLITE, ROLLED_BACK, NO_MEMORY. */
int gz_commit(gz_source *s);

/* Rolls the transaction back. A code of GZ_SQLITE or GZ_NO_MEMORY leaves it open: call it again. Refused: NO_TRANSACTION,
 * SQLITE, NO_MEMORY. */
int gz_rollback(gz_source *s);

struct gz_source_status {
    /* The broker's name, and its last entry. A replica that stands there has everything. */
    unsigned char name[16];
    uint64_t front;
    /* The entries and bytes of the brokers that are held: one, or two while replicas pass to a new one. */
    uint64_t entries, bytes;
    int held;
    /* How many brokers began, and why the last one did. */
    uint64_t brokers;
    const char *reason;
    /* How many replicas are known. */
    size_t replicas;
    /* How many changes and tables were left out so far. gz_source_left has the last 64. */
    uint64_t left;
};

/* Sets `*status`. It always returns GZ_OK. */
int gz_source_status(gz_source *s, struct gz_source_status *status);

/* What the source knows of a replica. */
struct gz_known {
    unsigned char id[16];
    /* Where its file stood when it last asked: `at` is 0 for an unknown name (it becomes a copy), 1 for the broker
     * before the present one, and 2 for the present one. */
    int at;
    uint64_t cursor;
    /* How many entries it doesn't have; UINT64_MAX while it becomes a copy. */
    uint64_t lag;
    /* How many seconds ago it last asked. */
    double since;
};

/* Sets `*known` to the replica at place `index`, from 0. Returns GZ_IDLE after the last one. */
int gz_source_replica(gz_source *s, size_t index, struct gz_known *known);

/* Something that doesn't travel. */
struct gz_left {
    const char *table;
    /* The key as SQL literals, cut after some 200 bytes; "" for a whole table. */
    const char *key;
    const char *why;
};

/* Sets `*left` to the one at place `index`, from 0 for the latest. Returns GZ_IDLE after the last one. */
int gz_source_left(gz_source *s, size_t index, struct gz_left *left);

/* ---- the replica */

/* Opens a replica: `file` becomes and stays a copy of the database `source_file`. Neither has to exist yet, and no source
 * has to listen. Sets `*out`, or sets it to NULL and returns a code. Beside the file lies a lock, the file's name with
 * "-gz-lock" after it.
 *
 * Others may read the file at any time, and nobody writes it. It has no triggers, since the changes have what triggers
 * did, and no indexes made by CREATE UNIQUE INDEX, since two rows that swap values are two changes.
 * Refused: LONG_PATH, TAKEN, SYSTEM, NO_MEMORY. */
int gz_replica_open(gz_replica **out, const char *file, const char *source_file, const struct gz_options *options);

/* Brings the file further by at most one batch or one slice of a copy. It waits for news at most `timeout_ms`, plus some
 * 0.2 s for an answer, and as long again for a locked file. This process reads a copy from the source's file: it needs
 * the right to read it. While a copy is made, others read the replica as it was before. Foreign writes to the file make
 * it a copy: those of other connections while this handle is open, and those that a later change conflicts with.
 * Returns OK, IDLE, AWAY, LAGS, or NO_MEMORY, NOT_REPLICA, OTHER_ROLE. */
int gz_replica_step(gz_replica *r, int timeout_ms);

struct gz_replica_status {
    /* Where the file stands; the name is zeros if it must become a copy. */
    unsigned char name[16];
    uint64_t number;
    /* The last entry of the source's broker, as of its last answer; and how many entries the file doesn't have, or
     * UINT64_MAX while that isn't known. It is 0 only if the last step was answered, and the file had everything. */
    uint64_t front, lag;
    /* Whether a copy is being made, and how many pages of how many are done. */
    int copying, pages_done, pages;
    /* How many copies were begun by this handle, and why the last one was; "" before the first. */
    uint64_t copies;
    const char *reason;
    /* Why the last step returned GZ_LAGS, or ""; and whether it was because others wrote to the source's database. */
    const char *error;
    int foreign;
    unsigned char id[16];
};

/* Sets `*status`. It always returns GZ_OK. */
int gz_replica_status(gz_replica *r, struct gz_replica_status *status);

/* Ends a replica. The file keeps what it has, and the next gz_replica_open goes on from there. NULL is allowed. */
void gz_replica_close(gz_replica *r);

#ifdef __cplusplus
}
#endif

#endif
