/* A source, inside. */
#ifndef GZ_SOURCE_H
#define GZ_SOURCE_H

#include "line.h"
#include "gubzelk.h"
#include "watch.h"
#include <pthread.h>

enum { GZ_WORDS = 400, GZ_MOST_LEFT = 64, GZ_MOST_KNOWN = 10000, GZ_MOST_TEXT = 16777216 };

/* What a replica stands at, as it said last. */
enum gz_at { GZ_AT_NONE, GZ_AT_OLD, GZ_AT_NOW };

struct gz_peer {
    unsigned char id[16];
    enum gz_at at;
    bool is_copying;
    uint64_t cursor;
    int64_t asked;
    struct gz_subscription now, old;
};

/* What the service thread and the writer share, under `lock`. Neither does any input or output while it holds the lock. */
struct gz_shared {
    pthread_mutex_t lock;
    /* The present line, and the one before it while replicas pass from it. */
    struct gz_line *now, *old;
    /* The counter of commits after the source's last one: another number is somebody else's write. */
    uint32_t commits;
    /* Where the database stands as soon as the transaction that is being committed is visible, and the counter then. */
    bool is_pending;
    struct gz_place pending;
    uint32_t pending_commits;
    /* Whether somebody waits for the next commit. */
    bool has_waiting;
    /* Whether a commit is in the database and not in `now`: no memory was left for a new line. */
    bool is_broken;
    /* Why the present line began. */
    char reason[GZ_WORDS];
    struct gz_peer *peer;
    size_t peers;
};

struct gz_service;

/* Statements that transactions run. From GZ_READ_MARK on they need the table of the mark. */
enum gz_statement { GZ_PROBE, GZ_BEGIN, GZ_COMMIT, GZ_ROLLBACK, GZ_DATA_VERSION, GZ_SCHEMA_VERSION, GZ_READ_MARK,
    GZ_WRITE_MARK, GZ_STATEMENTS };

struct gz_source {
    sqlite3 *db;
    sqlite3_stmt *statement[GZ_STATEMENTS];
    char *file, *table, *socket;
    int lock_file;
    uint64_t max_bytes, max_entries;
    /* The mark and the schema of the last commit, and what tells whether others wrote since. */
    struct gz_mark mark;
    struct gz_tables tables;
    int64_t data_version, changes;
    uint32_t file_version;
    /* The transaction of gz_begin. */
    bool is_open;
    /* A transaction ended without a commit since the last gz_begin. */
    bool is_undone;
    int64_t changes_before;
    sqlite3_session *session;
    /* Why the next commit begins a new line that equals no other, or "". */
    char need[GZ_WORDS];
    /* How many lines began. */
    uint64_t brokers;
    /* The last things that were left out, in a ring: table, key and reason, which the library's strings are. */
    struct { char *table, *key, *why; } left[GZ_MOST_LEFT];
    uint64_t left_count;
    struct gz_watch watch;
    struct gz_shared shared;
    struct gz_service *service;
};

/* Notes something that doesn't travel. A table, whose key is "", is noted once while it is in the list. */
void gz_note_left(struct gz_source *s, const char *table, const char *key, const char *why);
/* Notes the tables, and the tables with NULL in the key of a row, that don't travel. Returns an SQLite code. */
int gz_note_tables(struct gz_source *s, const struct gz_tables *tables);

/* The GZ code for an SQLite code. */
int gz_code(int sqlite);

/* Prepares the statements `first` to `last`. */
int gz_prepare_some(struct gz_source *s, enum gz_statement first, enum gz_statement last);
/* Runs one. Returns an SQLite code. gz_do_number sets `*out` to the number that it gives. */
int gz_do(struct gz_source *s, enum gz_statement which);
int gz_do_number(struct gz_source *s, enum gz_statement which, int64_t *out);
/* Lets ROLLBACK run without an allocation until the transaction that begins now has SQL of the caller's: SQLite prepares
 * a statement anew where the caller has changed functions, settings or the schema. */
int gz_make_ready(struct gz_source *s);
/* Reads data_version, the changes and the version of the file as they are now. */
int gz_take_versions(struct gz_source *s);
/* As gz_tables_changed, of the source's tables. It reads `*now` first. */
int gz_schema_changed(struct gz_source *s, struct gz_versions *now, bool *changed);
/* Sets `*is_own` to whether the mark is the one that the source wrote last. Returns an SQLite code. */
int gz_has_own_mark(struct gz_source *s, bool *is_own);
/* Writes the mark, whose table may have been changed by others. */
int gz_update_mark(struct gz_source *s, const struct gz_mark *mark);

/* Ends the lines and what replicas have of them. */
void gz_set_lines(struct gz_shared *it, struct gz_line *now, bool keeps_old);

/* Starts and stops the service thread. gz_wake says that there is news: the thread answers those who wait. */
int gz_start_service(struct gz_source *s);
void gz_stop_service(struct gz_source *s);
void gz_wake(struct gz_source *s);

#endif
