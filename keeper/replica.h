/* A replica, inside. */
#ifndef GZ_REPLICA_H
#define GZ_REPLICA_H

#include "gubzelk.h"
#include "tables.h"
#include "wire.h"

enum { GZ_REPLICA_WORDS = 400 };

/* Statements that steps run on the file. */
enum gz_file_statement { GZ_FILE_BEGIN, GZ_FILE_COMMIT, GZ_FILE_ROLLBACK, GZ_FILE_DATA_VERSION, GZ_FILE_SCHEMA_VERSION,
    GZ_FILE_READ_PLACE, GZ_FILE_WRITE_MARK, GZ_FILE_STATEMENTS };

struct gz_replica {
    char *file, *source_file, *socket, *table;
    int (*setup)(void *context, sqlite3 *db);
    void *context;
    bool replaces;
    /* The lock file. It holds the id, and whether a copy is being made. */
    int lock_file;
    bool was_copying;
    /* The file, where it stands, and what tells whether others wrote to it. */
    sqlite3 *db;
    sqlite3_stmt *statement[GZ_FILE_STATEMENTS];
    struct gz_tables tables;
    struct gz_mark mark;
    bool has_place;
    int64_t data_version;
    /* Why the file must become a copy, or "". */
    char need[GZ_REPLICA_WORDS];
    /* The copy that is being made: the source's file in a read transaction. `is_copied` says that the pages are there,
     * and the file is to be prepared. */
    sqlite3 *from;
    sqlite3_backup *backup;
    bool is_copied;
    /* The connection, the request that is out, and the answer as far as it came. */
    int connection;
    bool is_asked, has_answer;
    struct gz_request asked;
    unsigned char head[GZ_ANSWER_HEAD];
    size_t head_len;
    struct gz_answer answer;
    struct gz_bytes text;
    /* What the status says. */
    uint64_t copies, front;
    bool knows_front, is_foreign;
    int pages, pages_done;
    char reason[GZ_REPLICA_WORDS], error[GZ_REPLICA_WORDS];
};

/* Sets the words of the status, and returns GZ_LAGS; or GZ_NO_MEMORY for SQLite's code of that. */
int gz_lags(gz_replica *r, const char *words);
int gz_lags_sqlite(gz_replica *r, sqlite3 *db, int rc, const char *what);

/* Says that the file must become a copy. */
void gz_need_copy(gz_replica *r, const char *why);

/* Opens the file if it isn't, and reads where it stands. Returns a code. */
int gz_open_file(gz_replica *r);
void gz_close_file(gz_replica *r);
/* Writes the lock file. Returns whether it could. */
bool gz_write_lock(gz_replica *r, bool copying);

/* Runs a statement, sets `*out` to the number that it gives, reads where the file stands, and writes its mark. They return
 * SQLite codes. gz_file_undo rolls back, and closes the file if there is no memory for that. */
int gz_file_do(gz_replica *r, enum gz_file_statement which);
int gz_file_number(gz_replica *r, enum gz_file_statement which, int64_t *out);
int gz_file_read_place(gz_replica *r, struct gz_place *place, bool *is_there);
int gz_file_write_mark(gz_replica *r, const struct gz_mark *mark);
void gz_file_undo(gz_replica *r);

/* Begins a copy, goes on with it, or drops it. Returns a code. */
int gz_begin_copy(gz_replica *r);
int gz_go_on_copying(gz_replica *r);
void gz_drop_copy(gz_replica *r);

/* Applies the entries of the answer, or goes on at 0 of its broker. */
int gz_apply_entries(gz_replica *r);
int gz_apply_go_on(gz_replica *r);

/* Asks the source and waits for its answer, until `until` of gz_clock. Returns GZ_OK if there is one. */
int gz_ask(gz_replica *r, int timeout_ms);
void gz_hang_up(gz_replica *r);

#endif
