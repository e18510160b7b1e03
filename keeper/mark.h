/* The mark: one row in a database that says where it stands. */
#ifndef GZ_MARK_H
#define GZ_MARK_H

#include "tables.h"

/* Where a database stands: at the entry `front` of the broker `name`. */
struct gz_place {
    unsigned char name[16];
    uint64_t front;
};

enum { GZ_SOURCE_ROLE = 0, GZ_REPLICA_ROLE = 1 };

/* The row. `turn` counts the commits of sources, so it moves where `front` doesn't. `role` and `prepared` say whether the
 * file is a source's, or a replica's that has no triggers. `id` is the replica's. `filled` is gz_defaults of the columns
 * that gz_fill_defaults has rewritten. */
struct gz_mark {
    struct gz_place place;
    int64_t turn, filled;
    int role, prepared;
    unsigned char id[16];
};

/* What reading a mark finds. */
enum gz_found { GZ_MARK_FOUND, GZ_MARK_NONE, GZ_MARK_STRANGE };

/* Reads the mark from the table `table`. GZ_MARK_NONE: there is no such table, or no row. GZ_MARK_STRANGE: it has another
 * shape. Returns an SQLite code. */
int gz_read_mark(sqlite3 *db, const char *table, struct gz_mark *it, enum gz_found *found);

/* Makes the table if there is none, and writes the row. */
int gz_write_mark(sqlite3 *db, const char *table, const struct gz_mark *it);

/* Sets the name to the 16 bytes of a column, or to zeros. */
void gz_take_name(sqlite3_stmt *query, int column, unsigned char name[16]);

bool gz_same_name(const unsigned char a[16], const unsigned char b[16]);
bool gz_same_place(const struct gz_place *a, const struct gz_place *b);

#endif
