/* How many commits a database has seen, of all connections. */
#ifndef GZ_WATCH_H
#define GZ_WATCH_H

#include <sqlite3.h>
#include <stdbool.h>
#include <stdint.h>

/* A connection of the library's, which keeps the file in WAL mode, and the header of the WAL-index that it has mapped. */
struct gz_watch {
    sqlite3 *db;
    const volatile uint32_t *header;
};

/* Begins to watch a database in WAL mode. Returns a code of gubzelk.h: GZ_OK, GZ_NO_MEMORY, GZ_BUSY or GZ_SYSTEM. */
int gz_begin_watch(struct gz_watch *it, const char *file);
void gz_end_watch(struct gz_watch *it);

/* The counter of commits, from any thread, without a lock. A commit that others can read is counted. Who holds the
 * database's write lock knows that it stays. */
uint32_t gz_commits(const struct gz_watch *it);

#endif
