/* SQLite applies changesets to a table in memory. */
#ifndef TIMES_H
#define TIMES_H

#include <sqlite3.h>

#include <stddef.h>

/* An empty table in a database of its own. */
sqlite3 *new_table(void);

/* A length in four bytes. */
size_t length_of(const unsigned char *head);

/* Applies a changeset, which must not conflict. */
void apply_text(sqlite3 *database, unsigned char *text, size_t len);

/* Reads groups of changesets from standard input (making.h), and applies them so often. For each turn and group a line has
 * this name, the group's index and the time in microseconds. */
void times(const char *name, int turns);

#endif
