/* Widening: changesets with REAL values as changesets without them, and back.
 *
 * The broker knows no REAL. A widened table has the key columns of the table as they are, and two columns for each other
 * column: the value, and the eight bytes of a REAL as a BLOB.
 *
 *     the column has      value      bytes
 *     a REAL              NULL       BLOB
 *     anything else       itself     NULL
 *     undefined           undefined  undefined
 *
 * This is one to one on rows and on changes, so a group of widened changesets is the widened group, and an inverse the
 * widened inverse. */
#ifndef GZ_WIDE_H
#define GZ_WIDE_H

#include "bytes.h"

/* The most columns of a table of the broker, and so of a widened one. */
enum { GZ_MOST_COLUMNS = 2000 };

enum gz_wide { GZ_WIDE_OK, GZ_WIDE_NO_MEMORY, GZ_WIDE_FAULT };

/* Called for each change that is left out: its table, its key as SQL literals, and why. */
typedef void gz_left_out(void *context, const char *table, const char *key, const char *why);

/* Room for the words of a fault. */
enum { GZ_FAULT_ROOM = 400 };

/* Appends the widened changeset to `out`. A change with a REAL in its key is left out, and a table without other changes
 * too. Returns GZ_WIDE_FAULT, with words in `fault`, if no replica can be given the whole: an UPDATE changes a
 * key to one that SQLite takes for equal, such as other letters under NOCASE, or the text is no changeset. */
enum gz_wide gz_widen(const unsigned char *text, size_t len, struct gz_bytes *out, gz_left_out *left, void *context,
                      char fault[GZ_FAULT_ROOM]);

/* Called for each table of a changeset: its name, and a byte for each column, 0 or its place in the key. Returns whether
 * the table has this shape. */
typedef bool gz_has_shape(void *context, const char *table, const unsigned char *key, int columns);

/* Appends the changeset whose widened one this is, or one that a group or an inverse of widened ones is. Returns
 * GZ_WIDE_FAULT if the text is none, or if `has_shape` says so of a table. */
enum gz_wide gz_narrow(const unsigned char *text, size_t len, struct gz_bytes *out, gz_has_shape *has_shape,
                       void *context);

#endif
