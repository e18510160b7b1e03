/* The changesets of which the measured tables are made. */
#ifndef MAKING_H
#define MAKING_H

#include <stdint.h>

/* no changeset is longer than a text may be */
enum { MOST_BYTES = 16000000 };

/* Writes changesets on standard output, each behind its length in four bytes: all rows inserted, updated, and deleted. */
void make(uint64_t rows, const char *kind);

/* Writes them in groups, each with a length of 0 behind it: all rows inserted; all updated; all deleted; none, so that the
 * tables are new again; two rows of three inserted; and the others inserted, while one half of those is updated and one
 * deleted. */
void make_groups(uint64_t rows, const char *kind);

#endif
