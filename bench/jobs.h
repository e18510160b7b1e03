/* The jobs that are compared. Each ends the program where a call fails or an answer is wrong. */
#ifndef JOBS_H
#define JOBS_H

#include "inputs.h"

typedef void job(const struct input *input);

/* every change of the changeset is read */
job ours_reads, sqlite_reads;
/* and every value is built and kept, and the length of the canonical text told */
job ours_builds;
/* the changeset is read and written again, to the same bytes */
job ours_writes, sqlite_writes;

/* the changeset is inverted */
job ours_inverts, sqlite_inverts;

/* COMBINED texts become one, which has the length of the one after them */
job ours_combines, sqlite_combines;

/* Ends the program unless ours combines them to that very text, and SQLite's to one of its length: SQLite's has the
 * same changes in another order. */
void check_combined(const struct input *inputs);

/* Ends the program unless both invert the changeset to the same bytes. */
void check_inverted(const struct input *input);

/* Sets SQLite up as it comes, or lean: without its memory statistics and its locks. */
void configure_sqlite(int lean);

#endif
