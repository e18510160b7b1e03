/* The inputs of the comparison: changesets that are made here, byte by byte, and are the same at every run. */
#ifndef INPUTS_H
#define INPUTS_H

#include <stddef.h>

/* What a table's columns behind its key hold. */
enum rows { INTEGERS, TEXTS, BLOBS };

struct input {
    unsigned char *bytes;
    size_t len;
    long changes;
};

/* A changeset of one table with at most `changes` changes, INSERT, UPDATE and DELETE in turn, that is no longer than
 * `limit` bytes. It is canonical. The caller frees its bytes. Ends the program where memory runs out. */
struct input make_input(enum rows rows, long changes, size_t limit);

/* The same with INSERTs alone. */
struct input make_inserts(enum rows rows, long changes, size_t limit);

/* Texts that are combined; after them stands the text of the result. */
enum { COMBINED = 16 };

/* HOT: INSERTs in the first text, and then UPDATEs of all columns but the key, of the same rows in each text. The others
 * have INSERTs, of rows of its own in each text. APART: the keys ascend. RECORDED: each text has its keys in the order in
 * which SQLite's session extension records them. SCATTERED: the keys are in no order. */
enum keys { HOT, APART, RECORDED, SCATTERED };

/* Fills COMBINED + 1 inputs. Each text has at most `changes` changes, and as many as fit into `limit` bytes. */
void make_combined(struct input *inputs, enum rows rows, enum keys keys, long changes, size_t limit);

#endif
