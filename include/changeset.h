/* Functions on the bytes of an SQLite changeset.
 *
 * A text is the bytes of a changeset, as SQLite's session extension writes it. Any bytes may be passed: each call
 * returns, reads nothing outside the texts, and keeps no pointer. Lengths, places and rooms are in bytes.
 *
 * Ownership: the caller owns every buffer before, during and after a call. changeset_check does not allocate.
 * The other calls allocate with malloc and realloc, and free all of it before they return.
 *
 * The caller must ensure all of this, and no call checks it:
 * - No pointer is NULL, even if its length is 0; any other address serves then. So (NULL, 0) is not a way to ask for a
 *   length: pass any buffer and a room of 0. `len` and `room` are below 2^63. So is the size of `texts` in bytes.
 * - `text` has `len` bytes that nobody changes during the call. So has each text of `texts`, which has `count` of them.
 *   One text may stand in `texts` twice, and texts may overlap.
 * - `out` has `room` bytes that nobody else reads or changes during the call. It does not overlap a text or `texts`.
 * - `fault_text`, `fault_at` and `fault_kind` are separate places, aligned, and outside the texts, `texts` and `out`.
 * - No call is made in a signal handler, or in the forked child of a process with threads.
 * Two threads may make calls at once if each has its own output buffers. */
#ifndef CHANGESET_H
#define CHANGESET_H

#include <stddef.h>
#include <stdint.h>

/* A compiler that knows these attributes warns of a result that isn't used, and of NULL. */
#if defined(__GNUC__) || defined(__clang__)
#define CHANGESET_CALL __attribute__((warn_unused_result, nonnull))
#else
#define CHANGESET_CALL
#endif

/* The outputs of a call overlap nothing else that it is given. */
#if defined(__cplusplus)
#if defined(__GNUC__) || defined(__clang__)
#define CHANGESET_ALONE __restrict__
#else
#define CHANGESET_ALONE
#endif
#elif defined(__STDC_VERSION__) && __STDC_VERSION__ >= 199901L
#define CHANGESET_ALONE restrict
#else
#define CHANGESET_ALONE
#endif

#ifdef __cplusplus
extern "C" {
#endif

/* The text spells no changeset. */
#define CHANGESET_NONE (-1)
/* Memory ran out. changeset_canonical and changeset_invert return this only if the text spells a changeset. */
#define CHANGESET_NO_MEMORY (-2)
/* The texts can't be combined: a section's table has the name of an earlier section's and another shape. */
#define CHANGESET_CLASH (-3)

/* The kind of a fault. The numbers are those of broker_fault_kind in broker.h. */
enum changeset_fault_kind {
    /* The first byte does not begin a changeset. */
    CHANGESET_BAD_MARKER = 1,
    /* A patchset begins here. Patchsets aren't read. */
    CHANGESET_PATCHSET = 2,
    /* A table has no columns, or more than 2,000. */
    CHANGESET_COLUMNS = 3,
    /* A table has no key column. */
    CHANGESET_NO_KEY = 4,
    /* A table's name is empty. */
    CHANGESET_EMPTY_NAME = 5,
    /* A table's name is longer than 1,024 bytes. */
    CHANGESET_NAME_TOO_LONG = 6,
    /* Neither a change nor a header begins here. */
    CHANGESET_BAD_OPERATION = 7,
    /* No field has this type. */
    CHANGESET_BAD_TYPE = 8,
    /* A REAL value. REAL values aren't read. */
    CHANGESET_REAL = 9,
    /* A field of an INSERT or a DELETE has no value. */
    CHANGESET_UNDEFINED_FIELD = 10,
    /* A key column has no value, or is NULL. */
    CHANGESET_KEY_MISSING = 11,
    /* An UPDATE gives a key column a new value. */
    CHANGESET_KEY_CHANGED = 12,
    /* A column of an UPDATE has a value in only one of its two records. */
    CHANGESET_ONE_SIDED = 13,
    /* A value is longer than 16,777,216 bytes. */
    CHANGESET_VALUE_TOO_LONG = 14,
    /* The text is longer than 16,777,216 bytes. */
    CHANGESET_TOO_LONG = 15,
    /* The text ends inside a header or a change. */
    CHANGESET_TRUNCATED = 16
};

/* Checks a text of `len` bytes. Returns one of these:
 * - 0 or more: the text spells a changeset with this number of changes. An empty text spells the changeset with none.
 * - CHANGESET_NONE: the text spells no changeset. `*fault_at` is set to the place of its one fault, 0 to `len`: the
 *   first byte after which no text can be that of a changeset, or the end. `*fault_kind` is set to the fault's kind,
 *   as numbered in the enum above.
 * It does not allocate, so there are no other results. Unless it returns CHANGESET_NONE, it does not change `*fault_at`
 * and `*fault_kind`. */
CHANGESET_CALL int64_t changeset_check(const unsigned char *CHANGESET_ALONE text, size_t len,
                                       size_t *CHANGESET_ALONE fault_at, uint32_t *CHANGESET_ALONE fault_kind);

/* Writes the canonical text of the changeset that a text of `len` bytes spells: one section for each
 * table's shape, none without a change, shortest lengths, and indirect bytes of 0 or 1. Returns one of these:
 * - 0 or more: the length of the canonical text. It is written only if this result is at most `room`: then it is at the
 *   start of `out`, and the bytes after it do not change. Else `out` does not change. 0 is the result for a changeset
 *   without changes, whose canonical text is empty.
 * - CHANGESET_NONE: the text spells no changeset. `changeset_check` reports why.
 * - CHANGESET_NO_MEMORY: the text spells a changeset, and memory ran out.
 * Unless it returns 0 or more, it does not change `out`.
 *
 * The room needed is not known before the first call, so there are two:
 *     unsigned char none;
 *     int64_t need = changeset_canonical(text, len, &none, 0);
 *     if (need < 0) return need;
 *     unsigned char *out = malloc(need ? (size_t)need : 1);
 *     if (!out || changeset_canonical(text, len, out, (size_t)need) < 0) ... memory ran out
 */
CHANGESET_CALL int64_t changeset_canonical(const unsigned char *CHANGESET_ALONE text, size_t len,
                                           unsigned char *CHANGESET_ALONE out, size_t room);

/* Writes the canonical text of the inverse of the changeset that a text of `len` bytes spells, as
 * sqlite3changeset_invert does: an INSERT becomes a DELETE of the same row, a DELETE becomes an INSERT, and an UPDATE
 * exchanges its old and new values. The changes keep their order and their indirect flags. Returns what
 * changeset_canonical returns, with the inverse's text in place of the changeset's own. The two texts are equally long.
 */
CHANGESET_CALL int64_t changeset_invert(const unsigned char *CHANGESET_ALONE text, size_t len,
                                        unsigned char *CHANGESET_ALONE out, size_t room);

/* One of several texts: `len` bytes. */
struct changeset_text {
    const unsigned char *bytes;
    size_t len;
};

/* Combines `count` texts into one, in their order, as sqlite3changegroup_add of each and sqlite3changegroup_output do:
 * a row's changes become one change or none. Writes the canonical text of the result. Returns one of these:
 * - 0 or more: the length of that text. It is written only if this result is at most `room`: then it is at the start of
 *   `out`, and the bytes after it do not change. Else `out` does not change. 0 is the result if no change is left, and
 *   if `count` is 0.
 * - CHANGESET_NONE: the first text that can't be added spells no changeset. `*fault_text` is set to its index, from 0.
 *   `*fault_at` and `*fault_kind` are set to the place and the kind of its fault, as `changeset_check` does.
 * - CHANGESET_CLASH: the first text that can't be added has a section whose table has the name of an earlier section's
 *   and another shape, in the same text or in one before it: another number of columns, or other bytes of its key.
 *   `*fault_text` is set to the text's index, from 0, and `*fault_at` to that of its first such section, from 0.
 *   `*fault_kind` does not change.
 * - CHANGESET_NO_MEMORY: memory ran out. This is also the result if the length is not below 2^63.
 * Unless it returns 0 or more, it does not change `out`. Unless it returns CHANGESET_NONE or CHANGESET_CLASH, it does
 * not change `*fault_text`, `*fault_at` and `*fault_kind`.
 *
 * The room needed is not known before the first call, so there are two:
 *     struct changeset_text texts[2] = {{one, one_len}, {two, two_len}};
 *     size_t index, at;
 *     uint32_t kind;
 *     unsigned char none;
 *     int64_t need = changeset_combine(texts, 2, &none, 0, &index, &at, &kind);
 *     if (need < 0) return need;
 *     unsigned char *out = malloc(need ? (size_t)need : 1);
 *     if (!out || changeset_combine(texts, 2, out, (size_t)need, &index, &at, &kind) < 0) ... memory ran out
 */
CHANGESET_CALL int64_t changeset_combine(const struct changeset_text *CHANGESET_ALONE texts, size_t count,
                                         unsigned char *CHANGESET_ALONE out, size_t room,
                                         size_t *CHANGESET_ALONE fault_text, size_t *CHANGESET_ALONE fault_at,
                                         uint32_t *CHANGESET_ALONE fault_kind);

#ifdef __cplusplus
}
#endif

#endif
