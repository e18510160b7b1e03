/* The messages between a replica and a source: a request and its answer, each with a head of a fixed length. */
#ifndef GZ_WIRE_H
#define GZ_WIRE_H

#include "mark.h"

enum { GZ_REQUEST_BYTES = 48, GZ_ANSWER_HEAD = 64, GZ_MOST_ANSWER = 67108864 };

/* What a replica says: who it is, where it stands, and how long the source may wait for news. */
struct gz_request {
    unsigned char id[16];
    struct gz_place at;
    uint32_t wait_ms;
};

enum gz_kind {
    /* The entries `first` to `last` of the broker `name`; the text is their widened changeset. */
    GZ_ENTRIES = 1,
    /* The file stands at 0 of the broker `name`. */
    GZ_GO_ON = 2,
    /* The file must become a copy; the text is the reason. */
    GZ_COPY = 3,
    /* Nothing is new. */
    GZ_NOTHING = 4,
    /* The source can't say; the text is why. */
    GZ_TROUBLE = 5
};

struct gz_answer {
    enum gz_kind kind;
    /* Whether the database was changed by others. */
    bool is_foreign;
    unsigned char name[16];
    uint64_t first, last, front, len;
};

void gz_write_request(unsigned char out[GZ_REQUEST_BYTES], const struct gz_request *it);
bool gz_read_request(const unsigned char in[GZ_REQUEST_BYTES], struct gz_request *it);
void gz_write_answer(unsigned char out[GZ_ANSWER_HEAD], const struct gz_answer *it);
/* Returns whether the head is one: its kind is known, its numbers fit each other, and its length is at most that of an
 * answer. */
bool gz_read_answer(const unsigned char in[GZ_ANSWER_HEAD], struct gz_answer *it);

#endif
