/* Growing buffers, and the numbers of changesets and messages. */
#ifndef GZ_BYTES_H
#define GZ_BYTES_H

#include <stdbool.h>
#include <stddef.h>
#include <stdint.h>

/* A buffer. If memory runs out, `failed` is set, and what is appended after that is dropped. */
struct gz_bytes {
    unsigned char *at;
    size_t len, room;
    bool failed;
};

void gz_append(struct gz_bytes *to, const void *bytes, size_t len);
void gz_append_byte(struct gz_bytes *to, unsigned char byte);
/* Appends a length as SQLite's varint. It is below 2^31. */
void gz_append_varint(struct gz_bytes *to, uint32_t number);
void gz_free_bytes(struct gz_bytes *it);

/* Numbers, the highest byte first. */
void gz_put(unsigned char *at, uint64_t number, int bytes);
uint64_t gz_get(const unsigned char *at, int bytes);

/* Sets 16 random bytes. Returns whether the system gave them. */
bool gz_random(unsigned char bytes[16]);

/* Milliseconds of a clock that nobody sets. */
int64_t gz_clock(void);

#endif
