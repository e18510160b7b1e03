/* Growing buffers, and the numbers of changesets and messages. */
#define _GNU_SOURCE
#include "bytes.h"
#include <stdlib.h>
#include <string.h>
#include <sys/random.h>
#include <time.h>

void gz_append(struct gz_bytes *to, const void *bytes, size_t len) {
    if (to->failed || !len) return;
    if (to->room - to->len < len) {
        size_t room = to->len + len < 256 ? 256 : to->len + len + to->len / 2;
        unsigned char *more = realloc(to->at, room);
        if (!more) {
            to->failed = true;
            return;
        }
        to->at = more, to->room = room;
    }
    memcpy(to->at + to->len, bytes, len), to->len += len;
}

void gz_append_byte(struct gz_bytes *to, unsigned char byte) { gz_append(to, &byte, 1); }

void gz_append_varint(struct gz_bytes *to, uint32_t number) {
    for (int shift = 28; shift > 0; shift -= 7)
        if (number >> shift) gz_append_byte(to, (unsigned char)(number >> shift | 128));
    gz_append_byte(to, number & 127);
}

void gz_free_bytes(struct gz_bytes *it) {
    free(it->at);
    *it = (struct gz_bytes){0};
}

void gz_put(unsigned char *at, uint64_t number, int bytes) {
    for (int i = 0; i < bytes; i++) at[i] = (unsigned char)(number >> 8 * (bytes - 1 - i));
}

uint64_t gz_get(const unsigned char *at, int bytes) {
    uint64_t number = 0;
    for (int i = 0; i < bytes; i++) number = number << 8 | at[i];
    return number;
}

bool gz_random(unsigned char bytes[16]) { return getrandom(bytes, 16, 0) == 16; }

int64_t gz_clock(void) {
    struct timespec now;
    clock_gettime(CLOCK_MONOTONIC, &now);
    return (int64_t)now.tv_sec * 1000 + now.tv_nsec / 1000000;
}
