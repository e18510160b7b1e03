/* The same work as the broker's, as a C program does it: publishers check a changeset and put a copy of it into a ring
 * under a mutex; the sequencer takes it, writes its canonical text, and puts that into the sequence under a second mutex.
 * The changesets are read and written by the library of crates/changeset_c.
 *   mutex PUBLISHERS CHANGES SENDS */
#include <pthread.h>
#include <stdint.h>
#include <stdio.h>
#include <stdlib.h>
#include <string.h>

#include "../../include/changeset.h"

enum { INTAKE = 64 };

struct text {
    unsigned char *bytes;
    size_t len;
};

static struct text ring[INTAKE];
static size_t first, count;
static pthread_mutex_t ring_lock = PTHREAD_MUTEX_INITIALIZER;
static pthread_cond_t not_full = PTHREAD_COND_INITIALIZER, not_empty = PTHREAD_COND_INITIALIZER;
static struct text *sequence;
static size_t placed;
static pthread_mutex_t desk_lock = PTHREAD_MUTEX_INITIALIZER;
static struct text given;
static size_t sends;

static void must(int ok) {
    if (!ok) {
        fputs("mutex: it fails\n", stderr);
        exit(1);
    }
}

static void *publish(void *none) {
    for (size_t i = 0; i < sends; i++) {
        size_t at;
        uint32_t kind;
        must(changeset_check(given.bytes, given.len, &at, &kind) >= 0);
        struct text copy = {malloc(given.len), given.len};
        must(copy.bytes != NULL);
        memcpy(copy.bytes, given.bytes, given.len);
        pthread_mutex_lock(&ring_lock);
        while (count == INTAKE)
            pthread_cond_wait(&not_full, &ring_lock);
        ring[(first + count++) % INTAKE] = copy;
        pthread_cond_signal(&not_empty);
        pthread_mutex_unlock(&ring_lock);
    }
    return none;
}

static void place(void) {
    pthread_mutex_lock(&ring_lock);
    while (count == 0)
        pthread_cond_wait(&not_empty, &ring_lock);
    struct text item = ring[first];
    first = (first + 1) % INTAKE;
    count--;
    pthread_cond_signal(&not_full);
    pthread_mutex_unlock(&ring_lock);
    struct text entry = {malloc(item.len), item.len};
    must(entry.bytes != NULL && changeset_canonical(item.bytes, item.len, entry.bytes, entry.len) == (int64_t)entry.len);
    pthread_mutex_lock(&desk_lock);
    sequence[placed++] = entry;
    pthread_mutex_unlock(&desk_lock);
    free(item.bytes);
}

static void spell(size_t changes) {
    static const unsigned char header[] = {0x54, 2, 1, 0, 0x74, 0};
    given.len = sizeof header + 14 * changes;
    given.bytes = malloc(given.len);
    must(given.bytes != NULL);
    memcpy(given.bytes, header, sizeof header);
    for (size_t key = 0; key < changes; key++) {
        unsigned char *to = given.bytes + sizeof header + 14 * key;
        memcpy(to, (unsigned char[]){0x12, 0, 1, 0, 0, 0, 0, 0, 0, 0, 0, 3, 1, 0x78}, 14);
        for (int i = 0; i < 8; i++)
            to[3 + i] = (unsigned char)(key >> (56 - 8 * i));
    }
}

int main(int argc, char **argv) {
    must(argc == 4);
    size_t publishers = strtoul(argv[1], NULL, 10);
    sends = strtoul(argv[3], NULL, 10);
    spell(strtoul(argv[2], NULL, 10));
    sequence = malloc(publishers * sends * sizeof *sequence);
    must(sequence != NULL && publishers <= 8);
    pthread_t threads[8];
    for (size_t i = 0; i < publishers; i++)
        must(pthread_create(&threads[i], NULL, publish, NULL) == 0);
    while (placed < publishers * sends)
        place();
    for (size_t i = 0; i < publishers; i++)
        pthread_join(threads[i], NULL);
    return 0;
}
