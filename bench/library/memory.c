/* What subscriptions take in memory beside the entries of the sequence.
 *
 *     ./memory bare|rows COUNT
 *
 * A broker gets ROWS rows of 250 bytes, a changeset each. Then COUNT subscriptions, without rows or with them, take,
 * accept and acknowledge all of it. It prints how much that adds, in bytes: to the bytes in use, which count.c counts,
 * and to the resident set. Behind these stands what was in use before. It checks that each subscription has settled
 * everything, and has its rows or none. */
#define _POSIX_C_SOURCE 200809L
#include "broker.h"
#include "count.h"

#include <stdio.h>
#include <stdlib.h>
#include <string.h>
#include <unistd.h>

/* the values of a row: an INTEGER of 9 bytes, and a BLOB of 3 and BLOB bytes */
enum { ROWS = 50000, ROW = 250, BLOB = ROW - 12, TEXT = 8 + ROW };

static broker *b;

static void need(int holds, const char *what) {
    if (holds) return;
    fprintf(stderr, "bench: %s\n", what);
    exit(1);
}

static size_t resident(void) {
    unsigned long all, pages = 0;
    FILE *file = fopen("/proc/self/statm", "r");
    need(file && fscanf(file, "%lu %lu", &all, &pages) == 2 && !fclose(file), "no resident set");
    return pages * (size_t)sysconf(_SC_PAGESIZE);
}

/* the INSERT of a row, whose BLOB its key decides */
static void insert_of(uint64_t key, unsigned char text[TEXT]) {
    memcpy(text, "T\2\1\0t\0\22\0\1\0\0\0\0\0\0\0\0\4", 18);
    for (int i = 0; i < 8; i++) text[9 + i] = (unsigned char)(key >> (56 - 8 * i));
    text[18] = (unsigned char)(128 | BLOB >> 7), text[19] = BLOB & 127;
    for (int i = 0; i < BLOB; i++) text[20 + i] = (unsigned char)(key * 31 + (uint64_t)i);
}

static void begin(void) {
    static const unsigned char key[] = {1, 0};
    static const struct broker_table table = {(const unsigned char *)"t", 1, key, 2};
    struct broker_limits limits = BROKER_LIMITS;
    struct broker_numbers why;
    unsigned char text[TEXT];
    uint64_t n;
    need(!broker_open(&b, &limits, &table, 1, &why) && !broker_publisher(b, &n), "no broker");
    for (uint64_t row = 1; row <= ROWS; row++)
        insert_of(row, text), need(!broker_place(b, 0, text, TEXT, &n) && n == row, "a changeset isn't placed");
}

static void subscribe(int bare, uint64_t count) {
    uint64_t n, link;
    for (uint64_t i = 0; i < count; i++)
        need(!(bare ? broker_subscribe_bare : broker_subscribe)(b, 0, &n, &link) && n == i, "no subscription");
}

static void follow(uint64_t subscription) {
    struct broker_delivery d;
    struct broker_status status;
    uint64_t n;
    int code;
    while (!(code = broker_take(b, subscription, 0, &d)))
        need(!broker_accept(b, d.number, &n) && !broker_ack(b, d.number, &n), "a delivery isn't settled");
    need(code == BROKER_EMPTY && !broker_status(b, subscription, &status), "a take is refused");
    need(status.floor == ROWS && status.front == ROWS, "entries are left");
}

/* each subscription has the last row, or none */
static void check(int bare, uint64_t count) {
    unsigned char text[TEXT], found[TEXT];
    insert_of(ROWS, text);
    for (uint64_t i = 0; i < count; i++) {
        int64_t len = broker_row(b, i, 0, text + 8, 9, found, TEXT);
        need(bare ? len == BROKER_NO_ROW : len == TEXT && !memcmp(text, found, TEXT), "other rows");
    }
}

int main(int words, char **word) {
    uint64_t count = words == 3 ? strtoull(word[2], NULL, 10) : 0;
    int bare = count > 0 && !strcmp(word[1], "bare");
    need(bare || (count > 0 && !strcmp(word[1], "rows")), "memory bare|rows COUNT");
    begin();
    long used = (long)in_use, pages = (long)resident();
    subscribe(bare, count);
    for (uint64_t i = 0; i < count; i++) follow(i);
    long more = (long)in_use - used, more_pages = (long)resident() - pages;
    check(bare, count);
    broker_free(b);
    return printf("%ld %ld %ld\n", more, more_pages, used) < 0;
}
