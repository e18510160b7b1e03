/* Prints a script, or measures a command on one; called without words, it lists them. A history has one empty line,
 * which has no answer: `after` measures the lines after it. */
#define _DEFAULT_SOURCE
#include "../apply/measure.h"
#include "after.h"

#include <stdio.h>
#include <stdlib.h>
#include <string.h>

enum { BATCH = 16, CHANGE = 14, ROOM = 32000 };

/* the script's limits of subscriptions and of deliveries in flight to one, the default timeout, and a number of entries
 * that leaves room for 100,000 lines in a script */
enum { SUBSCRIPTIONS = 1024, WINDOW = 64, TIMEOUT = 10, SPANS = 300000 };

/* the table `t`: a key, and a column */
static const char HEADER[] = "540201007400";

static void begin(void) { printf("table %s\npublisher\n", HEADER); }

/* a direct INSERT of (key, 'x') */
static void insert(unsigned key) { printf("1200010000000%09x030178", key); }

/* an entry of one change */
static void put(unsigned key) {
    printf("feed 0 %s", HEADER);
    insert(key);
    printf("\nend 0\nsend 0\nturn\n");
}

static void puts_all(unsigned entries) {
    for (unsigned i = 1; i <= entries; i++) put(i);
}

static void subscribes(unsigned subscriptions) {
    for (unsigned s = 0; s < subscriptions; s++) printf("subscribe 0\n");
}

static void small(unsigned entries) {
    begin();
    puts_all(entries);
}

/* entries of a megabyte each, which come in lines of 32,000 bytes */
static void large(unsigned bytes) {
    unsigned key = 0, each = 1000000 / CHANGE;
    begin();
    while (key * 2 * CHANGE < bytes) {
        printf("feed 0 %s\n", HEADER);
        for (unsigned i = 0; i < each;) {
            printf("feed 0 ");
            for (unsigned n = 0; n < ROOM / CHANGE && i < each; n++, i++) insert(++key);
            printf("\n");
        }
        printf("end 0\nsend 0\nturn\n");
    }
}

/* Each subscription takes all entries in batches, or whoever may is handed them; each delivery is accepted and acknowledged. */
static void takes(unsigned entries, unsigned subscriptions, int any) {
    begin();
    puts_all(entries);
    subscribes(subscriptions);
    unsigned delivery = 0;
    for (unsigned done = 0; done < entries; done += BATCH)
        for (unsigned s = 0; s < subscriptions; s++) {
            delivery++;
            if (any)
                printf("takeany %u\n", delivery);
            else
                printf("take %u %u\n", s, delivery);
            printf("accept %u\nack %u\n", delivery, delivery);
        }
}

/* entries of one change, subscriptions to them, and the empty line */
static void begin_history(unsigned entries, unsigned subscriptions) {
    begin();
    puts_all(entries);
    subscribes(subscriptions);
    printf("\n");
}

/* subscription 0 takes an entry, accepts it and acknowledges it */
static void settle(unsigned delivery) { printf("take 0 0\naccept %u\nack %u\n", delivery, delivery); }

/* all settled but the first, which stays in flight */
static void settle_after_first(unsigned entries) {
    printf("take 0 0\naccept 1\n");
    for (unsigned i = 2; i <= entries; i++) settle(i);
}

/* lines at whose tick nothing is due */
static void expires(unsigned lines) {
    for (unsigned i = 0; i < lines; i++) printf("expire 0\n");
}

static void plain(unsigned entries) {
    begin_history(entries, 1);
    for (unsigned i = 1; i <= entries; i++) settle(i);
}

static void hole(unsigned entries) {
    begin_history(entries, 1);
    settle_after_first(entries);
}

/* each entry is taken and expires, and then each is settled */
static void returned(unsigned entries) {
    begin_history(entries, 1);
    for (unsigned i = 0; i < entries; i++) printf("takeany %u\nexpire %u\n", i * TIMEOUT, (i + 1) * TIMEOUT);
    for (unsigned i = 1; i <= entries; i++) settle(entries + i);
}

/* this number of deliveries or some more, since each subscription gets each entry */
static void takeany(unsigned deliveries) {
    unsigned entries = (deliveries + SUBSCRIPTIONS - 1) / SUBSCRIPTIONS;
    begin_history(entries, SUBSCRIPTIONS);
    for (unsigned i = 1; i <= entries * SUBSCRIPTIONS; i++) printf("takeany 0\naccept %u\nack %u\n", i, i);
}

/* each window is full */
static void inflight(unsigned lines) {
    begin();
    puts_all(WINDOW);
    subscribes(SUBSCRIPTIONS);
    for (unsigned s = 0; s < SUBSCRIPTIONS; s++)
        for (unsigned i = 0; i < WINDOW; i++) printf("take %u 0\n", s);
    printf("\n");
    expires(lines);
}

/* a hole of entries without changes, which have the shortest lines */
static void settled(unsigned lines) {
    begin();
    for (unsigned i = 0; i < SPANS; i++) printf("end 0\nsend 0\nturn\n");
    subscribes(1);
    settle_after_first(SPANS);
    printf("\n");
    expires(lines);
}

/* one entry, which each delivery gives back */
static void nacks(unsigned deliveries) {
    begin();
    put(1);
    subscribes(1);
    for (unsigned i = 1; i <= deliveries; i++) printf("take 0 0\nnack %u\n", i);
}

static const struct {
    const char *word;
    void (*print)(unsigned);
} OF_A_NUMBER[] = {
    {"small", small},       {"large", large},       {"plain", plain},     {"hole", hole},   {"returned", returned},
    {"takeany", takeany},   {"inflight", inflight}, {"settled", settled}, {"nacks", nacks},
};

int main(int count, char **words) {
    if (count == 3)
        for (unsigned i = 0; i < sizeof OF_A_NUMBER / sizeof *OF_A_NUMBER; i++)
            if (!strcmp(words[1], OF_A_NUMBER[i].word)) return OF_A_NUMBER[i].print((unsigned)atoi(words[2])), 0;
    if (count == 4 && !strcmp(words[1], "takes")) return takes((unsigned)atoi(words[2]), (unsigned)atoi(words[3]), 0), 0;
    if (count == 4 && !strcmp(words[1], "any")) return takes((unsigned)atoi(words[2]), (unsigned)atoi(words[3]), 1), 0;
    if (count > 3 && !strcmp(words[1], "measure")) return measure(words[2], words + 3), 0;
    if (count > 3 && !strcmp(words[1], "after")) return measure_after(words[2], words + 3), 0;
    return fprintf(stderr,
                   "lines small|plain|hole|returned ENTRIES | takeany|nacks DELIVERIES | inflight|settled LINES | large BYTES |\n"
                   "    takes|any ENTRIES SUBSCRIPTIONS | measure|after FILE COMMAND..\n"),
           2;
}
