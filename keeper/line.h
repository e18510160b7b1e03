/* A line: one broker with its name, and where each replica is in it. */
#ifndef GZ_LINE_H
#define GZ_LINE_H

#include "broker.h"
#include "mark.h"

/* An answer to a replica has texts of some 4 MiB, of at most 64 entries, or one entry. */
enum { GZ_ANSWER_BYTES = 4 << 20, GZ_WINDOW = 64 };

/* A replica's subscription to a line. `delivery` has those that are accepted and not acknowledged. */
struct gz_subscription {
    bool is_open;
    uint64_t number, delivery[GZ_WINDOW], last[GZ_WINDOW];
    int count;
};

struct gz_line {
    unsigned char name[16];
    broker *held;
    uint64_t publisher, front;
    /* `sizes[n]` is the sum of the bytes of the entries 1 to n. */
    uint64_t *sizes;
    size_t room;
    /* A database that stands at `equal` of the line before this one stands at 0 here. */
    bool has_equal;
    struct gz_place equal;
    /* Whether the broker has no more steps or subscriptions: the next commit begins a new line. */
    bool is_worn;
};

/* Opens a line for the tables that are recorded. Returns NULL if memory runs out or the system has no random bytes. */
struct gz_line *gz_open_line(const struct gz_tables *tables, uint64_t most_entries);
void gz_free_line(struct gz_line *it);

/* Makes room for one more entry, so that gz_place_entry needs none. Returns whether there is memory. */
bool gz_reserve(struct gz_line *it);

/* Places a widened changeset as the next entry. Returns a code of broker.h. */
int gz_place_entry(struct gz_line *it, const unsigned char *text, size_t len);

uint64_t gz_line_bytes(const struct gz_line *it);

/* What a replica that stands at `number` needs next: the entries after it up to `*last`, as one changeset, which is
 * appended to `text`. `*last` is `number` if there are none. Returns whether there was memory. */
bool gz_next_entries(struct gz_line *it, struct gz_subscription *sub, uint64_t number, uint64_t *last,
                     struct gz_bytes *text);

#endif
