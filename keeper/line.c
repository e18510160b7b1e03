/* A line: one broker with its name, and where each replica is in it. */
#include "line.h"
#include <stdlib.h>
#include <string.h>

/* The widened shape of a table. */
static bool widen_shape(const struct gz_table *it, struct broker_table *out) {
    unsigned char *key = malloc(2 * (size_t)it->columns);
    if (!key) return false;
    *out = (struct broker_table){(const unsigned char *)it->name, strlen(it->name), key, 0};
    for (int i = 0; i < it->columns; i++) {
        key[out->columns++] = it->key[i];
        if (!it->key[i]) key[out->columns++] = 0;
    }
    return true;
}

static bool open_broker(struct gz_line *it, const struct gz_tables *tables, uint64_t most_entries) {
    /* a delivery has one entry, so that each number was once a cursor, and an answer can end at any */
    struct broker_limits limits = {1, GZ_WINDOW, 1000000000, most_entries, 1, 1};
    struct broker_table *shapes = calloc((size_t)tables->count + 1, sizeof *shapes);
    struct broker_numbers why;
    size_t count = 0;
    bool is_open = shapes;
    for (int i = 0; is_open && i < tables->count; i++)
        if (!tables->table[i].why && (is_open = widen_shape(&tables->table[i], &shapes[count]))) count++;
    is_open = is_open && broker_open(&it->held, &limits, shapes, count, &why) == BROKER_OK;
    if (is_open && broker_publisher(it->held, &it->publisher)) is_open = false;
    while (count) free((void *)shapes[--count].key);
    free(shapes);
    return is_open;
}

struct gz_line *gz_open_line(const struct gz_tables *tables, uint64_t most_entries) {
    struct gz_line *it = calloc(1, sizeof *it);
    if (!it) return NULL;
    if (gz_random(it->name) && open_broker(it, tables, most_entries) && gz_reserve(it)) return it;
    gz_free_line(it);
    return NULL;
}

void gz_free_line(struct gz_line *it) {
    if (!it) return;
    broker_free(it->held);
    free(it->sizes), free(it);
}

bool gz_reserve(struct gz_line *it) {
    if (it->front + 1 < it->room) return true;
    size_t room = it->room * 2 + 1024;
    uint64_t *more = realloc(it->sizes, room * sizeof *more);
    if (!more) return false;
    it->sizes = more, it->room = room, more[0] = 0;
    return true;
}

int gz_place_entry(struct gz_line *it, const unsigned char *text, size_t len) {
    uint64_t entry;
    int code = broker_place(it->held, it->publisher, text, len, &entry);
    if (code) return code;
    it->front = entry, it->sizes[entry] = it->sizes[entry - 1] + len;
    return BROKER_OK;
}

uint64_t gz_line_bytes(const struct gz_line *it) { return it->sizes[it->front] + 250 * it->front; }

/* Acknowledges what the replica's file has. */
static void settle(struct gz_line *it, struct gz_subscription *sub, uint64_t number) {
    uint64_t floor;
    int kept = 0;
    for (int i = 0; i < sub->count; i++) {
        if (sub->last[i] <= number && broker_ack(it->held, sub->delivery[i], &floor) == BROKER_OK) continue;
        sub->delivery[kept] = sub->delivery[i], sub->last[kept++] = sub->last[i];
    }
    sub->count = kept;
}

/* Takes and accepts entries until there are enough for an answer. Returns the last code of the broker. */
static int take_more(struct gz_line *it, struct gz_subscription *sub, uint64_t number) {
    struct broker_delivery next;
    uint64_t cursor = number;
    while (sub->count < GZ_WINDOW && it->sizes[cursor] - it->sizes[number] < GZ_ANSWER_BYTES) {
        int code = broker_take(it->held, sub->number, 0, &next);
        if (code) return code;
        code = broker_accept(it->held, next.number, &cursor);
        if (code) {
            /* what is given back comes after later entries, which would be a gap: the next request subscribes anew */
            sub->is_open = false, sub->count = 0;
            return code;
        }
        sub->delivery[sub->count] = next.number, sub->last[sub->count++] = next.last;
    }
    return BROKER_OK;
}

/* Lets the subscription stand where the replica does. A replica that stands before what it has acknowledged, as after a
 * power failure, or after its cursor, as after a copy, gets a new one. */
static int follow(struct gz_line *it, struct gz_subscription *sub, uint64_t number) {
    struct broker_status status;
    uint64_t link;
    int code = BROKER_OK;
    if (sub->is_open) {
        code = broker_status(it->held, sub->number, &status);
        if (!code && !status.closed && !status.fallen && status.floor <= number && number <= status.cursor) {
            settle(it, sub, number);
            return number == status.cursor ? take_more(it, sub, number) : BROKER_OK;
        }
        sub->is_open = false, sub->count = 0;
        if (!code) code = broker_unsubscribe(it->held, sub->number);
    }
    code = broker_subscribe_bare(it->held, number, &sub->number, &link);
    if (code) return code;
    sub->is_open = true, sub->count = 0;
    return take_more(it, sub, number);
}

bool gz_next_entries(struct gz_line *it, struct gz_subscription *sub, uint64_t number, uint64_t *last,
                     struct gz_bytes *text) {
    uint64_t end = it->front;
    *last = number;
    if (number >= it->front) {
        if (sub->is_open) settle(it, sub, number);
        return true;
    }
    int code = follow(it, sub, number);
    if (code == BROKER_NO_MEMORY) return false;
    if (code && code != BROKER_EMPTY) it->is_worn = true;
    /* the order and the texts don't depend on a subscription, so a broker without steps can still serve */
    if ((!code || code == BROKER_EMPTY) && broker_cursor(it->held, sub->number, &end)) it->is_worn = true;
    do ++*last;
    while (*last < end && *last - number < GZ_WINDOW && it->sizes[*last + 1] - it->sizes[number] <= GZ_ANSWER_BYTES);
    unsigned char none;
    int64_t len = broker_combined(it->held, number + 1, *last, &none, 0);
    if (len < 0) return false;
    size_t begun = text->len;
    unsigned char *room = malloc((size_t)len ? (size_t)len : 1);
    if (!room || broker_combined(it->held, number + 1, *last, room, (size_t)len) != len) {
        free(room);
        return false;
    }
    gz_append(text, room, (size_t)len), free(room);
    return !text->failed && text->len - begun == (size_t)len;
}
