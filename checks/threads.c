/* Two handles in two threads at once, and one handle under a lock by two threads. Each thread publishes and follows,
 * and must find what it published. None may meet BROKER_BUSY. When the handle is shut, each call of both must return
 * BROKER_SHUT. Prints the numbers.
 *     ./threads [ROUNDS]        20000 rounds unless it says another number */
#include "broker.h"

#include <inttypes.h>
#include <pthread.h>
#include <stdio.h>
#include <stdlib.h>
#include <string.h>

static uint64_t rounds = 20000;

/* what a thread works on: a handle of its own or, with a lock, the one of both */
struct work {
    broker *b;
    pthread_mutex_t *lock;
    uint64_t publisher, subscription, placed, applied;
    int bad;
};

/* the INSERT of (key, 5) */
static void insert_of(uint64_t key, unsigned char text[26]) {
    memcpy(text, "T\2\1\0t\0\22\0\1\0\0\0\0\0\0\0\0\1\0\0\0\0\0\0\0\5", 26);
    for (int i = 0; i < 8; i++) text[9 + i] = (unsigned char)(key >> (56 - 8 * i));
}

/* Publishes one changeset, whose key says the publisher and the round, and reads it again. Each second one goes by one
 * call. */
static void publish(struct work *w, uint64_t round) {
    unsigned char text[26], placed[26];
    uint64_t own, entry = 0;
    struct broker_about about = {0, 0, 0};
    insert_of(w->publisher << 32 | round, text);
    if (round % 2) {
        w->bad |= broker_feed(w->b, w->publisher, text, 13) | broker_feed(w->b, w->publisher, text + 13, 13);
        w->bad |= broker_end(w->b, w->publisher) | broker_send(w->b, w->publisher, &own) | broker_turn(w->b, &entry);
    } else {
        w->bad |= broker_place(w->b, w->publisher, text, sizeof text, &entry);
    }
    w->bad |= broker_entry(w->b, entry, &about) || about.publisher != w->publisher || about.own != round;
    w->bad |= broker_text(w->b, entry, placed, sizeof placed) != 26 || memcmp(text, placed, 26);
    w->placed++;
}

/* takes and settles one delivery, if there is one */
static void follow(struct work *w) {
    struct broker_delivery d;
    struct broker_status s;
    uint64_t cursor = 0, floor = 0;
    int code = broker_take(w->b, w->subscription, 0, &d);
    w->bad |= code != BROKER_OK && code != BROKER_EMPTY;
    if (code != BROKER_OK) return;
    w->bad |= broker_accept(w->b, d.number, &cursor) | broker_ack(w->b, d.number, &floor);
    w->bad |= cursor != d.last || floor != d.last;
    w->bad |= broker_status(w->b, w->subscription, &s) || s.cursor != cursor || s.floor != floor || s.in_flight;
    w->applied = floor;
}

static void hold(struct work *w) {
    if (w->lock && pthread_mutex_lock(w->lock)) abort();
}

static void release(struct work *w) {
    if (w->lock && pthread_mutex_unlock(w->lock)) abort();
}

static void *runs(void *given) {
    struct work *w = given;
    for (uint64_t round = 1; round <= rounds; round++) {
        hold(w), publish(w, round), release(w);
        if (round % 10 == 0) hold(w), follow(w), release(w);
    }
    return NULL;
}

/* the handle is shut, and says nothing else */
static void *meets_shut(void *given) {
    struct work *w = given;
    struct broker_numbers why;
    struct broker_status s;
    unsigned char text[26];
    uint64_t n;
    insert_of(1, text);
    for (uint64_t round = 1; round <= rounds; round++) {
        hold(w);
        w->bad |= broker_turn(w->b, &n) != BROKER_SHUT || broker_why(w->b, &why) != BROKER_SHUT;
        w->bad |= broker_place(w->b, w->publisher, text, sizeof text, &n) != BROKER_SHUT;
        w->bad |= broker_status(w->b, w->subscription, &s) != BROKER_SHUT;
        w->bad |= broker_text(w->b, 1, text, sizeof text) != BROKER_SHUT;
        release(w);
    }
    return NULL;
}

/* a thread for each of two, until both have ended */
static void in_threads(void *(*start)(void *), struct work *two) {
    pthread_t threads[2];
    for (int i = 0; i < 2; i++)
        if (pthread_create(&threads[i], NULL, start, &two[i])) abort();
    for (int i = 0; i < 2; i++)
        if (pthread_join(threads[i], NULL)) abort();
}

static broker *opened(void) {
    static const unsigned char key[] = {1, 0};
    static const struct broker_table table = {(const unsigned char *)"t", 1, key, 2};
    struct broker_limits limits = BROKER_LIMITS;
    struct broker_numbers why;
    broker *b = NULL;
    limits.capacity = 1 << 20;
    if (broker_open(&b, &limits, &table, 1, &why)) abort();
    return b;
}

/* a publisher and a subscription on this handle */
static struct work begun(broker *b, pthread_mutex_t *lock) {
    struct work w = {b, lock, 0, 0, 0, 0, 0};
    uint64_t link;
    w.bad = broker_publisher(b, &w.publisher) | broker_subscribe(b, 0, &w.subscription, &link);
    return w;
}

/* runs both at once, and follows to the end in this thread */
static int run_two(const char *name, struct work *two) {
    int bad = 0;
    in_threads(runs, two);
    for (int i = 0; i < 2; i++) {
        uint64_t front = 0;
        bad |= broker_front(two[i].b, &front);
        for (int turn = 0; turn < 10000000 && two[i].applied < front && !two[i].bad; turn++) follow(&two[i]);
        bad |= two[i].bad || two[i].applied < front || two[i].placed != rounds;
        bad |= front != (two[i].lock ? 2 * rounds : rounds);
    }
    printf("%s: %" PRIu64 " changesets by each thread, settled up to %" PRIu64 " and %" PRIu64 ", bad %d\n", name,
           rounds, two[0].applied, two[1].applied, bad);
    return bad;
}

int main(int count, char **words) {
    pthread_mutex_t lock = PTHREAD_MUTEX_INITIALIZER;
    if (count == 2) rounds = strtoull(words[1], NULL, 10);
    broker *each[] = {opened(), opened()}, *both = opened();
    struct work apart[] = {begun(each[0], NULL), begun(each[1], NULL)};
    struct work shared[] = {begun(both, &lock), begun(both, &lock)};
    int bad = run_two("two handles in two threads", apart) | run_two("a handle by two threads under a lock", shared);
    broker_shut(both);
    in_threads(meets_shut, shared);
    bad |= shared[0].bad | shared[1].bad;
    printf("a handle that is shut, by two threads under a lock: bad %d\n", shared[0].bad | shared[1].bad);
    broker_free(each[0]), broker_free(each[1]), broker_free(both);
    return rounds == 0 || bad;
}
