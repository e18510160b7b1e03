/* ./origin DATABASE URLS TRANSACTIONS PAUSE
 * Makes the example's transactions on a live database until it has TRANSACTIONS of them, with a pause of PAUSE
 * milliseconds after each, and publishes the outbox to the stream meanwhile. It ends when the stream has acknowledged
 * all. After SIGTERM it makes no more transactions, and ends in the same way. Started again after a kill, it goes on
 * where the file is. */
#define NAME "origin"
#include "outbox.h"
#include "publisher.h"
#include "work.h"

/* Sets what is committed, and returns what is acknowledged. */
static int64_t tell(struct shared *shared, int64_t committed, bool is_complete) {
    pthread_mutex_lock(&shared->lock);
    shared->committed = committed, shared->is_complete = is_complete;
    int64_t acknowledged = shared->acknowledged;
    pthread_cond_signal(&shared->grown);
    pthread_mutex_unlock(&shared->lock);
    return acknowledged;
}

int main(int count, char **words) {
    if (count != 5) return fputs("usage: ./origin DATABASE URLS TRANSACTIONS PAUSE\n", stderr), 2;
    heed_signals();
    sqlite3 *db = open_database(words[1], "FULL");
    struct outbox outbox = open_outbox(db);
    struct work work = open_work(db);
    struct shared shared = {.lock = PTHREAD_MUTEX_INITIALIZER, .grown = PTHREAD_COND_INITIALIZER};
    struct publisher publisher = {.path = words[1], .urls = words[2], .shared = &shared};
    pthread_t thread;
    tell(&shared, outbox.last, false);
    if (pthread_create(&thread, NULL, publish_outbox, &publisher)) FAIL("no thread");
    double begun = seconds(), committed;
    int64_t before = work.done, wanted = strtoll(words[3], NULL, 10), acknowledged = 0;
    while (work.done < wanted && !is_asked_to_end) {
        begin_recorded(&outbox), work_once(&work);
        acknowledged = tell(&shared, commit_recorded(&outbox, acknowledged), false);
        if (strcmp(words[4], "0")) wait_ms(atol(words[4]));
    }
    committed = seconds();
    tell(&shared, outbox.last, true);
    if (pthread_join(thread, NULL)) FAIL("the thread does not end");
    printf("origin: %" PRId64 " transactions and %" PRId64 " changes in %.3f s, acknowledged to number %" PRId64
           " after %.3f s; %.3f s of publishing, %" PRId64 " look-ups\n", work.done - before, outbox.changes,
           committed - begun, outbox.last, seconds() - begun, publisher.busy, publisher.lookups);
    return 0;
}
