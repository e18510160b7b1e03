/* ./replica FILE SCHEMA URLS BATCH
 * Keeps a file equal to the origin's database. It reads the stream after the place that the file has, and applies at
 * most BATCH changesets in a transaction, which moves the place too. FILE is made with the tables of SCHEMA if it is
 * not there. It ends after SIGTERM; with status 3 at a gap of the stream, which it names; or with status 4 where the
 * stream is of another outbox than the file. Started again after a kill, it goes on where the file is. */
#define NAME "replica"
#include "copy.h"

/* The messages of a request, and how long it waits for the first one, in milliseconds. */
enum { FETCHED = 256, WAITED = 500 };

struct reader {
    struct stream stream;
    natsSubscription *subscription;
    /* requests in turn without a message, and when the stream last answered */
    int quiet;
    double answered;
    /* readers so far, messages that came again, and seconds of waiting */
    int64_t begun, skipped;
    double waiting;
};

/* Checks the name in the stream's last message: after the file's place the stream of another outbox may have none. */
static void check_stream(struct reader *reader, struct copy *copy) {
    natsMsg *message = NULL;
    struct place last;
    if (find_last(&reader->stream, &message, &last) == NATS_OK && message) check_outbox(copy, outbox_of(message));
    natsMsg_Destroy(message);
}

/* Begins to read anew after what the broker was fed. */
static void begin_reader(struct reader *reader, struct copy *copy) {
    if (reader->subscription) natsSubscription_Destroy(reader->subscription);
    reader->subscription = NULL, reader->quiet = 0, reader->begun++;
    check_stream(reader, copy);
    if (read_after(&reader->stream, copy->fed.sequence, &reader->subscription) == NATS_OK) {
        reader->answered = seconds();
        return;
    }
    if (seconds() - reader->answered > PATIENCE) FAIL("%s: the stream does not answer", copy->path);
    wait_ms(100);
}

/* Ends the program at a number that is not the next, if the stream doesn't have the next one: after the file's place, or
 * before that number, it has none that fits. Otherwise messages were lost on the way from the stream. */
static void check_gap(struct reader *reader, const struct copy *copy, struct place its) {
    int64_t found, after, before = 0, had = copy->fed.number;
    if (find_number(&reader->stream, its.sequence, &found) != NATS_OK || !found) return;
    if (find_number(&reader->stream, copy->fed.sequence + 1, &after) != NATS_OK) return;
    if (its.sequence > 1 && find_number(&reader->stream, its.sequence - 1, &before) != NATS_OK) return;
    bool is_after = after && after <= had + 1, is_before = before > had;
    if (is_after && is_before) return;
    SAY("%s: a gap: after number %" PRId64 " at sequence %" PRId64 " the stream goes on with number %" PRId64
        " at sequence %" PRId64, copy->path, copy->fed.number, copy->fed.sequence, its.number, its.sequence);
    fflush(NULL), _exit(3);
}

/* Feeds the broker the messages of a request. Returns whether they were the next ones, and sets `*whole` to the last
 * one that ends a changeset. */
static bool take_messages(struct reader *reader, struct copy *copy, natsMsgList *list, natsMsg **whole) {
    for (int i = 0; i < list->Count; i++) {
        natsMsg *message = list->Msgs[i];
        check_outbox(copy, outbox_of(message));
        struct place its = {number_of(message), sequence_of(message)};
        enum taken taken = take_message(copy, its, ends_changeset(message), natsMsg_GetData(message),
                                        natsMsg_GetDataLength(message));
        if (taken == TAKEN_GAP) return check_gap(reader, copy, its), false;
        reader->skipped += taken == TAKEN_BEFORE;
        if (ends_changeset(message)) *whole = message;
    }
    return true;
}

/* Whether a reader that gets nothing is still there, and nothing waits for it. */
static bool is_idle(struct reader *reader, struct copy *copy) {
    jsConsumerInfo *info = NULL;
    jsErrCode code = 0;
    if (natsSubscription_GetConsumerInfo(&info, reader->subscription, NULL, &code) != NATS_OK) return false;
    bool is_idle = !info->NumPending;
    jsConsumerInfo_Destroy(info);
    check_stream(reader, copy);
    reader->quiet = 0, reader->answered = seconds();
    return is_idle;
}

/* Reads what the stream has, and brings the file up to it. Returns whether the reader can go on. */
static bool follow(struct reader *reader, struct copy *copy) {
    natsMsgList list = {NULL, 0};
    natsMsg *whole = NULL;
    jsErrCode code = 0;
    double begun = seconds();
    natsStatus status = natsSubscription_Fetch(&list, reader->subscription, FETCHED, WAITED, &code);
    reader->waiting += seconds() - begun;
    if (status == NATS_OK) reader->quiet = 0, reader->answered = seconds();
    else reader->quiet++;
    bool is_next = take_messages(reader, copy, &list, &whole);
    deliver(copy);
    /* the answer may be lost: then messages come again, and are skipped */
    if (whole) (void)natsMsg_Ack(whole, NULL);
    natsMsgList_Destroy(&list);
    bool is_all = renew(copy, FETCHED);
    if (status != NATS_OK && status != NATS_TIMEOUT) return false;
    return is_next && is_all && (reader->quiet < 5 || is_idle(reader, copy));
}

/* Prints what was done since the start, and how long each step took. */
static void report(const struct reader *reader, const struct copy *copy, double beginning, double working) {
    printf("%s: at number %" PRId64 "; %" PRId64 " entries in %" PRId64 " transactions, %" PRId64 " messages skipped, %"
           PRId64 " readers, %" PRId64 " brokers; ", copy->path, copy->at.number, copy->applied, copy->commits,
           reader->skipped, reader->begun, copy->brokers);
    printf("%.3f s to begin, then %.3f s: %.3f waiting, %.3f feeding, %.3f accepting, %.3f combining, %.3f writing\n",
           beginning, working, reader->waiting, copy->feeding, copy->accepting, copy->combining, copy->writing);
}

int main(int count, char **words) {
    static struct copy copy;
    struct reader reader = {.quiet = 0};
    uint64_t batch = count == 5 ? strtoull(words[4], NULL, 10) : 0;
    if (!batch) return fputs("usage: ./replica FILE SCHEMA URLS BATCH\n", stderr), 2;
    heed_signals();
    double begun = seconds();
    open_copy(&copy, words[1], words[2], batch);
    double opened = seconds();
    reader.stream = open_stream(words[3], NULL, NULL), reader.answered = seconds();
    while (!is_asked_to_end)
        if (!reader.subscription || !follow(&reader, &copy)) begin_reader(&reader, &copy);
    report(&reader, &copy, opened - begun, seconds() - opened);
    if (reader.subscription) natsSubscription_Unsubscribe(reader.subscription);
    natsSubscription_Destroy(reader.subscription);
    close_stream(&reader.stream), close_copy(&copy);
    return 0;
}
