/* The stream between the machines: connecting to its servers, making it, publishing the outbox's rows in order, and
 * reading from a sequence number on. */
#ifndef MACHINES_STREAM_H
#define MACHINES_STREAM_H
#include "machines.h"
#include <nats/nats.h>

#define STREAM "machines"
#define SUBJECT "machines.changes"
/* A message has an id (`Nats-Msg-Id`), which is the outbox's number, a dash and the outbox's name; and this header,
 * which is 1 where it ends a changeset. */
#define ENDS "Machines-Ends"
#define SECONDS(count) ((int64_t)(count) * 1000000000)

struct stream {
    natsConnection *connection;
    jsCtx *js;
};

/* A message's number in the outbox, and its sequence number in the stream. */
struct place {
    int64_t number, sequence;
};

static inline void expect(natsStatus status, const char *what) {
    if (status != NATS_OK) FAIL("%s: %s", what, natsStatus_GetText(status));
}

/* Sets the servers' addresses, which stand with commas between them. */
static inline void set_servers(natsOptions *options, const char *urls) {
    char *copy = sqlite3_mprintf("%s", urls), *rest = copy;
    const char *servers[16];
    int count = 0;
    for (char *url; copy && (url = strtok_r(rest, ",", &rest)) && count < 16;) servers[count++] = url;
    expect(natsOptions_SetServers(options, servers, count), "the servers' addresses");
    sqlite3_free(copy);
}

/* Connects to one of the servers, and to another one whenever that one is gone.
 * `acknowledged` is called with each answer to a published message. */
static inline struct stream open_stream(const char *urls, jsPubAckHandler acknowledged, void *with) {
    struct stream stream = {NULL, NULL};
    natsOptions *options = NULL;
    jsOptions js;
    double begun = seconds();
    natsStatus status;
    expect(natsOptions_Create(&options), "options");
    set_servers(options, urls);
    expect(natsOptions_SetMaxReconnect(options, PATIENCE * 10), "options");
    expect(natsOptions_SetReconnectWait(options, 100), "options");
    expect(natsOptions_SetPingInterval(options, 2000), "options");
    while ((status = natsConnection_Connect(&stream.connection, options)) != NATS_OK) {
        if (is_asked_to_end || seconds() - begun > PATIENCE) expect(status, "no server is reached");
        wait_ms(100);
    }
    natsOptions_Destroy(options);
    expect(jsOptions_Init(&js), "options");
    js.Wait = 2000, js.PublishAsync.AckHandler = acknowledged, js.PublishAsync.AckHandlerClosure = with;
    expect(natsConnection_JetStream(&stream.js, stream.connection, &js), "JetStream");
    return stream;
}

static inline void close_stream(struct stream *stream) {
    jsCtx_Destroy(stream->js);
    natsConnection_Destroy(stream->connection);
    nats_Close();
}

/* The outbox's number of a message. */
static inline int64_t number_of(natsMsg *message) {
    const char *id = NULL;
    return natsMsgHeader_Get(message, "Nats-Msg-Id", &id) == NATS_OK ? strtoll(id, NULL, 10) : 0;
}

/* The name of the outbox that a message is of, or "". */
static inline const char *outbox_of(natsMsg *message) {
    const char *id = NULL, *dash = NULL;
    if (natsMsgHeader_Get(message, "Nats-Msg-Id", &id) == NATS_OK) dash = strchr(id, '-');
    return dash ? dash + 1 : "";
}

/* The sequence number of a message that a reader got. */
static inline int64_t sequence_of(natsMsg *message) {
    jsMsgMetaData *data = NULL;
    expect(natsMsg_GetMetaData(&data, message), "a message's place");
    int64_t sequence = (int64_t)data->Sequence.Stream;
    jsMsgMetaData_Destroy(data);
    return sequence;
}

static inline bool ends_changeset(natsMsg *message) {
    const char *ends = NULL;
    return natsMsgHeader_Get(message, ENDS, &ends) == NATS_OK && *ends == '1';
}

/* Makes the stream, if it is not there: in files, on three servers. No limit makes it forget a message. */
static inline natsStatus make_stream(struct stream *stream) {
    const char *subjects[] = {SUBJECT};
    jsStreamConfig config;
    jsErrCode code = 0;
    expect(jsStreamConfig_Init(&config), "options");
    config.Name = STREAM, config.Subjects = subjects, config.SubjectsLen = 1;
    config.Storage = js_FileStorage, config.Replicas = 3;
    return js_AddStream(NULL, stream->js, &config, NULL, &code);
}

/* Finds the last message of the stream and its place; NULL and place 0 where there is none. It may be late: after it
 * others may be stored. natsMsg_Destroy frees it. */
static inline natsStatus find_last(struct stream *stream, natsMsg **message, struct place *last) {
    jsErrCode code = 0;
    natsStatus status = js_GetLastMsg(message, stream->js, STREAM, SUBJECT, NULL, &code);
    *last = (struct place){0, 0};
    if (status == NATS_NOT_FOUND && code == JSNoMessageFoundErr) return NATS_OK;
    if (status == NATS_OK) *last = (struct place){number_of(*message), (int64_t)natsMsg_GetSequence(*message)};
    return status;
}

/* Finds the number of the message at a sequence number, or 0 where the stream has none there. */
static inline natsStatus find_number(struct stream *stream, int64_t sequence, int64_t *number) {
    natsMsg *message = NULL;
    jsErrCode code = 0;
    natsStatus status = js_GetMsg(&message, stream->js, STREAM, (uint64_t)sequence, NULL, &code);
    *number = status == NATS_OK ? number_of(message) : 0;
    natsMsg_Destroy(message);
    return status == NATS_NOT_FOUND && code == JSNoMessageFoundErr ? NATS_OK : status;
}

/* Publishes a row of the outbox with this name, and does not wait for the answer. The stream stores it directly after
 * the message at `before`, or not at all. */
static inline natsStatus publish(struct stream *stream, const char *outbox, const struct place *before, bool ends,
                                 const void *bytes, int len) {
    natsMsg *message = NULL;
    jsPubOptions options;
    char id[24 + NAME_ROOM];
    snprintf(id, sizeof id, "%" PRId64 "-%s", before->number + 1, outbox);
    expect(jsPubOptions_Init(&options), "options");
    options.MsgId = id, options.MaxWait = 5000;
    if (before->sequence) options.ExpectLastSeq = (uint64_t)before->sequence;
    else options.ExpectNoMessage = true;
    expect(natsMsg_Create(&message, SUBJECT, NULL, bytes, len), "a message");
    expect(natsMsgHeader_Set(message, ENDS, ends ? "1" : "0"), "a header");
    natsStatus status = js_PublishMsgAsync(stream->js, &message, &options);
    natsMsg_Destroy(message);
    return status;
}

/* Waits for the answers to all that was published. Messages without an answer are given up. */
static inline natsStatus wait_for_answers(struct stream *stream) {
    jsPubOptions options;
    natsMsgList left;
    expect(jsPubOptions_Init(&options), "options");
    options.MaxWait = 6000;
    natsStatus status = js_PublishAsyncComplete(stream->js, &options);
    if (js_PublishAsyncGetPendingList(&left, stream->js) == NATS_OK) natsMsgList_Destroy(&left);
    return status;
}

/* Begins to read after a sequence number, by a consumer of its own. The servers forget it some time after the last
 * request. */
static inline natsStatus read_after(struct stream *stream, int64_t sequence, natsSubscription **reader) {
    jsSubOptions options;
    jsErrCode code = 0;
    expect(jsSubOptions_Init(&options), "options");
    options.Stream = STREAM;
    options.Config.DeliverPolicy = js_DeliverByStartSequence, options.Config.OptStartSeq = (uint64_t)sequence + 1;
    options.Config.AckPolicy = js_AckAll, options.Config.AckWait = SECONDS(60);
    options.Config.MaxAckPending = 8192, options.Config.InactiveThreshold = SECONDS(30);
    return js_PullSubscribe(reader, stream->js, SUBJECT, NULL, NULL, &options, &code);
}
#endif
