/* ./stream make URLS      makes the stream, with three replicas in files, if it is not there
 * ./stream wait URLS      waits until each of the three servers has all of it
 * ./stream show URLS      prints the number and the sequence number of its last message, its messages, and its leader
 * Each tries for two minutes, or for the SECONDS after URLS, and ends with status 1 if it does not succeed. */
#define NAME "stream"
#include "stream.h"

/* Whether the stream has a leader and two other servers that have all of it. */
static bool is_whole(const jsStreamInfo *info) {
    int count = 0;
    if (!info->Cluster || !info->Cluster->Leader || !*info->Cluster->Leader) return false;
    for (int i = 0; i < info->Cluster->ReplicasLen; i++) {
        const jsPeerInfo *peer = info->Cluster->Replicas[i];
        count += peer->Current && !peer->Offline && !peer->Lag;
    }
    return count == 2;
}

static bool is_done(struct stream *stream, const char *what) {
    jsStreamInfo *info = NULL;
    natsMsg *message = NULL;
    jsErrCode code = 0;
    struct place last;
    if (!strcmp(what, "make")) return make_stream(stream) == NATS_OK;
    if (js_GetStreamInfo(&info, stream->js, STREAM, NULL, &code) != NATS_OK) return false;
    bool is_done = is_whole(info);
    if (!strcmp(what, "show") && (is_done = find_last(stream, &message, &last) == NATS_OK))
        printf("number %" PRId64 " sequence %" PRId64 " messages %" PRIu64 " leader %s\n", last.number, last.sequence,
               info->State.Msgs, info->Cluster && info->Cluster->Leader ? info->Cluster->Leader : "none");
    natsMsg_Destroy(message);
    jsStreamInfo_Destroy(info);
    return is_done;
}

int main(int count, char **words) {
    if (count < 3 || count > 4 || (strcmp(words[1], "make") && strcmp(words[1], "wait") && strcmp(words[1], "show")))
        return fputs("usage: ./stream make|wait|show URLS [SECONDS]\n", stderr), 2;
    heed_signals();
    double patience = count == 4 ? atof(words[3]) : PATIENCE;
    struct stream stream = open_stream(words[2], NULL, NULL);
    for (double begun = seconds(); !is_done(&stream, words[1]); wait_ms(100))
        if (is_asked_to_end || seconds() - begun > patience) FAIL("%s: the servers do not get so far", words[1]);
    close_stream(&stream);
    return 0;
}
