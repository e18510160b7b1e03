/* What a source answers to a replica. */
#include "answer.h"
#include <stdlib.h>
#include <string.h>

/* Frees the old line if no replica stands in it. */
static void drop_old(struct gz_shared *it) {
    for (size_t i = 0; it->old && i < it->peers; i++)
        if (it->peer[i].at == GZ_AT_OLD) return;
    gz_free_line(it->old), it->old = NULL;
    for (size_t i = 0; i < it->peers; i++) it->peer[i].old.is_open = false;
}

void gz_set_lines(struct gz_shared *it, struct gz_line *now, bool keeps_old) {
    struct gz_line *last = it->now;
    gz_free_line(it->old), it->old = keeps_old ? last : NULL, it->now = now;
    if (!keeps_old) gz_free_line(last);
    for (size_t i = 0; i < it->peers; i++) {
        struct gz_peer *peer = &it->peer[i];
        /* a copy that is being made stands where its snapshot does, which may be in the line that is now old */
        peer->at = keeps_old && peer->at == GZ_AT_NOW ? GZ_AT_OLD : GZ_AT_NONE;
        peer->old = peer->now, peer->now.is_open = false, peer->now.count = 0;
    }
    drop_old(it);
}

/* The replica with this id, which is added if it isn't known. Returns NULL if memory runs out. */
static struct gz_peer *find_peer(struct gz_shared *it, const unsigned char id[16]) {
    struct gz_peer *oldest = NULL;
    for (size_t i = 0; i < it->peers; i++) {
        if (gz_same_name(it->peer[i].id, id)) return &it->peer[i];
        if (!oldest || it->peer[i].asked < oldest->asked) oldest = &it->peer[i];
    }
    if (it->peers == GZ_MOST_KNOWN) {
        *oldest = (struct gz_peer){0};
    } else {
        struct gz_peer *more = realloc(it->peer, (it->peers + 1) * sizeof *more);
        if (!more) return NULL;
        it->peer = more, oldest = &more[it->peers++];
        *oldest = (struct gz_peer){0};
    }
    memcpy(oldest->id, id, 16);
    return oldest;
}

static void say(struct gz_answer *answer, enum gz_kind kind, struct gz_bytes *text, const char *words) {
    answer->kind = kind, gz_append(text, words, strlen(words));
}

/* Serves a replica that stands in a line. */
static void serve(struct gz_answer *answer, struct gz_line *line, struct gz_subscription *sub, uint64_t number,
                  struct gz_bytes *text) {
    uint64_t last;
    memcpy(answer->name, line->name, 16);
    if (!gz_next_entries(line, sub, number, &last, text)) {
        gz_free_bytes(text), say(answer, GZ_TROUBLE, text, "the source is out of memory");
    } else if (last == number) {
        answer->kind = GZ_NOTHING;
    } else {
        answer->kind = GZ_ENTRIES, answer->first = number + 1, answer->last = last;
    }
}

static void go_on(struct gz_answer *answer, struct gz_peer *peer, enum gz_at at, const struct gz_line *line) {
    answer->kind = GZ_GO_ON, memcpy(answer->name, line->name, 16);
    peer->at = at, peer->cursor = 0;
}

static void say_copy(struct gz_answer *answer, const struct gz_shared *it, const unsigned char name[16],
                     struct gz_bytes *text) {
    static const unsigned char none[16];
    bool has_name = !gz_same_name(name, none);
    say(answer, GZ_COPY, text, has_name ? "the source has another broker since: " : "the file has no place yet");
    if (has_name) gz_append(text, it->reason, strlen(it->reason));
}

static void answer_peer(struct gz_shared *it, struct gz_peer *peer, const struct gz_place *at, struct gz_answer *answer,
                        struct gz_bytes *text) {
    struct gz_line *now = it->now, *old = it->old;
    peer->cursor = at->front, peer->asked = gz_clock(), peer->is_copying = false;
    if (it->is_pending && gz_same_place(&it->pending, at)) {
        answer->kind = GZ_NOTHING, peer->at = GZ_AT_NOW;
    } else if (now->has_equal && gz_same_place(&now->equal, at)) {
        go_on(answer, peer, GZ_AT_NOW, now);
    } else if (old && old->has_equal && gz_same_place(&old->equal, at)) {
        go_on(answer, peer, GZ_AT_OLD, old);
    } else if (gz_same_name(at->name, now->name) && at->front <= now->front) {
        peer->at = GZ_AT_NOW, serve(answer, now, &peer->now, at->front, text);
    } else if (old && gz_same_name(at->name, old->name) && at->front < old->front) {
        peer->at = GZ_AT_OLD, serve(answer, old, &peer->old, at->front, text);
    } else {
        say_copy(answer, it, at->name, text);
        /* its snapshot will stand in the present line */
        peer->at = GZ_AT_NOW, peer->is_copying = true;
    }
}

/* Whether others wrote since the source's last commit, by the counter of commits. The next number is the pending commit,
 * or, if that is refused now, somebody else's: this is settled as soon as the writer has the lock. */
static void look_at_counter(const struct gz_shared *it, uint32_t commits, struct gz_answer *answer, bool *is_settled) {
    bool is_own = commits == it->commits;
    *is_settled = is_own || !it->is_pending || commits != it->pending_commits;
    answer->is_foreign = !is_own && *is_settled;
}

bool gz_decide_answer(struct gz_source *s, const struct gz_request *asked, struct gz_answer *answer, struct gz_bytes *text) {
    struct gz_shared *it = &s->shared;
    bool is_settled;
    *answer = (struct gz_answer){0};
    pthread_mutex_lock(&it->lock);
    look_at_counter(it, gz_commits(&s->watch), answer, &is_settled);
    struct gz_peer *peer = find_peer(it, asked->id);
    answer->front = it->now->front;
    if (!peer) say(answer, GZ_TROUBLE, text, "the source is out of memory");
    else if (it->is_broken) say(answer, GZ_TROUBLE, text, "the source had no memory for the last transaction");
    else answer_peer(it, peer, &asked->at, answer, text);
    if (peer && peer->at == GZ_AT_OLD) answer->front += it->old->front;
    drop_old(it);
    if (answer->kind == GZ_NOTHING) it->has_waiting = true;
    pthread_mutex_unlock(&it->lock);
    if (text->failed) gz_free_bytes(text), answer->kind = GZ_TROUBLE;
    answer->len = text->len;
    return is_settled;
}
