/* What a source says of itself. */
#include "source.h"
#include <string.h>

int gz_source_status(gz_source *s, struct gz_source_status *status) {
    struct gz_shared *shared = &s->shared;
    memset(status, 0, sizeof *status);
    pthread_mutex_lock(&shared->lock);
    memcpy(status->name, shared->now->name, 16), status->front = shared->now->front;
    status->entries = shared->now->front, status->bytes = gz_line_bytes(shared->now), status->held = 1;
    if (shared->old) status->entries += shared->old->front, status->bytes += gz_line_bytes(shared->old), status->held = 2;
    status->replicas = shared->peers;
    pthread_mutex_unlock(&shared->lock);
    status->brokers = s->brokers, status->reason = shared->reason, status->left = s->left_count;
    return GZ_OK;
}

int gz_source_replica(gz_source *s, size_t index, struct gz_known *known) {
    struct gz_shared *shared = &s->shared;
    memset(known, 0, sizeof *known);
    pthread_mutex_lock(&shared->lock);
    bool is_there = index < shared->peers;
    if (is_there) {
        const struct gz_peer *it = &shared->peer[index];
        memcpy(known->id, it->id, 16), known->cursor = it->cursor;
        known->at = it->is_copying ? 0 : (int)it->at;
        known->lag = known->at ? shared->now->front - it->cursor : UINT64_MAX;
        if (known->at == GZ_AT_OLD) known->lag += shared->old ? shared->old->front : 0;
        known->since = (double)(gz_clock() - it->asked) / 1000;
    }
    pthread_mutex_unlock(&shared->lock);
    return is_there ? GZ_OK : GZ_IDLE;
}

int gz_source_left(gz_source *s, size_t index, struct gz_left *left) {
    if (index >= GZ_MOST_LEFT || index >= s->left_count) return GZ_IDLE;
    size_t at = (s->left_count - 1 - index) % GZ_MOST_LEFT;
    left->table = s->left[at].table ? s->left[at].table : "", left->key = s->left[at].key ? s->left[at].key : "";
    left->why = s->left[at].why ? s->left[at].why : "";
    return GZ_OK;
}
