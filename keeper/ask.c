/* A replica's side of the socket. */
#define _GNU_SOURCE
#include "replica.h"
#include <errno.h>
#include <poll.h>
#include <string.h>
#include <sys/socket.h>
#include <sys/un.h>
#include <unistd.h>

/* What a source may need for an answer beside the time that it waits for news. */
enum { GRACE = 200, RETRY = 50 };

void gz_hang_up(gz_replica *r) {
    if (r->connection >= 0) close(r->connection);
    r->connection = -1, r->is_asked = r->has_answer = false, r->head_len = 0, gz_free_bytes(&r->text);
}

static bool connect_once(gz_replica *r) {
    struct sockaddr_un at = {.sun_family = AF_UNIX};
    memcpy(at.sun_path, r->socket, strlen(r->socket) + 1);
    r->connection = socket(AF_UNIX, SOCK_STREAM | SOCK_NONBLOCK | SOCK_CLOEXEC, 0);
    if (r->connection < 0) return false;
    if (!connect(r->connection, (struct sockaddr *)&at, sizeof at)) return true;
    gz_hang_up(r);
    return false;
}

/* Connects, and tries again until `until`. */
static bool connect_until(gz_replica *r, int64_t until) {
    while (r->connection < 0 && !connect_once(r)) {
        int64_t left = until - gz_clock();
        if (left <= 0) return false;
        poll(NULL, 0, left < RETRY ? (int)left : RETRY);
    }
    return true;
}

/* Sends the request, which is shorter than any socket's buffer. */
static bool send_request(gz_replica *r, int64_t until) {
    unsigned char bytes[GZ_REQUEST_BYTES];
    int64_t wait = until - gz_clock();
    r->asked = (struct gz_request){.wait_ms = wait < 0 ? 0 : (uint32_t)wait};
    memcpy(r->asked.id, r->mark.id, 16);
    if (r->has_place && !*r->need) r->asked.at = r->mark.place;
    gz_write_request(bytes, &r->asked), r->head_len = 0, gz_free_bytes(&r->text);
    r->is_asked = send(r->connection, bytes, sizeof bytes, MSG_NOSIGNAL) == sizeof bytes;
    return r->is_asked;
}

/* Reads what is there. Returns 1 if more may come, 0 if the answer is whole, and -1 if the connection has ended or the
 * answer is none. */
static int read_some(gz_replica *r) {
    unsigned char piece[65536];
    bool in_head = r->head_len < sizeof r->head;
    size_t room = in_head ? sizeof r->head - r->head_len : r->answer.len - r->text.len;
    ssize_t some = recv(r->connection, piece, room < sizeof piece ? room : sizeof piece, 0);
    if (some < 0) return errno == EAGAIN || errno == EINTR ? 1 : -1;
    if (!some) return -1;
    if (in_head) {
        memcpy(r->head + r->head_len, piece, (size_t)some), r->head_len += (size_t)some;
        if (r->head_len == sizeof r->head && !gz_read_answer(r->head, &r->answer)) return -1;
    } else {
        gz_append(&r->text, piece, (size_t)some);
        if (r->text.failed) return -1;
    }
    return r->head_len < sizeof r->head || r->text.len < r->answer.len;
}

/* Waits for the rest of the answer. Returns as read_some. */
static int read_until(gz_replica *r, int64_t until) {
    for (;;) {
        int64_t left = until - gz_clock();
        struct pollfd file = {r->connection, POLLIN, 0};
        int found = poll(&file, 1, left < 0 ? 0 : (int)left);
        if (found == 0) return 1;
        int more = found < 0 ? 1 : read_some(r);
        if (more <= 0) return more;
    }
}

int gz_ask(gz_replica *r, int timeout_ms) {
    int64_t until = gz_clock() + timeout_ms;
    if (r->has_answer) return GZ_OK;
    for (int tries = 0; tries < 2; tries++) {
        if (!connect_until(r, until)) return GZ_AWAY;
        if (!r->is_asked && !send_request(r, until)) {
            gz_hang_up(r);
            continue;
        }
        int more = read_until(r, until + GRACE);
        if (more > 0) return gz_lags(r, "the source doesn't answer");
        if (!more) return r->is_asked = false, r->has_answer = true, GZ_OK;
        bool had_memory = !r->text.failed;
        gz_hang_up(r);
        if (!had_memory) return GZ_NO_MEMORY;
    }
    return GZ_AWAY;
}
