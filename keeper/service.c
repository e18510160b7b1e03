/* The service thread of a source: it listens on a Unix-domain socket, and answers replicas. */
#define _GNU_SOURCE
#include "answer.h"
#include <errno.h>
#include <poll.h>
#include <signal.h>
#include <stdlib.h>
#include <string.h>
#include <sys/eventfd.h>
#include <sys/socket.h>
#include <sys/stat.h>
#include <sys/un.h>
#include <unistd.h>

/* A client that takes nothing for STALL milliseconds is closed: its memory is freed, and it may connect again. */
enum { MOST_CLIENTS = 1000, STALL = 60000 };

/* A replica that is connected. It reads a request, waits for news, or gets an answer. News that comes in the millisecond of
 * the request waits for the next: where many small transactions are committed, an answer has some of them. */
struct client {
    int file;
    unsigned char in[GZ_REQUEST_BYTES];
    size_t read, written;
    bool waits, has_news;
    struct gz_request asked;
    int64_t begun, deadline, moved;
    struct gz_bytes out;
};

struct gz_service {
    struct gz_source *source;
    pthread_t thread;
    int listener, wake;
    struct client client[MOST_CLIENTS];
    int clients;
    struct pollfd polled[MOST_CLIENTS + 2];
    bool ends;
};

static void close_client(struct gz_service *it, int at) {
    close(it->client[at].file), gz_free_bytes(&it->client[at].out);
    it->client[at] = it->client[--it->clients];
}

/* Writes what the socket takes. Returns whether the client stays. */
static bool write_out(struct client *it) {
    while (it->written < it->out.len) {
        ssize_t some = send(it->file, it->out.at + it->written, it->out.len - it->written, MSG_NOSIGNAL | MSG_DONTWAIT);
        if (some < 0) return errno == EAGAIN || errno == EWOULDBLOCK || errno == EINTR;
        it->written += (size_t)some, it->moved = gz_clock();
    }
    gz_free_bytes(&it->out), it->written = 0;
    return true;
}

/* Answers a client that waits, if there is news or its time is over. Returns whether the client stays. */
static bool answer_client(struct gz_service *it, struct client *to) {
    unsigned char head[GZ_ANSWER_HEAD];
    struct gz_answer answer;
    struct gz_bytes text = {0};
    bool is_settled = gz_decide_answer(it->source, &to->asked, &answer, &text);
    to->has_news = false;
    if (answer.kind == GZ_NOTHING && (!is_settled || gz_clock() < to->deadline)) return true;
    gz_write_answer(head, &answer);
    to->waits = false, to->moved = gz_clock(), to->written = 0;
    gz_append(&to->out, head, sizeof head), gz_append(&to->out, text.at, text.len), gz_free_bytes(&text);
    return !to->out.failed && write_out(to);
}

/* Reads a request. Returns whether the client stays. */
static bool read_in(struct gz_service *it, struct client *from) {
    if (from->waits || from->out.len) {
        /* nobody speaks now: it is an end, or no replica */
        return recv(from->file, from->in, 1, MSG_DONTWAIT) < 0 && (errno == EAGAIN || errno == EINTR);
    }
    ssize_t some = recv(from->file, from->in + from->read, sizeof from->in - from->read, MSG_DONTWAIT);
    if (some < 0) return errno == EAGAIN || errno == EINTR;
    if (!some) return false;
    from->read += (size_t)some, from->moved = gz_clock();
    if (from->read < sizeof from->in) return true;
    from->read = 0;
    if (!gz_read_request(from->in, &from->asked)) return false;
    from->waits = true, from->begun = gz_clock();
    from->deadline = from->begun + (from->asked.wait_ms > 600000 ? 600000 : from->asked.wait_ms);
    return answer_client(it, from);
}

static void accept_clients(struct gz_service *it) {
    for (int file; it->clients < MOST_CLIENTS; it->clients++) {
        file = accept4(it->listener, NULL, NULL, SOCK_NONBLOCK | SOCK_CLOEXEC);
        if (file < 0) return;
        it->client[it->clients] = (struct client){.file = file, .moved = gz_clock()};
    }
}

/* How long poll may wait, in milliseconds. Who waits longer than he wanted waits for a commit to be settled. */
static int next_deadline(const struct gz_service *it) {
    int64_t now = gz_clock(), next = now + STALL;
    for (int i = 0; i < it->clients; i++) {
        const struct client *client = &it->client[i];
        int64_t due = client->has_news ? client->begun + 1 : client->deadline;
        if (client->waits && due < next) next = due;
    }
    return next <= now ? 1 : (int)(next - now);
}

/* Serves one client. Returns whether it stays. */
static bool serve_client(struct gz_service *it, struct client *to, short events, bool has_news) {
    if ((events & (POLLERR | POLLNVAL)) || (events & POLLHUP && !(events & POLLIN))) return false;
    if (events & POLLIN && !read_in(it, to)) return false;
    if (events & POLLOUT && to->out.len && !write_out(to)) return false;
    to->has_news |= has_news;
    int64_t now = gz_clock();
    bool is_due = (to->has_news && now > to->begun) || now >= to->deadline;
    if (to->waits && is_due && !answer_client(it, to)) return false;
    bool is_under_way = to->out.len || to->read;
    return !is_under_way || gz_clock() - to->moved < STALL;
}

static void wait_and_serve(struct gz_service *it) {
    struct pollfd *polled = it->polled;
    uint64_t news = 0;
    for (int i = 0; i < it->clients; i++)
        polled[i] = (struct pollfd){it->client[i].file, POLLIN | (it->client[i].out.len ? POLLOUT : 0), 0};
    int count = it->clients;
    polled[count] = (struct pollfd){it->wake, POLLIN, 0};
    polled[count + 1] = (struct pollfd){count < MOST_CLIENTS ? it->listener : -1, POLLIN, 0};
    if (poll(polled, (nfds_t)count + 2, next_deadline(it)) < 0) return;
    bool has_news = polled[count].revents && read(it->wake, &news, sizeof news) == sizeof news;
    /* from the last one, since a client that ends is replaced by the last */
    for (int i = count - 1; i >= 0; i--)
        if (!serve_client(it, &it->client[i], polled[i].revents, has_news)) close_client(it, i);
    if (polled[count + 1].revents) accept_clients(it);
}

static void *run_service(void *context) {
    struct gz_service *it = context;
    while (!__atomic_load_n(&it->ends, __ATOMIC_ACQUIRE)) wait_and_serve(it);
    return NULL;
}

static int make_socket(struct sockaddr_un *at, const char *path) {
    *at = (struct sockaddr_un){.sun_family = AF_UNIX};
    memcpy(at->sun_path, path, strlen(path) + 1);
    return socket(AF_UNIX, SOCK_STREAM | SOCK_NONBLOCK | SOCK_CLOEXEC, 0);
}

/* Removes the socket of a process that has ended. Returns a code. */
static int remove_stale(const char *path) {
    struct sockaddr_un at;
    struct stat about;
    if (lstat(path, &about)) return errno == ENOENT ? GZ_OK : GZ_SYSTEM;
    if (!S_ISSOCK(about.st_mode)) return GZ_SYSTEM;
    int file = make_socket(&at, path);
    if (file < 0) return GZ_SYSTEM;
    bool is_live = !connect(file, (struct sockaddr *)&at, sizeof at) || errno == EAGAIN;
    close(file);
    return is_live ? GZ_TAKEN : unlink(path) && errno != ENOENT ? GZ_SYSTEM : GZ_OK;
}

static int listen_at(struct gz_service *it, const char *path) {
    struct sockaddr_un at;
    int code = remove_stale(path);
    if (code) return code;
    it->listener = make_socket(&at, path);
    if (it->listener < 0) return GZ_SYSTEM;
    if (bind(it->listener, (struct sockaddr *)&at, sizeof at)) return GZ_SYSTEM;
    return listen(it->listener, 128) ? GZ_SYSTEM : GZ_OK;
}

/* Starts the thread, with all signals blocked: they are the program's. */
static int start_thread(struct gz_service *it) {
    sigset_t all, before;
    sigfillset(&all), pthread_sigmask(SIG_SETMASK, &all, &before);
    int bad = pthread_create(&it->thread, NULL, run_service, it);
    pthread_sigmask(SIG_SETMASK, &before, NULL);
    return bad ? GZ_SYSTEM : GZ_OK;
}

static void free_service(struct gz_service *it) {
    while (it->clients) close_client(it, 0);
    if (it->listener >= 0) close(it->listener);
    if (it->wake >= 0) close(it->wake);
    free(it);
}

int gz_start_service(struct gz_source *s) {
    struct gz_service *it = calloc(1, sizeof *it);
    if (!it) return GZ_NO_MEMORY;
    it->source = s, it->listener = -1, it->wake = eventfd(0, EFD_NONBLOCK | EFD_CLOEXEC);
    int code = it->wake < 0 ? GZ_SYSTEM : listen_at(it, s->socket);
    if (!code) code = start_thread(it);
    if (code) free_service(it);
    else s->service = it;
    return code;
}

void gz_stop_service(struct gz_source *s) {
    if (!s->service) return;
    __atomic_store_n(&s->service->ends, true, __ATOMIC_RELEASE);
    gz_wake(s), pthread_join(s->service->thread, NULL), unlink(s->socket);
    free_service(s->service), s->service = NULL;
}

void gz_wake(struct gz_source *s) {
    uint64_t one = 1;
    ssize_t unused = write(s->service->wake, &one, sizeof one);
    (void)unused;
}
