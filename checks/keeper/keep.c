/* ./keep FILE DATABASE TIMEOUT: a replica that checks/keeper.py conducts. It prints a line for each step: when it began, in
 * milliseconds of the monotonic clock, its code, the broker's name, the number, the lag, the copies, and the words. It ends
 * when its input ends. */
#include <gubzelk.h>
#include <inttypes.h>
#include <poll.h>
#include <stdio.h>
#include <stdlib.h>
#include <time.h>

static int64_t now(void) {
    struct timespec at;
    clock_gettime(CLOCK_MONOTONIC, &at);
    return (int64_t)at.tv_sec * 1000 + at.tv_nsec / 1000000;
}

int main(int count, char **words) {
    gz_replica *r;
    if (count != 4) return 2;
    int code = gz_replica_open(&r, words[1], words[2], NULL);
    if (code) return fprintf(stderr, "%s: gz_replica_open: %s\n", words[1], gz_message(code)), 1;
    struct pollfd input = {0, POLLIN, 0};
    while (poll(&input, 1, 0) == 0 && code >= 0) {
        struct gz_replica_status it;
        int64_t begun = now();
        code = gz_replica_step(r, atoi(words[3]));
        gz_replica_status(r, &it);
        printf("%" PRId64 " %d ", begun, code);
        for (int i = 0; i < 16; i++) printf("%02x", it.name[i]);
        printf(" %" PRIu64 " %" PRId64 " %" PRIu64 " %s\n", it.number, (int64_t)it.lag, it.copies,
            *it.error ? it.error : code == GZ_OK ? it.reason : gz_message(code));
        fflush(stdout);
    }
    gz_replica_close(r);
    return code < 0;
}
