/* ./replica FILE DATABASE [until-equal]
 * Keeps a file a copy of a database that ./write runs on, until it is interrupted; with `until-equal`, until it has
 * everything. It says what happens to the file, and never more than once a second the same.
 *     gcc replica.c -I keeper $(sh keeper/build.sh --libs) -o replica        docs/REPLICATE.md */
#include <gubzelk.h>
#include <signal.h>
#include <stdio.h>
#include <string.h>

static volatile sig_atomic_t ends;

static void end(int number) { ends = number; }

/* Says what is new in the status. */
static void say(gz_replica *replica, const char *file, int code) {
    static uint64_t copies;
    static int last;
    struct gz_replica_status status;
    gz_replica_status(replica, &status);
    if (status.copies != copies) printf("%s becomes a copy: %s\n", file, status.reason);
    if (code != last && code == GZ_LAGS) printf("%s lags: %s\n", file, status.error);
    if (code != last && code == GZ_AWAY) printf("%s: no source listens\n", file);
    if (code != last && code == GZ_IDLE)
        printf("%s has everything up to entry %llu\n", file, (unsigned long long)status.number);
    copies = status.copies, last = code, fflush(stdout);
}

int main(int count, char **words) {
    gz_replica *replica;
    if (count != 3 && count != 4) return fputs("usage: ./replica FILE DATABASE [until-equal]\n", stderr), 2;
    signal(SIGINT, end), signal(SIGTERM, end);
    int code = gz_replica_open(&replica, words[1], words[2], NULL);
    while (code >= 0 && !ends && !(count == 4 && code == GZ_IDLE)) {
        code = gz_replica_step(replica, 1000);
        if (code >= 0) say(replica, words[1], code);
    }
    gz_replica_close(replica);
    return code < 0 ? fprintf(stderr, "replica: %s: %s\n", words[1], gz_message(code)), 1 : 0;
}
