/* What calls.c measures, in this process or through pipes. Both do the same work, and end the program where an answer
 * is not the expected one. */
#ifndef JOBS_H
#define JOBS_H

#include <stdint.h>

/* entries in a delivery */
enum { BATCH = 16 };

/* The name of the program in its messages, and its end. */
void fail(const char *why);

/* the INSERT of (key, 5) into t(a INTEGER PRIMARY KEY, b INTEGER) */
enum { TEXT = 26 };
void insert_of(uint64_t key, unsigned char text[TEXT]);

/* nanoseconds of a clock: the processor's time of this thread, or real time */
double processor_time(void), real_time(void);

/* The jobs. Entries are numbered from 1 over all runs, and `first` is the first one of this run. */
struct jobs {
    /* turns that find nothing, and how many changesets wait */
    void (*idle)(long count), (*left)(long count);
    /* feed, end, send and turn */
    void (*publish)(uint64_t first, long count);
    /* the text of each entry */
    void (*read)(uint64_t first, long count);
    /* take, accept and ack of deliveries of BATCH entries */
    void (*follow)(uint64_t first, long count);
    double (*time)(void);
    /* how many entries a run has, and how often the first two jobs are done in it */
    long entries, idles;
};

struct jobs jobs_by_calls(void);
/* `program` is rb_run, which is started */
struct jobs jobs_by_pipe(const char *program);

#endif
