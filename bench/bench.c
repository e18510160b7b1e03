/* Compares the library with SQLite's session functions on the same changesets, and prints one table.
 * SQLite is measured twice: as it comes, and lean, without its memory statistics and its locks. Each figure is of
 * five runs of each of the three, in turn, after one run of each that isn't counted. */
#include "inputs.h"
#include "jobs.h"

#include <malloc.h>
#include <stdio.h>
#include <stdlib.h>
#include <string.h>
#include <sys/wait.h>
#include <time.h>
#include <unistd.h>

enum { RUNS = 5 };
enum side { OURS, SQLITE, LEAN, SIDES };

/* a text may have so many bytes */
static const size_t MOST_BYTES = 16777216;
static const size_t USUAL_BYTES = 15000000;
/* each of the texts that are combined */
static const size_t COMBINED_BYTES = 1000000;
/* more changes than a text has room for */
static const long MANY = 1000000000;

/* makes an input of at most so many changes and bytes */
typedef struct input input_of(enum rows rows, long changes, size_t limit);

/* the seconds of each run */
struct measured {
    double seconds[SIDES][RUNS];
};

/* the processor time of this program so far, in seconds: other work on the machine disturbs it less than the clock */
static double now(void) {
    struct timespec time;
    clock_gettime(CLOCK_PROCESS_CPUTIME_ID, &time);
    return (double)time.tv_sec + (double)time.tv_nsec * 1e-9;
}

/* the seconds of one call, by the mean of as many */
static double seconds(job *job, const struct input *input, int calls) {
    double start = now();
    for (int call = 0; call < calls; call++) job(input);
    return (now() - start) / calls;
}

static int by_size(const void *one, const void *other) {
    double a = *(const double *)one, b = *(const double *)other;
    return (a > b) - (a < b);
}

/* each side's runs sorted, the quickest first */
static struct measured measure(job *ours, job *sqlite, const struct input *input, int calls) {
    struct measured times;
    for (int run = -1; run < RUNS; run++) {
        for (int side = OURS; side < SIDES; side++) {
            configure_sqlite(side == LEAN);
            double took = seconds(side == OURS ? ours : sqlite, input, run < 0 ? 1 : calls);
            if (run >= 0) times.seconds[side][run] = took;
        }
    }
    for (int side = OURS; side < SIDES; side++) qsort(times.seconds[side], RUNS, sizeof(double), by_size);
    return times;
}

/* A row of the table: `amount` for each second, by the median and the slowest of the runs. */
static void print_row(const char *job, const char *input, double amount, const struct measured *times) {
    double ours = times->seconds[OURS][RUNS / 2];
    printf("| %s | %s ", job, input);
    for (int side = OURS; side < SIDES; side++) {
        double median = times->seconds[side][RUNS / 2];
        printf("| %.0f (%.0f) ", amount / median, amount / times->seconds[side][RUNS - 1]);
        if (side != OURS) printf("| %.2f ", median / ours);
    }
    printf("|\n");
    fflush(stdout);
}

/* Begins the rows of one input in a process of their own, and waits for it. Returns 1 in that process, which ends by
 * `exit`, and 0 in the one that waited. What other inputs leave in the heap decides where the buffers lie, which made up
 * to a fifth of the time on 4 KB blobs. */
static int apart_from_others(void) {
    fflush(stdout);
    pid_t rows = fork();
    if (rows == 0) return 1;
    int status = 1;
    if (rows < 0 || waitpid(rows, &status, 0) != rows || status != 0) {
        fprintf(stderr, "bench: a row was not measured\n");
        exit(1);
    }
    return 0;
}

static const char *const READ = "read every change";
static const char *const BUILD = "read, build and keep every value";
static const char *const WRITE = "read and write again";

/* all jobs, in megabytes a second */
static void compare_bytes(enum rows rows, const char *what) {
    if (!apart_from_others()) return;
    struct input input = make_input(rows, MANY, USUAL_BYTES);
    char name[100];
    snprintf(name, sizeof name, "%s, %ld changes", what, input.changes);
    struct measured reads = measure(ours_reads, sqlite_reads, &input, 1);
    print_row(READ, name, (double)input.len / 1e6, &reads);
    struct measured builds = measure(ours_builds, sqlite_reads, &input, 1);
    print_row(BUILD, name, (double)input.len / 1e6, &builds);
    struct measured writes = measure(ours_writes, sqlite_writes, &input, 1);
    print_row(WRITE, name, (double)input.len / 1e6, &writes);
    exit(0);
}

/* reading and writing, in thousands of changes a second, on at most so many changes */
static void compare_changes(long changes) {
    if (!apart_from_others()) return;
    struct input input = make_input(INTEGERS, changes, MOST_BYTES);
    int calls = input.changes < 100000 ? (int)(100000 / input.changes) : 1;
    char name[100];
    snprintf(name, sizeof name, "integer rows, %ld changes", input.changes);
    struct measured reads = measure(ours_reads, sqlite_reads, &input, calls);
    print_row(READ, name, (double)input.changes / 1e3, &reads);
    struct measured writes = measure(ours_writes, sqlite_writes, &input, calls);
    print_row(WRITE, name, (double)input.changes / 1e3, &writes);
    exit(0);
}

/* Inverting mixed changes, or INSERTs alone, at most so many. Figures are megabytes a second, or thousands of changes. */
static void compare_inverting(input_of *make, enum rows rows, const char *what, long changes, int by_changes) {
    if (!apart_from_others()) return;
    struct input input = make(rows, changes, by_changes ? MOST_BYTES : USUAL_BYTES);
    check_inverted(&input);
    int calls = by_changes && input.changes < 100000 ? (int)(100000 / input.changes) : 1;
    char name[100];
    snprintf(name, sizeof name, "%s, %ld changes", what, input.changes);
    struct measured inverts = measure(ours_inverts, sqlite_inverts, &input, calls);
    print_row("invert", name, by_changes ? (double)input.changes / 1e3 : (double)input.len / 1e6, &inverts);
    exit(0);
}

static void print_job_head(const char *unit) {
    printf("| job | input | ours, %s | SQLite's, %s | ratio | lean SQLite's, %s | ratio |\n"
           "|---|---|--:|--:|--:|--:|--:|\n",
           unit, unit, unit);
}

static void free_combined(struct input *inputs) {
    for (int i = 0; i <= COMBINED; i++) free(inputs[i].bytes);
}

/* Combining, on texts of at most so many changes and bytes. Figures are megabytes a second, or thousands of changes. */
static void compare_combining(enum rows rows, const char *what, enum keys keys, long changes, int by_changes) {
    if (!apart_from_others()) return;
    struct input inputs[COMBINED + 1];
    make_combined(inputs, rows, keys, changes, by_changes ? MOST_BYTES : COMBINED_BYTES);
    check_combined(inputs);
    double bytes = 0;
    for (int i = 0; i < COMBINED; i++) bytes += (double)inputs[i].len;
    long all = COMBINED * inputs[0].changes;
    int calls = all < 100000 && by_changes ? (int)(100000 / all) : 1;
    char name[100];
    snprintf(name, sizeof name, "%s, %d times %ld changes", what, COMBINED, inputs[0].changes);
    struct measured combines = measure(ours_combines, sqlite_combines, inputs, calls);
    static const char *const jobs[] = {"combine, the same rows", "combine, rows apart", "combine, rows apart, recorded",
                                       "combine, rows apart, in no order"};
    print_row(jobs[keys], name,
              by_changes ? (double)all / 1e3 : bytes / 1e6, &combines);
    exit(0);
}

static void compare_all_combining(void) {
    print_job_head("MB/s");
    for (int keys = HOT; keys <= SCATTERED; keys++) {
        compare_combining(INTEGERS, "integer rows", (enum keys)keys, MANY, 0);
        compare_combining(TEXTS, "100-byte text rows", (enum keys)keys, MANY, 0);
        compare_combining(BLOBS, "4 KB blob rows", (enum keys)keys, MANY, 0);
    }
    printf("\n");
    print_job_head("1,000 changes/s");
    for (int keys = HOT; keys <= SCATTERED; keys++)
        for (long changes = 1000; changes <= 1000000; changes *= 10)
            compare_combining(INTEGERS, "integer rows", (enum keys)keys, changes / COMBINED, 1);
}

static void compare_all_inverting(void) {
    print_job_head("MB/s");
    compare_inverting(make_input, INTEGERS, "integer rows", MANY, 0);
    compare_inverting(make_input, TEXTS, "100-byte text rows", MANY, 0);
    compare_inverting(make_input, BLOBS, "4 KB blob rows", MANY, 0);
    compare_inverting(make_inserts, INTEGERS, "INSERTs of integer rows", MANY, 0);
    compare_inverting(make_inserts, TEXTS, "INSERTs of 100-byte text rows", MANY, 0);
    compare_inverting(make_inserts, BLOBS, "INSERTs of 4 KB blob rows", MANY, 0);
    printf("\n");
    print_job_head("1,000 changes/s");
    for (long changes = 1000; changes <= 100000; changes *= 10)
        compare_inverting(make_input, INTEGERS, "integer rows", changes, 1);
}

static void print_head(const char *unit) {
    printf("| job (SQLite writes again by sqlite3changeset_invert twice, the nearest that it has) | input "
           "| ours, %s | SQLite's, %s | ratio | lean SQLite's, %s | ratio |\n|---|---|--:|--:|--:|--:|--:|\n",
           unit, unit, unit);
}

/* What a job alone works on: one text, of mixed changes or of INSERTs, or texts to combine, by their keys. */
enum { MIXED = -2, INSERTS = -1 };
static const struct alone {
    const char *name;
    job *ours, *sqlite;
    int input;
} jobs_alone[] = {
    {"read", ours_reads, sqlite_reads, MIXED},        {"build", ours_builds, sqlite_reads, MIXED},
    {"write", ours_writes, sqlite_writes, MIXED},     {"invert", ours_inverts, sqlite_inverts, MIXED},
    {"inserts", ours_inverts, sqlite_inverts, INSERTS}, {"hot", ours_combines, sqlite_combines, HOT},
    {"apart", ours_combines, sqlite_combines, APART}, {"recorded", ours_combines, sqlite_combines, RECORDED},
    {"scattered", ours_combines, sqlite_combines, SCATTERED},
};

/* Runs one job, `ours`, `sqlite` or `lean`, with `integers`, `texts` or `blobs`: once, for a profiler, or `runs` times.
 * Then it prints the least time, in milliseconds. */
static int run_alone(const char *who, const char *what, const char *which, int runs) {
    int ours = strcmp(who, "ours") == 0, lean = strcmp(who, "lean") == 0;
    const struct alone *alone = jobs_alone, *end = alone + sizeof jobs_alone / sizeof *alone;
    while (alone < end && strcmp(what, alone->name)) alone++;
    if (alone == end || (!ours && !lean && strcmp(who, "sqlite")) || !strchr("itb", *which))
        return fprintf(stderr, "bench: no job is called `%s %s %s`\n", who, what, which), 2;
    enum rows rows = *which == 'i' ? INTEGERS : *which == 't' ? TEXTS : BLOBS;
    struct input inputs[COMBINED + 1];
    if (alone->input >= 0) make_combined(inputs, rows, (enum keys)alone->input, MANY, COMBINED_BYTES);
    else *inputs = (alone->input == INSERTS ? make_inserts : make_input)(rows, MANY, USUAL_BYTES);
    configure_sqlite(lean);
    double least = seconds(ours ? alone->ours : alone->sqlite, inputs, 1);
    for (int run = 1; run < runs; run++) {
        double took = seconds(ours ? alone->ours : alone->sqlite, inputs, 1);
        if (took < least) least = took;
    }
    if (runs > 1) printf("%.3f\n", least * 1e3);
    if (alone->input >= 0) free_combined(inputs);
    else free(inputs->bytes);
    return 0;
}

int main(int count, char **words) {
    /* what is given back stays with the process, or else the kernel's new pages cost more than either library */
    mallopt(M_MMAP_MAX, 0);
    mallopt(M_TRIM_THRESHOLD, -1);
    if (count == 4 || count == 5) return run_alone(words[1], words[2], words[3], count == 5 ? atoi(words[4]) : 1);
    if (count == 2 && strcmp(words[1], "combine") == 0) return compare_all_combining(), 0;
    if (count == 2 && strcmp(words[1], "invert") == 0) return compare_all_inverting(), 0;
    if (count > 1) return fprintf(stderr, "bench [combine | invert | ours|sqlite|lean JOB ROWS [RUNS]]\n"), 2;
    print_head("MB/s");
    compare_bytes(INTEGERS, "integer rows");
    compare_bytes(TEXTS, "100-byte text rows");
    compare_bytes(BLOBS, "4 KB blob rows");
    printf("\n");
    print_head("1,000 changes/s");
    compare_changes(1000);
    compare_changes(10000);
    compare_changes(100000);
    compare_changes(MANY);
    printf("\n");
    compare_all_inverting();
    printf("\n");
    compare_all_combining();
    return 0;
}
