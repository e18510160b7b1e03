/* Refuses allocations of the keeper, of the broker and of SQLite. A program is linked with --wrap=malloc and the like, which
 * stand between the static libraries and the C library. SQLite has hooks. */
#include "memory.h"
#include <pthread.h>
#include <sqlite3.h>
#include <stddef.h>
#include <string.h>

extern void *__real_malloc(size_t), *__real_calloc(size_t, size_t), *__real_realloc(void *, size_t);
extern void __real_free(void *);

static pthread_t caller;
static pthread_mutex_t lock = PTHREAD_MUTEX_INITIALIZER;
static sqlite3_mem_methods sqlite;
static long asked[2], refused_at, blocks;
static enum memory_thread refused_thread;
static bool lasts, pauses, was_refused;

static bool refuses(void) {
    pthread_mutex_lock(&lock);
    enum memory_thread thread = pthread_equal(pthread_self(), caller) ? MEMORY_CALLER : MEMORY_SERVICE;
    bool is_refused = false;
    if (!pauses) {
        asked[thread]++;
        is_refused = refused_at && (thread == refused_thread ? asked[thread] == refused_at : false);
        is_refused |= refused_at && lasts && asked[refused_thread] >= refused_at;
        was_refused |= is_refused;
    }
    pthread_mutex_unlock(&lock);
    return is_refused;
}

static void *counted(void *given) {
    if (given) __atomic_add_fetch(&blocks, 1, __ATOMIC_RELAXED);
    return given;
}

static void freed(const void *block) {
    if (block) __atomic_sub_fetch(&blocks, 1, __ATOMIC_RELAXED);
}

void *__wrap_malloc(size_t len) { return refuses() ? NULL : counted(__real_malloc(len)); }
void *__wrap_calloc(size_t count, size_t len) { return refuses() ? NULL : counted(__real_calloc(count, len)); }
void __wrap_free(void *block) { freed(block), __real_free(block); }

void *__wrap_realloc(void *block, size_t len) {
    if (refuses()) return NULL;
    void *given = __real_realloc(block, len);
    return block ? given : counted(given);
}

char *__wrap_strdup(const char *text) {
    size_t len = strlen(text) + 1;
    char *copy = __wrap_malloc(len);
    return copy ? memcpy(copy, text, len) : NULL;
}

static void *sqlite_malloc(int len) { return refuses() ? NULL : counted(sqlite.xMalloc(len)); }
static void *sqlite_realloc(void *block, int len) { return refuses() ? NULL : sqlite.xRealloc(block, len); }
static void sqlite_free(void *block) { freed(block), sqlite.xFree(block); }

void memory_begin(void) {
    caller = pthread_self();
    sqlite3_config(SQLITE_CONFIG_GETMALLOC, &sqlite);
    sqlite3_mem_methods ours = sqlite;
    ours.xMalloc = sqlite_malloc, ours.xRealloc = sqlite_realloc, ours.xFree = sqlite_free;
    sqlite3_config(SQLITE_CONFIG_MALLOC, &ours);
}

void memory_refuse(enum memory_thread thread, long number, bool lasting) {
    pthread_mutex_lock(&lock);
    asked[0] = asked[1] = 0, refused_thread = thread, refused_at = number, lasts = lasting, was_refused = pauses = false;
    pthread_mutex_unlock(&lock);
}

void memory_comes_back(void) {
    pthread_mutex_lock(&lock);
    refused_at = 0;
    pthread_mutex_unlock(&lock);
}

static void set_pauses(bool it) {
    pthread_mutex_lock(&lock);
    pauses = it;
    pthread_mutex_unlock(&lock);
}

void memory_pause(void) { set_pauses(true); }
void memory_go_on(void) { set_pauses(false); }

long memory_asked(enum memory_thread thread) {
    pthread_mutex_lock(&lock);
    long count = asked[thread];
    pthread_mutex_unlock(&lock);
    return count;
}

bool memory_was_refused(void) { return was_refused; }
long memory_blocks(void) { return __atomic_load_n(&blocks, __ATOMIC_RELAXED); }
