/* Stands in front of the C library's malloc and its like. Preloaded with COUNT_TELL set, it tells on exit what is in use. */
#include "count.h"

#include <errno.h>
#include <malloc.h>
#include <stdio.h>
#include <stdlib.h>
#include <sys/syscall.h>
#include <unistd.h>

size_t in_use, most_in_use;
unsigned long asked, refused_at;

extern void *__libc_malloc(size_t);
extern void *__libc_calloc(size_t, size_t);
extern void *__libc_realloc(void *, size_t);
extern void *__libc_memalign(size_t, size_t);
extern void __libc_free(void *);

static int refused(void) { return ++asked == refused_at; }

static void *counted(void *p) {
    in_use += malloc_usable_size(p);
    if (in_use > most_in_use) most_in_use = in_use;
    return p;
}

void *malloc(size_t n) { return refused() ? NULL : counted(__libc_malloc(n)); }
void *calloc(size_t n, size_t m) { return refused() ? NULL : counted(__libc_calloc(n, m)); }
void *aligned_alloc(size_t a, size_t n) { return refused() ? NULL : counted(__libc_memalign(a, n)); }

int posix_memalign(void **p, size_t a, size_t n) {
    void *given = refused() ? NULL : counted(__libc_memalign(a, n));
    if (given) *p = given;
    return given ? 0 : ENOMEM;
}

void *realloc(void *p, size_t n) {
    if (refused()) return NULL;
    size_t before = malloc_usable_size(p);
    void *given = __libc_realloc(p, n);
    if (given || n == 0) in_use -= before;
    return counted(given);
}

void free(void *p) {
    in_use -= malloc_usable_size(p);
    __libc_free(p);
}

static void tell(void) {
    if (getenv("COUNT_TELL")) fprintf(stderr, "in use %zu, at most %zu, after %lu allocations\n", in_use, most_in_use, asked);
}

__attribute__((destructor)) static void ended(void) { tell(); }

/* A program with threads ends by this, which runs no destructor. */
void _exit(int status) {
    tell();
    for (;;) syscall(SYS_exit_group, status);
}
