/* The counters of count.h where the linker wraps malloc and its like (-Wl,--wrap=malloc, --wrap=realloc, --wrap=free).
 * So the allocator of AddressSanitizer or of valgrind stands below them, which count.c would replace. */
#include "count.h"

#include <malloc.h>

size_t in_use, most_in_use;
unsigned long asked, refused_at;

extern void *__real_malloc(size_t);
extern void *__real_realloc(void *, size_t);
extern void __real_free(void *);

static int refused(void) { return ++asked == refused_at; }

static void *counted(void *p) {
    in_use += malloc_usable_size(p);
    if (in_use > most_in_use) most_in_use = in_use;
    return p;
}

void *__wrap_malloc(size_t n) { return refused() ? NULL : counted(__real_malloc(n)); }

void *__wrap_realloc(void *p, size_t n) {
    if (refused()) return NULL;
    size_t before = malloc_usable_size(p);
    void *given = __real_realloc(p, n);
    if (given || n == 0) in_use -= before;
    return counted(given);
}

void __wrap_free(void *p) {
    in_use -= malloc_usable_size(p);
    __real_free(p);
}
