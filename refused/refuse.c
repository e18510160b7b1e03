/* Refuses the allocation whose number, from 1, is in REFUSE_AT; tells on exit how many were asked for. Those of fewer than
   REFUSE_LEAST bytes aren't counted. Threads draw the numbers from one count, so each number is drawn once. Where
   REFUSE_CALLS names a file, a refusal adds a line to it: the places in the program that called for the allocation, as
   offsets in hexadecimal, the innermost first. */
#define _GNU_SOURCE
#include <dlfcn.h>
#include <errno.h>
#include <fcntl.h>
#include <link.h>
#include <stdint.h>
#include <stdio.h>
#include <stdlib.h>
#include <string.h>
#include <sys/syscall.h>
#include <sys/uio.h>
#include <unistd.h>

enum { MOST_PLACES = 200, MOST_BLOCKS = 64 };

static unsigned long asked, refused_at, least;
static int ready;

static unsigned long number(const char *name)
{
    const char *text = getenv(name);
    return text ? strtoul(text, 0, 10) : 0;
}

/* where the program itself is loaded, and its code: that of the first object */
struct code {
    uintptr_t base, begin, end;
};

static int first_object(struct dl_phdr_info *object, size_t size, void *code)
{
    struct code *it = code;
    (void)size;
    it->base = object->dlpi_addr;
    for (int i = 0; i < object->dlpi_phnum; i++) {
        const ElfW(Phdr) *part = &object->dlpi_phdr[i];
        if (part->p_type != PT_LOAD || !(part->p_flags & PF_X)) continue;
        it->begin = it->base + part->p_vaddr;
        it->end = it->begin + part->p_memsz;
    }
    return 1;
}

/* The compilers keep no frame pointers and no tables of frames. So each word of the stack counts that is a place of the
   program right behind a call. A call that has returned may have left its own, where nothing was written since. */
__attribute__((noinline)) static void note_calls(void)
{
    char line[MOST_PLACES * 18 + 1];
    const char *name = getenv("REFUSE_CALLS");
    struct code code = {0, 0, 0};
    uintptr_t block[64], from = (uintptr_t)__builtin_frame_address(0);
    int file, at = 0, places = 0;
    if (!name) return;
    dl_iterate_phdr(first_object, &code);
    for (int read = 0; read < MOST_BLOCKS && places < MOST_PLACES; read++, from += sizeof block) {
        /* what isn't stack is not read */
        struct iovec to = {block, sizeof block}, in = {(void *)from, sizeof block};
        if (process_vm_readv(getpid(), &to, 1, &in, 1, 0) != (ssize_t)sizeof block) break;
        for (size_t i = 0; i < 64 && places < MOST_PLACES; i++) {
            const unsigned char *behind = (const unsigned char *)block[i];
            if (block[i] < code.begin + 5 || block[i] >= code.end || behind[-5] != 0xe8) continue;
            at += sprintf(line + at, "%lx ", (unsigned long)(block[i] - code.base));
            places++;
        }
    }
    line[at++] = '\n';
    file = open(name, O_WRONLY | O_CREAT | O_APPEND, 0600);
    if (file < 0) return;
    if (write(file, line, (size_t)at) != at) abort();
    close(file);
}

__attribute__((noinline)) static int refused(size_t n)
{
    if (!ready) {
        refused_at = number("REFUSE_AT");
        least = number("REFUSE_LEAST");
        ready = 1;
    }
    if (n < least || __atomic_add_fetch(&asked, 1, __ATOMIC_SEQ_CST) != refused_at)
        return 0;
    note_calls();
    errno = ENOMEM;
    return 1;
}

extern void *__libc_malloc(size_t);
extern void *__libc_calloc(size_t, size_t);
extern void *__libc_realloc(void *, size_t);
extern void *__libc_memalign(size_t, size_t);

void *malloc(size_t n) { return refused(n) ? 0 : __libc_malloc(n); }
void *calloc(size_t n, size_t m) { return refused(n * m) ? 0 : __libc_calloc(n, m); }
void *realloc(void *p, size_t n) { return refused(n) ? 0 : __libc_realloc(p, n); }
void *aligned_alloc(size_t a, size_t n) { return refused(n) ? 0 : __libc_memalign(a, n); }
int posix_memalign(void **p, size_t a, size_t n)
{
    if (refused(n))
        return ENOMEM;
    *p = __libc_memalign(a, n);
    return *p ? 0 : ENOMEM;
}

static void tell(void)
{
    if (getenv("REFUSE_TELL")) fprintf(stderr, "asked %lu\n", asked);
}

__attribute__((destructor)) static void ended(void) { tell(); }

/* A program with threads ends by this, which runs no destructor. */
void _exit(int status)
{
    tell();
    for (;;)
        syscall(SYS_exit_group, status);
}
