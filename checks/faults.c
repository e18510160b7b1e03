/* Makes standard input and output fail, and files. The environment says how: IN_MOST and OUT_MOST are the most bytes of one
   read and of one write; after IN_FAILS bytes each read fails (EIO), after OUT_FAILS bytes each write (ENOSPC), and after
   OUT_NONE bytes each write takes no byte. After DISK_FAILS bytes each write into a file at a place of it fails (ENOSPC).
   With HASTY each second call is interrupted before it does anything (EINTR). A write that reaches such a place takes the
   bytes before it. */
#define _GNU_SOURCE
#include <errno.h>
#include <stdlib.h>
#include <sys/syscall.h>
#include <unistd.h>

static size_t red, written, stored;
static int calls;

/* the number of this name; the greatest one where there is none */
static size_t number(const char *name)
{
    const char *text = getenv(name);
    return text ? strtoul(text, 0, 10) : (size_t)-1;
}

static int interrupted(void)
{
    if (!getenv("HASTY") || ++calls % 2 == 0) return 0;
    errno = EINTR;
    return 1;
}

static size_t least(size_t n, size_t m) { return n < m ? n : m; }

ssize_t read(int file, void *bytes, size_t n)
{
    if (file == 0) {
        size_t fails = number("IN_FAILS");
        if (interrupted()) return -1;
        if (red >= fails) return errno = EIO, -1;
        n = least(least(n, number("IN_MOST")), fails - red);
    }
    ssize_t got = syscall(SYS_read, file, bytes, n);
    if (file == 0 && got > 0) red += (size_t)got;
    return got;
}

ssize_t write(int file, const void *bytes, size_t n)
{
    if (file == 1) {
        size_t fails = number("OUT_FAILS"), none = number("OUT_NONE");
        if (interrupted()) return -1;
        if (n && written >= none) return 0;
        if (written >= fails) return errno = ENOSPC, -1;
        n = least(least(n, number("OUT_MOST")), least(fails, none) - written);
    }
    ssize_t took = syscall(SYS_write, file, bytes, n);
    if (file == 1 && took > 0) written += (size_t)took;
    return took;
}

ssize_t pwrite(int file, const void *bytes, size_t n, off_t at)
{
    size_t fails = number("DISK_FAILS");
    if (n && stored >= fails) return errno = ENOSPC, -1;
    ssize_t took = syscall(SYS_pwrite64, file, bytes, least(n, fails - stored), at);
    if (took > 0) stored += (size_t)took;
    return took;
}
