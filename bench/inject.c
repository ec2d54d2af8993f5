/* Put before a program by LD_PRELOAD, it lets some of the program's calls of the system fail, or do a part alone.
 *
 * INJECT_FROM is the number of the first call that is touched, from 1 on, and INJECT_TO that of the last. Calls of open,
 * openat, read and write are counted together. INJECT_ERROR is the number of the error that such a call ends with; where
 * it is 0, a read or a write does one byte at most, and an open is left alone. INJECT_COUNT names a file that gets the
 * kinds of the calls in their order when the program ends: o, r or w. bench/inject compiles and uses it.
 */
#define _GNU_SOURCE
#include <errno.h>
#include <fcntl.h>
#include <stdarg.h>
#include <stdlib.h>
#include <sys/syscall.h>
#include <unistd.h>

enum { MOST = 1 << 16 };

static unsigned long made, from = -1UL, to;
static int error;
static char kinds[MOST];

__attribute__((constructor)) static void begin(void)
{
    if (getenv("INJECT_FROM")) {
        from = strtoul(getenv("INJECT_FROM"), NULL, 10);
        to = strtoul(getenv("INJECT_TO"), NULL, 10);
        error = atoi(getenv("INJECT_ERROR"));
    }
    made = 0;
}

__attribute__((destructor)) static void end(void)
{
    const char *name = getenv("INJECT_COUNT");
    unsigned long count = made < MOST ? made : MOST;
    long file;
    if (!name || (file = syscall(SYS_openat, AT_FDCWD, name, O_WRONLY | O_CREAT | O_TRUNC, 0600)) < 0)
        return;
    if (syscall(SYS_write, file, kinds, count) < 0)
        _exit(125);
    syscall(SYS_close, file);
}

static int is_touched(char kind)
{
    if (made < MOST)
        kinds[made] = kind;
    made++;
    return from <= made && made <= to;
}

static int fails(void)
{
    errno = error;
    return -1;
}

static int opened(int folder, const char *name, int flags, int mode)
{
    if (is_touched('o') && error)
        return fails();
    return (int)syscall(SYS_openat, folder, name, flags, mode);
}

int open(const char *name, int flags, ...)
{
    va_list rest;
    va_start(rest, flags);
    int mode = flags & O_CREAT ? va_arg(rest, int) : 0;
    va_end(rest);
    return opened(AT_FDCWD, name, flags, mode);
}

int openat(int folder, const char *name, int flags, ...)
{
    va_list rest;
    va_start(rest, flags);
    int mode = flags & O_CREAT ? va_arg(rest, int) : 0;
    va_end(rest);
    return opened(folder, name, flags, mode);
}

int open64(const char *name, int flags, ...) __attribute__((alias("open")));
int openat64(int folder, const char *name, int flags, ...) __attribute__((alias("openat")));

ssize_t read(int file, void *into, size_t count)
{
    if (is_touched('r')) {
        if (error)
            return fails();
        count = count > 1 ? 1 : count;
    }
    return syscall(SYS_read, file, into, count);
}

ssize_t write(int file, const void *piece, size_t count)
{
    if (is_touched('w')) {
        if (error)
            return fails();
        count = count > 1 ? 1 : count;
    }
    return syscall(SYS_write, file, piece, count);
}
