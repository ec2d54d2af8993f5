/* Put before a program by LD_PRELOAD, it counts the program's requests for memory, and refuses some.
 *
 * REFUSE_FROM is the number of the first request that is refused, from 1 on, and REFUSE_TO that of the last. How many
 * were made is written, as a number, to the file that REFUSE_COUNT names, when the program ends. A request is a call of
 * malloc, calloc, realloc (but for a size of 0), posix_memalign or aligned_alloc. bench/refuse compiles and uses it.
 */
#define _GNU_SOURCE
#include <errno.h>
#include <fcntl.h>
#include <stddef.h>
#include <stdlib.h>
#include <unistd.h>

extern void *__libc_malloc(size_t size);
extern void *__libc_calloc(size_t count, size_t size);
extern void *__libc_realloc(void *old, size_t size);
extern void *__libc_memalign(size_t alignment, size_t size);

static unsigned long made, from = -1UL, to;

static unsigned long number(const char *text)
{
    unsigned long value = 0;
    for (; text && *text >= '0' && *text <= '9'; text++)
        value = value * 10 + (unsigned long)(*text - '0');
    return value;
}

__attribute__((constructor)) static void begin(void)
{
    if (getenv("REFUSE_FROM")) {
        from = number(getenv("REFUSE_FROM"));
        to = number(getenv("REFUSE_TO"));
    }
    made = 0;
}

__attribute__((destructor)) static void end(void)
{
    const char *name = getenv("REFUSE_COUNT");
    char digits[24];
    int at = sizeof digits, file;
    unsigned long left = made;
    if (!name || (file = open(name, O_WRONLY | O_CREAT | O_TRUNC, 0600)) < 0)
        return;
    do
        digits[--at] = (char)('0' + left % 10);
    while (left /= 10);
    if (write(file, digits + at, sizeof digits - (size_t)at) < 0)
        _exit(125);
    close(file);
}

static int is_refused(void)
{
    made++;
    return from <= made && made <= to;
}

static void *none(void)
{
    errno = ENOMEM;
    return NULL;
}

void *malloc(size_t size)
{
    return is_refused() ? none() : __libc_malloc(size);
}

void *calloc(size_t count, size_t size)
{
    return is_refused() ? none() : __libc_calloc(count, size);
}

void *realloc(void *old, size_t size)
{
    return size > 0 && is_refused() ? none() : __libc_realloc(old, size);
}

void *aligned_alloc(size_t alignment, size_t size)
{
    return is_refused() ? none() : __libc_memalign(alignment, size);
}

int posix_memalign(void **out, size_t alignment, size_t size)
{
    void *it = is_refused() ? none() : __libc_memalign(alignment, size);
    if (!it)
        return ENOMEM;
    *out = it;
    return 0;
}
