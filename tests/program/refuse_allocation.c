/* Loaded before the C library, this refuses a program its Nth allocation, N being the number in REFUSED_ALLOCATION, and
 * says so by one byte on the descriptor in REFUSED_MARK. Every other allocation is the C library's. */
#include <errno.h>
#include <stddef.h>
#include <stdlib.h>
#include <unistd.h>

extern void *__libc_malloc(size_t size);
extern void *__libc_realloc(void *block, size_t size);

static long number_in(const char *name)
{
    const char *number = getenv(name);
    return number ? atol(number) : 0;
}

static int is_refused(void)
{
    static long refused = -1;
    static long count = 0;
    if (refused < 0)
        refused = number_in("REFUSED_ALLOCATION");
    if (++count != refused)
        return 0;
    if (write(number_in("REFUSED_MARK"), "x", 1) != 1)
        _exit(99);
    errno = ENOMEM;
    return 1;
}

void *malloc(size_t size)
{
    return is_refused() ? NULL : __libc_malloc(size);
}

void *realloc(void *block, size_t size)
{
    return is_refused() ? NULL : __libc_realloc(block, size);
}
