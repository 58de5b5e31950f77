/* Stands in for memcpy, memmove, read and write where a program is linked with --wrap for them, and counts copies of more than 64 bytes: those
 * from or to where read(2) put something, and all between the first read and the last write. At the end it tells both on standard error,
 * and the status is 3 if there was one. */
#include <stdbool.h>
#include <stddef.h>
#include <stdint.h>
#include <stdio.h>
#include <stdlib.h>
#include <unistd.h>

void *__real_memcpy(void *to, const void *from, size_t length);
void *__real_memmove(void *to, const void *from, size_t length);
ssize_t __real_read(int file, void *room, size_t length);
ssize_t __real_write(int file, const void *bytes, size_t length);
void *__wrap_memcpy(void *to, const void *from, size_t length);
void *__wrap_memmove(void *to, const void *from, size_t length);
ssize_t __wrap_read(int file, void *room, size_t length);
ssize_t __wrap_write(int file, const void *bytes, size_t length);

enum { SHORT = 64 };

/* Where read(2) put something, from and to. */
static uintptr_t first = UINTPTR_MAX, last;
static size_t of_read, since, between;

static bool touches(const void *at, size_t length)
{
    return (uintptr_t)at < last && (uintptr_t)at + length > first;
}

static void counts(const void *to, const void *from, size_t length)
{
    if (length <= SHORT)
        return;
    of_read += touches(to, length) || touches(from, length);
    since += last != 0;
}

void *__wrap_memcpy(void *to, const void *from, size_t length)
{
    counts(to, from, length);
    return __real_memcpy(to, from, length);
}

void *__wrap_memmove(void *to, const void *from, size_t length)
{
    counts(to, from, length);
    return __real_memmove(to, from, length);
}

ssize_t __wrap_read(int file, void *room, size_t length)
{
    uintptr_t at = (uintptr_t)room;
    first = at < first ? at : first;
    last = at + length > last ? at + length : last;
    return __real_read(file, room, length);
}

ssize_t __wrap_write(int file, const void *bytes, size_t length)
{
    between = since;
    return __real_write(file, bytes, length);
}

static void tell(void)
{
    fflush(stdout);
    fprintf(stderr, "%zu copies of more than %d bytes of what was read, and %zu of anything until it was written\n", of_read, SHORT, between);
    if (of_read || between || !last)
        _exit(3);
}

__attribute__((constructor)) static void begin(void)
{
    atexit(tell);
}
