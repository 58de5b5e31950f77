/* Times a million calls of append, set and get, and of pack and unpack by a format of two numbers. It prints the nanoseconds of the
 * processor for one call. */
#include "pybuf.h"

#include <stdio.h>
#include <time.h>

enum { CALLS = 1000000 };

static double now(void)
{
    struct timespec at;
    clock_gettime(CLOCK_PROCESS_CPUTIME_ID, &at);
    return (double)at.tv_sec * 1e9 + (double)at.tv_nsec;
}

static int times_of_formats(void)
{
    pybuf_format *format;
    pybuf_value values[2] = {pybuf_number_value(pybuf_number_of(1)), pybuf_number_value(pybuf_number_of(2))}, read[2];
    char room[6];
    size_t length, count;
    int wrong = 0;
    if (pybuf_format_parse("<HI", 3, &format))
        return 1;
    double start = now();
    for (int i = 0; i < CALLS; i++)
        wrong |= pybuf_format_pack(format, values, 2, room, sizeof room, &length);
    double packed = now();
    for (int i = 0; i < CALLS; i++)
        wrong |= pybuf_format_unpack(format, room, sizeof room, read, 2, &count);
    double unpacked = now();
    printf("pack %.1f\nunpack %.1f\n", (packed - start) / CALLS, (unpacked - packed) / CALLS);
    return wrong || read[1].number.magnitude != 2 || pybuf_format_free(format);
}

int main(void)
{
    pybuf_world *world;
    pybuf_object array;
    pybuf_number item;
    uint64_t sum = 0;
    int wrong = 0;
    if (pybuf_world_new(&world) || pybuf_new(world, PYBUF_BYTEARRAY, NULL, 0, &array))
        return 1;
    double start = now();
    for (int i = 0; i < CALLS; i++)
        wrong |= pybuf_append(world, array, pybuf_number_of(i & 255));
    double appended = now();
    for (int i = 0; i < CALLS; i++)
        wrong |= pybuf_set(world, array, i, pybuf_number_of(7));
    double written = now();
    for (int i = 0; i < CALLS; i++) {
        wrong |= pybuf_get(world, array, i, &item);
        sum += item.magnitude;
    }
    double read = now();
    printf("append %.1f\nset %.1f\nget %.1f\n", (appended - start) / CALLS, (written - appended) / CALLS, (read - written) / CALLS);
    return wrong || sum != 7 * (uint64_t)CALLS || pybuf_world_free(world) || times_of_formats();
}
