/* Makes and frees a million worlds with a bytearray and a view, and then a million formats that pack and unpack. At the end the process
 * must have the memory that it had after the first thousand of each, within 1 MiB. */
#include "pybuf.h"

#include <stdio.h>
#include <stdlib.h>
#include <unistd.h>

static long pages(void)
{
    long size = 0, resident = 0;
    FILE *file = fopen("/proc/self/statm", "r");
    if (!file)
        return 0;
    if (fscanf(file, "%ld %ld", &size, &resident) != 2)
        resident = 0;
    fclose(file);
    return resident;
}

static void one_world(void)
{
    pybuf_world *world;
    pybuf_object array, view;
    if (pybuf_world_new(&world) || pybuf_new(world, PYBUF_BYTEARRAY, "abc", 3, &array) || pybuf_view(world, array, &view)
        || pybuf_release(world, view) || pybuf_append(world, array, pybuf_number_of(100)) || pybuf_world_free(world)) {
        printf("a call failed\n");
        exit(1);
    }
}

static void one_format(void)
{
    pybuf_format *format;
    pybuf_value values[2] = {pybuf_number_value(pybuf_number_of(-1)), pybuf_bytes_value("abc", 3)}, got[2];
    char room[8];
    size_t length, count;
    if (pybuf_format_parse("<i4s", 4, &format) || pybuf_format_pack(format, values, 2, room, sizeof room, &length)
        || pybuf_format_unpack(format, room, length, got, 2, &count) || pybuf_format_value_bytes(format, 1, room, sizeof room, &length)
        || pybuf_format_free(format)) {
        printf("a call failed\n");
        exit(1);
    }
}

/* How many more bytes the process has after a million. */
static long more_after(void (*one)(void))
{
    for (int i = 0; i < 1000; i++)
        one();
    long before = pages();
    for (int i = 0; i < 1000000; i++)
        one();
    return (pages() - before) * sysconf(_SC_PAGESIZE);
}

int main(void)
{
    long worlds = more_after(one_world), formats = more_after(one_format);
    printf("%ld bytes more after a million worlds, %ld after a million formats\n", worlds, formats);
    return worlds > 1 << 20 || formats > 1 << 20;
}
