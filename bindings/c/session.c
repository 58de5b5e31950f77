/* Six lines through a world by lines and by calls for objects, then the session of the README's head by calls, and its bytes by a
 * format. It prints what each of them answers. */
#include "pybuf.h"

#include <stdio.h>
#include <string.h>

static int failed(pybuf_status status)
{
    if (status != PYBUF_OK)
        printf("! %s\n", pybuf_status_name(status));
    return status != PYBUF_OK;
}

int main(void)
{
    const char *lines = "new bytearray x616263\nview h0\nset h1 0 65\nget h1 0\nbytes h1\nrelease h1\n";
    pybuf_world *world = NULL;
    char room[64];
    size_t count = 0, length = 0;
    if (failed(pybuf_world_new(&world)))
        return 1;
    if (!failed(pybuf_world_run(world, lines, strlen(lines), &count, NULL)))
        for (size_t i = 0; i < count; i++)
            if (!failed(pybuf_world_reply(world, i, room, sizeof room, &length)))
                printf("%.*s\n", (int)length, room);

    pybuf_object array, view, numbers;
    pybuf_number item;
    failed(pybuf_new(world, PYBUF_BYTEARRAY, "abc", 3, &array));
    failed(pybuf_view(world, array, &view));
    failed(pybuf_set(world, view, 0, pybuf_number_of(65)));
    if (!failed(pybuf_get(world, view, 0, &item)) && !failed(pybuf_bytes(world, view, room, sizeof room, &length)))
        printf("%d %.*s\n", (int)item.magnitude, (int)length, room);
    failed(pybuf_release(world, view));

    failed(pybuf_new(world, PYBUF_BYTEARRAY, "\x01\x00\x02\x00", 4, &array));
    failed(pybuf_view(world, array, &view));
    failed(pybuf_cast(world, view, "H", NULL, 0, &numbers));
    if (!failed(pybuf_get(world, numbers, 0, &item)))
        printf("%d\n", (int)item.magnitude);
    failed(pybuf_set(world, numbers, 1, pybuf_number_of(258)));
    if (!failed(pybuf_bytes(world, array, room, sizeof room, &length)))
        for (size_t i = 0; i < length; i++)
            printf("%02x%c", (unsigned char)room[i], i + 1 < length ? ' ' : '\n');
    if (!failed(pybuf_property_numbers(world, numbers, PYBUF_SHAPE, &item, 1, &count)))
        printf("%d of %d\n", (int)item.magnitude, (int)count);
    if (!failed(pybuf_property_number(world, array, PYBUF_EXPORTS, &item)))
        printf("%d\n", (int)item.magnitude);
    failed(pybuf_append(world, array, pybuf_number_of(0)));
    failed(pybuf_release(world, numbers));
    failed(pybuf_get(world, numbers, 0, &item));

    pybuf_format *format = NULL;
    pybuf_value values[2];
    if (!failed(pybuf_format_parse("<2H", 3, &format)) && !failed(pybuf_format_unpack(format, room, length, values, 2, &count)))
        printf("%d %d\n", (int)values[0].number.magnitude, (int)values[1].number.magnitude);
    values[1] = pybuf_number_value(pybuf_number_of(65536));
    failed(pybuf_format_pack(format, values, 2, room, sizeof room, &length));
    return failed(pybuf_format_free(format)) || failed(pybuf_world_free(world));
}
