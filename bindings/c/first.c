#include "pybuf.h"
#include <stdio.h>

int main(void)
{
    pybuf_world *world;
    pybuf_object array, view;
    char room[16];
    size_t length;
    if (pybuf_world_new(&world) != PYBUF_OK)
        return 1;
    pybuf_new(world, PYBUF_BYTEARRAY, "abc", 3, &array);
    pybuf_view(world, array, &view);
    pybuf_set(world, view, 0, pybuf_number_of(65));
    pybuf_bytes(world, array, room, sizeof room, &length);
    printf("%.*s\n", (int)length, room);
    printf("%s\n", pybuf_status_name(pybuf_append(world, array, pybuf_number_of(100))));
    return pybuf_world_free(world);
}
