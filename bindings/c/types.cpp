/* Tests the types of pybuf.hpp: what they own is released and freed where their scope ends, also after a move. */
#include "pybuf.hpp"

#include <cstdio>

static int wrong;

#define HOLDS(condition)                                            \
    do {                                                            \
        if (!(condition)) {                                         \
            std::printf("line %d: not %s\n", __LINE__, #condition); \
            wrong++;                                                \
        }                                                           \
    } while (0)

int main()
{
    pybuf::world world;
    pybuf_object array = 0;
    HOLDS(pybuf::make(world) == PYBUF_OK);
    HOLDS(pybuf_new(world.get(), PYBUF_BYTEARRAY, "abc", 3, &array) == PYBUF_OK);
    {
        pybuf::view view, kept;
        HOLDS(!view);
        HOLDS(view.open(world, array) == PYBUF_OK);
        HOLDS(pybuf_append(world.get(), array, pybuf_number_of(100)) == PYBUF_BUFFER_ERROR);
        pybuf::view moved(std::move(view));
        HOLDS(!view && moved);
        kept = std::move(moved);
        HOLDS(!moved && kept);
        HOLDS(pybuf_set(world.get(), kept.object(), 0, pybuf_number_of(65)) == PYBUF_OK);
        HOLDS(pybuf_append(world.get(), array, pybuf_number_of(100)) == PYBUF_BUFFER_ERROR);
        HOLDS(moved.open(world, 99) == PYBUF_UNKNOWN_NAME && !moved);
    }
    HOLDS(pybuf_append(world.get(), array, pybuf_number_of(100)) == PYBUF_OK);

    char room[8];
    std::size_t length = 0;
    HOLDS(pybuf_bytes(world.get(), array, room, sizeof room, &length) == PYBUF_OK);
    HOLDS(std::string_view(room, length) == "Abcd");

    pybuf::format format;
    HOLDS(pybuf::parse("<H3s", format) == PYBUF_OK);
    HOLDS(pybuf_format_size(format.get(), &length) == PYBUF_OK && length == 5);
    HOLDS(pybuf::parse("<9z", format) == PYBUF_STRUCT_ERROR && !format);
    if (wrong == 0)
        std::printf("what the types own is released and freed\n");
    return wrong != 0;
}
