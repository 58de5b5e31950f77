/* Reads a file of records into a bytearray, unpacks them where they lie, adds 1 to the price of those of a name, and writes the file. No
 * byte of it is copied on our side. A record is <4sHHII: name, kind, count, price and sum. */
#include "pybuf.h"

#include <fcntl.h>
#include <stdio.h>
#include <string.h>
#include <unistd.h>

enum { RECORD = 16, FIELDS = 5, PRICE = 8 };

/* All bytes by read(2) or write(2), also where one call does fewer. */
#define ALL(call, file, at, length)                              \
    for (size_t done = 0; done < (length);) {                    \
        ssize_t more = call(file, (at) + done, (length) - done); \
        if (more <= 0)                                           \
            return 1;                                            \
        done += (size_t)more;                                    \
    }

int main(int count, char **words)
{
    pybuf_world *world;
    pybuf_format *record, *price;
    pybuf_object view;
    pybuf_value read_fields[FIELDS];
    char line[64];
    uint8_t *bytes;
    size_t length, told, changed = 0;
    if (count != 4)
        return 2;
    int from = open(words[1], O_RDONLY), to = open(words[2], O_WRONLY | O_CREAT | O_TRUNC, 0644);
    off_t size = from < 0 ? -1 : lseek(from, 0, SEEK_END);
    if (to < 0 || size < 0 || lseek(from, 0, SEEK_SET) != 0 || pybuf_world_new(&world) != PYBUF_OK
        || pybuf_format_parse("<4sHHII", 7, &record) || pybuf_format_parse("<I", 2, &price))
        return 1;
    int width = snprintf(line, sizeof line, "new bytearray %lld\n", (long long)size);
    if (pybuf_world_run(world, line, (size_t)width, &told, NULL) || pybuf_view(world, 0, &view)
        || pybuf_lend_to_write(world, view, &bytes, &length))
        return 1;
    ALL(read, from, bytes, length)
    for (uint8_t *at = bytes; at + RECORD <= bytes + length; at += RECORD) {
        if (pybuf_format_unpack(record, at, RECORD, read_fields, FIELDS, &told))
            return 1;
        if (memcmp(at, words[3], 4) != 0)
            continue;
        pybuf_value more = pybuf_number_value(pybuf_number_of((int64_t)read_fields[3].number.magnitude + 1));
        if (pybuf_format_pack(price, &more, 1, at + PRICE, RECORD - PRICE, &told))
            return 1;
        changed++;
    }
    ALL(write, to, bytes, length)
    printf("%zu records, %zu changed\n", length / RECORD, changed);
    return pybuf_release(world, view) || pybuf_world_free(world) || pybuf_format_free(record) || pybuf_format_free(price);
}
