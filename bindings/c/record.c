#include "pybuf.h"
#include <stdio.h>

int main(void)
{
    pybuf_format *format;
    pybuf_value values[2] = {pybuf_number_value(pybuf_number_of(513)), pybuf_bytes_value("ab", 2)}, read[2];
    unsigned char room[8];
    char text[8];
    size_t length, count;
    if (pybuf_format_parse("<H3s", 4, &format) != PYBUF_OK)
        return 1;
    pybuf_format_pack(format, values, 2, room, sizeof room, &length);
    printf("%zu bytes, the first %d\n", length, room[0]);
    pybuf_format_unpack(format, room, length, read, 2, &count);
    pybuf_format_value_bytes(format, 1, text, sizeof text, &length);
    printf("%d '%s'\n", (int)read[0].number.magnitude, text);
    printf("%s\n", pybuf_status_name(pybuf_format_unpack(format, room, 4, read, 2, &count)));
    return pybuf_format_free(format);
}
