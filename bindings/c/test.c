/* Tests what the calls of pybuf.h check before they read anything, and how they tell about rooms and results. It prints what is wrong. */
#include "pybuf.h"

#include <pthread.h>
#include <stdio.h>
#include <stdlib.h>
#include <string.h>

static int wrong;

#define WANT(status, call)                                                                             \
    do {                                                                                               \
        pybuf_status got = (call);                                                                     \
        if (got != (status)) {                                                                         \
            printf("line %d: %s, not %s\n", __LINE__, pybuf_status_name(got), pybuf_status_name(status)); \
            wrong++;                                                                                   \
        }                                                                                              \
    } while (0)

#define HOLDS(condition)                                        \
    do {                                                        \
        if (!(condition)) {                                     \
            printf("line %d: not %s\n", __LINE__, #condition);  \
            wrong++;                                            \
        }                                                       \
    } while (0)

static const size_t too_long = (size_t)PTRDIFF_MAX + 1;

static void null_pointers(pybuf_world *world)
{
    size_t length = 7;
    pybuf_object object = 7;
    pybuf_number number = {7, false};
    pybuf_slice all = {0, 0, 0, false, false, false};
    bool truth;
    pybuf_truth compared;
    char room[4];
    WANT(PYBUF_NULL_POINTER, pybuf_world_new(NULL));
    WANT(PYBUF_OK, pybuf_world_free(NULL));
    WANT(PYBUF_NULL_POINTER, pybuf_world_run(NULL, "view h0\n", 8, NULL, NULL));
    WANT(PYBUF_NULL_POINTER, pybuf_world_run(world, NULL, 8, NULL, NULL));
    WANT(PYBUF_NULL_POINTER, pybuf_world_reply(NULL, 0, room, sizeof room, &length));
    WANT(PYBUF_NULL_POINTER, pybuf_world_reply(world, 0, NULL, 4, &length));
    WANT(PYBUF_NULL_POINTER, pybuf_world_reply(world, 0, room, sizeof room, NULL));
    WANT(PYBUF_NULL_POINTER, pybuf_new(NULL, PYBUF_BYTES, "a", 1, &object));
    WANT(PYBUF_NULL_POINTER, pybuf_new(world, PYBUF_BYTES, NULL, 1, &object));
    WANT(PYBUF_NULL_POINTER, pybuf_new(world, PYBUF_BYTES, "a", 1, NULL));
    WANT(PYBUF_NULL_POINTER, pybuf_view(world, 0, NULL));
    WANT(PYBUF_NULL_POINTER, pybuf_to_contiguous(world, 0, &object, NULL));
    WANT(PYBUF_NULL_POINTER, pybuf_cast(world, 0, NULL, NULL, 0, &object));
    WANT(PYBUF_NULL_POINTER, pybuf_get(world, 0, 0, NULL));
    WANT(PYBUF_NULL_POINTER, pybuf_get_at(world, 0, NULL, 1, &number));
    WANT(PYBUF_NULL_POINTER, pybuf_get_slice(world, 0, NULL, &object));
    WANT(PYBUF_NULL_POINTER, pybuf_set_slice(world, 0, NULL, "a", 1));
    WANT(PYBUF_NULL_POINTER, pybuf_set_slice(world, 0, &all, NULL, 1));
    WANT(PYBUF_NULL_POINTER, pybuf_bytes(world, 0, NULL, 1, &length));
    WANT(PYBUF_NULL_POINTER, pybuf_length(world, 0, NULL));
    WANT(PYBUF_NULL_POINTER, pybuf_items(world, 0, NULL, 1, &length));
    WANT(PYBUF_NULL_POINTER, pybuf_compare(world, 0, PYBUF_EQ, NULL, 1, &compared));
    WANT(PYBUF_NULL_POINTER, pybuf_contains(world, 0, "a", 1, NULL));
    WANT(PYBUF_NULL_POINTER, pybuf_contains(world, 0, NULL, 1, &truth));
    WANT(PYBUF_NULL_POINTER, pybuf_next(world, 0, NULL, &number));
    WANT(PYBUF_NULL_POINTER, pybuf_last_bytes(world, NULL, 1, &length));
    HOLDS(length == 7 && object == 7 && number.magnitude == 7);
}

static void no_worlds(void)
{
    /* this memory is as large as a world, but isn't one */
    void *other = calloc(1, 64);
    pybuf_world *world = (pybuf_world *)other;
    pybuf_object object;
    size_t length;
    WANT(PYBUF_NO_WORLD, pybuf_world_run(world, "", 0, NULL, NULL));
    WANT(PYBUF_NO_WORLD, pybuf_world_reply(world, 0, NULL, 0, &length));
    WANT(PYBUF_NO_WORLD, pybuf_new(world, PYBUF_BYTES, "a", 1, &object));
    WANT(PYBUF_NO_WORLD, pybuf_view(world, 0, &object));
    WANT(PYBUF_NO_WORLD, pybuf_world_free(world));
    free(other);
}

static void lengths(pybuf_world *world)
{
    size_t length = 7;
    pybuf_object object, empty;
    pybuf_number number;
    WANT(PYBUF_TOO_LONG, pybuf_world_run(world, "", too_long, NULL, NULL));
    WANT(PYBUF_TOO_LONG, pybuf_world_reply(world, 0, NULL, too_long, &length));
    WANT(PYBUF_TOO_LONG, pybuf_new(world, PYBUF_BYTES, "", too_long, &object));
    WANT(PYBUF_TOO_LONG, pybuf_get_at(world, 0, NULL, (size_t)PTRDIFF_MAX / 8 + 1, &number));
    WANT(PYBUF_TOO_LONG, pybuf_bytes(world, 0, NULL, SIZE_MAX, &length));
    HOLDS(length == 7);
    size_t count = 7;
    WANT(PYBUF_OK, pybuf_world_run(world, NULL, 0, &count, NULL));
    HOLDS(count == 0);
    WANT(PYBUF_OK, pybuf_new(world, PYBUF_BYTEARRAY, NULL, 0, &empty));
    WANT(PYBUF_OK, pybuf_bytes(world, empty, NULL, 0, &length));
    HOLDS(length == 0);
    WANT(PYBUF_OK, pybuf_extend(world, empty, NULL, 0));
}

static void rooms(pybuf_world *world)
{
    char room[4] = "....";
    size_t length = 0, count = 0;
    uint64_t line = 0;
    pybuf_object array, view, shaped;
    WANT(PYBUF_OK, pybuf_new(world, PYBUF_BYTEARRAY, "abcdef", 6, &array));
    WANT(PYBUF_TOO_SMALL, pybuf_bytes(world, array, room, sizeof room, &length));
    HOLDS(length == 6 && memcmp(room, "....", 4) == 0);
    char enough[8] = "........";
    WANT(PYBUF_OK, pybuf_last_bytes(world, enough, sizeof enough, &length));
    HOLDS(length == 6 && memcmp(enough, "abcdef..", 8) == 0);
    WANT(PYBUF_BAD_LINE, pybuf_world_run(world, "new bytes x61\nno\n", 17, &count, &line));
    HOLDS(line == 2 && count == 0);
    WANT(PYBUF_NOTHING, pybuf_world_reply(world, 0, room, sizeof room, &length));
    WANT(PYBUF_OK, pybuf_world_run(world, "new bytes x61", 13, &count, &line));
    HOLDS(count == 1);
    WANT(PYBUF_OK, pybuf_world_reply(world, 0, room, sizeof room, &length));
    HOLDS(length == 2 && room[0] == 'h');
    WANT(PYBUF_OK, pybuf_view(world, array, &view));
    const int64_t two_by_three[] = {2, 3};
    pybuf_number items[6];
    WANT(PYBUF_OK, pybuf_cast(world, view, "B", two_by_three, 2, &shaped));
    WANT(PYBUF_TOO_SMALL, pybuf_items(world, shaped, items, 5, &count));
    HOLDS(count == 6);
    WANT(PYBUF_OK, pybuf_items(world, shaped, items, 6, &count));
    HOLDS(count == 6 && items[5].magnitude == 'f' && !items[5].negative);
    WANT(PYBUF_OK, pybuf_property_numbers(world, shaped, PYBUF_SHAPE, items, 6, &count));
    HOLDS(count == 2 && items[0].magnitude == 2 && items[1].magnitude == 3);
}

static void refusals(pybuf_world *world)
{
    pybuf_object bytes, made;
    pybuf_number number;
    pybuf_truth truth;
    WANT(PYBUF_OK, pybuf_new(world, PYBUF_BYTES, "abc", 3, &bytes));
    WANT(PYBUF_INDEX_ERROR, pybuf_get(world, bytes, 3, &number));
    WANT(PYBUF_UNKNOWN_NAME, pybuf_set(world, bytes, 0, pybuf_number_of(1)));
    WANT(PYBUF_UNKNOWN_NAME, pybuf_get(world, 1000000, 0, &number));
    WANT(PYBUF_BAD_ARGUMENT, pybuf_new(world, (pybuf_kind)4, "a", 1, &made));
    WANT(PYBUF_BAD_ARGUMENT, pybuf_property_number(world, bytes, (pybuf_property)13, &number));
    WANT(PYBUF_BAD_ARGUMENT, pybuf_compare(world, bytes, (pybuf_operator)6, "a", 1, &truth));
    WANT(PYBUF_OK, pybuf_view(world, bytes, &made));
    WANT(PYBUF_BAD_ARGUMENT, pybuf_cast(world, made, "\xff", NULL, 0, &made));
    WANT(PYBUF_OK, pybuf_compare(world, bytes, PYBUF_LT, "abd", 3, &truth));
    HOLDS(truth == PYBUF_TRUE);
}

/* A null room of no bytes asks how many are needed. */
static void sizes(pybuf_world *world)
{
    pybuf_format *format = NULL;
    pybuf_object array, view;
    pybuf_value value = pybuf_number_value(pybuf_number_of(1));
    size_t length = 0;
    WANT(PYBUF_OK, pybuf_new(world, PYBUF_BYTEARRAY, "abc", 3, &array));
    WANT(PYBUF_OK, pybuf_view(world, array, &view));
    WANT(PYBUF_TOO_SMALL, pybuf_bytes(world, view, NULL, 0, &length));
    HOLDS(length == 3);
    WANT(PYBUF_TOO_SMALL, pybuf_items(world, view, NULL, 0, &length));
    HOLDS(length == 3);
    WANT(PYBUF_TOO_SMALL, pybuf_shown(world, array, NULL, 0, &length));
    HOLDS(length == 17);
    WANT(PYBUF_TOO_SMALL, pybuf_property_text(world, view, PYBUF_FORMAT, NULL, 0, &length));
    HOLDS(length == 1);
    WANT(PYBUF_OK, pybuf_format_parse("<Q", 2, &format));
    WANT(PYBUF_TOO_SMALL, pybuf_format_pack(format, &value, 1, NULL, 0, &length));
    HOLDS(length == 8);
    WANT(PYBUF_OK, pybuf_format_free(format));
    WANT(PYBUF_OK, pybuf_release(world, view));
}

static void causes(void)
{
    static const char said[] = "pybuf_append: BufferError: a view is unreleased, so the number of bytes can't change";
    pybuf_world *world = NULL;
    pybuf_format *format = NULL;
    pybuf_object array, view;
    char room[192];
    size_t length = 7;
    WANT(PYBUF_OK, pybuf_world_new(&world));
    WANT(PYBUF_NOTHING, pybuf_last_cause(world, room, sizeof room, &length));
    HOLDS(length == 7);
    WANT(PYBUF_NULL_POINTER, pybuf_last_cause(NULL, room, sizeof room, &length));
    WANT(PYBUF_NULL_POINTER, pybuf_last_cause(world, NULL, 1, &length));
    WANT(PYBUF_OK, pybuf_new(world, PYBUF_BYTEARRAY, "a", 1, &array));
    WANT(PYBUF_OK, pybuf_view(world, array, &view));
    WANT(PYBUF_BUFFER_ERROR, pybuf_append(world, array, pybuf_number_of(1)));
    WANT(PYBUF_OK, pybuf_release(world, view));
    WANT(PYBUF_TOO_SMALL, pybuf_last_cause(world, NULL, 0, &length));
    HOLDS(length == sizeof said - 1);
    WANT(PYBUF_OK, pybuf_last_cause(world, room, sizeof room, &length));
    HOLDS(length == sizeof said - 1 && memcmp(room, said, length) == 0);
    WANT(PYBUF_NULL_POINTER, pybuf_view(world, array, NULL));
    WANT(PYBUF_OK, pybuf_last_cause(world, room, sizeof room, &length));
    HOLDS(length > 26 && memcmp(room, "pybuf_view: null pointer: ", 26) == 0);
    for (int status = PYBUF_NO_MEMORY; status <= PYBUF_UNKNOWN_NAME + 1; status++)
        HOLDS((strcmp(pybuf_status_name((pybuf_status)status), "no status") == 0)
              == ((status > PYBUF_NO_FORMAT && status < PYBUF_INDEX_ERROR) || status > PYBUF_UNKNOWN_NAME));
    HOLDS(strcmp(pybuf_status_name((pybuf_status)-1), "no status") == 0);
    WANT(PYBUF_OK, pybuf_world_free(world));
    WANT(PYBUF_OK, pybuf_format_parse("<Q", 2, &format));
    WANT(PYBUF_NOTHING, pybuf_format_last_cause(format, room, sizeof room, &length));
    WANT(PYBUF_STRUCT_ERROR, pybuf_format_pack(format, NULL, 0, room, sizeof room, &length));
    WANT(PYBUF_OK, pybuf_format_last_cause(format, room, sizeof room, &length));
    HOLDS(length > 32 && memcmp(room, "pybuf_format_pack: StructError: ", 32) == 0);
    WANT(PYBUF_OK, pybuf_format_free(format));
}

/* What a view lends are its bytes where they lie, until it is released. */
static void lending(pybuf_world *world)
{
    pybuf_object array, bytes, view, part, apart, empty;
    const pybuf_slice tail = {1, 0, 0, true, false, false}, second = {0, 0, 2, false, false, true};
    const uint8_t *at = NULL;
    uint8_t *place = NULL;
    size_t length = 7;
    char room[4];
    WANT(PYBUF_OK, pybuf_new(world, PYBUF_BYTEARRAY, "abcd", 4, &array));
    WANT(PYBUF_OK, pybuf_view(world, array, &view));
    WANT(PYBUF_NULL_POINTER, pybuf_lend(NULL, view, &at, &length));
    WANT(PYBUF_NULL_POINTER, pybuf_lend(world, view, NULL, &length));
    WANT(PYBUF_NULL_POINTER, pybuf_lend_to_write(world, view, &place, NULL));
    WANT(PYBUF_NOTHING, pybuf_lend(world, array, &at, &length));
    WANT(PYBUF_NOTHING, pybuf_lend_to_write(world, 1000000, &place, &length));
    HOLDS(at == NULL && place == NULL && length == 7);
    WANT(PYBUF_OK, pybuf_lend_to_write(world, view, &place, &length));
    HOLDS(length == 4 && memcmp(place, "abcd", 4) == 0);
    WANT(PYBUF_OK, pybuf_get_slice(world, view, &tail, &part));
    WANT(PYBUF_OK, pybuf_lend(world, part, &at, &length));
    HOLDS(length == 3 && at == place + 1);
    place[1] = 'B';
    WANT(PYBUF_OK, pybuf_bytes(world, part, room, sizeof room, &length));
    HOLDS(length == 3 && memcmp(room, "Bcd", 3) == 0);
    WANT(PYBUF_OK, pybuf_set(world, array, 2, pybuf_number_of('C')));
    HOLDS(memcmp(at, "BCd", 3) == 0);
    WANT(PYBUF_BUFFER_ERROR, pybuf_append(world, array, pybuf_number_of(1)));
    WANT(PYBUF_OK, pybuf_get_slice(world, view, &second, &apart));
    WANT(PYBUF_NOTHING, pybuf_lend(world, apart, &at, &length));
    for (int i = 0; i < 100; i++)
        WANT(PYBUF_OK, pybuf_new(world, PYBUF_BYTES, "more", 4, &bytes));
    WANT(PYBUF_OK, pybuf_lend(world, view, &at, &length));
    HOLDS(at == place && length == 4 && memcmp(at, "aBCd", 4) == 0);
    WANT(PYBUF_OK, pybuf_release(world, apart));
    WANT(PYBUF_OK, pybuf_release(world, part));
    WANT(PYBUF_OK, pybuf_release(world, view));
    WANT(PYBUF_NOTHING, pybuf_lend(world, view, &at, &length));
    WANT(PYBUF_OK, pybuf_append(world, array, pybuf_number_of('e')));
    WANT(PYBUF_OK, pybuf_view(world, bytes, &view));
    WANT(PYBUF_OK, pybuf_lend(world, view, &at, &length));
    HOLDS(length == 4 && memcmp(at, "more", 4) == 0);
    WANT(PYBUF_NOTHING, pybuf_lend_to_write(world, view, &place, &length));
    WANT(PYBUF_OK, pybuf_new(world, PYBUF_BYTEARRAY, NULL, 0, &empty));
    WANT(PYBUF_OK, pybuf_view(world, empty, &view));
    WANT(PYBUF_OK, pybuf_lend_to_write(world, view, &place, &length));
    HOLDS(length == 0 && place != NULL);
}

static pybuf_format *parsed(const char *text)
{
    pybuf_format *format = NULL;
    WANT(PYBUF_OK, pybuf_format_parse(text, strlen(text), &format));
    return format;
}

static void format_pointers(pybuf_world *world)
{
    pybuf_format *format = parsed("<H2s");
    pybuf_format *other = (pybuf_format *)(void *)world;
    pybuf_value values[2] = {pybuf_number_value(pybuf_number_of(1)), pybuf_bytes_value("ab", 2)};
    size_t length = 7;
    char room[4] = "....";
    WANT(PYBUF_NULL_POINTER, pybuf_format_parse("H", 1, NULL));
    WANT(PYBUF_OK, pybuf_format_free(NULL));
    WANT(PYBUF_NULL_POINTER, pybuf_format_size(NULL, &length));
    WANT(PYBUF_NULL_POINTER, pybuf_format_size(format, NULL));
    WANT(PYBUF_NULL_POINTER, pybuf_format_count(format, NULL));
    WANT(PYBUF_NULL_POINTER, pybuf_format_pack(NULL, values, 2, room, 4, &length));
    WANT(PYBUF_NULL_POINTER, pybuf_format_pack(format, NULL, 2, room, 4, &length));
    WANT(PYBUF_NULL_POINTER, pybuf_format_pack(format, values, 2, NULL, 4, &length));
    WANT(PYBUF_NULL_POINTER, pybuf_format_pack(format, values, 2, room, 4, NULL));
    values[1].bytes = NULL;
    WANT(PYBUF_NULL_POINTER, pybuf_format_pack(format, values, 2, room, 4, &length));
    WANT(PYBUF_NULL_POINTER, pybuf_format_unpack(NULL, room, 4, values, 2, &length));
    WANT(PYBUF_NULL_POINTER, pybuf_format_unpack(format, NULL, 4, values, 2, &length));
    WANT(PYBUF_NULL_POINTER, pybuf_format_unpack(format, room, 4, NULL, 2, &length));
    WANT(PYBUF_NULL_POINTER, pybuf_format_unpack(format, room, 4, values, 2, NULL));
    WANT(PYBUF_NULL_POINTER, pybuf_format_value_bytes(format, 0, NULL, 4, &length));
    WANT(PYBUF_NULL_POINTER, pybuf_format_value_bytes(format, 0, room, 4, NULL));
    HOLDS(length == 7 && memcmp(room, "....", 4) == 0);

    WANT(PYBUF_NO_FORMAT, pybuf_format_size(other, &length));
    WANT(PYBUF_NO_FORMAT, pybuf_format_pack(other, values, 1, room, 4, &length));
    WANT(PYBUF_NO_FORMAT, pybuf_format_unpack(other, room, 4, values, 2, &length));
    WANT(PYBUF_NO_FORMAT, pybuf_format_value_bytes(other, 0, room, 4, &length));
    WANT(PYBUF_NO_FORMAT, pybuf_format_free(other));
    WANT(PYBUF_NO_WORLD, pybuf_world_run((pybuf_world *)(void *)format, "", 0, NULL, NULL));
    WANT(PYBUF_NO_WORLD, pybuf_world_free((pybuf_world *)(void *)format));
    WANT(PYBUF_OK, pybuf_format_free(format));

    pybuf_format *none = format;
    WANT(PYBUF_TOO_LONG, pybuf_format_parse("", too_long, &none));
    HOLDS(none == NULL);
    WANT(PYBUF_NULL_POINTER, pybuf_format_parse(NULL, 1, &none));
    WANT(PYBUF_STRUCT_ERROR, pybuf_format_parse("H ", 2, &none));
    WANT(PYBUF_STRUCT_ERROR, pybuf_format_parse("d", 1, &none));
    WANT(PYBUF_STRUCT_ERROR, pybuf_format_parse("9223372036854775808x", 20, &none));
    HOLDS(none == NULL);
    WANT(PYBUF_OK, pybuf_format_parse("9223372036854775807x", 20, &none));
    WANT(PYBUF_OK, pybuf_format_size(none, &length));
    HOLDS(length == (size_t)PTRDIFF_MAX);
    WANT(PYBUF_TOO_LONG, pybuf_format_pack(none, NULL, 0, NULL, too_long, &length));
    WANT(PYBUF_TOO_LONG, pybuf_format_unpack(none, NULL, too_long, values, 2, &length));
    WANT(PYBUF_TOO_LONG, pybuf_format_pack(none, NULL, (size_t)PTRDIFF_MAX / sizeof *values + 1, room, 4, &length));
    WANT(PYBUF_TOO_SMALL, pybuf_format_pack(none, NULL, 0, room, 4, &length));
    WANT(PYBUF_STRUCT_ERROR, pybuf_format_unpack(none, room, 4, values, 2, &length));
    WANT(PYBUF_OK, pybuf_format_free(none));
}

static void format_rooms(void)
{
    pybuf_format *format = parsed(">hQ3s?c0x");
    pybuf_value values[5], read[5];
    char room[16] = "................", text[3] = "...";
    size_t length = 0, count = 0;
    values[0] = pybuf_number_value(pybuf_number_of(-2));
    values[1] = pybuf_number_value((pybuf_number){UINT64_MAX, false});
    values[2] = pybuf_bytes_value("ab", 2);
    values[3] = pybuf_number_value(pybuf_number_of(9));
    values[4] = pybuf_bytes_value("z", 1);
    WANT(PYBUF_OK, pybuf_format_size(format, &length));
    WANT(PYBUF_OK, pybuf_format_count(format, &count));
    HOLDS(length == 15 && count == 5);
    length = 0;
    WANT(PYBUF_TOO_SMALL, pybuf_format_pack(format, values, 5, room, 14, &length));
    HOLDS(length == 15 && room[0] == '.');
    WANT(PYBUF_OK, pybuf_format_pack(format, values, 5, room, sizeof room, &length));
    HOLDS(length == 15 && memcmp(room, "\xff\xfe\xff\xff\xff\xff\xff\xff\xff\xff" "ab\0\1z.", 16) == 0);
    count = 0;
    WANT(PYBUF_TOO_SMALL, pybuf_format_unpack(format, room, 15, read, 4, &count));
    HOLDS(count == 5);
    WANT(PYBUF_STRUCT_ERROR, pybuf_format_unpack(format, room, 16, read, 5, &count));
    WANT(PYBUF_NOTHING, pybuf_format_value_bytes(format, 2, text, sizeof text, &length));
    WANT(PYBUF_OK, pybuf_format_unpack(format, room, 15, read, 5, &count));
    HOLDS(read[0].kind == PYBUF_NUMBER_VALUE && read[0].number.magnitude == 2 && read[0].number.negative);
    HOLDS(read[1].number.magnitude == UINT64_MAX && !read[1].number.negative && read[1].length == 0);
    HOLDS(read[2].kind == PYBUF_BYTES_VALUE && read[2].length == 3 && !read[2].bytes && read[2].number.magnitude == 0);
    HOLDS(read[3].kind == PYBUF_TRUTH_VALUE && read[3].number.magnitude == 1);
    WANT(PYBUF_TOO_SMALL, pybuf_format_value_bytes(format, 2, text, 2, &length));
    HOLDS(length == 3 && text[0] == '.');
    WANT(PYBUF_OK, pybuf_format_value_bytes(format, 2, text, sizeof text, &length));
    HOLDS(length == 3 && memcmp(text, "ab", 3) == 0);
    WANT(PYBUF_NOTHING, pybuf_format_value_bytes(format, 0, text, sizeof text, &length));
    WANT(PYBUF_NOTHING, pybuf_format_value_bytes(format, 5, text, sizeof text, &length));
    HOLDS(length == 3);
    WANT(PYBUF_OK, pybuf_format_pack(format, values, 5, room, sizeof room, &length));
    WANT(PYBUF_NOTHING, pybuf_format_value_bytes(format, 2, text, sizeof text, &length));

    memset(room, '.', sizeof room);
    WANT(PYBUF_STRUCT_ERROR, pybuf_format_pack(format, values, 4, room, sizeof room, &length));
    WANT(PYBUF_STRUCT_ERROR, pybuf_format_pack(format, NULL, 0, room, sizeof room, &length));
    values[0] = pybuf_number_value(pybuf_number_of(32768));
    WANT(PYBUF_STRUCT_ERROR, pybuf_format_pack(format, values, 5, room, sizeof room, &length));
    values[0] = pybuf_number_value(pybuf_number_of(1));
    values[2] = pybuf_number_value(pybuf_number_of(1));
    WANT(PYBUF_TYPE_ERROR, pybuf_format_pack(format, values, 5, room, sizeof room, &length));
    values[2].kind = (pybuf_value_kind)3;
    WANT(PYBUF_BAD_ARGUMENT, pybuf_format_pack(format, values, 5, room, sizeof room, &length));
    values[2] = pybuf_bytes_value("", too_long);
    WANT(PYBUF_TOO_LONG, pybuf_format_pack(format, values, 5, room, sizeof room, &length));
    values[2] = pybuf_bytes_value(NULL, 0);
    HOLDS(length == 15 && room[0] == '.');
    WANT(PYBUF_OK, pybuf_format_pack(format, values, 5, room, sizeof room, &length));
    WANT(PYBUF_OK, pybuf_format_free(format));

    format = parsed("");
    WANT(PYBUF_OK, pybuf_format_pack(format, NULL, 0, NULL, 0, &length));
    WANT(PYBUF_OK, pybuf_format_unpack(format, NULL, 0, NULL, 0, &count));
    HOLDS(length == 0 && count == 0);
    WANT(PYBUF_OK, pybuf_format_free(format));
}

/* Another thread uses a world that this one made, and frees it. */
static void *used_elsewhere(void *given)
{
    pybuf_world *world = (pybuf_world *)given;
    pybuf_status extended = pybuf_extend(world, 0, "def", 3);
    size_t length = 0;
    pybuf_status told = pybuf_length(world, 0, &length);
    pybuf_status freed = pybuf_world_free(world);
    return extended == PYBUF_OK && told == PYBUF_OK && length == 6 && freed == PYBUF_OK ? given : NULL;
}

static void threads(void)
{
    pybuf_world *world = NULL;
    pybuf_object array = 7;
    pthread_t thread;
    void *back = NULL;
    WANT(PYBUF_OK, pybuf_world_new(&world));
    WANT(PYBUF_OK, pybuf_new(world, PYBUF_BYTEARRAY, "abc", 3, &array));
    HOLDS(array == 0);
    HOLDS(pthread_create(&thread, NULL, used_elsewhere, world) == 0);
    HOLDS(pthread_join(thread, &back) == 0);
    HOLDS(back != NULL);
}

int main(void)
{
    pybuf_world *world = NULL;
    WANT(PYBUF_OK, pybuf_world_new(&world));
    null_pointers(world);
    no_worlds();
    lengths(world);
    rooms(world);
    refusals(world);
    sizes(world);
    causes();
    lending(world);
    format_pointers(world);
    format_rooms();
    threads();
    WANT(PYBUF_OK, pybuf_world_free(world));
    if (wrong)
        printf("%d wrong\n", wrong);
    else
        printf("all calls answer as they should\n");
    return wrong != 0;
}
