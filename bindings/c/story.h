/* A story that uses each kind of call, for the programs that test what happens when memory runs out and when threads hand a world on. */
#ifndef PYBUF_STORY_H
#define PYBUF_STORY_H

#include "pybuf.h"

#include <stdio.h>
#include <stdlib.h>
#include <string.h>

/* What a story has at hand. `tries` says how often a call was made once more, as memory ran out in it. */
struct story {
    pybuf_world *world;
    pybuf_format *format;
    size_t tries, wrong;
};

/* Makes a call until memory suffices. Any other answer than the one that is wanted is told. */
#define UNTIL(wanted, call)                                                                                   \
    do {                                                                                                      \
        pybuf_status got_;                                                                                    \
        while ((got_ = (call)) == PYBUF_NO_MEMORY)                                                            \
            s->tries++;                                                                                       \
        if (got_ != (wanted)) {                                                                               \
            printf("line %d: %s, not %s\n", __LINE__, pybuf_status_name(got_), pybuf_status_name(wanted));    \
            s->wrong++;                                                                                       \
        }                                                                                                     \
    } while (0)

#define TELLS(condition)                                         \
    do {                                                         \
        if (!(condition)) {                                      \
            printf("line %d: not %s\n", __LINE__, #condition);   \
            s->wrong++;                                          \
        }                                                        \
    } while (0)

static void story_of_objects(struct story *s)
{
    static const int64_t two_by_three[] = {2, 3}, at[] = {1, 2};
    const pybuf_slice tail = {2, 0, 0, true, false, false};
    pybuf_object array = 99, bytes = 99, vector = 99, own = 99, view = 99, shaped = 99, made = 99, iterator = 99;
    pybuf_number number = {0, false}, items[8];
    pybuf_truth truth = PYBUF_FALSE;
    bool there = false;
    char room[64];
    size_t length = 0, count = 0;
    uint64_t line = 0;
    pybuf_world *w;
    UNTIL(PYBUF_OK, pybuf_world_new(&s->world));
    w = s->world;
    UNTIL(PYBUF_OK, pybuf_new(w, PYBUF_BYTEARRAY, "abcdef", 6, &array));
    UNTIL(PYBUF_OK, pybuf_new(w, PYBUF_BYTES, "cde", 3, &bytes));
    UNTIL(PYBUF_OK, pybuf_new(w, PYBUF_VECTOR, "vector", 6, &vector));
    TELLS(array == 0 && bytes == 1 && vector == 2);
    UNTIL(PYBUF_OK, pybuf_view(w, array, &view));
    UNTIL(PYBUF_OK, pybuf_cast(w, view, "B", two_by_three, 2, &shaped));
    UNTIL(PYBUF_OK, pybuf_get_at(w, shaped, at, 2, &number));
    TELLS(number.magnitude == 'f' && !number.negative);
    UNTIL(PYBUF_OK, pybuf_set_at(w, shaped, at, 2, pybuf_number_of('F')));
    UNTIL(PYBUF_OK, pybuf_items(w, shaped, items, 8, &count));
    TELLS(count == 6 && items[0].magnitude == 'a' && items[5].magnitude == 'F');
    UNTIL(PYBUF_OK, pybuf_property_numbers(w, shaped, PYBUF_SHAPE, items, 8, &count));
    TELLS(count == 2 && items[1].magnitude == 3);
    UNTIL(PYBUF_OK, pybuf_property_text(w, shaped, PYBUF_FORMAT, room, sizeof room, &length));
    TELLS(length == 1 && room[0] == 'B');
    UNTIL(PYBUF_OK, pybuf_property_object(w, shaped, PYBUF_OBJ, &made));
    TELLS(made == array);
    UNTIL(PYBUF_OK, pybuf_get_slice(w, view, &tail, &made));
    UNTIL(PYBUF_OK, pybuf_set_slice(w, made, &tail, "EF", 2));
    UNTIL(PYBUF_OK, pybuf_bytes(w, made, room, sizeof room, &length));
    TELLS(length == 4 && memcmp(room, "cdEF", 4) == 0);
    UNTIL(PYBUF_BUFFER_ERROR, pybuf_append(w, array, pybuf_number_of('g')));
    UNTIL(PYBUF_OK, pybuf_release(w, made));
    UNTIL(PYBUF_OK, pybuf_release(w, shaped));
    UNTIL(PYBUF_OK, pybuf_to_contiguous(w, view, &own, &made));
    UNTIL(PYBUF_OK, pybuf_to_readonly(w, view, &made));
    UNTIL(PYBUF_TYPE_ERROR, pybuf_set(w, made, 0, pybuf_number_of(1)));
    UNTIL(PYBUF_OK, pybuf_release(w, made));
    UNTIL(PYBUF_OK, pybuf_iterate(w, view, &iterator));
    UNTIL(PYBUF_OK, pybuf_next(w, iterator, &there, &number));
    TELLS(there && number.magnitude == 'a');
    UNTIL(PYBUF_OK, pybuf_release(w, view));
    UNTIL(PYBUF_OK, pybuf_append(w, array, pybuf_number_of('g')));
    UNTIL(PYBUF_OK, pybuf_extend(w, array, "hi", 2));
    UNTIL(PYBUF_OK, pybuf_extend_by(w, array, bytes));
    UNTIL(PYBUF_OK, pybuf_insert(w, array, 0, pybuf_number_of('<')));
    UNTIL(PYBUF_OK, pybuf_pop(w, array, 1, &number));
    TELLS(number.magnitude == 'a');
    UNTIL(PYBUF_OK, pybuf_pop_last(w, array, &number));
    TELLS(number.magnitude == 'e');
    UNTIL(PYBUF_OK, pybuf_remove(w, array, pybuf_number_of('d')));
    UNTIL(PYBUF_OK, pybuf_reverse(w, array));
    UNTIL(PYBUF_OK, pybuf_delete(w, array, -1));
    UNTIL(PYBUF_OK, pybuf_delete_slice(w, array, &tail));
    UNTIL(PYBUF_OK, pybuf_repeat(w, array, 3));
    UNTIL(PYBUF_OK, pybuf_copy(w, array, &made));
    UNTIL(PYBUF_OK, pybuf_compare_with(w, array, PYBUF_EQ, made, &truth));
    TELLS(truth == PYBUF_TRUE);
    UNTIL(PYBUF_OK, pybuf_compare(w, array, PYBUF_LT, "dd", 2, &truth));
    TELLS(truth == PYBUF_TRUE);
    UNTIL(PYBUF_OK, pybuf_contains(w, array, "cd", 2, &there));
    TELLS(there);
    UNTIL(PYBUF_OK, pybuf_shown(w, array, room, sizeof room, &length));
    TELLS(length == 20 && memcmp(room, "bytearray(b'dcdcdc')", 20) == 0);
    UNTIL(PYBUF_OK, pybuf_set_slice_of(w, array, &tail, bytes));
    UNTIL(PYBUF_OK, pybuf_get_slice_bytes(w, array, &tail, room, sizeof room, &length));
    TELLS(length == 3 && memcmp(room, "cde", 3) == 0);
    UNTIL(PYBUF_OK, pybuf_take(w, vector, room, sizeof room, &length));
    TELLS(length == 6 && memcmp(room, "vector", 6) == 0);
    UNTIL(PYBUF_OK, pybuf_length(w, vector, &length));
    TELLS(length == 0);
    UNTIL(PYBUF_OK, pybuf_clear(w, array));
    UNTIL(PYBUF_OK, pybuf_world_run(w, "extend h0 x6162\nget h0 9\n", 25, &count, &line));
    TELLS(count == 2);
    UNTIL(PYBUF_OK, pybuf_world_reply(w, 1, room, sizeof room, &length));
    TELLS(length == 12 && memcmp(room, "! IndexError", 12) == 0);
}

static void story_of_formats(struct story *s)
{
    pybuf_value values[3], read[3];
    char room[16];
    size_t length = 0, count = 0;
    values[0] = pybuf_number_value(pybuf_number_of(-2));
    values[1] = pybuf_bytes_value("abcd", 4);
    values[2] = pybuf_number_value(pybuf_number_of(7));
    UNTIL(PYBUF_OK, pybuf_format_parse("<h4sQ", 5, &s->format));
    UNTIL(PYBUF_OK, pybuf_format_pack(s->format, values, 3, room, sizeof room, &length));
    TELLS(length == 14 && memcmp(room, "\xfe\xff" "abcd\7\0\0\0\0\0\0\0", 14) == 0);
    UNTIL(PYBUF_OK, pybuf_format_unpack(s->format, room, length, read, 3, &count));
    TELLS(count == 3 && read[0].number.negative && read[0].number.magnitude == 2 && read[2].number.magnitude == 7);
    UNTIL(PYBUF_OK, pybuf_format_value_bytes(s->format, 1, room, sizeof room, &length));
    TELLS(length == 4 && memcmp(room, "abcd", 4) == 0);
}

static void story_ends(struct story *s)
{
    UNTIL(PYBUF_OK, pybuf_world_free(s->world));
    UNTIL(PYBUF_OK, pybuf_format_free(s->format));
}

#endif
