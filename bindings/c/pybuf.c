/* The calls of pybuf.h. Each tests what it is passed, and calls the export of the proved library.
 *
 * The exports need a handle that is real and zeroed at first, and slices whose pointer isn't null. The calls here provide both.
 * A call for objects asks one command, whose reply the world keeps, and then reads the reply. */
#include "exports.h"

#include <stdio.h>
#include <stdlib.h>
#include <string.h>

/* This stands at the head of what was handed out, and is overwritten when that is freed. */
#define A_WORLD UINT64_C(0x646c726f77667562)
#define A_FORMAT UINT64_C(0x74616d726f667562)

/* The last call that answered anything but PYBUF_OK, and what it answered, stand beside the handle. */
struct pybuf_world {
    uint64_t mark;
    proved_handle handle;
    const char *call;
    pybuf_status answered;
};

struct pybuf_format {
    uint64_t mark;
    proved_handle handle;
    const char *call;
    pybuf_status answered;
};

/* A slice of no bytes points to this. */
static uint8_t no_bytes[1];

#define NEEDS(condition, status) \
    do {                         \
        if (!(condition))        \
            return (status);     \
    } while (0)

/* What a call needs, as the status that it answers if that is missing. */

static pybuf_status a_pointer(const void *pointer)
{
    return pointer ? PYBUF_OK : PYBUF_NULL_POINTER;
}

static pybuf_status a_world(const pybuf_world *world)
{
    return !world ? PYBUF_NULL_POINTER : world->mark == A_WORLD ? PYBUF_OK : PYBUF_NO_WORLD;
}

static pybuf_status a_format(const pybuf_format *format)
{
    return !format ? PYBUF_NULL_POINTER : format->mark == A_FORMAT ? PYBUF_OK : PYBUF_NO_FORMAT;
}

/* so many entries of this size, from a pointer on */
static pybuf_status entries(const void *pointer, size_t count, size_t size)
{
    return count > (size_t)PTRDIFF_MAX / size ? PYBUF_TOO_LONG : pointer || count == 0 ? PYBUF_OK : PYBUF_NULL_POINTER;
}

static pybuf_status some_bytes(const void *pointer, size_t length)
{
    return entries(pointer, length, 1);
}

static pybuf_status both(pybuf_status first, pybuf_status second)
{
    return first ? first : second;
}

static pybuf_status a_room(const void *room, size_t room_length, const size_t *length)
{
    return both(some_bytes(room, room_length), a_pointer(length));
}

/* Ends the function if a call in it answers anything but PYBUF_OK. */
#define ASKS(call)                                     \
    do {                                               \
        uint32_t status = (call);                      \
        if (status != PYBUF_OK)                        \
            return (pybuf_status)status;               \
    } while (0)

static const uint8_t *bytes_at(const void *pointer)
{
    return pointer ? (const uint8_t *)pointer : no_bytes;
}

static uint8_t *room_at(void *pointer)
{
    return pointer ? (uint8_t *)pointer : no_bytes;
}

/* Each status by its name, and by what it says. */
static const struct {
    const char *name, *cause;
} statuses[] = {
    [PYBUF_OK] = {"ok", "it is done"},
    [PYBUF_NO_MEMORY] = {"no memory", "memory ran out"},
    [PYBUF_NO_WORLD] = {"no world", "the pointer is no world"},
    [PYBUF_TOO_SMALL] = {"room too small", "the room is too small, and the length that is needed was written"},
    [PYBUF_BAD_LINE] = {"no command", "a line is no command"},
    [PYBUF_NOTHING] = {"no such reply", "there is no such reply, or it is of another kind"},
    [PYBUF_BAD_ARGUMENT] = {"bad argument", "a number stands for nothing, or a text isn't UTF-8"},
    [PYBUF_NULL_POINTER] = {"null pointer", "a pointer that is needed is null"},
    [PYBUF_TOO_LONG] = {"too long", "a length is past PTRDIFF_MAX"},
    [PYBUF_NO_FORMAT] = {"no format", "the pointer is no format"},
    [PYBUF_INDEX_ERROR] = {"IndexError", "an index is out of range, or there is nothing to take"},
    [PYBUF_VALUE_ERROR] = {"ValueError", "a value is out of range or isn't there, a number of bytes doesn't fit, or the view is released"},
    [PYBUF_TYPE_ERROR] = {"TypeError", "a value or an object is of a type that the call doesn't take, or may only be read"},
    [PYBUF_BUFFER_ERROR] = {"BufferError", "a view is unreleased, so the number of bytes can't change"},
    [PYBUF_STRUCT_ERROR] = {"StructError", "the format is none, or the values or bytes don't fit it"},
    [PYBUF_OVERFLOW_ERROR] = {"OverflowError", "a number is past the range that the call takes"},
    [PYBUF_NOT_IMPLEMENTED_ERROR] = {"NotImplementedError", "there is no such call for a view of this format or shape"},
    [PYBUF_UNKNOWN_NAME] = {"UnknownName", "the object was never given, or is of a kind that has no such call"},
};

const char *pybuf_status_name(pybuf_status status)
{
    bool there = (size_t)status < sizeof statuses / sizeof *statuses && statuses[status].name;
    return there ? statuses[status].name : "no status";
}

/* Copies the sentence on a call and its status to the room. */
static pybuf_status hand_cause(const char *call, pybuf_status answered, char *room, size_t room_length, size_t *length)
{
    char text[192];
    if (answered == PYBUF_OK)
        return PYBUF_NOTHING;
    *length = (size_t)snprintf(text, sizeof text, "%s: %s: %s", call, statuses[answered].name, statuses[answered].cause);
    if (*length > room_length)
        return PYBUF_TOO_SMALL;
    memcpy(room_at(room), text, *length);
    return PYBUF_OK;
}

/* A call of a world or a format: its parameters, what of them is tested, what is asked of the proved library, and what is answered. Each of
 * the three is a status, and the first that isn't PYBUF_OK ends the call. It is noted where the handle is. */
#define CALL_OF(it, is_it, name, parameters, tests, asked, answer) \
    pybuf_status name parameters                                   \
    {                                                              \
        pybuf_status status = is_it(it);                           \
        if (status != PYBUF_OK)                                    \
            return status;                                         \
        status = (tests);                                          \
        if (status == PYBUF_OK)                                    \
            status = (pybuf_status)(asked);                        \
        if (status == PYBUF_OK)                                    \
            status = (answer);                                     \
        if (status != PYBUF_OK) {                                  \
            (it)->call = #name;                                    \
            (it)->answered = status;                               \
        }                                                          \
        return status;                                             \
    }

const char *pybuf_version(void)
{
    return PYBUF_VERSION;
}

pybuf_status pybuf_world_new(pybuf_world **world)
{
    NEEDS(world != NULL, PYBUF_NULL_POINTER);
    *world = NULL;
    pybuf_world *made = (pybuf_world *)calloc(1, sizeof *made);
    NEEDS(made != NULL, PYBUF_NO_MEMORY);
    uint32_t status = pybuf_proved_world_new(&made->handle);
    if (status != PYBUF_OK) {
        free(made);
        return (pybuf_status)status;
    }
    made->mark = A_WORLD;
    *world = made;
    return PYBUF_OK;
}

pybuf_status pybuf_world_free(pybuf_world *world)
{
    NEEDS(world != NULL, PYBUF_OK);
    ASKS(a_world(world));
    pybuf_proved_world_free(&world->handle);
    world->mark = 0;
    free(world);
    return PYBUF_OK;
}

static pybuf_status run(proved_handle *handle, const char *text, size_t length, size_t *count, uint64_t *line)
{
    size_t counted = 0;
    uint64_t wrong = 0;
    pybuf_status status = (pybuf_status)pybuf_proved_world_run(handle, bytes_at(text), length, &counted, &wrong);
    if (count)
        *count = counted;
    if (line && status == PYBUF_BAD_LINE)
        *line = wrong;
    return status;
}

#define OF(...) (pybuf_world *world, __VA_ARGS__)
#define CALL(name, parameters, tests, asked, answer) CALL_OF(world, a_world, pybuf_##name, parameters, tests, asked, answer)
#define ASK(name, ...) pybuf_proved_##name(&world->handle, __VA_ARGS__)

CALL(world_run, OF(const char *text, size_t length, size_t *count, uint64_t *line), some_bytes(text, length),
    run(&world->handle, text, length, count, line), PYBUF_OK)
CALL(world_reply, OF(size_t index, char *room, size_t room_length, size_t *length), a_room(room, room_length, length),
    ASK(world_reply, index, room_at(room), room_length, length), PYBUF_OK)

pybuf_status pybuf_last_cause(pybuf_world *world, char *room, size_t room_length, size_t *length)
{
    ASKS(a_world(world));
    ASKS(a_room(room, room_length, length));
    return hand_cause(world->call, world->answered, room, room_length, length);
}

/* ---- objects ---- */

/* A pointer to a list of 64-bit numbers points to this if there are none. */
static const int64_t no_numbers[1];

static const int64_t *numbers_at(const int64_t *pointer)
{
    return pointer ? pointer : no_numbers;
}

/* Each of these reads the last reply to the places that a call was passed. */

static pybuf_status two_objects(pybuf_world *world, pybuf_object *exporter, pybuf_object *view)
{
    return (pybuf_status)pybuf_proved_last_objects(&world->handle, exporter, view);
}

static pybuf_status one_object(pybuf_world *world, pybuf_object *object)
{
    pybuf_object exporter = 0, view = 0;
    ASKS(two_objects(world, &exporter, &view));
    *object = view;
    return PYBUF_OK;
}

static pybuf_status one_number(pybuf_world *world, pybuf_number *number)
{
    pybuf_number found = {0, false};
    ASKS(pybuf_proved_last_number(&world->handle, &found.magnitude, &found.negative));
    *number = found;
    return PYBUF_OK;
}

static pybuf_status one_size(pybuf_world *world, size_t *size)
{
    pybuf_number found = {0, false};
    ASKS(one_number(world, &found));
    *size = (size_t)found.magnitude;
    return PYBUF_OK;
}

static pybuf_status one_flag(pybuf_world *world, bool *truth)
{
    pybuf_number found = {0, false};
    ASKS(one_number(world, &found));
    *truth = found.magnitude != 0;
    return PYBUF_OK;
}

static pybuf_status one_text(pybuf_world *world, void *room, size_t room_length, size_t *length)
{
    return (pybuf_status)pybuf_proved_last_bytes(&world->handle, room_at(room), room_length, length);
}

static pybuf_status all_numbers(pybuf_world *world, pybuf_number *room, size_t room_count, size_t *count)
{
    size_t parts = 0;
    ASKS(pybuf_proved_last_part_count(&world->handle, &parts));
    *count = parts;
    NEEDS(parts <= room_count, PYBUF_TOO_SMALL);
    for (size_t i = 0; i < parts; i++)
        ASKS(pybuf_proved_last_part(&world->handle, i, &room[i].magnitude, &room[i].negative));
    return PYBUF_OK;
}

/* The kinds of replies that are told apart here. */
enum { NOT_IMPLEMENTED_KIND = 9, STOP_KIND = 12 };

static pybuf_status one_truth(pybuf_world *world, pybuf_truth *truth)
{
    uint32_t kind = 0;
    bool found = false;
    ASKS(pybuf_proved_last_kind(&world->handle, &kind));
    if (kind == NOT_IMPLEMENTED_KIND) {
        *truth = PYBUF_NOT_COMPARABLE;
        return PYBUF_OK;
    }
    ASKS(one_flag(world, &found));
    *truth = found ? PYBUF_TRUE : PYBUF_FALSE;
    return PYBUF_OK;
}

static pybuf_status one_item(pybuf_world *world, bool *there, pybuf_number *item)
{
    uint32_t kind = 0;
    ASKS(pybuf_proved_last_kind(&world->handle, &kind));
    *there = kind != STOP_KIND;
    return *there ? one_number(world, item) : PYBUF_OK;
}

/* The calls, row by row. */

CALL(new, OF(pybuf_kind kind, const void *bytes, size_t length, pybuf_object *object), both(some_bytes(bytes, length), a_pointer(object)),
    ASK(new, (uint32_t)kind, bytes_at(bytes), length), one_object(world, object))
CALL(view, OF(pybuf_object object, pybuf_object *view), a_pointer(view), ASK(view, object), one_object(world, view))
CALL(to_readonly, OF(pybuf_object view, pybuf_object *made), a_pointer(made), ASK(to_readonly, view), one_object(world, made))
CALL(to_contiguous, OF(pybuf_object view, pybuf_object *vector, pybuf_object *made), both(a_pointer(vector), a_pointer(made)),
    ASK(to_contiguous, view), two_objects(world, vector, made))
CALL(cast, OF(pybuf_object view, const char *format, const int64_t *shape, size_t dimensions, pybuf_object *made),
    both(a_pointer(format), both(a_pointer(made), entries(shape, shape ? dimensions : 0, sizeof *shape))),
    shape ? ASK(cast_to_shape, view, bytes_at(format), strlen(format), shape, dimensions) : ASK(cast, view, bytes_at(format), strlen(format)),
    one_object(world, made))
CALL(release, OF(pybuf_object view), PYBUF_OK, ASK(release, view), PYBUF_OK)
CALL(iterate, OF(pybuf_object object, pybuf_object *iterator), a_pointer(iterator), ASK(iterate, object), one_object(world, iterator))
CALL(next, OF(pybuf_object iterator, bool *there, pybuf_number *item), both(a_pointer(there), a_pointer(item)),
    ASK(next, iterator), one_item(world, there, item))

CALL(get_at, OF(pybuf_object view, const int64_t *indices, size_t count, pybuf_number *item), both(entries(indices, count, sizeof *indices), a_pointer(item)),
    ASK(get_at, view, numbers_at(indices), count), one_number(world, item))
CALL(get_item_bytes, OF(pybuf_object view, int64_t index, void *room, size_t room_length, size_t *length), a_room(room, room_length, length),
    ASK(get, view, index), one_text(world, room, room_length, length))
CALL(get_slice, OF(pybuf_object view, const pybuf_slice *slice, pybuf_object *made), both(a_pointer(slice), a_pointer(made)),
    ASK(get_slice, view, slice), one_object(world, made))
CALL(get_slice_bytes, OF(pybuf_object exporter, const pybuf_slice *slice, void *room, size_t room_length, size_t *length),
    both(a_pointer(slice), a_room(room, room_length, length)), ASK(get_slice, exporter, slice), one_text(world, room, room_length, length))
CALL(set, OF(pybuf_object object, int64_t index, pybuf_number item), PYBUF_OK, ASK(set, object, index, item.magnitude, item.negative), PYBUF_OK)
CALL(set_at, OF(pybuf_object view, const int64_t *indices, size_t count, pybuf_number item), entries(indices, count, sizeof *indices),
    ASK(set_at, view, numbers_at(indices), count, item.magnitude, item.negative), PYBUF_OK)
CALL(set_slice, OF(pybuf_object object, const pybuf_slice *slice, const void *bytes, size_t length), both(a_pointer(slice), some_bytes(bytes, length)),
    ASK(set_slice, object, slice, bytes_at(bytes), length), PYBUF_OK)
CALL(set_slice_of, OF(pybuf_object object, const pybuf_slice *slice, pybuf_object other), a_pointer(slice),
    ASK(set_slice_of, object, slice, other), PYBUF_OK)

CALL(length, OF(pybuf_object object, size_t *length), a_pointer(length), ASK(length, object), one_size(world, length))
CALL(bytes, OF(pybuf_object object, void *room, size_t room_length, size_t *length), a_room(room, room_length, length),
    ASK(bytes, object), one_text(world, room, room_length, length))
CALL(items, OF(pybuf_object view, pybuf_number *room, size_t room_count, size_t *count), both(entries(room, room_count, sizeof *room), a_pointer(count)),
    ASK(items, view), all_numbers(world, room, room_count, count))
CALL(property_number, OF(pybuf_object object, pybuf_property property, pybuf_number *number), a_pointer(number),
    ASK(property, object, (uint32_t)property), one_number(world, number))
CALL(property_numbers, OF(pybuf_object object, pybuf_property property, pybuf_number *room, size_t room_count, size_t *count),
    both(entries(room, room_count, sizeof *room), a_pointer(count)), ASK(property, object, (uint32_t)property), all_numbers(world, room, room_count, count))
CALL(property_text, OF(pybuf_object object, pybuf_property property, char *room, size_t room_length, size_t *length),
    a_room(room, room_length, length), ASK(property, object, (uint32_t)property), one_text(world, room, room_length, length))
CALL(property_object, OF(pybuf_object object, pybuf_property property, pybuf_object *found), a_pointer(found),
    ASK(property, object, (uint32_t)property), one_object(world, found))
CALL(compare, OF(pybuf_object object, pybuf_operator op, const void *bytes, size_t length, pybuf_truth *truth),
    both(some_bytes(bytes, length), a_pointer(truth)), ASK(compare, object, (uint32_t)op, bytes_at(bytes), length), one_truth(world, truth))
CALL(compare_with, OF(pybuf_object object, pybuf_operator op, pybuf_object other, pybuf_truth *truth), a_pointer(truth),
    ASK(compare_with, object, (uint32_t)op, other), one_truth(world, truth))
CALL(contains, OF(pybuf_object object, const void *bytes, size_t length, bool *truth), both(some_bytes(bytes, length), a_pointer(truth)),
    ASK(contains, object, bytes_at(bytes), length), one_flag(world, truth))
CALL(contains_byte, OF(pybuf_object object, pybuf_number byte, bool *truth), a_pointer(truth),
    ASK(contains_byte, object, byte.magnitude, byte.negative), one_flag(world, truth))
CALL(shown, OF(pybuf_object object, char *room, size_t room_length, size_t *length), a_room(room, room_length, length),
    ASK(shown, object), one_text(world, room, room_length, length))

CALL(append, OF(pybuf_object array, pybuf_number byte), PYBUF_OK, ASK(append, array, byte.magnitude, byte.negative), PYBUF_OK)
CALL(extend, OF(pybuf_object array, const void *bytes, size_t length), some_bytes(bytes, length),
    ASK(extend, array, bytes_at(bytes), length), PYBUF_OK)
CALL(extend_by, OF(pybuf_object array, pybuf_object other), PYBUF_OK, ASK(extend_by, array, other), PYBUF_OK)
CALL(insert, OF(pybuf_object array, int64_t index, pybuf_number byte), PYBUF_OK, ASK(insert, array, index, byte.magnitude, byte.negative), PYBUF_OK)
CALL(pop, OF(pybuf_object array, int64_t index, pybuf_number *byte), a_pointer(byte), ASK(pop, array, index), one_number(world, byte))
CALL(pop_last, OF(pybuf_object array, pybuf_number *byte), a_pointer(byte), ASK(pop_last, array), one_number(world, byte))
CALL(remove, OF(pybuf_object array, pybuf_number byte), PYBUF_OK, ASK(remove, array, byte.magnitude, byte.negative), PYBUF_OK)
CALL(clear, OF(pybuf_object array), PYBUF_OK, ASK(clear, array), PYBUF_OK)
CALL(reverse, OF(pybuf_object array), PYBUF_OK, ASK(reverse, array), PYBUF_OK)
CALL(delete, OF(pybuf_object array, int64_t index), PYBUF_OK, ASK(delete, array, index), PYBUF_OK)
CALL(delete_slice, OF(pybuf_object array, const pybuf_slice *slice), a_pointer(slice), ASK(delete_slice, array, slice), PYBUF_OK)
CALL(repeat, OF(pybuf_object array, int64_t count), PYBUF_OK, ASK(repeat, array, count), PYBUF_OK)
CALL(copy, OF(pybuf_object array, pybuf_object *made), a_pointer(made), ASK(copy, array), one_object(world, made))
CALL(take, OF(pybuf_object vector, void *room, size_t room_length, size_t *length), a_room(room, room_length, length),
    ASK(take, vector), one_text(world, room, room_length, length))

/* (the export tells the place itself) */
static pybuf_status lend(proved_handle *handle, pybuf_object view, const uint8_t **at, size_t *length)
{
    proved_lent lent = {no_bytes, 0};
    ASKS(pybuf_proved_lend(handle, view, &lent));
    *at = lent.at;
    *length = lent.length;
    return PYBUF_OK;
}

static pybuf_status lend_to_write(proved_handle *handle, pybuf_object view, uint8_t **at, size_t *length)
{
    proved_lent_to_write lent = {no_bytes, 0};
    ASKS(pybuf_proved_lend_to_write(handle, view, &lent));
    *at = lent.at;
    *length = lent.length;
    return PYBUF_OK;
}

CALL(lend, OF(pybuf_object view, const uint8_t **at, size_t *length), both(a_pointer(at), a_pointer(length)),
    lend(&world->handle, view, at, length), PYBUF_OK)
CALL(lend_to_write, OF(pybuf_object view, uint8_t **at, size_t *length), both(a_pointer(at), a_pointer(length)),
    lend_to_write(&world->handle, view, at, length), PYBUF_OK)

/* (the export tells the number itself) */
static pybuf_status get(proved_handle *handle, pybuf_object object, int64_t index, pybuf_number *item)
{
    pybuf_number found = {0, false};
    ASKS(pybuf_proved_get_number(handle, object, index, &found.magnitude, &found.negative));
    *item = found;
    return PYBUF_OK;
}

CALL(get, OF(pybuf_object object, int64_t index, pybuf_number *item), a_pointer(item), get(&world->handle, object, index, item), PYBUF_OK)
CALL(last_bytes, OF(void *room, size_t room_length, size_t *length), a_room(room, room_length, length),
    one_text(world, room, room_length, length), PYBUF_OK)

/* ---- formats ---- */

pybuf_status pybuf_format_parse(const char *text, size_t length, pybuf_format **format)
{
    NEEDS(format != NULL, PYBUF_NULL_POINTER);
    *format = NULL;
    ASKS(some_bytes(text, length));
    pybuf_format *made = (pybuf_format *)calloc(1, sizeof *made);
    NEEDS(made != NULL, PYBUF_NO_MEMORY);
    uint32_t status = pybuf_proved_format_parse(&made->handle, bytes_at(text), length);
    if (status != PYBUF_OK) {
        free(made);
        return (pybuf_status)status;
    }
    made->mark = A_FORMAT;
    *format = made;
    return PYBUF_OK;
}

pybuf_status pybuf_format_free(pybuf_format *format)
{
    NEEDS(format != NULL, PYBUF_OK);
    ASKS(a_format(format));
    pybuf_proved_format_free(&format->handle);
    format->mark = 0;
    free(format);
    return PYBUF_OK;
}

/* Whether the pointer of a value may be read. */
static pybuf_status value_status(const pybuf_value *value)
{
    switch (value->kind) {
    case PYBUF_NUMBER_VALUE:
    case PYBUF_TRUTH_VALUE:
        return PYBUF_OK;
    case PYBUF_BYTES_VALUE:
        return some_bytes(value->bytes, value->length);
    }
    return PYBUF_BAD_ARGUMENT;
}

static pybuf_status all_values(const pybuf_value *values, size_t count)
{
    for (size_t i = 0; i < count; i++)
        ASKS(value_status(&values[i]));
    return PYBUF_OK;
}

static pybuf_status put_values(proved_handle *handle, const pybuf_value *values, size_t count)
{
    for (size_t i = 0; i < count; i++)
        if (values[i].kind == PYBUF_BYTES_VALUE)
            ASKS(pybuf_proved_format_put_bytes(handle, bytes_at(values[i].bytes), values[i].length));
        else
            ASKS(pybuf_proved_format_put_number(handle, values[i].number.magnitude, values[i].number.negative));
    return PYBUF_OK;
}

static pybuf_status pack(pybuf_format *format, const pybuf_value *values, size_t count, void *room, size_t room_length, size_t *length)
{
    size_t size = 0, fields = 0;
    ASKS(all_values(values, count));
    ASKS(pybuf_proved_format_layout(&format->handle, &size, &fields));
    if (size > room_length) {
        *length = size;
        return PYBUF_TOO_SMALL;
    }
    ASKS(pybuf_proved_format_clear(&format->handle));
    pybuf_status packed = put_values(&format->handle, values, count);
    if (packed == PYBUF_OK)
        packed = (pybuf_status)pybuf_proved_format_pack(&format->handle, room_at(room), room_length, &size);
    ASKS(pybuf_proved_format_clear(&format->handle));
    if (packed == PYBUF_OK)
        *length = size;
    return packed;
}

static pybuf_status value_at(proved_handle *handle, size_t index, pybuf_value *value)
{
    uint32_t kind = 0;
    pybuf_number number = {0, false};
    ASKS(pybuf_proved_format_value(handle, index, &kind, &number.magnitude, &number.negative));
    if (kind == PYBUF_BYTES_VALUE) {
        *value = pybuf_bytes_value(NULL, (size_t)number.magnitude);
    } else {
        *value = pybuf_number_value(number);
        value->kind = (pybuf_value_kind)kind;
    }
    return PYBUF_OK;
}

static pybuf_status unpack(pybuf_format *format, const void *bytes, size_t length, pybuf_value *room, size_t room_count, size_t *count)
{
    size_t size = 0, fields = 0;
    ASKS(pybuf_proved_format_layout(&format->handle, &size, &fields));
    if (fields > room_count) {
        *count = fields;
        return PYBUF_TOO_SMALL;
    }
    ASKS(pybuf_proved_format_unpack(&format->handle, bytes_at(bytes), length));
    for (size_t i = 0; i < fields; i++)
        ASKS(value_at(&format->handle, i, &room[i]));
    *count = fields;
    return PYBUF_OK;
}

/* One of the two numbers of a format's layout. */
static pybuf_status layout(proved_handle *handle, size_t *size, size_t *count)
{
    size_t other = 0;
    return (pybuf_status)pybuf_proved_format_layout(handle, size ? size : &other, count ? count : &other);
}

#define OF_FORMAT(...) (pybuf_format *format, __VA_ARGS__)
#define FORMAT_CALL(name, parameters, tests, asked) CALL_OF(format, a_format, pybuf_format_##name, parameters, tests, asked, PYBUF_OK)

FORMAT_CALL(size, OF_FORMAT(size_t *size), a_pointer(size), layout(&format->handle, size, NULL))
FORMAT_CALL(count, OF_FORMAT(size_t *count), a_pointer(count), layout(&format->handle, NULL, count))
FORMAT_CALL(pack, OF_FORMAT(const pybuf_value *values, size_t count, void *room, size_t room_length, size_t *length),
    both(entries(values, count, sizeof *values), a_room(room, room_length, length)), pack(format, values, count, room, room_length, length))
FORMAT_CALL(unpack, OF_FORMAT(const void *bytes, size_t length, pybuf_value *room, size_t room_count, size_t *count),
    both(some_bytes(bytes, length), both(entries(room, room_count, sizeof *room), a_pointer(count))),
    unpack(format, bytes, length, room, room_count, count))
FORMAT_CALL(value_bytes, OF_FORMAT(size_t index, void *room, size_t room_length, size_t *length), a_room(room, room_length, length),
    pybuf_proved_format_value_bytes(&format->handle, index, room_at(room), room_length, length))

pybuf_status pybuf_format_last_cause(pybuf_format *format, char *room, size_t room_length, size_t *length)
{
    ASKS(a_format(format));
    ASKS(a_room(room, room_length, length));
    return hand_cause(format->call, format->answered, room, room_length, length);
}
