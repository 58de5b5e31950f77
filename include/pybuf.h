/* pybuf: Python's bytes, bytearray and memoryview, by a library that is proved.
 *
 * This header is C11 and C++17. What stands behind it is proved but for bindings/c/pybuf.c, which is plain C: it tests what
 * it is passed and calls the proved library. docs/tasks/install.md has a first program.
 *
 * What a caller owes, and nothing tests:
 *   - A world or a format is used by one call at a time. Another thread may use it, or free it, once a lock or a join stands
 *     between. That it may go to another thread is proved.
 *   - A world or a format that was freed, or a pointer that came from nowhere, is not passed on.
 *   - A pointer and a length name memory that is there, that is the caller's to read (or to write, where it is a room), and
 *     that no other thread changes during the call.
 *   - Rooms and results lie apart from each other, and from the bytes that are passed in.
 *
 * What is tested, and answered by a status before anything is read: a null pointer, a pointer that was handed out for
 * something else, and a length past PTRDIFF_MAX. A length of 0 may stand beside a null pointer, so a null room asks how long the
 * room has to be.
 *
 * No world or format is const. Each call takes it out of its handle and puts it back, so two calls may not run at once, even if
 * both only read.
 */
#ifndef PYBUF_H
#define PYBUF_H

#include <stdbool.h>
#include <stddef.h>
#include <stdint.h>

/* The version of this header, as the file VERSION has it. The major number is that of the shared library's name. */
#define PYBUF_VERSION_MAJOR 1
#define PYBUF_VERSION_MINOR 0
#define PYBUF_VERSION_PATCH 0
#define PYBUF_VERSION "1.0.0"

#ifdef __cplusplus
extern "C" {
#endif

/* What a call answers. From PYBUF_INDEX_ERROR on it is a refusal, named as Python's exception: nothing was changed. */
typedef enum pybuf_status {
    PYBUF_OK = 0,
    PYBUF_NO_MEMORY = 1,      /* memory ran out */
    PYBUF_NO_WORLD = 2,       /* the pointer is no world */
    PYBUF_TOO_SMALL = 3,      /* the room is too small; the length that is needed was written */
    PYBUF_BAD_LINE = 4,       /* a line is no command */
    PYBUF_NOTHING = 5,        /* there is no such reply, or it is of another kind */
    PYBUF_BAD_ARGUMENT = 6,   /* a number stands for nothing, as an unknown kind or property */
    PYBUF_NULL_POINTER = 7,   /* a pointer that is needed is null */
    PYBUF_TOO_LONG = 8,       /* a length is past PTRDIFF_MAX */
    PYBUF_NO_FORMAT = 9,      /* the pointer is no format */
    PYBUF_INDEX_ERROR = 16,
    PYBUF_VALUE_ERROR = 17,
    PYBUF_TYPE_ERROR = 18,
    PYBUF_BUFFER_ERROR = 19,
    PYBUF_STRUCT_ERROR = 20,
    PYBUF_OVERFLOW_ERROR = 21,
    PYBUF_NOT_IMPLEMENTED_ERROR = 22,
    PYBUF_UNKNOWN_NAME = 23   /* an object that was never given, or one of a kind that has no such call */
} pybuf_status;

/* The name of a status, as "IndexError" or "no memory". It is the library's, and stays. */
const char *pybuf_status_name(pybuf_status status);

/* The version of the library that is linked or loaded, as "1.0.0". It is the library's, and stays. */
const char *pybuf_version(void);

/* ---- worlds, by lines ---- */

/* A world of objects: bytes, bytearrays, vectors, and views and iterators of these. */
typedef struct pybuf_world pybuf_world;

/* Makes a world with nothing in it, which is the caller's to free. On any other status *world is null. */
pybuf_status pybuf_world_new(pybuf_world **world);

/* Frees a world with all that is in it. A null pointer is let be. The pointer is not used again. */
pybuf_status pybuf_world_free(pybuf_world *world);

/* Runs the lines of a text, as the program does (man page pybuf-lines(5)), and keeps their replies in place of those before.
 * *count, where it isn't null, is how many replies are kept. A refusal is a reply, and the call answers PYBUF_OK.
 * PYBUF_BAD_LINE: nothing was run, and *line, where it isn't null, is the number of the first line that is no command,
 * from 1. PYBUF_NO_MEMORY: the lines before the one in which memory ran out were run, and their replies are kept. */
pybuf_status pybuf_world_run(pybuf_world *world, const char *text, size_t length, size_t *count, uint64_t *line);

/* Copies the reply of this number, from 0, to the room, with no line feed and no zero behind it. *length is how long it is, also
 * where the room is too small; the room is then as before. PYBUF_NOTHING: so many replies aren't kept. */
pybuf_status pybuf_world_reply(pybuf_world *world, size_t index, char *room, size_t room_length, size_t *length);

/* Copies to the room, with no zero behind it, a sentence on the last call of this world that answered anything but PYBUF_OK: its name, its
 * status and what that says, as "pybuf_append: BufferError: a view is unreleased, so the number of bytes can't change". *length is how long
 * it is, also where the room is too small. PYBUF_NOTHING: there was no such call. */
pybuf_status pybuf_last_cause(pybuf_world *world, char *room, size_t room_length, size_t *length);

/* ---- objects, by numbers ---- */

/* An object of a world: an exporter (bytes, a bytearray or a vector), a view, or an iterator. It is a number that the world
 * gave, from 0 on, and is nobody's to free: what a world made stays in it until the world is freed. A number that the world
 * didn't give is refused with PYBUF_UNKNOWN_NAME. It is the N of the handle hN of lines. */
typedef uint64_t pybuf_object;

/* A whole number, as a size and a sign. */
typedef struct pybuf_number {
    uint64_t magnitude;
    bool negative;
} pybuf_number;

static inline pybuf_number pybuf_number_of(int64_t number)
{
    pybuf_number made;
    made.magnitude = number < 0 ? UINT64_C(0) - (uint64_t)number : (uint64_t)number;
    made.negative = number < 0;
    return made;
}

/* A slice, as Python's start:stop:step. A part that is absent is Python's None. */
typedef struct pybuf_slice {
    int64_t start, stop, step;
    bool has_start, has_stop, has_step;
} pybuf_slice;

typedef enum pybuf_kind {
    PYBUF_BYTES = 0,
    PYBUF_BYTEARRAY = 1,
    PYBUF_VECTOR = 2,
    PYBUF_READONLY_VECTOR = 3
} pybuf_kind;

typedef enum pybuf_property {
    PYBUF_EXPORTS = 0,       /* a number: the unreleased views of an exporter */
    PYBUF_OBJ = 1,           /* an object: the exporter of a view */
    PYBUF_NBYTES = 2,        /* a number */
    PYBUF_READONLY = 3,      /* a number, 0 or 1 */
    PYBUF_ITEMSIZE = 4,      /* a number */
    PYBUF_NDIM = 5,          /* a number */
    PYBUF_SHAPE = 6,         /* numbers */
    PYBUF_STRIDES = 7,       /* numbers */
    PYBUF_SUBOFFSETS = 8,    /* numbers */
    PYBUF_FORMAT = 9,        /* a text */
    PYBUF_CONTIGUOUS = 10,   /* a number, 0 or 1 */
    PYBUF_C_CONTIGUOUS = 11, /* a number, 0 or 1 */
    PYBUF_F_CONTIGUOUS = 12  /* a number, 0 or 1 */
} pybuf_property;

typedef enum pybuf_operator {
    PYBUF_EQ = 0,
    PYBUF_NE = 1,
    PYBUF_LT = 2,
    PYBUF_LE = 3,
    PYBUF_GT = 4,
    PYBUF_GE = 5
} pybuf_operator;

/* What a comparison answers. */
typedef enum pybuf_truth {
    PYBUF_FALSE = 0,
    PYBUF_TRUE = 1,
    PYBUF_NOT_COMPARABLE = 2 /* Python's NotImplemented */
} pybuf_truth;

/* In each call below results are written only where it answers PYBUF_OK, but for *length and *count, which are written also
 * with PYBUF_TOO_SMALL. The index of an item counts from the end where it is negative, as in Python. Where a call reads a
 * number and the item is none (the format 'c'), or doesn't fit, it answers PYBUF_NOTHING. */

/* Makes bytes, a bytearray or a vector of a copy of these bytes. */
pybuf_status pybuf_new(pybuf_world *world, pybuf_kind kind, const void *bytes, size_t length, pybuf_object *object);

/* memoryview(object), and memoryview.toreadonly(). */
pybuf_status pybuf_view(pybuf_world *world, pybuf_object object, pybuf_object *view);
pybuf_status pybuf_to_readonly(pybuf_world *world, pybuf_object view, pybuf_object *made);

/* A new vector of the bytes of a view, and a view of it of the same format and shape. */
pybuf_status pybuf_to_contiguous(pybuf_world *world, pybuf_object view, pybuf_object *vector, pybuf_object *made);

/* memoryview.cast(format, shape). The format ends with a zero. With a null shape it is cast to one dimension. */
pybuf_status pybuf_cast(pybuf_world *world, pybuf_object view, const char *format, const int64_t *shape, size_t dimensions, pybuf_object *made);

/* memoryview.release(). A second time changes nothing. */
pybuf_status pybuf_release(pybuf_world *world, pybuf_object view);

/* The bytes of a view, lent where they lie: *at and *length tell the place. Nothing is copied. It answers PYBUF_NOTHING where
 * the object is no unreleased view, or its items don't lie one after the other, and pybuf_lend_to_write also where they may
 * only be read. The place is good until the view is released or the world freed: while a view of an exporter is unreleased, no
 * call changes its length, nor moves its bytes. What is written there is seen by all views of these bytes. What is lent for
 * reading isn't written, and while a call on the world runs, the place is neither read nor written. */
pybuf_status pybuf_lend(pybuf_world *world, pybuf_object view, const uint8_t **at, size_t *length);
pybuf_status pybuf_lend_to_write(pybuf_world *world, pybuf_object view, uint8_t **at, size_t *length);

/* object[index], and object[indices] of a view of several dimensions. */
pybuf_status pybuf_get(pybuf_world *world, pybuf_object object, int64_t index, pybuf_number *item);
pybuf_status pybuf_get_at(pybuf_world *world, pybuf_object view, const int64_t *indices, size_t count, pybuf_number *item);

/* object[index] where the item is bytes, as of the format 'c'. */
pybuf_status pybuf_get_item_bytes(pybuf_world *world, pybuf_object view, int64_t index, void *room, size_t room_length, size_t *length);

/* view[slice], which is a view; and exporter[slice], which is bytes, copied to the room. */
pybuf_status pybuf_get_slice(pybuf_world *world, pybuf_object view, const pybuf_slice *slice, pybuf_object *made);
pybuf_status pybuf_get_slice_bytes(pybuf_world *world, pybuf_object exporter, const pybuf_slice *slice, void *room, size_t room_length, size_t *length);

/* object[index] = item, and object[indices] = item. */
pybuf_status pybuf_set(pybuf_world *world, pybuf_object object, int64_t index, pybuf_number item);
pybuf_status pybuf_set_at(pybuf_world *world, pybuf_object view, const int64_t *indices, size_t count, pybuf_number item);

/* object[slice] = bytes, and object[slice] = other. */
pybuf_status pybuf_set_slice(pybuf_world *world, pybuf_object object, const pybuf_slice *slice, const void *bytes, size_t length);
pybuf_status pybuf_set_slice_of(pybuf_world *world, pybuf_object object, const pybuf_slice *slice, pybuf_object other);

/* len(object), and a copy of bytes(object). */
pybuf_status pybuf_length(pybuf_world *world, pybuf_object object, size_t *length);
pybuf_status pybuf_bytes(pybuf_world *world, pybuf_object object, void *room, size_t room_length, size_t *length);

/* The items of a view, row by row: view.tolist() without its nesting. *count is how many there are. */
pybuf_status pybuf_items(pybuf_world *world, pybuf_object view, pybuf_number *room, size_t room_count, size_t *count);

/* A property, by what it is: a number, numbers, a text or an object. */
pybuf_status pybuf_property_number(pybuf_world *world, pybuf_object object, pybuf_property property, pybuf_number *number);
pybuf_status pybuf_property_numbers(pybuf_world *world, pybuf_object object, pybuf_property property, pybuf_number *room, size_t room_count, size_t *count);
pybuf_status pybuf_property_text(pybuf_world *world, pybuf_object object, pybuf_property property, char *room, size_t room_length, size_t *length);
pybuf_status pybuf_property_object(pybuf_world *world, pybuf_object object, pybuf_property property, pybuf_object *found);

/* object OPERATOR bytes, and object OPERATOR other. */
pybuf_status pybuf_compare(pybuf_world *world, pybuf_object object, pybuf_operator op, const void *bytes, size_t length, pybuf_truth *truth);
pybuf_status pybuf_compare_with(pybuf_world *world, pybuf_object object, pybuf_operator op, pybuf_object other, pybuf_truth *truth);

/* bytes in object, and byte in object. */
pybuf_status pybuf_contains(pybuf_world *world, pybuf_object object, const void *bytes, size_t length, bool *truth);
pybuf_status pybuf_contains_byte(pybuf_world *world, pybuf_object object, pybuf_number byte, bool *truth);

/* repr(object), but for the address in it: a view is shown by its number. */
pybuf_status pybuf_shown(pybuf_world *world, pybuf_object object, char *room, size_t room_length, size_t *length);

/* iter(object), and next(iterator). *there is false where there is no further item. */
pybuf_status pybuf_iterate(pybuf_world *world, pybuf_object object, pybuf_object *iterator);
pybuf_status pybuf_next(pybuf_world *world, pybuf_object iterator, bool *there, pybuf_number *item);

/* The edits of a bytearray, by Python's names of them: append, extend, insert, pop, remove, clear, reverse, del, *= and copy.
 * PYBUF_BUFFER_ERROR: a view of it is unreleased. */
pybuf_status pybuf_append(pybuf_world *world, pybuf_object array, pybuf_number byte);
pybuf_status pybuf_extend(pybuf_world *world, pybuf_object array, const void *bytes, size_t length);
pybuf_status pybuf_extend_by(pybuf_world *world, pybuf_object array, pybuf_object other);
pybuf_status pybuf_insert(pybuf_world *world, pybuf_object array, int64_t index, pybuf_number byte);
pybuf_status pybuf_pop(pybuf_world *world, pybuf_object array, int64_t index, pybuf_number *byte);
pybuf_status pybuf_pop_last(pybuf_world *world, pybuf_object array, pybuf_number *byte);
pybuf_status pybuf_remove(pybuf_world *world, pybuf_object array, pybuf_number byte);
pybuf_status pybuf_clear(pybuf_world *world, pybuf_object array);
pybuf_status pybuf_reverse(pybuf_world *world, pybuf_object array);
pybuf_status pybuf_delete(pybuf_world *world, pybuf_object array, int64_t index);
pybuf_status pybuf_delete_slice(pybuf_world *world, pybuf_object array, const pybuf_slice *slice);
pybuf_status pybuf_repeat(pybuf_world *world, pybuf_object array, int64_t count);
pybuf_status pybuf_copy(pybuf_world *world, pybuf_object array, pybuf_object *made);

/* Takes all bytes out of a vector, which is empty then. With PYBUF_TOO_SMALL they are taken too, and pybuf_last_bytes has them. */
pybuf_status pybuf_take(pybuf_world *world, pybuf_object vector, void *room, size_t room_length, size_t *length);

/* The bytes, or the text, that the last call for objects in this world replied, once more. */
pybuf_status pybuf_last_bytes(pybuf_world *world, void *room, size_t room_length, size_t *length);

/* ---- formats ---- */

/* A format of Python's module struct, as struct.Struct holds one. It needs no world. Codes of floats and pointers are refused, and
 * so are blanks; 'u' is a code, a signed number of four bytes. */
typedef struct pybuf_format pybuf_format;

/* Of which kind a value is that is packed or unpacked. */
typedef enum pybuf_value_kind {
    PYBUF_NUMBER_VALUE = 0, /* a whole number */
    PYBUF_TRUTH_VALUE = 1,  /* of the code '?': the number is 0 or 1 */
    PYBUF_BYTES_VALUE = 2   /* of the codes 'c', 's' and 'p' */
} pybuf_value_kind;

/* A value. A number and a truth value have no bytes: a null pointer and a length of 0. Bytes have the number 0. */
typedef struct pybuf_value {
    pybuf_value_kind kind;
    pybuf_number number;
    const void *bytes;
    size_t length;
} pybuf_value;

static inline pybuf_value pybuf_number_value(pybuf_number number)
{
    pybuf_value made;
    made.kind = PYBUF_NUMBER_VALUE;
    made.number = number;
    made.bytes = NULL;
    made.length = 0;
    return made;
}

static inline pybuf_value pybuf_bytes_value(const void *bytes, size_t length)
{
    pybuf_value made = pybuf_number_value(pybuf_number_of(0));
    made.kind = PYBUF_BYTES_VALUE;
    made.bytes = bytes;
    made.length = length;
    return made;
}

/* Makes the format that a text spells, which is the caller's to free. On any other status *format is null.
 * PYBUF_STRUCT_ERROR: the text spells none. */
pybuf_status pybuf_format_parse(const char *text, size_t length, pybuf_format **format);

/* Frees a format. A null pointer is let be. The pointer is not used again. */
pybuf_status pybuf_format_free(pybuf_format *format);

/* struct.calcsize: the number of bytes; and the number of values that the format packs and unpacks. */
pybuf_status pybuf_format_size(pybuf_format *format, size_t *size);
pybuf_status pybuf_format_count(pybuf_format *format, size_t *count);

/* Writes the bytes of the values to the front of the room. *length is the format's size, also where the room is too small; the
 * values aren't looked at then. A truth value counts as its number, and the code '?' takes a number. Refused with
 * PYBUF_STRUCT_ERROR where there are more values or fewer than the format has, or one is out of its code's range, and with
 * PYBUF_TYPE_ERROR where one is a number for bytes, or bytes for '?'; the room is then as before.
 * PYBUF_BAD_ARGUMENT: a value is of an unknown kind. */
pybuf_status pybuf_format_pack(pybuf_format *format, const pybuf_value *values, size_t count, void *room, size_t room_length, size_t *length);

/* Reads the values of the bytes, which are to be as many as the format's size; else PYBUF_STRUCT_ERROR. *count is how many values
 * the format has, also where the room is too small; nothing was read then. A value that is bytes says their length alone: its
 * pointer is null, and the call below copies them. */
pybuf_status pybuf_format_unpack(pybuf_format *format, const void *bytes, size_t length, pybuf_value *room, size_t room_count, size_t *count);

/* Copies to the room the bytes of the value of this number, from 0, that this format unpacked last. *length is how many they are,
 * also where the room is too small. PYBUF_NOTHING: there is no such value, it isn't bytes, or the format has packed since. */
pybuf_status pybuf_format_value_bytes(pybuf_format *format, size_t index, void *room, size_t room_length, size_t *length);

/* pybuf_last_cause, of this format. */
pybuf_status pybuf_format_last_cause(pybuf_format *format, char *room, size_t room_length, size_t *length);

#ifdef __cplusplus
}
#endif

#endif
