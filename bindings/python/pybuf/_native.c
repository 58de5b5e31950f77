/* The types of the package. They read arguments, count references and raise exceptions; what a call does with bytes is the library's. What is
 * rare is left to the functions of Python that `_objects.py` and `_formats.py` add to the types. It needs Python 3.11 or later, and its stable
 * interface alone.
 *
 * A call keeps the interpreter's lock from its first word to its last, so it is whole where several threads make calls. Arguments are read
 * before, since they may run Python code, and what a call found is turned into Python objects afterwards. In between nothing runs Python code. */
#define PY_SSIZE_T_CLEAN
#ifndef Py_LIMITED_API
#define Py_LIMITED_API 0x030B0000
#endif
#include <Python.h>
#include <structmember.h>
#include <dlfcn.h>
#include <stdio.h>
#include <string.h>
#include "pybuf.h"

/* ---- the library, which `load` opens ---- */

#define CALLS(X) \
    X(version) X(status_name) X(world_new) X(world_free) X(world_run) X(world_reply) X(new) X(view) X(to_readonly) X(cast) X(release) X(get) \
    X(get_at) X(get_slice) X(get_slice_bytes) X(set) X(set_at) X(set_slice) X(set_slice_of) X(length) X(bytes) X(items) X(property_number) \
    X(property_numbers) X(property_text) X(compare) X(compare_with) X(contains) X(contains_byte) X(append) X(extend) X(extend_by) X(insert) \
    X(pop) X(pop_last) X(remove) X(clear) X(reverse) X(delete) X(delete_slice) X(repeat) X(take) X(last_bytes) X(format_parse) X(format_free) \
    X(format_size) X(format_count) X(format_pack) X(format_unpack) X(format_value_bytes) \
    X(lend) X(lend_to_write)

typedef struct {
#define X(name) __typeof__(pybuf_##name) *name;
    CALLS(X)
#undef X
} Library;

static Library lib;

/* A slot of a type. Python keeps functions as pointers to void in these, which strict C has no cast for. */
#define SLOT(name, function) {name, __extension__(void *)(function)}

/* load(path): opens the library, and tells its version. What is loaded stays: a second time opens nothing. */
static PyObject *load(PyObject *module, PyObject *path)
{
    (void)module;
    PyObject *encoded = NULL;
    Library found;
    if (lib.version)
        return PyUnicode_FromString(lib.version());
    if (!PyUnicode_FSConverter(path, &encoded))
        return NULL;
    void *library = dlopen(PyBytes_AsString(encoded), RTLD_NOW | RTLD_LOCAL);
    Py_DECREF(encoded);
    const char *missing = NULL;
    if (!library) {
        PyErr_SetString(PyExc_OSError, dlerror());
        return NULL;
    }
    void *symbol;
#define X(name) \
    symbol = dlsym(library, "pybuf_" #name); \
    if (symbol) \
        memcpy(&found.name, &symbol, sizeof symbol); \
    else \
        missing = "pybuf_" #name;
    CALLS(X)
#undef X
    if (missing) {
        dlclose(library);
        return PyErr_Format(PyExc_OSError, "it has no %s", missing);
    }
    lib = found;
    return PyUnicode_FromString(lib.version());
}

/* ---- refusals ---- */

static PyObject *struct_error;

/* What is said where a call is refused with a status. A call without a name stands for each. */
typedef struct {
    const char *call;
    pybuf_status status;
    const char *said;
} Message;

#define RESIZED "Existing exports of data: object cannot be re-sized"
#define READ_ONLY "cannot modify read-only memory"
#define STRUCTURES "memoryview assignment: lvalue and rvalue have different structures"
#define RELEASED "operation forbidden on released memoryview object"

static const Message of_arrays[] = {{"pop", PYBUF_INDEX_ERROR, "pop index out of range"},
                                    {"remove", PYBUF_VALUE_ERROR, "value not found in bytearray"},
                                    {"index", PYBUF_VALUE_ERROR, "subsection not found"},
                                    {"rindex", PYBUF_VALUE_ERROR, "subsection not found"},
                                    {"startswith", PYBUF_TYPE_ERROR, "startswith first arg must be bytes or a tuple of bytes"},
                                    {"endswith", PYBUF_TYPE_ERROR, "endswith first arg must be bytes or a tuple of bytes"},
                                    {NULL, PYBUF_BUFFER_ERROR, RESIZED},
                                    {NULL, PYBUF_INDEX_ERROR, "bytearray index out of range"},
                                    {NULL, PYBUF_OK, NULL}};
static const Message of_views[] = {{"set", PYBUF_TYPE_ERROR, READ_ONLY},
                                   {"set_slice", PYBUF_TYPE_ERROR, READ_ONLY},
                                   {"set_slice", PYBUF_VALUE_ERROR, STRUCTURES},
                                   {NULL, PYBUF_INDEX_ERROR, "index out of bounds on dimension 1"},
                                   {NULL, PYBUF_OK, NULL}};
static const Message of_none[] = {{NULL, PYBUF_OK, NULL}};

static PyObject *exception_of(pybuf_status status)
{
    switch (status) {
    case PYBUF_NO_MEMORY:
        return PyExc_MemoryError;
    case PYBUF_INDEX_ERROR:
        return PyExc_IndexError;
    case PYBUF_VALUE_ERROR:
    case PYBUF_BAD_ARGUMENT:
        return PyExc_ValueError;
    case PYBUF_TYPE_ERROR:
        return PyExc_TypeError;
    case PYBUF_BUFFER_ERROR:
        return PyExc_BufferError;
    case PYBUF_STRUCT_ERROR:
        return struct_error;
    case PYBUF_OVERFLOW_ERROR:
        return PyExc_OverflowError;
    case PYBUF_NOT_IMPLEMENTED_ERROR:
        return PyExc_NotImplementedError;
    case PYBUF_UNKNOWN_NAME:
        return PyExc_LookupError;
    default:
        return PyExc_RuntimeError;
    }
}

static PyObject *refuse(const Message *messages, const char *call, pybuf_status status)
{
    for (; messages->said; messages++)
        if (messages->status == status && (!messages->call || strcmp(messages->call, call) == 0))
            break;
    PyErr_SetString(exception_of(status), messages->said ? messages->said : lib.status_name(status));
    return NULL;
}

/* Calls the function of Python that does what is rare, with one argument or with two. */
static PyObject *python_call(PyObject *self, const char *name, PyObject *first, PyObject *second)
{
    PyObject *function = PyObject_GetAttrString(self, name);
    PyObject *made = function ? PyObject_CallFunctionObjArgs(function, first, second, NULL) : NULL;
    Py_XDECREF(function);
    return made;
}

/* ---- numbers ---- */

static PyObject *from_number(pybuf_number number)
{
    if (!number.negative)
        return PyLong_FromUnsignedLongLong(number.magnitude);
    if (number.magnitude <= (uint64_t)INT64_MAX)
        return PyLong_FromLongLong(-(int64_t)number.magnitude);
    PyObject *made = PyLong_FromUnsignedLongLong(number.magnitude);
    PyObject *negative = made ? PyNumber_Negative(made) : NULL;
    Py_XDECREF(made);
    return negative;
}

static int to_number(PyObject *value, pybuf_number *number)
{
    int past;
    long long small = PyLong_AsLongLongAndOverflow(value, &past);
    if (!past) {
        if (small == -1 && PyErr_Occurred())
            return 0;
        *number = pybuf_number_of(small);
        return 1;
    }
    PyObject *size = PyNumber_Absolute(value);
    if (!size)
        return 0;
    number->magnitude = PyLong_AsUnsignedLongLong(size);
    number->negative = past < 0;
    Py_DECREF(size);
    if (PyErr_Occurred()) {
        PyErr_SetString(PyExc_OverflowError, "a number past 64 bits");
        return 0;
    }
    return 1;
}

static int to_byte(PyObject *value, pybuf_number *number)
{
    int past;
    long byte = PyLong_AsLongAndOverflow(value, &past);
    if (byte == -1 && !past && PyErr_Occurred())
        return 0;
    if (past || byte < 0 || byte > 255) {
        PyErr_SetString(PyExc_ValueError, "byte must be in range(0, 256)");
        return 0;
    }
    *number = pybuf_number_of(byte);
    return 1;
}

static int to_word(PyObject *value, int64_t *word, PyObject *refusal)
{
    *word = PyNumber_AsSsize_t(value, refusal);
    return *word != -1 || !PyErr_Occurred();
}

static int to_slice(PyObject *value, pybuf_slice *slice)
{
    Py_ssize_t start, stop, step;
    if (PySlice_Unpack(value, &start, &stop, &step) < 0)
        return 0;
    *slice = (pybuf_slice){start, stop, step, true, true, true};
    return 1;
}

/* ---- bytes that a call copies to a room, first to one on the stack ---- */

typedef struct {
    char few[256];
    char *at;
    size_t size, length;
} Room;

static int room_grows(Room *room)
{
    if (room->at != room->few)
        PyMem_Free(room->at);
    room->size = room->length;
    room->at = PyMem_Malloc(room->size);
    return room->at != NULL;
}

static void room_end(Room *room)
{
    if (room->at != room->few)
        PyMem_Free(room->at);
}

/* `ask` makes a call that writes to `room`. */
#define READ(room, status, ask) \
    do { \
        room.at = room.few; \
        room.size = sizeof room.few; \
        room.length = 0; \
        for (status = ask; status == PYBUF_TOO_SMALL; status = ask) \
            if (!room_grows(&room)) { \
                room.at = room.few; \
                status = PYBUF_NO_MEMORY; \
                break; \
            } \
    } while (0)

/* ---- a world of one exporter, which an array and its views share ---- */

typedef struct View View;

typedef struct {
    pybuf_world *world;
    pybuf_kind kind;
    pybuf_object root, last;  /* the exporter, and the object that was made last */
    pybuf_object next;        /* where `renew` looks again */
    size_t count;             /* the objects of Python that hold it */
    View *views;              /* those that aren't released */
    size_t living, unmoved;   /* how many they are, and how many of them can't be made again */
} Shared;

/* How a view was made of another one. A view without a step is one of the whole exporter. */
typedef struct Step {
    size_t count, depth;
    struct Step *before;
    enum { SLICED, CAST, FIXED } kind;
    int64_t start, step, length; /* of a slice, in items */
    char *format;                /* of a cast, and behind it its shape */
    size_t dimensions;
    bool shaped;
    int64_t shape[];
} Step;

struct View {
    PyObject_HEAD
    Shared *shared;
    pybuf_object object, moved;
    Step *way;
    View *left, *right;
    PyObject *source, *shown, *weak;
    Py_ssize_t length;  /* -1: nobody asked yet */
    Py_hash_t hashed;   /* -1: nobody asked yet */
    char code;          /* the format: 0 if nobody asked yet, and = for what are numbers of the library */
    pybuf_object copied; /* of a copy beside other objects: the vector */
    int slicing;         /* how many slices of it are being made */
    bool released, waits, constant, unmoved, beside;
};

typedef struct {
    PyObject_HEAD
    Shared *shared;
} Array;

static PyTypeObject *array_type, *view_type;

static Shared *shared_made(pybuf_kind kind, const void *bytes, size_t length)
{
    Shared *made = PyMem_Calloc(1, sizeof *made);
    pybuf_status status = made ? lib.world_new(&made->world) : PYBUF_NO_MEMORY;
    if (!status)
        status = lib.new(made->world, kind, bytes, length, &made->root);
    if (!status) {
        made->kind = kind;
        made->count = 1;
        made->last = made->root;
        return made;
    }
    if (made)
        lib.world_free(made->world);
    PyMem_Free(made);
    refuse(of_none, "new", status);
    return NULL;
}

static void shared_drop(Shared *shared)
{
    if (!shared || --shared->count)
        return;
    lib.world_free(shared->world);
    PyMem_Free(shared);
}

/* ---- how views were made, by which they are made again ---- */

static void step_drop(Step *step)
{
    while (step && !--step->count) {
        Step *before = step->before;
        PyMem_Free(step->format);
        PyMem_Free(step);
        step = before;
    }
}

static Step *step_made(Step *before, size_t dimensions)
{
    Step *made = PyMem_Calloc(1, sizeof *made + dimensions * sizeof *made->shape);
    if (!made)
        return NULL;
    made->count = 1;
    made->before = before;
    made->depth = before ? before->depth + 1 : 1;
    if (before)
        before->count++;
    return made;
}

/* The step of a slice, where a slice of a slice is one. */
static Step *step_of_slice(View *view, int64_t start, int64_t step, int64_t length)
{
    const int64_t far = INT64_C(1) << 30;
    Step *way = view->way;
    bool joins = way && way->kind == SLICED && step > -far && step < far && way->step > -far && way->step < far;
    Step *made = step_made(joins ? way->before : way, 0);
    if (!made)
        return NULL;
    made->kind = SLICED;
    made->start = length == 0 ? 0 : joins ? way->start + start * way->step : start;
    made->step = joins ? step * way->step : step;
    made->length = length;
    return made;
}

static Step *step_of_cast(View *view, const char *format, const int64_t *shape, size_t dimensions)
{
    Step *made = step_made(view->way, dimensions);
    if (!made)
        return NULL;
    made->kind = CAST;
    made->shaped = shape != NULL;
    made->dimensions = dimensions;
    made->format = PyMem_Malloc(strlen(format) + 1);
    if (!made->format) {
        step_drop(made);
        return NULL;
    }
    strcpy(made->format, format);
    if (shape)
        memcpy(made->shape, shape, dimensions * sizeof *shape);
    return made;
}

static pybuf_status made_again(pybuf_world *world, pybuf_object root, const Step *way, pybuf_object *made)
{
    pybuf_object before;
    if (!way)
        return lib.view(world, root, made);
    pybuf_status status = made_again(world, root, way->before, &before);
    if (status)
        return status;
    if (way->kind == SLICED) {
        int64_t last = way->length ? way->start + (way->length - 1) * way->step : 0;
        int64_t stop = way->length == 0 ? 0 : way->step > 0 ? last + 1 : last - 1;
        status = lib.get_slice(world, before, &(pybuf_slice){way->start, stop, way->step, true, stop >= 0, true}, made);
    } else if (way->kind == CAST)
        status = lib.cast(world, before, way->format, way->shaped ? way->shape : NULL, way->dimensions, made);
    else
        status = lib.to_readonly(world, before, made);
    return status ? status : lib.release(world, before);
}

/* All bytes of the exporter, which are the caller's to free. NULL: memory ran out, or they are more than so many. */
static char *all_bytes(Shared *shared, size_t most, size_t *length)
{
    pybuf_object whole = shared->root;
    pybuf_number size;
    char *bytes = NULL;
    if (shared->kind != PYBUF_BYTEARRAY) {
        if (lib.view(shared->world, shared->root, &whole))
            return NULL;
        *length = lib.property_number(shared->world, whole, PYBUF_NBYTES, &size) ? SIZE_MAX : (size_t)size.magnitude;
    } else if (lib.length(shared->world, whole, length))
        return NULL;
    if (*length <= most)
        bytes = PyMem_Malloc(*length ? *length : 1);
    if (bytes && lib.bytes(shared->world, whole, bytes, *length, length)) {
        PyMem_Free(bytes);
        bytes = NULL;
    }
    if (whole != shared->root)
        lib.release(shared->world, whole);
    return bytes;
}

/* Released views stay in a world. So if what they left is more than the bytes and the living views, all is made again in a new world.
 * Where that can't be, the old one stays. Nothing here runs Python code. */
static void renew(Shared *shared)
{
    enum { FIRST = 1024, KEPT = 128 }; /* so many objects are let be, and a released view keeps more bytes than this */
    if (shared->last < FIRST || shared->last < shared->next || shared->unmoved || shared->last < 4 * shared->living)
        return;
    shared->next = shared->last + FIRST;
    size_t length;
    pybuf_world *world = NULL;
    pybuf_object root, made = 0;
    char *bytes = all_bytes(shared, (size_t)shared->last * KEPT, &length);
    if (!bytes)
        return;
    pybuf_status status = lib.world_new(&world);
    if (!status)
        status = lib.new(world, shared->kind, bytes, length, &root);
    for (View *view = shared->views; view && !status; view = view->right) {
        status = made_again(world, root, view->way, &view->moved);
        made = view->moved;
    }
    PyMem_Free(bytes);
    if (status) {
        lib.world_free(world);
        return;
    }
    for (View *view = shared->views; view; view = view->right)
        view->object = view->moved;
    lib.world_free(shared->world);
    shared->world = world;
    shared->root = root;
    shared->last = made > root ? made : root;
    shared->next = shared->last + FIRST;
}

/* ---- what arrays and views are asked ---- */

static bool is_array(PyObject *value)
{
    return Py_IS_TYPE(value, array_type) || PyObject_TypeCheck(value, array_type);
}

static bool is_view(PyObject *value)
{
    return Py_IS_TYPE(value, view_type) || PyObject_TypeCheck(value, view_type);
}

static bool has_bytes(PyObject *value)
{
    return is_array(value) || is_view(value) || PyObject_CheckBuffer(value);
}

/* The world of an object. NULL: it was never made, or the view was released. */
static pybuf_world *world_of_array(Array *array)
{
    if (array->shared)
        return array->shared->world;
    PyErr_SetString(PyExc_ValueError, "the object was never made");
    return NULL;
}

static pybuf_world *world_of_view(View *view)
{
    if (view->shared && !view->released)
        return view->shared->world;
    PyErr_SetString(PyExc_ValueError, view->shared ? RELEASED : "the object was never made");
    return NULL;
}

#define MAKE(type) ((PyObject *)(__extension__(allocfunc)PyType_GetSlot(type, Py_tp_alloc))(type, 0))

/* A new array of bytes. */
static PyObject *array_of(const void *bytes, size_t length)
{
    Shared *shared = shared_made(PYBUF_BYTEARRAY, bytes, length);
    if (!shared)
        return NULL;
    Array *made = (Array *)MAKE(array_type);
    if (made)
        made->shared = shared;
    else
        shared_drop(shared);
    return (PyObject *)made;
}

static PyObject *bytes_of(pybuf_world *world, pybuf_object object, size_t length, const Message *messages)
{
    PyObject *made = PyBytes_FromStringAndSize(NULL, (Py_ssize_t)length);
    pybuf_status status = made ? lib.bytes(world, object, PyBytes_AsString(made), length, &length) : PYBUF_OK;
    if (!status)
        return made;
    Py_DECREF(made);
    return refuse(messages, "bytes", status);
}

/* From so many bytes on a copy is made of what a view lends, which costs a view, but one copy in place of several. */
enum { MANY = 4096 };

/* NULL without an exception: nothing was lent. */
static PyObject *array_many_bytes(Array *own, size_t length)
{
    const uint8_t *at;
    pybuf_object view;
    PyObject *made = PyBytes_FromStringAndSize(NULL, (Py_ssize_t)length);
    if (!made)
        return NULL;
    renew(own->shared);
    pybuf_world *world = own->shared->world;
    bool lent = !lib.view(world, own->shared->root, &view);
    if (lent) {
        own->shared->last = view;
        size_t there;
        lent = !lib.lend(world, view, &at, &there) && there == length;
        if (lent)
            memcpy(PyBytes_AsString(made), at, length);
        lib.release(world, view);
    }
    if (!lent)
        Py_CLEAR(made);
    return made;
}

static PyObject *array_bytes(PyObject *self, PyObject *none)
{
    (void)none;
    Array *own = (Array *)self;
    size_t length;
    pybuf_world *world = world_of_array(own);
    if (!world)
        return NULL;
    pybuf_status status = lib.length(world, own->shared->root, &length);
    if (!status && length >= MANY) {
        PyObject *made = array_many_bytes(own, length);
        if (made || PyErr_Occurred())
            return made;
    }
    return status ? refuse(of_arrays, "length", status) : bytes_of(world, own->shared->root, length, of_arrays);
}

static int view_number(View *view, pybuf_property property, uint64_t *number)
{
    pybuf_number found;
    pybuf_world *world = world_of_view(view);
    if (!world)
        return 0;
    pybuf_status status = lib.property_number(world, view->object, property, &found);
    if (status)
        refuse(of_views, "property", status);
    *number = found.magnitude;
    return !status;
}

static PyObject *view_bytes(View *own)
{
    uint64_t length;
    const uint8_t *at;
    size_t there;
    pybuf_world *world = world_of_view(own);
    if (!world)
        return NULL;
    /* items that lie together are copied from where they lie */
    if (!lib.lend(world, own->object, &at, &there))
        return PyBytes_FromStringAndSize((const char *)at, (Py_ssize_t)there);
    if (!view_number(own, PYBUF_NBYTES, &length))
        return NULL;
    return bytes_of(own->shared->world, own->object, (size_t)length, of_views);
}

/* ---- the bytes of an argument ---- */

typedef struct {
    const char *bytes;
    size_t length;
    Py_buffer buffer;
    PyObject *kept;
} Lent;

/* How many buffers of our objects are out. While one is, a buffer of another object may have its bytes, which a call on their world mustn't be
 * passed. So a call is passed copies then. */
static size_t buffers_out;

/* Lends the bytes of an object that has a buffer, or of one of ours. If they are to be whole, items that lie apart are BufferError. */
static int lend(PyObject *value, Lent *lent, int whole)
{
    uint64_t together = 1;
    lent->kept = NULL;
    if (PyBytes_Check(value)) {
        Py_INCREF(value);
        lent->kept = value;
    } else if (is_array(value)) {
        lent->kept = array_bytes(value, NULL);
    } else if (is_view(value)) {
        if (whole && !view_number((View *)value, PYBUF_C_CONTIGUOUS, &together))
            return 0;
        if (together)
            lent->kept = view_bytes((View *)value);
        else
            PyErr_SetString(PyExc_BufferError, "memoryview: underlying buffer is not C-contiguous");
    } else if (PyObject_GetBuffer(value, &lent->buffer, PyBUF_SIMPLE) == 0) {
        if (!buffers_out) {
            lent->bytes = lent->buffer.buf;
            lent->length = (size_t)lent->buffer.len;
            return 1;
        }
        lent->kept = PyBytes_FromStringAndSize(lent->buffer.buf, lent->buffer.len);
        PyBuffer_Release(&lent->buffer);
    } else if (!whole && PyErr_ExceptionMatches(PyExc_BufferError)) {
        PyErr_Clear();
        PyObject *view = PyMemoryView_FromObject(value);
        lent->kept = view ? PyObject_Bytes(view) : NULL;
        Py_XDECREF(view);
    }
    if (!lent->kept)
        return 0;
    lent->bytes = PyBytes_AsString(lent->kept);
    lent->length = (size_t)PyBytes_Size(lent->kept);
    return 1;
}

static void give_back(Lent *lent)
{
    if (lent->kept)
        Py_DECREF(lent->kept);
    else
        PyBuffer_Release(&lent->buffer);
}

/* The same, also of what iterates over numbers from 0 to 255. */
static int lend_content(PyObject *value, Lent *lent)
{
    if (has_bytes(value))
        return lend(value, lent, 0);
    PyObject *numbers = PyObject_GetIter(value);
    lent->kept = numbers ? PyBytes_FromObject(numbers) : NULL;
    Py_XDECREF(numbers);
    if (!lent->kept)
        return 0;
    lent->bytes = PyBytes_AsString(lent->kept);
    lent->length = (size_t)PyBytes_Size(lent->kept);
    return 1;
}

#include "_lines.h"
#include "_lending.h"

/* ---- worlds that run lines ---- */

typedef struct {
    PyObject_HEAD
    pybuf_world *world;
} World;

static PyObject *world_made(PyTypeObject *type, PyObject *arguments, PyObject *named)
{
    (void)arguments, (void)named;
    if (!lib.world_new) {
        PyErr_SetString(PyExc_ImportError, "pybuf: no library is loaded");
        return NULL;
    }
    World *self = (World *)MAKE(type);
    if (!self)
        return NULL;
    pybuf_status status = lib.world_new(&self->world);
    if (status) {
        Py_DECREF(self);
        return refuse(of_none, "world_new", status);
    }
    return (PyObject *)self;
}

static void world_dealloc(PyObject *self)
{
    PyTypeObject *type = Py_TYPE(self);
    lib.world_free(((World *)self)->world);
    (__extension__(freefunc)PyType_GetSlot(type, Py_tp_free))(self);
    Py_DECREF(type);
}

static PyObject *world_close(PyObject *self, PyObject *none)
{
    (void)none;
    pybuf_world *world = ((World *)self)->world;
    ((World *)self)->world = NULL;
    lib.world_free(world);
    Py_RETURN_NONE;
}

static PyObject *replies_of(pybuf_world *world, size_t count)
{
    PyObject *list = PyList_New((Py_ssize_t)count);
    size_t all = 0;
    for (size_t at = 0; list && at < count; at++) {
        Room room;
        pybuf_status status;
        READ(room, status, lib.world_reply(world, at, room.at, room.size, &room.length));
        if (status == PYBUF_NOTHING) /* the line ran, and there was no memory for its reply */
            status = PYBUF_NO_MEMORY;
        PyObject *reply = status ? refuse(of_none, "world_reply", status) : PyUnicode_DecodeUTF8(room.at, (Py_ssize_t)room.length, NULL);
        all += room.length;
        room_end(&room);
        if (reply)
            PyList_SetItem(list, (Py_ssize_t)at, reply);
        else
            Py_CLEAR(list);
    }
    /* a world doesn't keep replies that have more bytes than this */
    if (all > 65536)
        lib.world_run(world, "", 0, NULL, NULL);
    return list;
}

static PyObject *bad_line(uint64_t line)
{
    PyObject *module = PyImport_ImportModule("pybuf._worlds");
    PyObject *type = module ? PyObject_GetAttrString(module, "BadLine") : NULL;
    PyObject *fault = type ? PyObject_CallFunction(type, "K", (unsigned long long)line) : NULL;
    if (fault)
        PyErr_SetObject(type, fault);
    Py_XDECREF(module);
    Py_XDECREF(type);
    Py_XDECREF(fault);
    return NULL;
}

static PyObject *world_run(PyObject *self, PyObject *text)
{
    Lent lent;
    PyObject *encoded = PyUnicode_Check(text) ? PyUnicode_AsUTF8String(text) : NULL;
    if ((PyUnicode_Check(text) && !encoded) || !lend(encoded ? encoded : text, &lent, 0)) {
        Py_XDECREF(encoded);
        return NULL;
    }
    size_t count = 0;
    uint64_t line = 0;
    pybuf_world *world = ((World *)self)->world;
    pybuf_status status = world ? lib.world_run(world, lent.bytes, lent.length, &count, &line) : PYBUF_OK;
    give_back(&lent);
    Py_XDECREF(encoded);
    if (!world) {
        PyErr_SetString(PyExc_ValueError, "the world is closed");
        return NULL;
    }
    if (status == PYBUF_BAD_LINE)
        return bad_line(line);
    return status ? refuse(of_none, "world_run", status) : replies_of(world, count);
}

static PyObject *itself(PyObject *self, PyObject *none)
{
    (void)none;
    Py_INCREF(self);
    return self;
}

static PyObject *world_leave(PyObject *self, PyObject *exception)
{
    (void)exception;
    return world_close(self, NULL);
}

static PyMethodDef world_methods[] = {
    {"run", world_run, METH_O,
     "run($self, text, /)\n--\n\nThe replies to the lines of a text, as texts. If a line is no command, nothing is run, and BadLine is raised."},
    {"close", world_close, METH_NOARGS, "close($self, /)\n--\n\nFrees the world. A second time changes nothing."},
    {"__enter__", itself, METH_NOARGS, "__enter__($self, /)\n--\n\nThe world."},
    {"__exit__", world_leave, METH_VARARGS, "__exit__($self, /, *exception)\n--\n\nFrees the world."},
    {0}};

static PyType_Slot world_slots[] = {
    {Py_tp_doc, "World()\n--\n\nA world of objects, which runs lines. It is freed with the last reference, or by `close`.\n\n"
                "One thread at a time is in a world, since a call keeps the interpreter's lock."},
    SLOT(Py_tp_new, world_made),
    SLOT(Py_tp_dealloc, world_dealloc),
    SLOT(Py_tp_methods, world_methods),
    {0, 0}};
static PyType_Spec world_spec = {"pybuf.World", sizeof(World), 0, Py_TPFLAGS_DEFAULT | Py_TPFLAGS_BASETYPE, world_slots};

/* ---- arrays ---- */

#define ARRAY(self) \
    Array *own = (Array *)(self); \
    pybuf_world *world = world_of_array(own); \
    if (!world) \
    return NULL
#define ROOT world, own->shared->root

static PyObject *array_answer(const char *call, pybuf_status status)
{
    if (status)
        return refuse(of_arrays, call, status);
    Py_RETURN_NONE;
}

static PyObject *array_made(PyTypeObject *type, PyObject *arguments, PyObject *named)
{
    (void)arguments, (void)named; /* as in Python, a class below may pass on what it was given */
    if (lib.new)
        return MAKE(type);
    PyErr_SetString(PyExc_ImportError, "pybuf: no library is loaded");
    return NULL;
}

static int array_begin(Array *own, const char *bytes, size_t length, int64_t zeros)
{
    const char *call = "extend";
    pybuf_status status = PYBUF_OK;
    if (zeros > 0) {
        bytes = "";
        length = 1;
    }
    if (!own->shared) {
        own->shared = shared_made(PYBUF_BYTEARRAY, bytes, length);
        if (!own->shared)
            return -1;
    } else { /* `__init__` is called once more */
        status = lib.clear(own->shared->world, own->shared->root);
        if (!status && length)
            status = lib.extend(own->shared->world, own->shared->root, bytes, length);
    }
    if (!status && zeros > 1)
        status = lib.repeat(own->shared->world, own->shared->root, zeros);
    if (!status)
        return 0;
    refuse(of_arrays, call, status);
    return -1;
}

/* What is no bytes, no count and none of ours is read by Python code. */
static int array_init(PyObject *self, PyObject *arguments, PyObject *named)
{
    Py_ssize_t given = PyTuple_Size(arguments);
    PyObject *source = given == 1 && !named ? PyTuple_GetItem(arguments, 0) : NULL, *read = NULL;
    if (!given && !named)
        return array_begin((Array *)self, "", 0, 0);
    if (!source || !(PyBytes_CheckExact(source) || PyLong_CheckExact(source) || Py_IS_TYPE(source, array_type))) {
        PyObject *reader = PyObject_GetAttrString((PyObject *)array_type, "_read");
        source = read = reader ? PyObject_Call(reader, arguments, named) : NULL;
        Py_XDECREF(reader);
        if (!read)
            return -1;
    }
    int did = -1;
    if (PyLong_Check(source)) {
        int64_t count;
        if (to_word(source, &count, PyExc_OverflowError)) {
            if (count < 0)
                PyErr_SetString(PyExc_ValueError, "negative count");
            else
                did = array_begin((Array *)self, "", 0, count);
        }
    } else {
        Lent lent;
        if (lend(source, &lent, 0)) {
            did = array_begin((Array *)self, lent.bytes, lent.length, 0);
            give_back(&lent);
        }
    }
    Py_XDECREF(read);
    return did;
}

static void array_dealloc(PyObject *self)
{
    PyTypeObject *type = Py_TYPE(self);
    shared_drop(((Array *)self)->shared);
    (__extension__(freefunc)PyType_GetSlot(type, Py_tp_free))(self);
    Py_DECREF(type);
}

static Py_ssize_t array_length(PyObject *self)
{
    Array *own = (Array *)self;
    size_t length;
    pybuf_world *world = world_of_array(own);
    if (!world)
        return -1;
    pybuf_status status = lib.length(ROOT, &length);
    if (!status)
        return (Py_ssize_t)length;
    refuse(of_arrays, "length", status);
    return -1;
}

static PyObject *array_get(PyObject *self, int64_t at)
{
    pybuf_number item;
    ARRAY(self);
    pybuf_status status = lib.get(ROOT, at, &item);
    return status ? refuse(of_arrays, "get", status) : PyLong_FromLong((long)item.magnitude);
}

static PyObject *array_item(PyObject *self, Py_ssize_t at)
{
    return at < 0 ? refuse(of_arrays, "get", PYBUF_INDEX_ERROR) : array_get(self, at);
}

static PyObject *array_slice(PyObject *self, PyObject *key)
{
    pybuf_slice slice;
    Room room;
    pybuf_status status;
    if (!to_slice(key, &slice))
        return NULL;
    ARRAY(self);
    READ(room, status, room.at == room.few ? lib.get_slice_bytes(ROOT, &slice, room.at, room.size, &room.length)
                                           : lib.last_bytes(world, room.at, room.size, &room.length));
    PyObject *made = status ? refuse(of_arrays, "get", status) : array_of(room.at, room.length);
    room_end(&room);
    return made;
}

static PyObject *array_subscript(PyObject *self, PyObject *key)
{
    int64_t at;
    if (PyIndex_Check(key))
        return to_word(key, &at, PyExc_IndexError) ? array_get(self, at) : NULL;
    if (PySlice_Check(key))
        return array_slice(self, key);
    return PyErr_Format(PyExc_TypeError, "bytearray indices must be integers or slices, not %s", "another type");
}

static int array_did(const char *call, pybuf_status status)
{
    if (!status)
        return 0;
    refuse(of_arrays, call, status);
    return -1;
}

static int array_set_slice(PyObject *self, PyObject *key, PyObject *value)
{
    Array *own = (Array *)self;
    pybuf_slice slice;
    Lent lent;
    if (!value) {
        if (!to_slice(key, &slice))
            return -1;
        pybuf_world *world = world_of_array(own);
        return world ? array_did("delete", lib.delete_slice(ROOT, &slice)) : -1;
    }
    if (!has_bytes(value) && (PyUnicode_Check(value) || PyNumber_Check(value))) {
        PyErr_SetString(PyExc_TypeError, "can assign only bytes, buffers, or iterables of ints in range(0, 256)");
        return -1;
    }
    if (!lend_content(value, &lent))
        return -1;
    pybuf_world *world = to_slice(key, &slice) ? world_of_array(own) : NULL;
    int did = world ? array_did("set", lib.set_slice(ROOT, &slice, lent.bytes, lent.length)) : -1;
    give_back(&lent);
    return did;
}

static int array_ass_subscript(PyObject *self, PyObject *key, PyObject *value)
{
    Array *own = (Array *)self;
    int64_t at;
    pybuf_number byte = {0, false};
    if (PySlice_Check(key))
        return array_set_slice(self, key, value);
    if (!PyIndex_Check(key)) {
        PyErr_SetString(PyExc_TypeError, "bytearray indices must be integers or slices");
        return -1;
    }
    if (!to_word(key, &at, PyExc_IndexError) || (value && !to_byte(value, &byte)))
        return -1;
    pybuf_world *world = world_of_array(own);
    if (!world)
        return -1;
    return value ? array_did("set", lib.set(ROOT, at, byte)) : array_did("delete", lib.delete(ROOT, at));
}

static int array_contains(PyObject *self, PyObject *value)
{
    Array *own = (Array *)self;
    pybuf_number byte;
    Lent lent;
    bool truth = false;
    pybuf_status status;
    pybuf_world *world;
    if (PyIndex_Check(value)) {
        if (!to_byte(value, &byte) || !(world = world_of_array(own)))
            return -1;
        status = lib.contains_byte(ROOT, byte, &truth);
    } else {
        if (!lend(value, &lent, 0))
            return -1;
        world = world_of_array(own);
        status = world ? lib.contains(ROOT, lent.bytes, lent.length, &truth) : PYBUF_OK;
        give_back(&lent);
        if (!world)
            return -1;
    }
    return status ? array_did("contains", status) : truth;
}

static PyObject *from_truth(pybuf_truth truth)
{
    if (truth == PYBUF_NOT_COMPARABLE)
        Py_RETURN_NOTIMPLEMENTED;
    return PyBool_FromLong(truth == PYBUF_TRUE);
}

static pybuf_operator operator_of(int op)
{
    return op == Py_EQ ? PYBUF_EQ : op == Py_NE ? PYBUF_NE : op == Py_LT ? PYBUF_LT : op == Py_LE ? PYBUF_LE : op == Py_GT ? PYBUF_GT : PYBUF_GE;
}

static PyObject *array_compare(PyObject *self, PyObject *other, int op)
{
    pybuf_truth truth = PYBUF_NOT_COMPARABLE;
    pybuf_status status;
    Lent lent;
    Shared *others = is_array(other) ? ((Array *)other)->shared : is_view(other) && !((View *)other)->released ? ((View *)other)->shared : NULL;
    if (others && others == ((Array *)self)->shared) {
        ARRAY(self);
        status = lib.compare_with(ROOT, operator_of(op), is_array(other) ? others->root : ((View *)other)->object, &truth);
    } else {
        if (!has_bytes(other))
            Py_RETURN_NOTIMPLEMENTED;
        if (!lend(other, &lent, 1)) {
            if (!PyErr_ExceptionMatches(PyExc_BufferError) && !PyErr_ExceptionMatches(PyExc_TypeError) && !PyErr_ExceptionMatches(PyExc_ValueError))
                return NULL;
            PyErr_Clear();
            Py_RETURN_NOTIMPLEMENTED;
        }
        Array *own = (Array *)self;
        pybuf_world *world = world_of_array(own);
        status = world ? lib.compare(ROOT, operator_of(op), lent.bytes, lent.length, &truth) : PYBUF_OK;
        give_back(&lent);
        if (!world)
            return NULL;
    }
    return status ? refuse(of_arrays, "compare", status) : from_truth(truth);
}

static int lend_added(PyObject *value, Lent *lent)
{
    if (lend(value, lent, 1))
        return 1;
    if (PyErr_ExceptionMatches(PyExc_BufferError) || PyErr_ExceptionMatches(PyExc_TypeError) || PyErr_ExceptionMatches(PyExc_ValueError)) {
        PyErr_Clear();
        PyObject *name = PyType_GetName(Py_TYPE(value));
        if (name)
            PyErr_Format(PyExc_TypeError, "can't concat %U to bytearray", name);
        Py_XDECREF(name);
    }
    return 0;
}

/* Both sides may be ours: of bytes and an array it is bytes. */
static PyObject *array_add(PyObject *left, PyObject *right)
{
    Lent lent, added;
    if (!is_array(left)) {
        if (!PyBytes_Check(left) && !PyByteArray_Check(left))
            Py_RETURN_NOTIMPLEMENTED;
        PyObject *bytes = array_bytes(right, NULL);
        PyObject *made = bytes ? PySequence_Concat(left, bytes) : NULL;
        Py_XDECREF(bytes);
        return made;
    }
    if (!lend_added(right, &added))
        return NULL;
    PyObject *made = lend(left, &lent, 1) ? array_of(lent.bytes, lent.length) : NULL;
    if (made) {
        Array *own = (Array *)made;
        pybuf_status status = added.length ? lib.extend(own->shared->world, own->shared->root, added.bytes, added.length) : PYBUF_OK;
        give_back(&lent);
        if (status) {
            Py_CLEAR(made);
            refuse(of_arrays, "extend", status);
        }
    }
    give_back(&added);
    return made;
}

static PyObject *array_add_in_place(PyObject *self, PyObject *other)
{
    Lent lent;
    if (!lend_added(other, &lent))
        return NULL;
    Array *own = (Array *)self;
    pybuf_world *world = world_of_array(own);
    /* the array's own bytes are lent meanwhile */
    pybuf_status status = other == self && lent.length ? PYBUF_BUFFER_ERROR : world ? lib.extend(ROOT, lent.bytes, lent.length) : PYBUF_OK;
    give_back(&lent);
    if (!world || status)
        return world ? refuse(of_arrays, "extend", status) : NULL;
    Py_INCREF(self);
    return self;
}

static PyObject *array_repeat_in_place(PyObject *self, Py_ssize_t count)
{
    ARRAY(self);
    pybuf_status status = lib.repeat(ROOT, count);
    if (status)
        return refuse(of_arrays, "repeat", status);
    Py_INCREF(self);
    return self;
}

static PyObject *array_copy(PyObject *self, PyObject *none)
{
    (void)none;
    Lent lent;
    if (!lend(self, &lent, 1))
        return NULL;
    PyObject *made = array_of(lent.bytes, lent.length);
    give_back(&lent);
    return made;
}

static PyObject *array_repeat(PyObject *self, Py_ssize_t count)
{
    PyObject *made = array_copy(self, NULL);
    PyObject *same = made ? array_repeat_in_place(made, count) : NULL;
    Py_XDECREF(made);
    return same;
}

#define NO_ARGUMENTS(name) \
    static PyObject *array_##name(PyObject *self, PyObject *none) \
    { \
        (void)none; \
        ARRAY(self); \
        return array_answer(#name, lib.name(ROOT)); \
    }
NO_ARGUMENTS(clear)
NO_ARGUMENTS(reverse)

#define OF_A_BYTE(name) \
    static PyObject *array_##name(PyObject *self, PyObject *value) \
    { \
        pybuf_number byte; \
        if (!to_byte(value, &byte)) \
            return NULL; \
        ARRAY(self); \
        return array_answer(#name, lib.name(ROOT, byte)); \
    }
OF_A_BYTE(append)
OF_A_BYTE(remove)

static bool counts(const char *call, Py_ssize_t given, Py_ssize_t least, Py_ssize_t most)
{
    if (given >= least && given <= most)
        return true;
    PyErr_Format(PyExc_TypeError, "%s() takes from %zd to %zd arguments (%zd given)", call, least, most, given);
    return false;
}

static PyObject *array_insert(PyObject *self, PyObject *const *values, Py_ssize_t given)
{
    int64_t at;
    pybuf_number byte;
    if (!counts("insert", given, 2, 2) || !to_word(values[0], &at, PyExc_OverflowError) || !to_byte(values[1], &byte))
        return NULL;
    ARRAY(self);
    return array_answer("insert", lib.insert(ROOT, at, byte));
}

static PyObject *array_pop(PyObject *self, PyObject *const *values, Py_ssize_t given)
{
    int64_t at = -1;
    pybuf_number byte;
    if (!counts("pop", given, 0, 1) || (given && !to_word(values[0], &at, PyExc_OverflowError)))
        return NULL;
    ARRAY(self);
    pybuf_status status = given ? lib.pop(ROOT, at, &byte) : lib.pop_last(ROOT, &byte);
    if (status == PYBUF_INDEX_ERROR && !array_length(self))
        PyErr_SetString(PyExc_IndexError, "pop from empty bytearray");
    else if (status)
        refuse(of_arrays, "pop", status);
    return status ? NULL : PyLong_FromLong((long)byte.magnitude);
}

static PyObject *array_extend(PyObject *self, PyObject *values)
{
    Lent lent;
    if (values == self) {
        ARRAY(self);
        return array_answer("extend", lib.extend_by(ROOT, own->shared->root));
    }
    if (!lend_content(values, &lent))
        return NULL;
    Array *own = (Array *)self;
    pybuf_world *world = world_of_array(own);
    PyObject *did = world ? array_answer("extend", lib.extend(ROOT, lent.bytes, lent.length)) : NULL;
    give_back(&lent);
    return did;
}

static PyObject *array_decode(PyObject *self, PyObject *arguments, PyObject *named)
{
    static char *names[] = {"encoding", "errors", NULL};
    const char *encoding = "utf-8", *errors = "strict";
    if (!PyArg_ParseTupleAndKeywords(arguments, named, "|ss:decode", names, &encoding, &errors))
        return NULL;
    PyObject *bytes = array_bytes(self, NULL);
    PyObject *text = bytes ? PyUnicode_FromEncodedObject(bytes, encoding, errors) : NULL;
    Py_XDECREF(bytes);
    return text;
}

static PyObject *array_repr(PyObject *self)
{
    PyObject *bytes = array_bytes(self, NULL), *name = bytes ? PyType_GetName(Py_TYPE(self)) : NULL;
    PyObject *text = name ? PyUnicode_FromFormat("%U(%R)", name, bytes) : NULL;
    Py_XDECREF(bytes);
    Py_XDECREF(name);
    return text;
}

/* ---- methods by lines ---- */

/* The names of arguments that may be named, from the left, and what stands where one is left out. */
typedef struct {
    const char *name, *names[2], *absent[2];
    bool of_byte, makes_tuple; /* the first argument may be a byte, as a number; a tuple is answered */
} Method;

/* Runs a line, and reads its reply. */
static PyObject *answer_of(Line *line, Array *own, const Method *method)
{
    Room room;
    size_t count = 0;
    uint64_t wrong;
    pybuf_world *world = world_of_array(own);
    if (!world)
        return NULL;
    const char *text = line_head(line, own->shared->root, method->name);
    pybuf_status status = lib.world_run(world, text, (size_t)(line->text + line->length - text), &count, &wrong);
    if (status == PYBUF_BAD_LINE)
        return PyErr_Format(PyExc_TypeError, "%s() takes other arguments", method->name);
    if (!status && !count)
        status = PYBUF_NO_MEMORY;
    if (status)
        return refuse(of_arrays, method->name, status);
    READ(room, status, lib.world_reply(world, 0, room.at, room.size, &room.length));
    if (status == PYBUF_NOTHING) /* the line ran, and there was no memory for its reply */
        status = PYBUF_NO_MEMORY;
    /* a world doesn't keep replies that have more bytes than this */
    if (room.length > 65536)
        lib.world_run(world, "", 0, NULL, NULL);
    PyObject *made = NULL;
    if (status)
        refuse(of_arrays, method->name, status);
    else if (room.length > 2 && room.at[0] == '!') {
        status = PYBUF_NOTHING;
        for (int at = PYBUF_INDEX_ERROR; at <= PYBUF_UNKNOWN_NAME; at++) {
            const char *name = lib.status_name((pybuf_status)at);
            if (strlen(name) == room.length - 2 && memcmp(name, room.at + 2, room.length - 2) == 0)
                status = (pybuf_status)at;
        }
        refuse(of_arrays, method->name, status);
    } else {
        Reply reply = {room.at, room.at + room.length, 0};
        made = reply_value(&reply);
    }
    room_end(&room);
    if (!made || !method->makes_tuple || !PyList_Check(made))
        return made;
    PyObject *tuple = PyList_AsTuple(made);
    Py_DECREF(made);
    return tuple;
}

/* Writes the arguments by their places. */
static int write_arguments(Line *line, const Method *method, PyObject *const *values, Py_ssize_t given, PyObject *names)
{
    PyObject *placed[2] = {NULL, NULL};
    Py_ssize_t named = names ? PyTuple_Size(names) : 0, last = given;
    for (Py_ssize_t at = 0; at < named; at++) {
        PyObject *name = PyTuple_GetItem(names, at);
        Py_ssize_t place = given;
        while (place < 2 && !(method->names[place] && PyUnicode_CompareWithASCIIString(name, method->names[place]) == 0))
            place++;
        if (place >= 2) {
            PyErr_Format(PyExc_TypeError, "%s() has no argument %R that is left", method->name, name);
            return 0;
        }
        placed[place] = values[given + at];
        last = place + 1 > last ? place + 1 : last;
    }
    for (Py_ssize_t at = 0; at < last; at++) {
        PyObject *value = at < given ? values[at] : placed[at];
        pybuf_number byte;
        if (!at && value && method->of_byte && PyIndex_Check(value) && !has_bytes(value) && !to_byte(value, &byte))
            return 0;
        if (value && PyUnicode_Check(value)) {
            PyErr_SetString(PyExc_TypeError, "a bytes-like object is required, not 'str'");
            return 0;
        }
        if (!line_words(line, " ") || !(value ? line_value(line, value) : line_words(line, method->absent[at])))
            return 0;
    }
    return 1;
}

static PyObject *by_line(PyObject *self, const Method *method, PyObject *const *values, Py_ssize_t given, PyObject *names)
{
    Line line;
    line_begin(&line);
    PyObject *made = write_arguments(&line, method, values, given, names) ? answer_of(&line, (Array *)self, method) : NULL;
    line_end(&line);
    return made;
}

/* name, the names of arguments and what stands for those that are left out, of a byte, a tuple, the arguments as `help` shows them, the help */
#define NONE NULL, NULL, NULL, NULL
#define METHODS(X) \
    X(capitalize, NONE, 0, 0, "", "A copy whose first letter is upper case and whose other ones are lower case.") \
    X(count, NONE, 1, 0, ", sub, start=None, end=None, /", "How often bytes, or a byte, stand in a range without overlapping.") \
    X(endswith, NONE, 0, 0, ", suffix, start=None, end=None, /", "Whether a range ends with bytes, or with one of a tuple of bytes.") \
    X(expandtabs, "tabsize", NULL, "8", NULL, 0, 0, ", tabsize=8", "A copy with blanks in the place of tabs.") \
    X(find, NONE, 1, 0, ", sub, start=None, end=None, /", "The first place of bytes, or of a byte, in a range; -1 if there is none.") \
    X(index, NONE, 1, 0, ", sub, start=None, end=None, /", "The first place of bytes, or of a byte, in a range; ValueError if there is none.") \
    X(isalnum, NONE, 0, 0, "", "Whether there are bytes, and all are letters or digits.") \
    X(isalpha, NONE, 0, 0, "", "Whether there are bytes, and all are letters.") \
    X(isascii, NONE, 0, 0, "", "Whether all bytes are below 128.") \
    X(isdigit, NONE, 0, 0, "", "Whether there are bytes, and all are digits.") \
    X(islower, NONE, 0, 0, "", "Whether there are letters, and all are lower case.") \
    X(isspace, NONE, 0, 0, "", "Whether there are bytes, and all are blanks.") \
    X(istitle, NONE, 0, 0, "", "Whether there are letters, and of each word the first alone is upper case.") \
    X(isupper, NONE, 0, 0, "", "Whether there are letters, and all are upper case.") \
    X(lower, NONE, 0, 0, "", "A copy whose letters are lower case.") \
    X(lstrip, NONE, 0, 0, ", bytes=None, /", "A copy without blanks, or without these bytes, at the front.") \
    X(partition, NONE, 0, 1, ", sep, /", "What stands before the first separator, the separator, and what stands behind it.") \
    X(removeprefix, NONE, 0, 0, ", prefix, /", "A copy without these bytes at the front, if they stand there.") \
    X(removesuffix, NONE, 0, 0, ", suffix, /", "A copy without these bytes at the end, if they stand there.") \
    X(replace, NONE, 0, 0, ", old, new, count=-1, /", "A copy with other bytes in the place of the first so many.") \
    X(rfind, NONE, 1, 0, ", sub, start=None, end=None, /", "The last place of bytes, or of a byte, in a range; -1 if there is none.") \
    X(rindex, NONE, 1, 0, ", sub, start=None, end=None, /", "The last place of bytes, or of a byte, in a range; ValueError if there is none.") \
    X(rpartition, NONE, 0, 1, ", sep, /", "What stands before the last separator, the separator, and what stands behind it.") \
    X(rsplit, "sep", "maxsplit", "None", "-1", 0, 0, ", sep=None, maxsplit=-1", "The parts between separators, or between blanks, split from the end.") \
    X(rstrip, NONE, 0, 0, ", bytes=None, /", "A copy without blanks, or without these bytes, at the end.") \
    X(split, "sep", "maxsplit", "None", "-1", 0, 0, ", sep=None, maxsplit=-1", "The parts between separators, or between blanks.") \
    X(splitlines, "keepends", NULL, "False", NULL, 0, 0, ", keepends=False", "The lines, without their ends if they aren't asked for.") \
    X(startswith, NONE, 0, 0, ", prefix, start=None, end=None, /", "Whether a range begins with bytes, or with one of a tuple of bytes.") \
    X(strip, NONE, 0, 0, ", bytes=None, /", "A copy without blanks, or without these bytes, at both ends.") \
    X(swapcase, NONE, 0, 0, "", "A copy in which upper case is lower case, and the other way round.") \
    X(title, NONE, 0, 0, "", "A copy in which each word begins with upper case and goes on with lower case.") \
    X(translate, NULL, "delete", NULL, "x", 0, 0, ", table, /, delete=b''", "A copy with the bytes of a table, without some of them.") \
    X(upper, NONE, 0, 0, "", "A copy whose letters are upper case.")

/* these are called by Python code, which looks at the arguments before */
#define PARTS(X) \
    X(center, NONE, 0, 0, ", width, fill, /", "The line `center`.") \
    X(hex, NONE, 0, 0, ", sep, groups, /", "The line `hex`.") \
    X(join, NONE, 0, 0, ", parts, /", "The line `join`.") \
    X(ljust, NONE, 0, 0, ", width, fill, /", "The line `ljust`.") \
    X(rjust, NONE, 0, 0, ", width, fill, /", "The line `rjust`.") \
    X(zfill, NONE, 0, 0, ", width, /", "The line `zfill`.")

#define LINE(name, ...) LINE_OF(name, __VA_ARGS__)
#define LINE_OF(name, first, second, at_first, at_second, byte, tuple, shown, said) \
    static PyObject *line_##name(PyObject *self, PyObject *const *values, Py_ssize_t given, PyObject *names) \
    { \
        static const Method method = {#name, {first, second}, {at_first, at_second}, byte, tuple}; \
        return by_line(self, &method, values, given, names); \
    }
METHODS(LINE)
PARTS(LINE)

#define FUNCTION(name) (PyCFunction)(void (*)(void))name
#define SHOWN(name, ...) SHOWN_OF(name, __VA_ARGS__)
#define SHOWN_OF(name, first, second, at_first, at_second, byte, tuple, shown, said) \
    {#name, FUNCTION(line_##name), METH_FASTCALL | METH_KEYWORDS, #name "($self" shown ")\n--\n\n" said},
#define HIDDEN(name, ...) HIDDEN_OF(name, __VA_ARGS__)
#define HIDDEN_OF(name, first, second, at_first, at_second, byte, tuple, shown, said) \
    {"_" #name, FUNCTION(line_##name), METH_FASTCALL | METH_KEYWORDS, "_" #name "($self" shown ")\n--\n\n" said},
#define HELP(name, arguments, said) name "($self" arguments ")\n--\n\n" said

static PyMethodDef array_methods[] = {
    {"append", array_append, METH_O, HELP("append", ", item, /", "Appends a byte.")},
    {"clear", array_clear, METH_NOARGS, HELP("clear", "", "Removes all bytes.")},
    {"copy", array_copy, METH_NOARGS, HELP("copy", "", "A copy.")},
    {"decode", FUNCTION(array_decode), METH_VARARGS | METH_KEYWORDS,
     HELP("decode", ", encoding='utf-8', errors='strict'", "The text of the bytes, by Python's own codecs.")},
    {"extend", array_extend, METH_O, HELP("extend", ", values, /", "Appends bytes, or numbers from 0 to 255.")},
    {"insert", FUNCTION(array_insert), METH_FASTCALL, HELP("insert", ", index, item, /", "Inserts a byte before a place.")},
    {"pop", FUNCTION(array_pop), METH_FASTCALL, HELP("pop", ", index=-1, /", "Removes a byte, and returns it.")},
    {"remove", array_remove, METH_O, HELP("remove", ", value, /", "Removes the first byte that has this number.")},
    {"reverse", array_reverse, METH_NOARGS, HELP("reverse", "", "Reverses the bytes in place.")},
    {"tobytes", array_bytes, METH_NOARGS, HELP("tobytes", "", "A copy of the bytes.")},
    {"__bytes__", array_bytes, METH_NOARGS, HELP("__bytes__", "", "A copy of the bytes.")},
    METHODS(SHOWN) PARTS(HIDDEN){0}};

/* ---- the items of an array by their places, of which Python makes an iterator that is pickled, and that ends for good ---- */

typedef struct {
    PyObject_HEAD
    PyObject *array;
} Items;

static PyTypeObject *items_type;

static PyObject *items_of(PyTypeObject *type, PyObject *array)
{
    Items *self = (Items *)MAKE(type);
    if (self) {
        Py_INCREF(array);
        self->array = array;
    }
    return (PyObject *)self;
}

static PyObject *items_made(PyTypeObject *type, PyObject *arguments, PyObject *named)
{
    (void)named;
    PyObject *array;
    return PyArg_ParseTuple(arguments, "O!", array_type, &array) ? items_of(type, array) : NULL;
}

static PyObject *array_iter(PyObject *self)
{
    PyObject *items = items_of(items_type, self);
    PyObject *made = items ? PySeqIter_New(items) : NULL;
    Py_XDECREF(items);
    return made;
}

static Py_ssize_t items_length(PyObject *self)
{
    return array_length(((Items *)self)->array);
}

static PyObject *items_item(PyObject *self, Py_ssize_t at)
{
    return array_item(((Items *)self)->array, at);
}

static PyObject *items_reduce(PyObject *self, PyObject *none)
{
    (void)none;
    return Py_BuildValue("O(O)", (PyObject *)Py_TYPE(self), ((Items *)self)->array);
}

static int items_traverse(PyObject *self, visitproc visit, void *arg)
{
    Py_VISIT(((Items *)self)->array);
    Py_VISIT(Py_TYPE(self));
    return 0;
}

static void items_dealloc(PyObject *self)
{
    PyTypeObject *type = Py_TYPE(self);
    PyObject_GC_UnTrack(self);
    Py_CLEAR(((Items *)self)->array);
    (__extension__(freefunc)PyType_GetSlot(type, Py_tp_free))(self);
    Py_DECREF(type);
}

static PyMethodDef items_methods[] = {{"__reduce__", items_reduce, METH_NOARGS, HELP("__reduce__", "", "The array, for pickle.")}, {0}};
static PyType_Slot items_slots[] = {{Py_tp_doc, "The items of an array, by their places."},
                                    SLOT(Py_tp_new, items_made),
                                    SLOT(Py_tp_dealloc, items_dealloc),
                                    SLOT(Py_tp_traverse, items_traverse),
                                    SLOT(Py_tp_methods, items_methods),
                                    SLOT(Py_sq_length, items_length),
                                    SLOT(Py_sq_item, items_item),
                                    {0, 0}};
static PyType_Spec items_spec = {"pybuf._native.Items", sizeof(Items), 0, Py_TPFLAGS_DEFAULT | Py_TPFLAGS_HAVE_GC, items_slots};

static PyType_Slot array_slots[] = {{Py_tp_doc, "ByteArray(source=b'', encoding=None, errors=None)\n--\n\n"
                                                "A bytearray, by the library. It behaves as Python's own."},
                                    SLOT(Py_tp_new, array_made),
                                    SLOT(Py_tp_init, array_init),
                                    SLOT(Py_tp_dealloc, array_dealloc),
                                    SLOT(Py_tp_repr, array_repr),
                                    SLOT(Py_tp_iter, array_iter),
                                    SLOT(Py_tp_richcompare, array_compare),
                                    SLOT(Py_tp_methods, array_methods),
                                    SLOT(Py_mp_length, array_length),
                                    SLOT(Py_sq_length, array_length),
                                    SLOT(Py_sq_item, array_item),
                                    SLOT(Py_sq_contains, array_contains),
                                    SLOT(Py_sq_repeat, array_repeat),
                                    SLOT(Py_sq_inplace_repeat, array_repeat_in_place),
                                    SLOT(Py_nb_add, array_add),
                                    SLOT(Py_nb_inplace_add, array_add_in_place),
                                    SLOT(Py_mp_subscript, array_subscript),
                                    SLOT(Py_mp_ass_subscript, array_ass_subscript),
                                    SLOT(Py_bf_getbuffer, array_buffer),
                                    SLOT(Py_bf_releasebuffer, buffer_back),
                                    {0, 0}};
static PyType_Spec array_spec = {"pybuf.ByteArray", sizeof(Array), 0, Py_TPFLAGS_DEFAULT | Py_TPFLAGS_BASETYPE, array_slots};

#include "_views.h"
#include "_packing.h"

/* ---- the module ---- */

static PyMethodDef functions[] = {{"load", load, METH_O, "load(path, /)\n--\n\nOpens the shared library, and tells its version."}, {0}};
static struct PyModuleDef definition = {PyModuleDef_HEAD_INIT, "pybuf._native", "The types of the package pybuf.", -1, functions, NULL, NULL, NULL, NULL};

PyMODINIT_FUNC PyInit__native(void)
{
    PyObject *module = PyModule_Create(&definition), *own = module ? PyImport_ImportModule("_struct") : NULL;
    struct_error = own ? PyObject_GetAttrString(own, "error") : NULL;
    Py_XDECREF(own);
    if (!struct_error)
        Py_CLEAR(module);
    struct {
        PyType_Spec *spec;
        PyTypeObject **type;
    } types[] = {{&world_spec, NULL}, {&array_spec, &array_type}, {&items_spec, &items_type}, {&view_spec, &view_type}, {&format_spec, NULL}};
    for (size_t at = 0; module && at < sizeof types / sizeof *types; at++) {
        PyTypeObject *made = (PyTypeObject *)PyType_FromSpec(types[at].spec);
        if (!made || PyModule_AddType(module, made) < 0)
            Py_CLEAR(module);
        if (types[at].type)
            *types[at].type = made;
        else
            Py_XDECREF((PyObject *)made);
    }
    return module;
}
