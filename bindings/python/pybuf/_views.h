/* The type of views. It is a part of _native.c. */
#ifndef PYBUF_VIEWS_H
#define PYBUF_VIEWS_H

/* A view that was made in more steps than this isn't made again in another world. */
enum { DEEP = 64 };

/* What a call of the library made for a view. It releases the view if there is no memory for more. */
static void view_holds(View *own, Shared *shared, pybuf_object object, Step *way)
{
    own->shared = shared;
    own->object = object;
    own->way = way;
    own->length = own->hashed = -1;
    own->unmoved = way && way->depth > DEEP;
    own->right = shared->views;
    if (own->right)
        own->right->left = own;
    shared->views = own;
    shared->count++;
    shared->living++;
    shared->unmoved += own->unmoved;
    if (object > shared->last)
        shared->last = object;
}

static void view_ends(View *own)
{
    Shared *shared = own->shared;
    *(own->left ? &own->left->right : &shared->views) = own->right;
    if (own->right)
        own->right->left = own->left;
    shared->living--;
    shared->unmoved -= own->unmoved;
    lib.release(shared->world, own->object);
    if (own->beside) {
        size_t length;
        lib.take(shared->world, own->copied, NULL, 0, &length);
    }
}

/* Releases a view. If a slice of it is being made, this comes afterwards. */
static void view_lets_go(View *own)
{
    if (!own->shared || own->released)
        return;
    own->released = true;
    if (own->slicing)
        own->waits = true;
    else
        view_ends(own);
}

static PyObject *view_new(PyTypeObject *type, PyObject *arguments, PyObject *named)
{
    (void)arguments, (void)named; /* as in Python, a class below may pass on what it was given */
    if (lib.new)
        return MAKE(type);
    PyErr_SetString(PyExc_ImportError, "pybuf: no library is loaded");
    return NULL;
}

static void view_is_of(View *own, PyObject *source, View *from)
{
    Py_XINCREF(source);
    own->source = source;
    if (!from)
        return;
    own->constant = from->constant;
    Py_XINCREF(from->shown);
    own->shown = from->shown;
}

static int view_init(PyObject *self, PyObject *arguments, PyObject *named)
{
    static char *names[] = {"object", NULL};
    View *own = (View *)self;
    PyObject *source;
    pybuf_object made;
    pybuf_status status;
    if (!PyArg_ParseTupleAndKeywords(arguments, named, "O:memoryview", names, &source))
        return -1;
    if (own->shared) /* it may be called once more, as with Python's own */
        return 0;
    if (is_array(source)) {
        Array *array = (Array *)source;
        if (!world_of_array(array))
            return -1;
        renew(array->shared);
        status = lib.view(array->shared->world, array->shared->root, &made);
        if (!status) {
            view_holds(own, array->shared, made, NULL);
            view_is_of(own, source, NULL);
        }
    } else if (is_view(source)) {
        View *from = (View *)source;
        if (!world_of_view(from))
            return -1;
        if (!from->beside)
            renew(from->shared);
        status = lib.view(from->shared->world, from->object, &made);
        if (!status) {
            view_holds(own, from->shared, made, from->way);
            if (from->way)
                from->way->count++;
            view_is_of(own, from->source, from);
            own->code = from->code;
        }
    } else {
        PyObject *did = python_call(self, "_copy", source, NULL);
        Py_XDECREF(did);
        return did ? 0 : -1;
    }
    if (status)
        refuse(of_views, "view", status);
    return status ? -1 : 0;
}

/* A view that was made of this one. */
static PyObject *view_child(View *from, pybuf_object made, Step *way)
{
    Shared *shared = from->shared;
    View *own = way ? (View *)MAKE(Py_TYPE((PyObject *)from)) : (View *)PyErr_NoMemory();
    if (!own) {
        lib.release(shared->world, made);
        step_drop(way);
        return NULL;
    }
    view_holds(own, shared, made, way);
    if (from->unmoved && !own->unmoved) {
        own->unmoved = true;
        shared->unmoved++;
    }
    view_is_of(own, from->source, from);
    return (PyObject *)own;
}

static PyObject *view_slice(PyObject *self, PyObject *key)
{
    View *own = (View *)self;
    Py_ssize_t start, stop, step;
    pybuf_object made;
    size_t length;
    if (!world_of_view(own))
        return NULL;
    /* a part may run code that releases the view, which doesn't end the slice in Python */
    own->slicing++;
    PyObject *slice = NULL;
    if (PySlice_Unpack(key, &start, &stop, &step) == 0) {
        renew(own->shared);
        pybuf_world *world = own->shared->world;
        pybuf_status status = lib.get_slice(world, own->object, &(pybuf_slice){start, stop, step, true, true, true}, &made);
        if (!status && own->length < 0) {
            status = lib.length(world, own->object, &length);
            own->length = status ? -1 : (Py_ssize_t)length;
        }
        if (status)
            refuse(of_views, "get", status);
        else {
            Py_ssize_t count = PySlice_AdjustIndices(own->length, &start, &stop, step);
            slice = view_child(own, made, step_of_slice(own, start, step, count));
            if (slice) {
                ((View *)slice)->length = count;
                ((View *)slice)->code = own->code;
            }
        }
    }
    if (!--own->slicing && own->waits) {
        own->waits = false;
        view_ends(own);
    }
    return slice;
}

/* The code of the items, or = if they are numbers of the library. */
static char view_code(View *own)
{
    if (own->code)
        return own->code;
    Room room;
    pybuf_status status;
    pybuf_world *world = world_of_view(own);
    if (!world)
        return 0;
    READ(room, status, lib.property_text(world, own->object, PYBUF_FORMAT, room.at, room.size, &room.length));
    if (status)
        refuse(of_views, "format", status);
    else if (own->shown)
        own->code = PyUnicode_AsUTF8AndSize(own->shown, NULL)[PyUnicode_GetLength(own->shown) - 1];
    else
        own->code = room.length && strchr("?c", room.at[room.length - 1]) ? room.at[room.length - 1] : '=';
    room_end(&room);
    return own->code;
}

/* An item by its number. */
static PyObject *view_value(View *own, pybuf_number item)
{
    double number;
    float shorter;
    uint32_t bits = (uint32_t)item.magnitude;
    switch (view_code(own)) {
    case 0:
        return NULL;
    case '?':
        return PyBool_FromLong(item.magnitude != 0);
    case 'd':
        memcpy(&number, &item.magnitude, sizeof number);
        return PyFloat_FromDouble(number);
    case 'f':
        memcpy(&shorter, &bits, sizeof shorter);
        return PyFloat_FromDouble(shorter);
    case 'e':
        return PyObject_CallMethod((PyObject *)own, "_half", "K", (unsigned long long)item.magnitude);
    }
    return from_number(item);
}

static PyObject *view_answer(View *own, pybuf_status status, pybuf_number item)
{
    Room room;
    if (!status)
        return view_value(own, item);
    if (status != PYBUF_NOTHING)
        return refuse(of_views, "get", status);
    READ(room, status, lib.last_bytes(own->shared->world, room.at, room.size, &room.length));
    PyObject *made = status ? refuse(of_views, "get", status) : PyBytes_FromStringAndSize(room.at, (Py_ssize_t)room.length);
    room_end(&room);
    return made;
}

static PyObject *view_get(PyObject *self, int64_t at)
{
    View *own = (View *)self;
    pybuf_number item = {0, false};
    pybuf_world *world = world_of_view(own);
    if (!world)
        return NULL;
    pybuf_status status = lib.get(world, own->object, at, &item);
    return view_answer(own, status, item);
}

static PyObject *view_item(PyObject *self, Py_ssize_t at)
{
    return at < 0 ? refuse(of_views, "get", PYBUF_INDEX_ERROR) : view_get(self, at);
}

static PyObject *view_subscript(PyObject *self, PyObject *key)
{
    int64_t at;
    if (PyIndex_Check(key))
        return to_word(key, &at, PyExc_IndexError) ? view_get(self, at) : NULL;
    return PySlice_Check(key) ? view_slice(self, key) : python_call(self, "_item_of", key, NULL);
}

/* words: up to 65 numbers of a list or a tuple, since the library refuses what has more than 64 dimensions */
static int to_words(PyObject *values, int64_t *words, size_t *count, PyObject *refusal)
{
    Py_ssize_t length = PySequence_Size(values);
    if (length < 0)
        return 0;
    if (length > 64) {
        PyErr_SetString(PyExc_ValueError, "memoryview: number of dimensions must not exceed 64");
        return 0;
    }
    for (Py_ssize_t at = 0; at < length; at++) {
        PyObject *part = PySequence_GetItem(values, at);
        int fits = part && to_word(part, &words[at], refusal);
        Py_XDECREF(part);
        if (!fits)
            return 0;
    }
    *count = (size_t)length;
    return 1;
}

/* _get_at(indices): an item of several dimensions */
static PyObject *view_get_at(PyObject *self, PyObject *indices)
{
    View *own = (View *)self;
    int64_t words[64];
    size_t count;
    pybuf_number item = {0, false};
    if (!to_words(indices, words, &count, PyExc_IndexError))
        return NULL;
    pybuf_world *world = world_of_view(own);
    if (!world)
        return NULL;
    pybuf_status status = lib.get_at(world, own->object, words, count, &item);
    return view_answer(own, status, item);
}

static PyObject *view_done(const char *call, pybuf_status status)
{
    if (status)
        return refuse(of_views, call, status);
    Py_RETURN_NONE;
}

/* _set(key, number): the key is a number or a list of them */
static PyObject *view_set(PyObject *self, PyObject *const *values, Py_ssize_t given)
{
    View *own = (View *)self;
    int64_t words[64];
    size_t count = 0;
    pybuf_number item;
    if (!counts("_set", given, 2, 2))
        return NULL;
    bool one = PyIndex_Check(values[0]);
    if (!(one ? to_word(values[0], words, PyExc_IndexError) : to_words(values[0], words, &count, PyExc_IndexError)) || !to_number(values[1], &item))
        return NULL;
    pybuf_world *world = world_of_view(own);
    if (!world)
        return NULL;
    return view_done("set", one ? lib.set(world, own->object, words[0], item) : lib.set_at(world, own->object, words, count, item));
}

/* _set_slice(key, value): of bytes, or of a view of the same world */
static PyObject *view_set_slice(PyObject *self, PyObject *key, PyObject *value)
{
    View *own = (View *)self;
    pybuf_slice slice;
    Lent lent;
    Shared *others = is_array(value) ? ((Array *)value)->shared : is_view(value) && !((View *)value)->released ? ((View *)value)->shared : NULL;
    if (others && others == own->shared) {
        pybuf_world *world = to_slice(key, &slice) ? world_of_view(own) : NULL;
        if (!world || (is_view(value) && !world_of_view((View *)value)))
            return NULL;
        return view_done("set_slice", lib.set_slice_of(world, own->object, &slice, is_array(value) ? others->root : ((View *)value)->object));
    }
    if (!to_slice(key, &slice) || !lend(value, &lent, 0))
        return NULL;
    pybuf_world *world = world_of_view(own);
    PyObject *did = world ? view_done("set_slice", lib.set_slice(world, own->object, &slice, lent.bytes, lent.length)) : NULL;
    give_back(&lent);
    return did;
}

static PyObject *view_set_slice_method(PyObject *self, PyObject *const *values, Py_ssize_t given)
{
    return counts("_set_slice", given, 2, 2) ? view_set_slice(self, values[0], values[1]) : NULL;
}

static bool same_shown(View *own, PyObject *value)
{
    if (!is_view(value))
        return !own->shown;
    PyObject *others = ((View *)value)->shown;
    return others == own->shown || (others && own->shown && PyUnicode_Compare(others, own->shown) == 0);
}

/* Writes what is a number of the item's kind, and fits. Anything else is for Python code, which answers by the right exception. */
static bool view_writes(View *own, PyObject *key, PyObject *value)
{
    int past;
    pybuf_number item;
    long long at = PyLong_AsLongLongAndOverflow(key, &past);
    char code = past || own->released || !own->shared ? 0 : view_code(own);
    double number = PyFloat_CheckExact(value) ? PyFloat_AsDouble(value) : 0;
    float shorter = (float)number;
    uint32_t bits;
    item = (pybuf_number){0, false};
    if (code == '=' && PyLong_CheckExact(value)) {
        if (!to_number(value, &item)) {
            PyErr_Clear();
            return false;
        }
    } else if (code == 'd' && PyFloat_CheckExact(value))
        memcpy(&item.magnitude, &number, sizeof number);
    else if (code == 'f' && PyFloat_CheckExact(value)) {
        memcpy(&bits, &shorter, sizeof bits);
        item.magnitude = bits;
    } else
        return false;
    return lib.set(own->shared->world, own->object, at, item) == PYBUF_OK;
}

static int view_ass_subscript(PyObject *self, PyObject *key, PyObject *value)
{
    View *own = (View *)self;
    PyObject *did;
    if (!value)
        did = python_call(self, "_delete_item", key, NULL);
    else if (PyLong_CheckExact(key) && view_writes(own, key, value))
        return 0;
    else if (PySlice_Check(key) && own->shared && !own->released &&
             ((is_array(value) && !own->shown) || (is_view(value) && ((View *)value)->shared == own->shared && same_shown(own, value)) ||
              ((PyBytes_CheckExact(value) || Py_IS_TYPE(value, &PyByteArray_Type)) && !own->shown)))
        did = view_set_slice(self, key, value);
    else
        did = python_call(self, "_set_item", key, value);
    Py_XDECREF(did);
    return did ? 0 : -1;
}

static Py_ssize_t view_length(PyObject *self)
{
    View *own = (View *)self;
    size_t length;
    pybuf_world *world = world_of_view(own);
    if (!world)
        return -1;
    if (own->length >= 0)
        return own->length;
    pybuf_status status = lib.length(world, own->object, &length);
    if (!status)
        return own->length = (Py_ssize_t)length;
    refuse(of_views, "length", status);
    return -1;
}

/* Compares what is in one world, and a view with bytes. Anything else is for Python code. */
static PyObject *view_compare(PyObject *self, PyObject *other, int op)
{
    View *own = (View *)self;
    pybuf_truth truth = PYBUF_NOT_COMPARABLE;
    pybuf_status status;
    if (op != Py_EQ && op != Py_NE)
        Py_RETURN_NOTIMPLEMENTED;
    bool others = is_view(other);
    if (own->released || (others && ((View *)other)->released))
        return PyBool_FromLong((self == other) == (op == Py_EQ));
    if (!own->shared)
        return PyErr_Format(PyExc_ValueError, "the object was never made");
    Shared *shared = is_array(other) ? ((Array *)other)->shared : others ? ((View *)other)->shared : NULL;
    if (shared == own->shared && !own->shown && !(others && ((View *)other)->shown)) {
        pybuf_object number = others ? ((View *)other)->object : shared->root;
        status = lib.compare_with(shared->world, own->object, operator_of(op), number, &truth);
    } else if (!own->shown && (PyBytes_CheckExact(other) || Py_IS_TYPE(other, &PyByteArray_Type) || (is_array(other) && shared))) {
        Lent lent;
        if (!lend(other, &lent, 0))
            return NULL;
        status = lib.compare(own->shared->world, own->object, operator_of(op), lent.bytes, lent.length, &truth);
        give_back(&lent);
    } else
        return python_call(self, "_compare", other, op == Py_EQ ? Py_True : Py_False);
    return status ? refuse(of_views, "compare", status) : from_truth(truth);
}

static PyObject *view_release(PyObject *self, PyObject *none)
{
    (void)none;
    view_lets_go((View *)self);
    Py_RETURN_NONE;
}

static PyObject *view_enter(PyObject *self, PyObject *none)
{
    (void)none;
    if (!world_of_view((View *)self))
        return NULL;
    Py_INCREF(self);
    return self;
}

static PyObject *view_exit(PyObject *self, PyObject *exception)
{
    (void)exception;
    return view_release(self, NULL);
}

static PyObject *view_tobytes(PyObject *self, PyObject *arguments, PyObject *named)
{
    static char *names[] = {"order", NULL};
    PyObject *order = Py_None;
    if (!PyArg_ParseTupleAndKeywords(arguments, named, "|O:tobytes", names, &order))
        return NULL;
    if (order == Py_None || (PyUnicode_Check(order) && PyUnicode_CompareWithASCIIString(order, "C") == 0))
        return view_bytes((View *)self);
    return python_call(self, "_in_order", order, NULL);
}

static PyObject *view_dunder_bytes(PyObject *self, PyObject *none)
{
    (void)none;
    return view_bytes((View *)self);
}

static PyObject *view_tolist(PyObject *self, PyObject *none)
{
    (void)none;
    View *own = (View *)self;
    uint64_t bytes, width, dimensions;
    char code = view_number(own, PYBUF_NBYTES, &bytes) && view_number(own, PYBUF_ITEMSIZE, &width) && view_number(own, PYBUF_NDIM, &dimensions)
                    ? view_code(own) : 0;
    if (!code)
        return NULL;
    if (code == 'c')
        return python_call(self, "_nested", Py_None, NULL);
    size_t count = width ? (size_t)(bytes / width) : 0;
    pybuf_number *room = PyMem_Calloc(count ? count : 1, sizeof *room);
    PyObject *list = room ? PyList_New((Py_ssize_t)count) : PyErr_NoMemory();
    /* making the list may have run code that released the view */
    pybuf_world *world = list ? world_of_view(own) : NULL;
    pybuf_status status = world ? lib.items(world, own->object, room, count, &count) : PYBUF_OK;
    if (status)
        refuse(of_views, "items", status);
    if (!world || status)
        Py_CLEAR(list);
    for (size_t at = 0; list && at < count; at++) {
        PyObject *item = view_value(own, room[at]);
        if (item)
            PyList_SetItem(list, (Py_ssize_t)at, item);
        else
            Py_CLEAR(list);
    }
    PyMem_Free(room);
    if (!list || dimensions == 1)
        return list;
    PyObject *nested = python_call(self, "_nested", list, NULL);
    Py_DECREF(list);
    return nested;
}

static PyObject *view_iter(PyObject *self)
{
    uint64_t dimensions;
    if (!view_number((View *)self, PYBUF_NDIM, &dimensions))
        return NULL;
    if (dimensions == 1)
        return PySeqIter_New(self);
    PyErr_SetString(PyExc_NotImplementedError, "memoryview: sub-views are not implemented");
    return NULL;
}

/* The format of whole numbers that carries a format of floats, or the same format. */
static const char *carrier(const char *format)
{
    const char *code = format + (format[0] == '@');
    if (!code[0] || code[1])
        return format;
    return code[0] == 'e' ? "H" : code[0] == 'f' ? "I" : code[0] == 'd' ? "Q" : format;
}

static PyObject *view_cast(PyObject *self, PyObject *arguments, PyObject *named)
{
    static char *names[] = {"format", "shape", NULL};
    View *own = (View *)self;
    PyObject *text, *shape = Py_None;
    int64_t words[64];
    size_t count = 0;
    Py_ssize_t size;
    pybuf_object made;
    if (!PyArg_ParseTupleAndKeywords(arguments, named, "O|O:cast", names, &text, &shape))
        return NULL;
    if (!PyUnicode_Check(text)) {
        PyErr_SetString(PyExc_TypeError, "cast() argument 'format' must be str");
        return NULL;
    }
    /* UnicodeEncodeError, as in Python */
    PyObject *plain = PyUnicode_AsASCIIString(text);
    Py_XDECREF(plain);
    const char *format = plain ? PyUnicode_AsUTF8AndSize(text, &size) : NULL;
    if (!format)
        return NULL;
    if (strlen(format) != (size_t)size) {
        PyErr_SetString(PyExc_ValueError, "embedded null character");
        return NULL;
    }
    if (shape != Py_None) {
        if (!PyList_Check(shape) && !PyTuple_Check(shape)) {
            PyErr_SetString(PyExc_TypeError, "shape must be a list or a tuple");
            return NULL;
        }
        for (Py_ssize_t at = 0; at < PySequence_Size(shape); at++) {
            PyObject *part = PySequence_GetItem(shape, at);
            int is_number = part && PyLong_Check(part);
            Py_XDECREF(part);
            if (!is_number) {
                PyErr_SetString(PyExc_TypeError, "shape must be a list or a tuple of integers");
                return NULL;
            }
        }
        if (!to_words(shape, words, &count, PyExc_OverflowError))
            return NULL;
    }
    if (!world_of_view(own))
        return NULL;
    if (!own->beside)
        renew(own->shared);
    const char *carried = carrier(format);
    const int64_t *sizes = shape == Py_None ? NULL : words;
    pybuf_status status = lib.cast(own->shared->world, own->object, carried, sizes, count, &made);
    if (status)
        return refuse(of_views, "cast", status);
    View *child = (View *)view_child(own, made, step_of_cast(own, carried, sizes, count));
    if (child) {
        Py_CLEAR(child->shown);
        if (carried != format) {
            Py_INCREF(text);
            child->shown = text;
        }
    }
    return (PyObject *)child;
}

static PyObject *view_toreadonly(PyObject *self, PyObject *none)
{
    (void)none;
    View *own = (View *)self;
    pybuf_object made;
    if (!world_of_view(own))
        return NULL;
    if (!own->beside)
        renew(own->shared);
    pybuf_status status = lib.to_readonly(own->shared->world, own->object, &made);
    if (status)
        return refuse(of_views, "to_readonly", status);
    Step *way = step_made(own->way, 0);
    if (way)
        way->kind = FIXED;
    return view_child(own, made, way);
}

/* _hold(content, format, shape, nothing, fixed, source, shown, beside): what this view is from now on: one of a copy. The copy is in the world
 * of another view, or has one of its own. */
static PyObject *view_hold(PyObject *self, PyObject *arguments)
{
    View *own = (View *)self;
    const char *content, *format;
    Py_ssize_t length;
    PyObject *shape, *source, *shown, *beside;
    int nothing, fixed;
    int64_t words[64];
    size_t count = 0;
    pybuf_object made, root;
    if (!PyArg_ParseTuple(arguments, "y#zOppOOO", &content, &length, &format, &shape, &nothing, &fixed, &source, &shown, &beside))
        return NULL;
    if (!to_words(shape, words, &count, PyExc_IndexError))
        return NULL;
    if (own->shared) {
        PyErr_SetString(PyExc_SystemError, "the object holds another one");
        return NULL;
    }
    Shared *shared = NULL;
    pybuf_status status = PYBUF_OK;
    pybuf_kind kind = fixed ? PYBUF_READONLY_VECTOR : PYBUF_VECTOR;
    if (beside == Py_None) {
        shared = shared_made(kind, content, (size_t)length);
        if (!shared)
            return NULL;
        root = shared->root;
    } else {
        if (!is_view(beside) || !world_of_view((View *)beside))
            return PyErr_Occurred() ? NULL : PyErr_Format(PyExc_SystemError, "beside what is no view");
        shared = ((View *)beside)->shared;
        shared->count++;
        status = lib.new(shared->world, kind, content, (size_t)length, &root);
    }
    Step *way = NULL;
    View none = {0};
    if (!status)
        status = lib.view(shared->world, root, &made);
    if (!status && format) {
        pybuf_object whole = made;
        status = lib.cast(shared->world, whole, format, words, count, &made);
        lib.release(shared->world, whole);
        way = status ? NULL : step_of_cast(&none, format, words, count);
        if (!status && !way)
            status = PYBUF_NO_MEMORY;
    }
    if (!status && nothing) {
        pybuf_object whole = made;
        none.way = way;
        status = lib.get_slice(shared->world, whole, &(pybuf_slice){0, 0, 1, true, true, true}, &made);
        lib.release(shared->world, whole);
        Step *last = status ? NULL : step_of_slice(&none, 0, 1, 0);
        step_drop(way);
        way = last;
        if (!status && !way)
            status = PYBUF_NO_MEMORY;
    }
    if (status) {
        step_drop(way);
        shared_drop(shared);
        return refuse(of_views, "cast", status);
    }
    view_holds(own, shared, made, way);
    shared_drop(shared);
    if (beside != Py_None) {
        own->beside = true;
        own->copied = root;
        shared->unmoved += !own->unmoved;
        own->unmoved = true;
    }
    own->constant = PyBytes_CheckExact(source);
    view_is_of(own, source, NULL);
    if (shown != Py_None) {
        Py_INCREF(shown);
        own->shown = shown;
    }
    Py_RETURN_NONE;
}

/* _ask(verb, words): the reply to a line about this view */
static PyObject *view_ask(PyObject *self, PyObject *arguments)
{
    const char *verb, *words;
    View *own = (View *)self;
    size_t count;
    if (!PyArg_ParseTuple(arguments, "ss", &verb, &words))
        return NULL;
    pybuf_world *world = world_of_view(own);
    PyObject *line = world ? PyBytes_FromFormat("%s h%zu %s", verb, (size_t)own->object, words) : NULL;
    if (!line)
        return NULL;
    pybuf_status status = lib.world_run(world, PyBytes_AsString(line), (size_t)PyBytes_Size(line), &count, NULL);
    Py_DECREF(line);
    return status ? refuse(of_views, verb, status) : replies_of(world, count);
}

static PyObject *view_repr(PyObject *self)
{
    return PyUnicode_FromFormat("<%smemory at %p>", ((View *)self)->released ? "released " : "", self);
}

static Py_hash_t view_hash(PyObject *self)
{
    View *own = (View *)self;
    if (own->shared && own->hashed == -1) { /* it stays when the view is released */
        PyObject *number = PyObject_CallMethod(self, "_hash", NULL);
        if (!number)
            return -1;
        own->hashed = (Py_hash_t)PyLong_AsSsize_t(number);
        Py_DECREF(number);
    }
    return own->shared ? own->hashed : (world_of_view(own), -1);
}

static PyObject *view_get_number(PyObject *self, void *property)
{
    uint64_t number;
    return view_number((View *)self, *(const pybuf_property *)property, &number) ? PyLong_FromUnsignedLongLong(number) : NULL;
}

static PyObject *view_get_truth(PyObject *self, void *property)
{
    uint64_t number;
    return view_number((View *)self, *(const pybuf_property *)property, &number) ? PyBool_FromLong(number != 0) : NULL;
}

static PyObject *view_get_numbers(PyObject *self, void *property)
{
    View *own = (View *)self;
    pybuf_number room[64];
    size_t count;
    pybuf_world *world = world_of_view(own);
    if (!world)
        return NULL;
    pybuf_status status = lib.property_numbers(world, own->object, *(const pybuf_property *)property, room, 64, &count);
    if (status)
        return refuse(of_views, "property", status);
    PyObject *made = PyTuple_New((Py_ssize_t)count);
    for (size_t at = 0; made && at < count; at++) {
        PyObject *number = from_number(room[at]);
        if (!number)
            Py_CLEAR(made);
        else
            PyTuple_SetItem(made, (Py_ssize_t)at, number);
    }
    return made;
}

static PyObject *view_get_format(PyObject *self, void *none)
{
    (void)none;
    View *own = (View *)self;
    Room room;
    pybuf_status status;
    pybuf_world *world = world_of_view(own);
    if (!world)
        return NULL;
    if (own->shown) {
        Py_INCREF(own->shown);
        return own->shown;
    }
    READ(room, status, lib.property_text(world, own->object, PYBUF_FORMAT, room.at, room.size, &room.length));
    PyObject *made = status ? refuse(of_views, "format", status) : PyUnicode_FromStringAndSize(room.at, (Py_ssize_t)room.length);
    room_end(&room);
    return made;
}

/* The format as bytes. */
static PyObject *view_bytes_shown(View *own)
{
    PyObject *text = view_get_format((PyObject *)own, NULL), *bytes = text ? PyUnicode_AsUTF8String(text) : NULL;
    Py_XDECREF(text);
    return bytes;
}

static PyObject *view_get_obj(PyObject *self, void *none)
{
    (void)none;
    View *own = (View *)self;
    if (!world_of_view(own))
        return NULL;
    PyObject *source = own->source ? own->source : Py_None;
    Py_INCREF(source);
    return source;
}

static PyObject *view_get_suboffsets(PyObject *self, void *none)
{
    (void)none;
    return world_of_view((View *)self) ? PyTuple_New(0) : NULL;
}

static int view_traverse(PyObject *self, visitproc visit, void *arg)
{
    Py_VISIT(((View *)self)->source);
    Py_VISIT(Py_TYPE(self));
    return 0;
}

static int view_clear(PyObject *self)
{
    Py_CLEAR(((View *)self)->source);
    return 0;
}

/* The last reference to a view releases it. */
static void view_dealloc(PyObject *self)
{
    View *own = (View *)self;
    PyTypeObject *type = Py_TYPE(self);
    PyObject_GC_UnTrack(self);
    if (own->weak)
        PyObject_ClearWeakRefs(self);
    view_lets_go(own);
    shared_drop(own->shared);
    step_drop(own->way);
    Py_CLEAR(own->source);
    Py_CLEAR(own->shown);
    (__extension__(freefunc)PyType_GetSlot(type, Py_tp_free))(self);
    Py_DECREF(type);
}

static PyMethodDef view_methods[] = {
    {"release", view_release, METH_NOARGS, HELP("release", "", "Releases the view. A second time changes nothing.")},
    {"tobytes", FUNCTION(view_tobytes), METH_VARARGS | METH_KEYWORDS,
     HELP("tobytes", ", order=None", "A copy of the bytes, in one of Python's orders: 'C', 'F' or 'A'.")},
    {"tolist", view_tolist, METH_NOARGS, HELP("tolist", "", "The items, in lists that are nested as the shape says.")},
    {"cast", FUNCTION(view_cast), METH_VARARGS | METH_KEYWORDS,
     HELP("cast", ", format, shape=None", "A view of the same bytes with another format, or another shape.")},
    {"toreadonly", view_toreadonly, METH_NOARGS, HELP("toreadonly", "", "A view of the same items through which nothing is written.")},
    {"__enter__", view_enter, METH_NOARGS, HELP("__enter__", "", "The view.")},
    {"__exit__", view_exit, METH_VARARGS, HELP("__exit__", ", /, *exception", "Releases the view.")},
    {"__bytes__", view_dunder_bytes, METH_NOARGS, HELP("__bytes__", "", "A copy of the bytes.")},
    {"_get_at", view_get_at, METH_O, HELP("_get_at", ", indices, /", "An item of several dimensions.")},
    {"_set", FUNCTION(view_set), METH_FASTCALL, HELP("_set", ", key, number, /", "Writes a number to an item.")},
    {"_set_slice", FUNCTION(view_set_slice_method), METH_FASTCALL, HELP("_set_slice", ", key, value, /", "Writes bytes, or a view's items, to a slice.")},
    {"_hold", view_hold, METH_VARARGS, "Makes a view of a copy."},
    {"_ask", view_ask, METH_VARARGS, HELP("_ask", ", verb, words, /", "The replies to a line about the view.")},
    {0}};

static const pybuf_property nbytes = PYBUF_NBYTES, readonly = PYBUF_READONLY, itemsize = PYBUF_ITEMSIZE, ndim = PYBUF_NDIM, shape = PYBUF_SHAPE,
                            strides = PYBUF_STRIDES, contiguous = PYBUF_CONTIGUOUS, c_contiguous = PYBUF_C_CONTIGUOUS,
                            f_contiguous = PYBUF_F_CONTIGUOUS;

#define PROPERTY(name, get, said) {#name, get, NULL, said, (void *)&name}
static PyGetSetDef view_getset[] = {PROPERTY(nbytes, view_get_number, "How many bytes the items have."),
                                    PROPERTY(itemsize, view_get_number, "How many bytes an item has."),
                                    PROPERTY(ndim, view_get_number, "How many dimensions there are."),
                                    PROPERTY(readonly, view_get_truth, "Whether nothing is written through the view."),
                                    PROPERTY(contiguous, view_get_truth, "Whether the items lie together, in the order of rows or of columns."),
                                    PROPERTY(c_contiguous, view_get_truth, "Whether the items lie together, in the order of rows."),
                                    PROPERTY(f_contiguous, view_get_truth, "Whether the items lie together, in the order of columns."),
                                    PROPERTY(shape, view_get_numbers, "How many entries each dimension has."),
                                    PROPERTY(strides, view_get_numbers, "How many bytes an entry of each dimension lies behind the one before."),
                                    {"suboffsets", view_get_suboffsets, NULL, "(), since no view goes through pointers.", NULL},
                                    {"format", view_get_format, NULL, "The format of an item, as `struct` has it.", NULL},
                                    {"obj", view_get_obj, NULL, "The object whose bytes these are, or were when they were copied.", NULL},
                                    {0}};
static PyMemberDef view_members[] = {{"__weaklistoffset__", T_PYSSIZET, offsetof(View, weak), READONLY, NULL}, {0}};

static PyType_Slot view_slots[] = {{Py_tp_doc, "MemoryView(object)\n--\n\n"
                                               "A view of a `ByteArray` or of another view, or of a copy of any other object with a buffer.\n\n"
                                               "Nothing that is written through a view of a copy is seen in the object. The view is released with its "
                                               "last reference."},
                                   SLOT(Py_tp_new, view_new),
                                   SLOT(Py_tp_init, view_init),
                                   SLOT(Py_tp_dealloc, view_dealloc),
                                   SLOT(Py_tp_traverse, view_traverse),
                                   SLOT(Py_tp_clear, view_clear),
                                   SLOT(Py_tp_repr, view_repr),
                                   SLOT(Py_tp_hash, view_hash),
                                   SLOT(Py_tp_iter, view_iter),
                                   SLOT(Py_tp_richcompare, view_compare),
                                   SLOT(Py_tp_methods, view_methods),
                                   SLOT(Py_tp_getset, view_getset),
                                   SLOT(Py_tp_members, view_members),
                                   SLOT(Py_mp_length, view_length),
                                   SLOT(Py_sq_length, view_length),
                                   SLOT(Py_sq_item, view_item),
                                   SLOT(Py_mp_subscript, view_subscript),
                                   SLOT(Py_mp_ass_subscript, view_ass_subscript),
                                   SLOT(Py_bf_getbuffer, view_buffer),
                                   SLOT(Py_bf_releasebuffer, buffer_back),
                                   {0, 0}};
static PyType_Spec view_spec = {"pybuf.MemoryView", sizeof(View), 0, Py_TPFLAGS_DEFAULT | Py_TPFLAGS_BASETYPE | Py_TPFLAGS_HAVE_GC, view_slots};

#endif
