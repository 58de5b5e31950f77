/* The type of formats. It is a part of _native.c. */
#ifndef PYBUF_PACKING_H
#define PYBUF_PACKING_H

typedef struct {
    PyObject_HEAD
    pybuf_format *format;
    size_t size, count;
    char *codes; /* one for each value */
} Format;

static PyObject *format_made(PyTypeObject *type, PyObject *arguments, PyObject *named)
{
    (void)arguments, (void)named; /* as in Python, a class below may pass on what it was given */
    if (lib.format_parse)
        return MAKE(type);
    PyErr_SetString(PyExc_ImportError, "pybuf: no library is loaded");
    return NULL;
}

static void format_dealloc(PyObject *self)
{
    PyTypeObject *type = Py_TYPE(self);
    lib.format_free(((Format *)self)->format);
    PyMem_Free(((Format *)self)->codes);
    (__extension__(freefunc)PyType_GetSlot(type, Py_tp_free))(self);
    Py_DECREF(type);
}

/* _parse(carried, codes): the format in the library, where whole numbers stand for floats, and the code of each value */
static PyObject *format_parse(PyObject *self, PyObject *arguments)
{
    Format *own = (Format *)self;
    const char *text, *codes;
    Py_ssize_t length, length_of_codes;
    pybuf_format *made = NULL;
    size_t size, count;
    if (!PyArg_ParseTuple(arguments, "y#y#", &text, &length, &codes, &length_of_codes))
        return NULL;
    pybuf_status status = lib.format_parse(text, (size_t)length, &made);
    if (!status)
        status = lib.format_size(made, &size);
    if (!status)
        status = lib.format_count(made, &count);
    char *kept = status ? NULL : PyMem_Malloc((size_t)length_of_codes + 1);
    if (!status && !kept)
        status = PYBUF_NO_MEMORY;
    if (status || count != (size_t)length_of_codes) {
        lib.format_free(made);
        PyMem_Free(kept);
        return status ? refuse(of_none, "parse", status) : PyErr_Format(PyExc_SystemError, "a format of %zu values", count);
    }
    memcpy(kept, codes, count);
    lib.format_free(own->format);
    PyMem_Free(own->codes);
    own->format = made;
    own->codes = kept;
    own->size = size;
    own->count = count;
    Py_RETURN_NONE;
}

/* _measure(carried): refuses what is no format */
static PyObject *format_measure(PyObject *self, PyObject *text)
{
    (void)self;
    pybuf_format *made = NULL;
    char *bytes;
    Py_ssize_t length;
    if (PyBytes_AsStringAndSize(text, &bytes, &length) < 0)
        return NULL;
    pybuf_status status = lib.format_parse(bytes, (size_t)length, &made);
    lib.format_free(made);
    if (status)
        return refuse(of_none, "parse", status);
    Py_RETURN_NONE;
}

/* Reads a value of the kind that its code has. Nothing here runs Python code: what would is read by Python code beforehand. */
static bool value_read(char code, PyObject *value, pybuf_value *read)
{
    double number;
    float shorter;
    uint32_t bits;
    *read = pybuf_number_value(pybuf_number_of(0));
    switch (code) {
    case '?':
        read->kind = PYBUF_TRUTH_VALUE;
        read->number.magnitude = value == Py_True;
        return PyBool_Check(value);
    case 'c':
    case 's':
    case 'p':
        if (!PyBytes_CheckExact(value) || (code == 'c' && PyBytes_Size(value) != 1))
            return false;
        *read = pybuf_bytes_value(PyBytes_AsString(value), (size_t)PyBytes_Size(value));
        return true;
    case 'd':
    case 'f':
        if (PyLong_CheckExact(value)) /* the bits of a float, which Python code read */
            return false;
        if (!PyFloat_CheckExact(value))
            return false;
        number = PyFloat_AsDouble(value);
        shorter = (float)number;
        if (code == 'd')
            memcpy(&read->number.magnitude, &number, sizeof number);
        else {
            memcpy(&bits, &shorter, sizeof bits);
            read->number.magnitude = bits;
            /* what is too large is OverflowError */
            return (bits & 0x7FFFFFFF) != 0x7F800000 || number - number != 0;
        }
        return true;
    case 'e':
    case 'P':
        return false;
    }
    if (PyLong_CheckExact(value) && to_number(value, &read->number))
        return true;
    PyErr_Clear();
    return false;
}

/* Packs values that were read, or gives NULL, with an exception where memory ran out, and with none where one doesn't fit. */
static PyObject *packed(Format *own, const pybuf_value *read)
{
    size_t length;
    PyObject *room = PyBytes_FromStringAndSize(NULL, (Py_ssize_t)own->size);
    if (!room)
        return NULL;
    pybuf_status status = lib.format_pack(own->format, read, own->count, PyBytes_AsString(room), own->size, &length);
    if (!status)
        return room;
    Py_DECREF(room);
    return status == PYBUF_NO_MEMORY ? PyErr_NoMemory() : NULL;
}

enum { FEW_VALUES = 16 };

static PyObject *format_pack(PyObject *self, PyObject *const *values, Py_ssize_t given)
{
    Format *own = (Format *)self;
    pybuf_value few[FEW_VALUES] = {0};
    if (!own->format)
        return PyErr_Format(PyExc_ValueError, "the object was never made");
    if ((size_t)given != own->count)
        return PyErr_Format(struct_error, "pack expected %zu items for packing (got %zd)", own->count, given);
    pybuf_value *read = given <= FEW_VALUES ? few : PyMem_Calloc((size_t)given, sizeof *read);
    if (!read)
        return PyErr_NoMemory();
    Py_ssize_t at = 0;
    while (at < given && value_read(own->codes[at], values[at], &read[at]))
        at++;
    PyObject *made = at == given ? packed(own, read) : NULL;
    if (read != few)
        PyMem_Free(read);
    if (made || PyErr_Occurred())
        return made;
    PyObject *tuple = PyTuple_New(given);
    for (at = 0; tuple && at < given; at++) {
        Py_INCREF(values[at]);
        PyTuple_SetItem(tuple, at, values[at]);
    }
    made = tuple ? python_call(self, "_pack_slowly", tuple, NULL) : NULL;
    Py_XDECREF(tuple);
    return made;
}

/* _packed(values): the bytes of the values of a tuple, which are bytes, truth values or whole numbers, or struct.error where one doesn't fit */
static PyObject *format_packed(PyObject *self, PyObject *values)
{
    Format *own = (Format *)self;
    if (!PyTuple_Check(values) || !own->format || (size_t)PyTuple_Size(values) != own->count)
        return PyErr_Format(PyExc_TypeError, "a tuple of as many values as the format has is needed");
    pybuf_value *read = PyMem_Calloc(own->count ? own->count : 1, sizeof *read);
    if (!read)
        return PyErr_NoMemory();
    size_t at = 0;
    for (; at < own->count; at++) {
        PyObject *value = PyTuple_GetItem(values, (Py_ssize_t)at);
        if (PyBytes_Check(value)) {
            read[at] = pybuf_bytes_value(PyBytes_AsString(value), (size_t)PyBytes_Size(value));
            continue;
        }
        read[at].kind = PyBool_Check(value) ? PYBUF_TRUTH_VALUE : PYBUF_NUMBER_VALUE;
        if (!to_number(value, &read[at].number))
            break;
    }
    PyObject *made = at == own->count ? packed(own, read) : NULL;
    PyMem_Free(read);
    if (!made && !PyErr_Occurred())
        PyErr_SetString(struct_error, "argument out of range");
    return made;
}

static PyObject *value_given(Format *own, size_t at, const pybuf_value *read)
{
    double number;
    float shorter;
    uint32_t bits = (uint32_t)read->number.magnitude;
    if (read->kind == PYBUF_BYTES_VALUE) {
        size_t length;
        PyObject *made = PyBytes_FromStringAndSize(NULL, (Py_ssize_t)read->length);
        pybuf_status status = made ? lib.format_value_bytes(own->format, at, PyBytes_AsString(made), read->length, &length) : PYBUF_OK;
        if (!status)
            return made;
        Py_DECREF(made);
        return refuse(of_none, "unpack", status);
    }
    if (read->kind == PYBUF_TRUTH_VALUE)
        return PyBool_FromLong(read->number.magnitude != 0);
    switch (own->codes[at]) {
    case 'd':
        memcpy(&number, &read->number.magnitude, sizeof number);
        return PyFloat_FromDouble(number);
    case 'f':
        memcpy(&shorter, &bits, sizeof shorter);
        return PyFloat_FromDouble(shorter);
    }
    return from_number(read->number);
}

/* The values of as many bytes as the format has. */
static PyObject *unpacked(Format *own, const char *bytes)
{
    pybuf_value few[FEW_VALUES] = {0};
    size_t count = own->count, told, halves = 0;
    /* this may run Python code; nothing behind it does */
    PyObject *made = PyTuple_New((Py_ssize_t)count);
    if (!made || count != own->count) {
        Py_XDECREF(made);
        return PyErr_Occurred() ? NULL : PyErr_Format(PyExc_RuntimeError, "the format changed meanwhile");
    }
    pybuf_value *read = count <= FEW_VALUES ? few : PyMem_Calloc(count, sizeof *read);
    pybuf_status status = read ? lib.format_unpack(own->format, bytes, own->size, read, count, &told) : PYBUF_NO_MEMORY;
    if (status)
        refuse(of_none, "unpack", status);
    for (size_t at = 0; !status && at < count; at++) {
        PyObject *value = value_given(own, at, &read[at]);
        halves += own->codes[at] == 'e';
        if (!value)
            break;
        PyTuple_SetItem(made, (Py_ssize_t)at, value);
    }
    if (read != few)
        PyMem_Free(read);
    if (PyErr_Occurred())
        Py_CLEAR(made);
    if (!made || !halves)
        return made;
    PyObject *floats = python_call((PyObject *)own, "_with_halves", made, NULL);
    Py_DECREF(made);
    return floats;
}

static PyObject *format_unpack(PyObject *self, PyObject *buffer)
{
    Format *own = (Format *)self;
    Lent lent;
    PyObject *made = NULL;
    if (!own->format)
        return PyErr_Format(PyExc_ValueError, "the object was never made");
    if (!lend(buffer, &lent, 1))
        return NULL;
    if (lent.length != own->size)
        PyErr_Format(struct_error, "unpack requires a buffer of %zu bytes", own->size);
    else
        made = unpacked(own, lent.bytes);
    give_back(&lent);
    return made;
}

static PyObject *format_unpack_from(PyObject *self, PyObject *arguments, PyObject *named)
{
    static char *names[] = {"buffer", "offset", NULL};
    Format *own = (Format *)self;
    PyObject *buffer, *offset = NULL, *made = NULL;
    int64_t at = 0;
    Lent lent;
    if (!own->format)
        return PyErr_Format(PyExc_ValueError, "the object was never made");
    if (!PyArg_ParseTupleAndKeywords(arguments, named, "O|O:unpack_from", names, &buffer, &offset))
        return NULL;
    if ((offset && !to_word(offset, &at, PyExc_OverflowError)) || !lend(buffer, &lent, 1))
        return NULL;
    if (at >= 0 && (size_t)at <= lent.length && lent.length - (size_t)at >= own->size)
        made = unpacked(own, lent.bytes + at);
    else {
        /* Python code tells the place of an offset from the end, or why there is none */
        PyObject *place = PyObject_CallMethod(self, "_place", "sLn", "unpack_from", (long long)at, (Py_ssize_t)lent.length);
        Py_ssize_t from = place ? PyLong_AsSsize_t(place) : -1;
        if (place && from >= 0 && (size_t)from <= lent.length && lent.length - (size_t)from >= own->size)
            made = unpacked(own, lent.bytes + from);
        else if (place && !PyErr_Occurred())
            PyErr_SetString(PyExc_RuntimeError, "the format changed meanwhile");
        Py_XDECREF(place);
    }
    give_back(&lent);
    return made;
}

static PyMethodDef format_methods[] = {
    {"pack", FUNCTION(format_pack), METH_FASTCALL, HELP("pack", ", /, *values", "The bytes of the values.")},
    {"unpack", format_unpack, METH_O, HELP("unpack", ", buffer, /", "The values of a buffer, which has the size of the format.")},
    {"unpack_from", FUNCTION(format_unpack_from), METH_VARARGS | METH_KEYWORDS,
     HELP("unpack_from", ", /, buffer, offset=0", "The values of a buffer from an offset on.")},
    {"_parse", format_parse, METH_VARARGS, HELP("_parse", ", carried, codes, /", "Reads a format.")},
    {"_measure", format_measure, METH_O, HELP("_measure", ", carried, /", "Refuses what is no format.")},
    {"_packed", format_packed, METH_O, HELP("_packed", ", values, /", "The bytes of the values of a tuple.")},
    {0}};
static PyMemberDef format_members[] = {{"size", T_PYSSIZET, offsetof(Format, size), READONLY, "How many bytes the format has."},
                                       {"_count", T_PYSSIZET, offsetof(Format, count), READONLY, "How many values the format has."},
                                       {0}};
static PyType_Slot format_slots[] = {{Py_tp_doc, "A format."},
                                     SLOT(Py_tp_new, format_made),
                                     SLOT(Py_tp_dealloc, format_dealloc),
                                     SLOT(Py_tp_methods, format_methods),
                                     SLOT(Py_tp_members, format_members),
                                     {0, 0}};
static PyType_Spec format_spec = {"pybuf._native.Format", sizeof(Format), 0, Py_TPFLAGS_DEFAULT | Py_TPFLAGS_BASETYPE, format_slots};

#endif
