/* The buffers that Python's C code takes of arrays and views. A view of the object is made and its bytes are lent until the buffer is given back:
 * so they are shared, not copied, and the array keeps its length meanwhile. The library lends items that lie together alone. */
#ifndef PYBUF_LENDING_H
#define PYBUF_LENDING_H

/* A buffer that is out. */
typedef struct {
    Shared *shared;
    pybuf_object view;
    char format[256];
    Py_ssize_t numbers[]; /* the shape, and then the strides */
} Loan;

static PyObject *view_bytes_shown(View *own);

/* Ends a loan. Its world is held until then, and isn't moved. */
static void loan_ends(Loan *loan)
{
    lib.release(loan->shared->world, loan->view);
    loan->shared->unmoved--;
    buffers_out--;
    shared_drop(loan->shared);
    PyMem_Free(loan);
}

/* Makes a view of an object of a world, and lends its bytes. */
static Loan *loan_made(Shared *shared, pybuf_object object, bool fixed, size_t dimensions, void **at, size_t *length)
{
    Loan *loan = PyMem_Calloc(1, sizeof *loan + 2 * dimensions * sizeof *loan->numbers);
    if (!loan) {
        PyErr_NoMemory();
        return NULL;
    }
    pybuf_status status = lib.view(shared->world, object, &loan->view);
    if (status) {
        PyMem_Free(loan);
        refuse(of_none, "view", status);
        return NULL;
    }
    if (loan->view > shared->last)
        shared->last = loan->view;
    loan->shared = shared;
    shared->count++;
    shared->unmoved++;
    buffers_out++;
    const uint8_t *read = NULL;
    uint8_t *written = NULL;
    status = fixed ? lib.lend(shared->world, loan->view, &read, length) : lib.lend_to_write(shared->world, loan->view, &written, length);
    if (status) {
        loan_ends(loan);
        refuse(of_none, "lend", status);
        if (status == PYBUF_NOTHING)
            PyErr_SetString(PyExc_BufferError, "the items don't lie together, so they aren't lent");
        return NULL;
    }
    /* Python's buffers have one kind of pointer, whether they are written or not */
    if (fixed)
        memcpy(at, &read, sizeof read);
    else
        *at = written;
    return loan;
}

static int array_buffer(PyObject *self, Py_buffer *buffer, int flags)
{
    Array *own = (Array *)self;
    void *at;
    size_t length;
    buffer->obj = NULL;
    if (!world_of_array(own))
        return -1;
    renew(own->shared);
    Loan *loan = loan_made(own->shared, own->shared->root, false, 0, &at, &length);
    if (!loan)
        return -1;
    if (PyBuffer_FillInfo(buffer, self, at, (Py_ssize_t)length, 0, flags) < 0) {
        loan_ends(loan);
        return -1;
    }
    buffer->internal = loan;
    return 0;
}

static int no_buffer(const char *why)
{
    PyErr_SetString(PyExc_BufferError, why);
    return -1;
}

static int view_numbers(View *own, pybuf_property property, Py_ssize_t *numbers)
{
    pybuf_number room[64];
    size_t count;
    pybuf_status status = lib.property_numbers(own->shared->world, own->object, property, room, 64, &count);
    for (size_t each = 0; !status && each < count; each++)
        numbers[each] = room[each].negative ? -(Py_ssize_t)room[each].magnitude : (Py_ssize_t)room[each].magnitude;
    if (status)
        refuse(of_views, "property", status);
    return !status;
}

static int view_buffer(PyObject *self, Py_buffer *buffer, int flags)
{
    View *own = (View *)self;
    uint64_t fixed, dimensions, width, by_rows, by_columns;
    void *at;
    size_t length;
    buffer->obj = NULL;
    if (!view_number(own, PYBUF_READONLY, &fixed) || !view_number(own, PYBUF_NDIM, &dimensions) || !view_number(own, PYBUF_ITEMSIZE, &width) ||
        !view_number(own, PYBUF_C_CONTIGUOUS, &by_rows) || !view_number(own, PYBUF_F_CONTIGUOUS, &by_columns))
        return -1;
    if ((flags & PyBUF_WRITABLE) && fixed)
        return no_buffer("memoryview: underlying buffer is not writable");
    if ((flags & PyBUF_C_CONTIGUOUS) == PyBUF_C_CONTIGUOUS && !by_rows)
        return no_buffer("memoryview: underlying buffer is not C-contiguous");
    if ((flags & PyBUF_F_CONTIGUOUS) == PyBUF_F_CONTIGUOUS && !by_columns)
        return no_buffer("memoryview: underlying buffer is not Fortran contiguous");
    if ((flags & PyBUF_STRIDES) != PyBUF_STRIDES && !by_rows)
        return no_buffer("memoryview: underlying buffer is not C-contiguous");
    if (!(flags & PyBUF_ND) && (flags & PyBUF_FORMAT))
        return no_buffer("memoryview: cannot cast to unsigned bytes if the format flag is present");
    PyObject *text = view_bytes_shown(own);
    if (!text)
        return -1;
    Loan *loan = loan_made(own->shared, own->object, fixed != 0, (size_t)dimensions, &at, &length);
    if (loan && (!view_numbers(own, PYBUF_SHAPE, loan->numbers) || !view_numbers(own, PYBUF_STRIDES, loan->numbers + dimensions))) {
        loan_ends(loan);
        loan = NULL;
    }
    if (loan)
        snprintf(loan->format, sizeof loan->format, "%s", PyBytes_AsString(text));
    Py_DECREF(text);
    if (!loan)
        return -1;
    Py_INCREF(self);
    *buffer = (Py_buffer){.buf = at, .obj = self, .len = (Py_ssize_t)length, .itemsize = (Py_ssize_t)width, .readonly = fixed != 0,
                          .ndim = (int)dimensions, .internal = loan};
    if (flags & PyBUF_FORMAT)
        buffer->format = loan->format;
    if (flags & PyBUF_ND)
        buffer->shape = loan->numbers;
    else
        buffer->ndim = 1;
    if ((flags & PyBUF_STRIDES) == PyBUF_STRIDES)
        buffer->strides = loan->numbers + dimensions;
    return 0;
}

static void buffer_back(PyObject *self, Py_buffer *buffer)
{
    (void)self;
    loan_ends(buffer->internal);
}

#endif
