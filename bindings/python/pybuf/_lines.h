/* Lines of the command `call`, and what they reply. A line is written into memory that grows; a reply is read into Python objects.
 * Nothing here knows what a method does. */
#ifndef PYBUF_LINES_H
#define PYBUF_LINES_H

/* ---- writing ---- */

/* In front of the words of a line is room for its head, which is written last. */
enum { HEAD = 96, FEW = 512 };

typedef struct {
    char few[FEW];
    char *text;
    size_t size, length;
} Line;

static void line_begin(Line *line)
{
    line->text = line->few;
    line->size = sizeof line->few;
    line->length = HEAD;
}

static void line_end(Line *line)
{
    if (line->text != line->few)
        PyMem_Free(line->text);
}

/* Where so many more bytes are written. */
static char *line_room(Line *line, size_t more)
{
    if (more > line->size - line->length) {
        if (more > (size_t)PY_SSIZE_T_MAX / 4) {
            PyErr_NoMemory();
            return NULL;
        }
        size_t size = 2 * (line->length + more);
        char *text = PyMem_Malloc(size);
        if (!text) {
            PyErr_NoMemory();
            return NULL;
        }
        memcpy(text, line->text, line->length);
        line_end(line);
        line->text = text;
        line->size = size;
    }
    char *at = line->text + line->length;
    line->length += more;
    return at;
}

static int line_words(Line *line, const char *words)
{
    char *at = line_room(line, strlen(words));
    if (at)
        memcpy(at, words, strlen(words));
    return at != NULL;
}

static int line_bytes(Line *line, const char *bytes, size_t length)
{
    static const char digits[] = "0123456789abcdef";
    char *at = length < (size_t)PY_SSIZE_T_MAX / 4 ? line_room(line, 2 * length + 1) : (char *)PyErr_NoMemory();
    if (!at)
        return 0;
    *at++ = 'x';
    for (size_t each = 0; each < length; each++) {
        unsigned char byte = (unsigned char)bytes[each];
        *at++ = digits[byte >> 4];
        *at++ = digits[byte & 15];
    }
    return 1;
}

static int line_number(Line *line, PyObject *value)
{
    int past;
    long long number = PyLong_AsLongLongAndOverflow(value, &past);
    if (!past && number == -1 && PyErr_Occurred())
        return 0;
    /* a number past a word is refused or moved to the nearest place, as this one is, which is 1 << 120 */
    if (past)
        return line_words(line, past < 0 ? "-1329227995784915872903807060280344576" : "1329227995784915872903807060280344576");
    char digits[24];
    snprintf(digits, sizeof digits, "%lld", number);
    return line_words(line, digits);
}

static int line_value(Line *line, PyObject *value);

static int line_parts(Line *line, PyObject *values)
{
    int is_tuple = PyTuple_Check(values);
    if (Py_EnterRecursiveCall(" while arguments are read"))
        return 0;
    int did = line_words(line, is_tuple ? "(" : "[");
    Py_ssize_t at = 0;
    /* a part may run code that changes the list */
    for (; did && at < PySequence_Size(values); at++) {
        PyObject *part = PySequence_GetItem(values, at);
        did = part && (!at || line_words(line, ",")) && line_value(line, part);
        Py_XDECREF(part);
    }
    Py_LeaveRecursiveCall();
    return did && line_words(line, !is_tuple ? "]" : at == 1 ? ",)" : ")");
}

/* Writes a value as lines spell it. */
static int line_value(Line *line, PyObject *value)
{
    if (PyBytes_CheckExact(value))
        return line_bytes(line, PyBytes_AsString(value), (size_t)PyBytes_Size(value));
    if (value == Py_None)
        return line_words(line, "None");
    if (PyBool_Check(value))
        return line_words(line, value == Py_True ? "True" : "False");
    if (PyLong_CheckExact(value))
        return line_number(line, value);
    if (PyTuple_Check(value) || PyList_Check(value))
        return line_parts(line, value);
    if (!has_bytes(value) && PyIndex_Check(value)) {
        PyObject *number = PyNumber_Index(value);
        int did = number && line_number(line, number);
        Py_XDECREF(number);
        return did;
    }
    Lent lent;
    if (!lend(value, &lent, 0))
        return 0;
    int did = line_bytes(line, lent.bytes, lent.length);
    give_back(&lent);
    return did;
}

/* Writes the head of a line, with the number of the object and the name of the method. It answers where the line begins. */
static const char *line_head(Line *line, pybuf_object object, const char *name)
{
    char head[HEAD];
    int length = snprintf(head, sizeof head, "call h%llu %s", (unsigned long long)object, name);
    memcpy(line->text + HEAD - length, head, (size_t)length);
    return line->text + HEAD - length;
}

/* ---- reading ---- */

typedef struct {
    const char *at, *end;
    int is_deep; /* whether a list is being read */
} Reply;

static PyObject *reply_value(Reply *reply);

static PyObject *reply_fault(void)
{
    PyErr_SetString(PyExc_SystemError, "a reply of another form");
    return NULL;
}

static int digit_of(char digit)
{
    return digit >= '0' && digit <= '9' ? digit - '0' : digit >= 'a' && digit <= 'f' ? digit - 'a' + 10 : -1;
}

/* Reads what stands between quotes: an array of it if it is bytes, and a text else. */
static PyObject *reply_quoted(Reply *reply, int is_text)
{
    char quote = *reply->at++;
    const char *at = reply->at;
    char few[256];
    size_t most = (size_t)(reply->end - at), length = 0;
    char *bytes = most <= sizeof few ? few : PyMem_Malloc(most);
    if (!bytes)
        return PyErr_NoMemory();
    while (at < reply->end && *at != quote) {
        char byte = *at++;
        if (byte == '\\' && at < reply->end) {
            byte = *at++;
            if (byte == 'x' && reply->end - at >= 2) {
                byte = (char)(digit_of(at[0]) * 16 + digit_of(at[1]));
                at += 2;
            } else
                byte = byte == 'n' ? '\n' : byte == 't' ? '\t' : byte == 'r' ? '\r' : byte;
        }
        bytes[length++] = byte;
    }
    PyObject *made = at == reply->end ? reply_fault() : is_text ? PyUnicode_FromStringAndSize(bytes, (Py_ssize_t)length) : array_of(bytes, length);
    reply->at = at + 1;
    if (bytes != few)
        PyMem_Free(bytes);
    return made;
}

static PyObject *reply_list(Reply *reply)
{
    char closes = *reply->at++ == '[' ? ']' : ')';
    PyObject *list = reply->is_deep ? reply_fault() : PyList_New(0);
    reply->is_deep = 1;
    while (list && reply->at < reply->end && *reply->at != closes) {
        PyObject *part = reply_value(reply);
        if (!part || PyList_Append(list, part) < 0)
            Py_CLEAR(list);
        Py_XDECREF(part);
        while (reply->at < reply->end && (*reply->at == ',' || *reply->at == ' '))
            reply->at++;
    }
    reply->at++;
    reply->is_deep = 0;
    return list;
}

static int reply_is(Reply *reply, const char *word)
{
    size_t length = strlen(word);
    if ((size_t)(reply->end - reply->at) < length || memcmp(reply->at, word, length) != 0)
        return 0;
    reply->at += length;
    return 1;
}

static PyObject *reply_value(Reply *reply)
{
    if (reply->at >= reply->end)
        return reply_fault();
    if (reply_is(reply, "True"))
        Py_RETURN_TRUE;
    if (reply_is(reply, "False"))
        Py_RETURN_FALSE;
    if (reply_is(reply, "None"))
        Py_RETURN_NONE;
    if (*reply->at == '[' || *reply->at == '(')
        return reply_list(reply);
    if (*reply->at == '\'' || *reply->at == '"')
        return reply_quoted(reply, 1);
    if (*reply->at == 'b' && reply->end - reply->at > 1) {
        reply->at++;
        return reply_quoted(reply, 0);
    }
    int negative = reply_is(reply, "-");
    unsigned long long number = 0;
    const char *begin = reply->at;
    for (; reply->at < reply->end && *reply->at >= '0' && *reply->at <= '9'; reply->at++)
        number = 10 * number + (unsigned long long)(*reply->at - '0');
    if (reply->at == begin)
        return reply_fault();
    return from_number((pybuf_number){number, negative});
}

#endif
