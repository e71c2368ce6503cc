/* The exceptions, with a text for people, a code of bser.h, a place and a byte. */
#include "internal.h"

PyObject *bser_error, *decode_error, *encode_error;

static PyObject *add_error(PyObject *module, const char *name, const char *doc, PyObject *base) {
    PyObject *error = PyErr_NewExceptionWithDoc(name, doc, base, NULL);
    if (error == NULL) return NULL;
    Py_INCREF(error);
    if (PyModule_AddObject(module, strrchr(name, '.') + 1, error) < 0) {
        Py_DECREF(error);
        Py_CLEAR(error);
    }
    return error;
}

int add_errors(PyObject *module) {
    bser_error = add_error(module, "kuvtsada_bser.BserError",
                           "An error of BSER, with its code, place and byte.", PyExc_ValueError);
    decode_error = add_error(module, "kuvtsada_bser.BserDecodeError",
                             "Bytes that are no message. The place counts bytes.", bser_error);
    encode_error = add_error(module, "kuvtsada_bser.BserEncodeError",
                             "A value that has no message.", bser_error);
    return bser_error != NULL && decode_error != NULL && encode_error != NULL ? 0 : -1;
}

static int set_number(PyObject *error, const char *name, size_t number) {
    PyObject *value = PyLong_FromSize_t(number);
    int set = value == NULL ? -1 : PyObject_SetAttrString(error, name, value);
    Py_XDECREF(value);
    return set;
}

PyObject *raise_error(PyObject *type, const char *text, uint32_t code, size_t place, uint32_t byte) {
    PyObject *error = PyObject_CallFunction(type, "s", text);
    if (error == NULL) return NULL;
    if (set_number(error, "code", code) == 0 && set_number(error, "place", place) == 0 &&
        set_number(error, "byte", byte) == 0)
        PyErr_SetObject(type, error);
    Py_DECREF(error);
    return NULL;
}

/* A place in the caller's bytes. */
static size_t place_in(const message *m, size_t place) {
    if (m->shift == 0) return place;
    return place <= 6 ? (place < 2 ? place : 2) : place - m->shift;
}

/* The line of bser_describe, with the place as it is in the caller's bytes. */
static PyObject *described(const message *m, size_t place) {
    char line[2048], text[sizeof line + 32];
    bser_outcome why = bser_describe(m->bytes, m->len, (uint8_t *)line, sizeof line - 1);
    if (why.code != BSER_OK || why.length == 0) return NULL;
    line[why.length] = 0;
    char *at = strstr(line, ", at byte ");
    if (at == NULL) return PyUnicode_FromString(line);
    const char *part = strstr(at + 1, ", ");
    PyOS_snprintf(text, sizeof text, "%.*s, at byte %zu%s", (int)(at - line), line, place_in(m, place),
                  part == NULL ? "" : part);
    return PyUnicode_FromString(text);
}

PyObject *raise_head(const message *m, bser_outcome outcome) {
    char text[64];
    size_t place = place_in(m, outcome.place);
    if (outcome.code != BSER_COUNT_TOO_GREAT) return raise_outcome(m, outcome);
    PyOS_snprintf(text, sizeof text, "count too great, at byte %zu", place);
    return raise_error(decode_error, text, outcome.code, place, outcome.detail);
}

PyObject *raise_outcome(const message *m, bser_outcome outcome) {
    if (outcome.code == BSER_NO_MEMORY) return PyErr_NoMemory();
    size_t place = place_in(m, outcome.place);
    PyObject *text = described(m, outcome.place);
    if (text == NULL && !PyErr_Occurred())
        text = PyUnicode_FromFormat("error %u, at byte %zu", (unsigned)outcome.code, place);
    const char *utf8 = text == NULL ? NULL : PyUnicode_AsUTF8(text);
    if (utf8 != NULL) raise_error(decode_error, utf8, outcome.code, place, outcome.detail);
    Py_XDECREF(text);
    return NULL;
}
