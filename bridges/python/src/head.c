/* Heads. Those of version 1 are the extension's alone: the library reads version 2. */
#include "internal.h"

/* The longest head of version 2, and what it has more than one of version 1: the capabilities. */
enum { LONGEST = 15, CAPABILITIES = 4 };

static int is_version1(const uint8_t *bytes, size_t len) {
    return len >= 2 && bytes[0] == 0 && bytes[1] == 1;
}

/* Writes a head of version 2 and then what follows that of version 1. */
static void as_version2(uint8_t *copy, const uint8_t *bytes, size_t len) {
    memcpy(copy, "\0\2\0\0\0\0", 6);
    memcpy(copy + 6, bytes + 2, len - 2);
}

/* The caller's bytes as they are. A str is its UTF-8, as pywatchman takes it. */
int open_bytes(message *m, PyObject *bytes) {
    static const uint8_t none[1];
    Py_ssize_t len;
    m->buffer.obj = NULL;
    m->copy = NULL;
    m->shift = 0;
    if (PyBytes_Check(bytes)) {
        m->bytes = (const uint8_t *)PyBytes_AS_STRING(bytes);
        len = PyBytes_GET_SIZE(bytes);
    } else if (PyUnicode_Check(bytes)) {
        m->bytes = (const uint8_t *)PyUnicode_AsUTF8AndSize(bytes, &len);
        if (m->bytes == NULL) return -1;
    } else {
        if (PyObject_GetBuffer(bytes, &m->buffer, PyBUF_SIMPLE) < 0) return -1;
        len = m->buffer.len;
        m->bytes = len == 0 ? none : m->buffer.buf;
    }
    m->len = (size_t)len;
    return 0;
}

/* Puts a copy with a head of version 2 into the place of a message of version 1. */
static int raise_version(message *m) {
    size_t len = m->len + CAPABILITIES;
    uint8_t *copy = m->small;
    if (len > SHORT) copy = m->copy = PyMem_Malloc(len);
    if (copy == NULL) {
        PyErr_NoMemory();
        return -1;
    }
    as_version2(copy, m->bytes, m->len);
    m->bytes = copy;
    m->len = len;
    m->shift = CAPABILITIES;
    return 0;
}

int open_message(message *m, PyObject *bytes) {
    if (open_bytes(m, bytes) < 0) return -1;
    if (!is_version1(m->bytes, m->len) || raise_version(m) == 0) return 0;
    close_message(m);
    return -1;
}

void release_message(message *m) {
    PyMem_Free(m->copy);
    if (m->buffer.obj != NULL) PyBuffer_Release(&m->buffer);
}

typedef struct {
    int version;
    uint32_t capabilities;
    size_t len;
} info;

/* What the first bytes of a message tell. All but its head is left out. */
static int read_info(info *found, message *m) {
    size_t given = m->len;
    int is_first = is_version1(m->bytes, given);
    found->version = is_first ? 1 : 2;
    found->capabilities = 0;
    if (is_first) {
        if (m->len > LONGEST - CAPABILITIES) m->len = LONGEST - CAPABILITIES;
        if (raise_version(m) < 0) return -1;
    } else if (given >= 6) {
        for (int i = 3; i >= 0; i--) found->capabilities = found->capabilities << 8 | m->bytes[2 + i];
    }
    bser_outcome outcome = bser_message_length(m->bytes, m->len);
    if (outcome.code == BSER_NOT_WHOLE) {
        raise_error(decode_error, "the head is not whole", outcome.code, given, 0);
        return -1;
    }
    if (outcome.code != BSER_OK) {
        raise_head(m, outcome);
        return -1;
    }
    found->len = outcome.length - m->shift;
    return 0;
}

static int info_of(info *found, PyObject *bytes) {
    message m;
    if (open_bytes(&m, bytes) < 0) return -1;
    int read = read_info(found, &m);
    close_message(&m);
    return read;
}

PyObject *pdu_info(PyObject *module, PyObject *bytes) {
    info found;
    (void)module;
    if (info_of(&found, bytes) < 0) return NULL;
    return Py_BuildValue("iIn", found.version, (unsigned)found.capabilities, (Py_ssize_t)found.len);
}

PyObject *pdu_len(PyObject *module, PyObject *bytes) {
    info found;
    (void)module;
    if (info_of(&found, bytes) < 0) return NULL;
    return PyLong_FromSize_t(found.len);
}
