/* Keys and short texts as str, and short byte strings. Those that were met last are kept, since messages
 * repeat them. */
#ifndef KUVTSADA_KEYS_H
#define KUVTSADA_KEYS_H

#include "internal.h"

/* As many are kept as place_of has places. */
enum { MOST_KEPT = 1024, LONGEST_KEY = 32, LONGEST_TEXT = 16 };

static PyObject *kept_keys[MOST_KEPT], *kept_texts[MOST_KEPT], *kept_bytes[MOST_KEPT];

static uint64_t eight(const char *bytes) {
    uint64_t word;
    memcpy(&word, bytes, sizeof word);
    return word;
}

static uint32_t four(const char *bytes) {
    uint32_t word;
    memcpy(&word, bytes, sizeof word);
    return word;
}

/* Where a string is kept that is not empty, by its first and its last bytes and its length. */
static inline size_t place_of(const char *bytes, size_t len) {
    uint32_t first = (unsigned char)bytes[0], last = (unsigned char)bytes[len - 1];
    if (len >= 4) {
        first = four(bytes);
        last = four(bytes + len - 4);
    }
    return ((first * 31 + last) * 31 + (uint32_t)len) * 2654435761u >> 22;
}

/* Whether two strings of this length are the same. Two words of eight bytes, or of four, that may
 * overlap are all of most. */
static inline int are_same(const char *a, const char *b, size_t len) {
    if (len > 16 || len < 4) return memcmp(a, b, len) == 0;
    if (len < 8) return four(a) == four(b) && four(a + len - 4) == four(b + len - 4);
    return eight(a) == eight(b) && eight(a + len - 8) == eight(b + len - 8);
}

static inline int is_str(PyObject *str, const char *bytes, Py_ssize_t len) {
    return str != NULL && PyUnicode_GET_LENGTH(str) == len &&
           are_same((const char *)PyUnicode_1BYTE_DATA(str), bytes, (size_t)len);
}

/* The str that is kept there, or another one, which then is kept where it is ASCII. */
static inline PyObject *str_at(PyObject **place, const char *bytes, Py_ssize_t len) {
    if (is_str(*place, bytes, len)) return Py_NewRef(*place);
    PyObject *made = PyUnicode_DecodeUTF8(bytes, len, "strict");
    if (made == NULL || !PyUnicode_IS_ASCII(made)) return made;
    PyObject *old = *place;
    *place = Py_NewRef(made);
    Py_XDECREF(old);
    return made;
}

static inline PyObject *key_of(const char *bytes, Py_ssize_t len) {
    if (len == 0 || len > LONGEST_KEY) return PyUnicode_DecodeUTF8(bytes, len, "strict");
    return str_at(&kept_keys[place_of(bytes, (size_t)len)], bytes, len);
}

static inline PyObject *text_of(const char *bytes, Py_ssize_t len) {
    if (len <= 1 || len > LONGEST_TEXT) return PyUnicode_DecodeUTF8(bytes, len, "strict");
    return str_at(&kept_texts[place_of(bytes, (size_t)len)], bytes, len);
}

static inline int is_bytes(PyObject *string, const char *bytes, Py_ssize_t len) {
    return string != NULL && PyBytes_GET_SIZE(string) == len &&
           are_same(PyBytes_AS_STRING(string), bytes, (size_t)len);
}

static inline PyObject *bytes_of(const char *bytes, Py_ssize_t len) {
    if (len <= 1 || len > LONGEST_TEXT) return PyBytes_FromStringAndSize(bytes, len);
    PyObject **place = &kept_bytes[place_of(bytes, (size_t)len)];
    if (is_bytes(*place, bytes, len)) return Py_NewRef(*place);
    PyObject *made = PyBytes_FromStringAndSize(bytes, len);
    if (made == NULL) return NULL;
    PyObject *old = *place;
    *place = Py_NewRef(made);
    Py_XDECREF(old);
    return made;
}

#endif
