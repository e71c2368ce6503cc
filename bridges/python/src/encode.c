/* The message of a value, made by its tape. */
#include "internal.h"

/* A message of few bytes is written into memory that is there, and copied. */
enum { MOST_LEVELS = 128, LONGEST_HEAD = 15, MOST_COPIED = 1024 };

/* A str that was put as a key, which the tape owns, and where its bytes stand. */
typedef struct {
    PyObject *key;
    size_t at, len;
} seen_key;

enum { MOST_SEEN = 32 };

typedef struct {
    uint64_t *words;
    size_t count, words_room;
    uint8_t *strings;
    size_t len, strings_room;
    size_t most; /* how many bytes the message has at most, beside its head */
    seen_key seen[MOST_SEEN];
    seen_key *filled[MOST_SEEN]; /* those of them that have a key */
    size_t filled_count;
} tape;

static int put(tape *t, PyObject *x, int levels);

static int grow_words(tape *t) {
    size_t room = t->words_room == 0 ? 256 : 2 * t->words_room;
    uint64_t *words = PyMem_Realloc(t->words, room * sizeof *words);
    if (words == NULL) {
        PyErr_NoMemory();
        return -1;
    }
    t->words = words;
    t->words_room = room;
    return 0;
}

/* Adds a part, which has at most so many bytes beside those of its string. */
static inline int add_part(tape *t, unsigned tag, size_t count, uint64_t second, size_t most) {
    if (t->count + 2 > t->words_room && grow_words(t) < 0) return -1;
    t->words[t->count] = bser_word(tag, count);
    t->words[t->count + 1] = second;
    t->count += 2;
    t->most += most;
    return 0;
}

/* Adds a part that is no string: a tag, and at most an integer of eight bytes. */
static int add(tape *t, unsigned tag, size_t count, uint64_t second) {
    return add_part(t, tag, count, second, 10);
}

static int add_close(tape *t) { return add_part(t, BSER_CLOSE, 0, 0, 0); }

static int grow_strings(tape *t, size_t len) {
    size_t room = 2 * (t->len + len) + 256;
    uint8_t *strings = PyMem_Realloc(t->strings, room);
    if (strings == NULL) {
        PyErr_NoMemory();
        return -1;
    }
    t->strings = strings;
    t->strings_room = room;
    return 0;
}

/* Adds a string whose bytes stand among the strings. */
static int add_place(tape *t, unsigned tag, size_t at, size_t len) {
    return add_part(t, tag, len, at, len + (len < 0x80 ? 3 : 10));
}

/* Adds a string. There is memory for an empty one too, since memcpy takes no null pointer. */
static int add_string(tape *t, unsigned tag, const char *bytes, size_t len) {
    if (len >= t->strings_room - t->len && grow_strings(t, len) < 0) return -1;
    memcpy(t->strings + t->len, bytes, len);
    t->len += len;
    return add_place(t, tag, t->len - len, len);
}

/* A surrogate that is no escaped byte. */
static int not_encoded(void) {
    if (PyErr_ExceptionMatches(PyExc_UnicodeEncodeError)) {
        PyErr_Clear();
        raise_error(encode_error, "a str with a lone surrogate", BSER_OK, 0, 0);
    }
    return -1;
}

/* A str in UTF-8, with the bytes that it has escaped. Code that the collector runs meanwhile may drop it. No
 * exception is made but for an error, since the collector may run where one is allocated. */
static int put_encoded(tape *t, unsigned tag, PyObject *x) {
    Py_INCREF(x);
    PyObject *bytes = PyUnicode_AsEncodedString(x, "utf-8", "surrogateescape");
    Py_DECREF(x);
    if (bytes == NULL) return not_encoded();
    int added = add_string(t, tag, PyBytes_AS_STRING(bytes), (size_t)PyBytes_GET_SIZE(bytes));
    Py_DECREF(bytes);
    return added;
}

static int put_bytes(tape *t, unsigned tag, PyObject *x) {
    return add_string(t, tag, PyBytes_AS_STRING(x), (size_t)PyBytes_GET_SIZE(x));
}

static int put_str(tape *t, unsigned tag, PyObject *x) {
    if (!PyUnicode_IS_ASCII(x)) return put_encoded(t, tag, x);
    return add_string(t, tag, (const char *)PyUnicode_1BYTE_DATA(x), (size_t)PyUnicode_GET_LENGTH(x));
}

static int put_key(tape *t, PyObject *x) {
    if (PyUnicode_Check(x)) return put_str(t, BSER_BYTES_KEY, x);
    if (PyBytes_Check(x)) return put_bytes(t, BSER_BYTES_KEY, x);
    PyErr_Format(PyExc_TypeError, "a key has to be str or bytes, not %.100s", Py_TYPE(x)->tp_name);
    return -1;
}

/* Puts a key in the place of the one that was seen there, and owns it from then on. */
static int put_new_key(tape *t, seen_key *seen, PyObject *x) {
    PyObject *was = seen->key;
    if (was == NULL) t->filled[t->filled_count++] = seen;
    Py_INCREF(x);
    *seen = (seen_key){x, t->len, 0};
    int added = put_key(t, x);
    seen->len = t->len - seen->at;
    Py_XDECREF(was);
    return added;
}

/* Objects share their keys, whose bytes are copied once then. Code that runs where one is new may drop the
 * value behind it. */
static int put_entry(tape *t, PyObject *key, PyObject *x, int levels) {
    seen_key *seen = &t->seen[(uintptr_t)key / 16 % MOST_SEEN];
    if (seen->key == key) {
        if (add_place(t, BSER_BYTES_KEY, seen->at, seen->len) < 0) return -1;
        return put(t, x, levels);
    }
    Py_INCREF(x);
    int added = put_new_key(t, seen, key) < 0 ? -1 : put(t, x, levels);
    Py_DECREF(x);
    return added;
}

static int put_int(tape *t, PyObject *x) {
    int overflow;
    long long number = PyLong_AsLongLongAndOverflow(x, &overflow);
    if (overflow != 0) {
        raise_error(encode_error, "integer out of range", BSER_OK, 0, 0);
        return -1;
    }
    if (number == -1 && PyErr_Occurred()) return -1;
    return add(t, BSER_INT, 0, (uint64_t)number);
}

static int put_real(tape *t, PyObject *x) {
    double real = PyFloat_AS_DOUBLE(x);
    uint64_t bits;
    memcpy(&bits, &real, sizeof bits);
    return add(t, BSER_REAL, 0, bits);
}

/* Python code that ran meanwhile changed what is written. */
static int changed(void) {
    PyErr_SetString(PyExc_RuntimeError, "a list or dict changed while it was written");
    return -1;
}

static int put_items(tape *t, PyObject *x, int levels) {
    Py_ssize_t count = PySequence_Fast_GET_SIZE(x);
    if (add(t, BSER_ARRAY, (size_t)count, 0) < 0) return -1;
    for (Py_ssize_t i = 0; i < count; i++) {
        if (Py_SIZE(x) != count) return changed();
        if (put(t, PySequence_Fast_GET_ITEM(x, i), levels) < 0) return -1;
    }
    return add_close(t);
}

static int put_entries(tape *t, PyObject *x, int levels) {
    Py_ssize_t place = 0, count = PyDict_GET_SIZE(x), left = count;
    PyObject *key, *one;
    if (add(t, BSER_OBJECT, (size_t)count, 0) < 0) return -1;
    for (; left != 0; left--) {
        if (PyDict_GET_SIZE(x) != count || !PyDict_Next(x, &place, &key, &one)) return changed();
        if (put_entry(t, key, one, levels) < 0) return -1;
    }
    return add_close(t);
}

/* Puts pairs of keys and values, which code may change meanwhile too. */
static int put_pairs(tape *t, PyObject *pairs, int levels) {
    Py_ssize_t count = PyList_GET_SIZE(pairs);
    if (add(t, BSER_OBJECT, (size_t)count, 0) < 0) return -1;
    for (Py_ssize_t i = 0; i < count; i++) {
        if (PyList_GET_SIZE(pairs) != count) return changed();
        PyObject *pair = PyList_GET_ITEM(pairs, i);
        if (!PyTuple_Check(pair) || PyTuple_GET_SIZE(pair) != 2) {
            PyErr_SetString(PyExc_TypeError, "the items of a mapping have to be pairs");
            return -1;
        }
        Py_INCREF(pair);
        int added = put_entry(t, PyTuple_GET_ITEM(pair, 0), PyTuple_GET_ITEM(pair, 1), levels);
        Py_DECREF(pair);
        if (added < 0) return -1;
    }
    return add_close(t);
}

static int too_deep(void) {
    raise_error(encode_error, "more than 128 levels", BSER_TOO_DEEP, 0, 0);
    return -1;
}

/* The list of a sequence's items, or of a mapping's pairs; else NULL and an exception. */
static PyObject *parts_of(PyObject *x, int *is_mapping) {
    *is_mapping = 1;
    if (Py_IS_TYPE(x, &object_type)) return object_pairs(x);
    if (PyType_HasFeature(Py_TYPE(x), Py_TPFLAGS_MAPPING)) return PyMapping_Items(x);
    *is_mapping = 0;
    if (PyType_HasFeature(Py_TYPE(x), Py_TPFLAGS_SEQUENCE)) return PySequence_List(x);
    return raise_error(encode_error, "Unsupported value type", BSER_OK, 0, 0);
}

/* Puts what is no list, tuple or dict by the parts that it has at the start. The caller owns it. */
static int put_other(tape *t, PyObject *x, int levels) {
    int is_mapping, added;
    int is_buffer = PyByteArray_Check(x) || PyMemoryView_Check(x);
    PyObject *parts = is_buffer ? PyBytes_FromObject(x) : parts_of(x, &is_mapping);
    if (parts == NULL) return -1;
    if (is_buffer)
        added = put_bytes(t, BSER_BYTES, parts);
    else if (levels == 0)
        added = too_deep();
    else
        added = is_mapping ? put_pairs(t, parts, levels - 1) : put_items(t, parts, levels - 1);
    Py_DECREF(parts);
    return added;
}

static int put_owned(tape *t, PyObject *x, int levels) {
    Py_INCREF(x);
    int added = put_other(t, x, levels);
    Py_DECREF(x);
    return added;
}

/* Puts a value. It is owned where code may run before its last byte is taken. */
static int put(tape *t, PyObject *x, int levels) {
    if (x == Py_None) return add(t, BSER_NULL, 0, 0);
    if (PyBool_Check(x)) return add(t, x == Py_True ? BSER_TRUE : BSER_FALSE, 0, 0);
    if (PyBytes_Check(x)) return put_bytes(t, BSER_BYTES, x);
    if (PyUnicode_Check(x)) return put_str(t, BSER_BYTES, x);
    if (PyLong_Check(x)) return put_int(t, x);
    int is_list = PyList_Check(x) || PyTuple_Check(x);
    if (!is_list && !PyDict_Check(x)) {
        if (PyFloat_Check(x)) return put_real(t, x);
        return put_owned(t, x, levels);
    }
    if (levels == 0) return too_deep();
    Py_INCREF(x);
    int added = is_list ? put_items(t, x, levels - 1) : put_entries(t, x, levels - 1);
    Py_DECREF(x);
    return added;
}

/* Why the library wrote no message: a key that is no UTF-8 is all that a tape of `put` can have. */
static PyObject *not_written(bser_outcome outcome) {
    if (outcome.code == BSER_NO_MEMORY) return PyErr_NoMemory();
    return raise_error(encode_error, "a key that is not UTF-8", outcome.code, outcome.place, 0);
}

/* Writes a head as pywatchman does, of a fixed width, and answers how many bytes it has. It is the
 * extension's own. */
static size_t write_head(uint8_t *out, size_t body, int version, uint32_t capabilities) {
    size_t size = body < 0x80000000u ? 4 : 8, start = version == 1 ? 2 : 6;
    out[0] = 0;
    out[1] = (uint8_t)version;
    for (size_t i = 2; i < start; i++) out[i] = (uint8_t)(capabilities >> (8 * (i - 2)));
    out[start] = size == 4 ? 5 : 6;
    for (size_t i = 0; i < size; i++) out[start + 1 + i] = (uint8_t)((uint64_t)body >> (8 * i));
    return start + 1 + size;
}

/* Where the body of the library's message begins: its head has 6 bytes and the length of the body. */
static size_t body_of(const uint8_t *message) { return 7 + ((size_t)1 << (message[6] - 3)); }

/* Puts a head of pywatchman's in the place of that of the library's message, and answers how many bytes
 * the message then has. */
static size_t change_head(uint8_t *message, size_t len, int version, uint32_t capabilities) {
    uint8_t head[LONGEST_HEAD];
    size_t start = body_of(message), body = len - start;
    size_t front = write_head(head, body, version, capabilities);
    memmove(message + front, message + start, body);
    memcpy(message, head, front);
    return front + body;
}

/* The same for a short message, which is copied. */
static PyObject *short_message(uint8_t *message, size_t len, int version, uint32_t capabilities) {
    size_t front = change_head(message, len, version, capabilities);
    return PyBytes_FromStringAndSize((char *)message, (Py_ssize_t)front);
}

static PyObject *message_of(const tape *t, int version, uint32_t capabilities) {
    static const uint8_t none[1];
    static uint8_t few[MOST_COPIED];
    size_t room = t->most + LONGEST_HEAD;
    PyObject *made = NULL;
    uint8_t *out = few;
    if (room > MOST_COPIED) {
        made = PyBytes_FromStringAndSize(NULL, (Py_ssize_t)room);
        if (made == NULL) return NULL;
        out = memset(PyBytes_AS_STRING(made), 0, room);
    }
    const uint8_t *strings = t->strings == NULL ? none : t->strings;
    bser_outcome done = bser_of_tape(t->words, t->count, strings, t->len, out, room);
    if (done.code != BSER_OK) {
        Py_XDECREF(made);
        return not_written(done);
    }
    if (made == NULL) return short_message(out, done.length, version, capabilities);
    _PyBytes_Resize(&made, (Py_ssize_t)change_head(out, done.length, version, capabilities));
    return made;
}

/* Memory that the last call left, so that not each call makes some. A call takes it away. */
static uint64_t *kept_words;
static uint8_t *kept_strings;
static size_t kept_words_room, kept_strings_room;

enum { MOST_KEPT = 1 << 23 };

static void begin(tape *t) {
    t->words = kept_words;
    t->words_room = kept_words == NULL ? 0 : kept_words_room;
    t->strings = kept_strings;
    t->strings_room = kept_strings == NULL ? 0 : kept_strings_room;
    t->count = t->len = t->most = t->filled_count = 0;
    memset(t->seen, 0, sizeof t->seen);
    kept_words = NULL;
    kept_strings = NULL;
}

static void end(const tape *t) {
    for (size_t i = 0; i < t->filled_count; i++) Py_DECREF(t->filled[i]->key);
    if (kept_words != NULL || 8 * t->words_room + t->strings_room > MOST_KEPT) {
        PyMem_Free(t->words);
        PyMem_Free(t->strings);
        return;
    }
    PyMem_Free(kept_strings);
    kept_words = t->words;
    kept_words_room = t->words_room;
    kept_strings = t->strings;
    kept_strings_room = t->strings_room;
}

/* The number of an argument, or the one that it has where it is left out. */
static int take_number(long long *number, PyObject *given) {
    if (given == NULL) return 0;
    *number = PyLong_AsLongLong(given);
    return *number == -1 && PyErr_Occurred() ? -1 : 0;
}

PyObject *dumps(PyObject *module, PyObject *const *args, Py_ssize_t count, PyObject *names) {
    static const char *const parameters[] = {"val", "version", "capabilities", NULL};
    PyObject *taken[3] = {NULL, NULL, NULL}, *made = NULL;
    long long version = 1, capabilities = 0;
    (void)module;
    if (take_arguments("dumps", parameters, taken, args, count, names) < 0) return NULL;
    if (take_number(&version, taken[1]) < 0 || take_number(&capabilities, taken[2]) < 0) return NULL;
    if (version != 1 && version != 2)
        return raise_error(encode_error, "the version has to be 1 or 2", BSER_OK, 0, 0);
    if (capabilities < INT32_MIN || capabilities > UINT32_MAX)
        return raise_error(encode_error, "the capabilities have to fit into 32 bits", BSER_OK, 0, 0);
    tape t;
    begin(&t);
    if (put(&t, taken[0], MOST_LEVELS) == 0) made = message_of(&t, (int)version, (uint32_t)capabilities);
    end(&t);
    return made;
}
