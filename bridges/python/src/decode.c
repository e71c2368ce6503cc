/* The value of a message, made of its tape. */
#include "internal.h"
#include "keys.h"

typedef PyObject *decoder(const char *bytes, Py_ssize_t len, const char *errors);

typedef struct {
    const uint8_t *bytes;
    uint64_t *words;
    size_t at;
    size_t give_at; /* the word at which memory is given back next */
    size_t lists;   /* how many lists of rows were made */
    int mutable;
    const char *encoding, *errors;
    decoder *decode; /* NULL where a codec of the registry decodes */
} walk;

/* The last integer of a column, and the object that it was made. */
typedef struct {
    uint64_t number;
    PyObject *made;
} last_int;

/* A template: its keys; where rows may change and a dict of so many keys would have to grow, a dict with
 * these to be copied for each row; and for many rows the last integer of each column. */
typedef struct {
    PyObject *keys;
    PyObject *row;
    last_int *last;
} shape;

enum { KEYS_WITHOUT_GROWTH = 5, FEW_ROWS = 3, FEW_ITEMS = 16 };

static PyObject *other_value(walk *w);

static const char *string_at(const walk *w, size_t at) { return (const char *)w->bytes + w->words[at + 1]; }

static Py_ssize_t count_at(const walk *w, size_t at) { return (Py_ssize_t)bser_count_of(w->words[at]); }

/* The next value. An object without entries is its two words, and those of its end. */
static inline PyObject *value(walk *w) {
    const uint64_t *word = w->words + w->at;
    switch (bser_tag_of(word[0])) {
    case BSER_BYTES:
        if (w->encoding != NULL) break;
        w->at += 2;
        return PyBytes_FromStringAndSize((const char *)w->bytes + word[1], (Py_ssize_t)bser_count_of(word[0]));
    case BSER_INT: w->at += 2; return PyLong_FromLongLong((long long)word[1]);
    case BSER_TRUE: w->at += 2; return Py_NewRef(Py_True);
    case BSER_FALSE: w->at += 2; return Py_NewRef(Py_False);
    case BSER_NULL:
    case BSER_SKIP: w->at += 2; return Py_NewRef(Py_None);
    case BSER_OBJECT:
        if (word[0] != BSER_OBJECT || !w->mutable) break;
        w->at += 4;
        return PyDict_New();
    default: break;
    }
    return other_value(w);
}

static PyObject *next_key(walk *w) {
    size_t at = w->at;
    w->at += 2;
    return key_of(string_at(w, at), count_at(w, at));
}

/* Gives memory of words back that were passed, where there is much of it. */
static inline void pass(walk *w) {
    if (w->at >= w->give_at) w->give_at = give_back(w->words, w->give_at, w->at);
}

static PyObject *list_of(walk *w, Py_ssize_t count, PyObject *item(walk *, const shape *), const shape *with) {
    PyObject *list = PyList_New(count);
    for (Py_ssize_t i = 0; list != NULL && i < count; i++) {
        pass(w);
        PyObject *made = item(w, with);
        if (made == NULL)
            Py_CLEAR(list);
        else
            PyList_SET_ITEM(list, i, made);
    }
    return list;
}

static PyObject *tuple_of(walk *w, Py_ssize_t count, PyObject *item(walk *)) {
    PyObject *tuple = PyTuple_New(count);
    for (Py_ssize_t i = 0; tuple != NULL && i < count; i++) {
        pass(w);
        PyObject *made = item(w);
        if (made == NULL)
            Py_CLEAR(tuple);
        else
            PyTuple_SET_ITEM(tuple, i, made);
    }
    return tuple;
}

static PyObject *item(walk *w, const shape *with) {
    (void)with;
    return value(w);
}

/* An item of a short list. */
static inline PyObject *item_of_few(walk *w) {
    size_t at = w->at;
    if (bser_tag_of(w->words[at]) != BSER_BYTES || w->encoding != NULL) return value(w);
    w->at = at + 2;
    return bytes_of(string_at(w, at), count_at(w, at));
}

/* A short list. It often has words that other messages repeat: the fields of a query, or a request. */
static PyObject *list_of_few(walk *w, Py_ssize_t count) {
    PyObject *list = PyList_New(count);
    pass(w);
    for (Py_ssize_t i = 0; list != NULL && i < count; i++) {
        PyObject *made = item_of_few(w);
        if (made == NULL)
            Py_CLEAR(list);
        else
            PyList_SET_ITEM(list, i, made);
    }
    return list;
}

/* A list, or a tuple where nothing may change. */
static PyObject *array_of(walk *w, Py_ssize_t count) {
    if (!w->mutable) return tuple_of(w, count, value);
    return count <= FEW_ITEMS ? list_of_few(w, count) : list_of(w, count, item, NULL);
}

/* Puts the next value under the key into the dict. */
static int put_next(walk *w, PyObject *dict, PyObject *key) {
    PyObject *made = value(w);
    int put = made == NULL ? -1 : PyDict_SetItem(dict, key, made);
    Py_XDECREF(made);
    return put;
}

static PyObject *object_of(walk *w, Py_ssize_t count) {
    PyObject *made = NULL;
    if (w->mutable) {
        made = PyDict_New();
        for (Py_ssize_t i = 0; made != NULL && i < count; i++) {
            PyObject *key = next_key(w);
            if (key == NULL || put_next(w, made, key) < 0) Py_CLEAR(made);
            Py_XDECREF(key);
        }
        return made;
    }
    PyObject *keys = PyTuple_New(count), *values = PyTuple_New(count);
    size_t lists = w->lists;
    Py_ssize_t i = 0;
    for (; keys != NULL && values != NULL && i < count; i++) {
        PyObject *key = next_key(w), *one = key == NULL ? NULL : value(w);
        if (key != NULL) PyTuple_SET_ITEM(keys, i, key);
        if (one == NULL) break;
        PyTuple_SET_ITEM(values, i, one);
    }
    if (keys != NULL && values != NULL && i == count) made = new_object(keys, values, w->lists != lists);
    Py_XDECREF(keys);
    Py_XDECREF(values);
    return made;
}

/* The next value of a column. A column often repeats an integer, of which one object is enough. */
static PyObject *field(walk *w, last_int *last) {
    uint64_t number = w->words[w->at + 1];
    if (last == NULL || bser_tag_of(w->words[w->at]) != BSER_INT) return value(w);
    if (last->made == NULL || last->number != number) {
        PyObject *made = PyLong_FromLongLong((long long)number);
        if (made == NULL) return NULL;
        Py_XDECREF(last->made);
        *last = (last_int){number, made};
    }
    w->at += 2;
    return Py_NewRef(last->made);
}

static PyObject *dict_row(walk *w, const shape *of) {
    PyObject *made = of->row == NULL ? PyDict_New() : PyDict_Copy(of->row);
    Py_ssize_t count = PyTuple_GET_SIZE(of->keys);
    for (Py_ssize_t i = 0; made != NULL && i < count; i++) {
        PyObject *one = field(w, of->last == NULL ? NULL : &of->last[i]);
        if (one == NULL || PyDict_SetItem(made, PyTuple_GET_ITEM(of->keys, i), one) < 0) Py_CLEAR(made);
        Py_XDECREF(one);
    }
    return made;
}

static PyObject *object_row(walk *w, const shape *of) {
    size_t lists = w->lists;
    PyObject *values = tuple_of(w, PyTuple_GET_SIZE(of->keys), value);
    PyObject *made = values == NULL ? NULL : new_object(of->keys, values, w->lists != lists);
    Py_XDECREF(values);
    return made;
}

/* Makes what many rows of a template have in common. */
static int begin_rows(shape *of) {
    Py_ssize_t count = PyTuple_GET_SIZE(of->keys);
    of->last = PyMem_Calloc((size_t)count + 1, sizeof *of->last);
    if (of->last == NULL) {
        PyErr_NoMemory();
        return -1;
    }
    if (count <= KEYS_WITHOUT_GROWTH) return 0;
    of->row = PyDict_New();
    if (of->row == NULL) return -1;
    for (Py_ssize_t i = 0; i < count; i++)
        if (PyDict_SetItem(of->row, PyTuple_GET_ITEM(of->keys, i), Py_None) < 0) return -1;
    return 0;
}

static void end_rows(const shape *of) {
    for (Py_ssize_t i = 0; of->last != NULL && i < PyTuple_GET_SIZE(of->keys); i++) Py_XDECREF(of->last[i].made);
    PyMem_Free(of->last);
    Py_XDECREF(of->row);
    Py_DECREF(of->keys);
}

/* The rows are a list always, as in pywatchman. */
static PyObject *rows_of(walk *w, Py_ssize_t count) {
    shape of = {tuple_of(w, count, next_key), NULL, NULL};
    if (of.keys == NULL) return NULL;
    Py_ssize_t rows = count_at(w, w->at);
    w->at += 2;
    PyObject *made = NULL;
    w->lists++;
    if (!w->mutable)
        made = list_of(w, rows, object_row, &of);
    else if (rows <= FEW_ROWS || begin_rows(&of) == 0)
        made = list_of(w, rows, dict_row, &of);
    end_rows(&of);
    return made;
}

/* A container, and the end behind it. */
static PyObject *closed(walk *w, PyObject *made) {
    w->at += 2;
    return made;
}

/* A byte string by a codec of the registry, which gets bytes of its own: it may keep what it gets. */
static PyObject *by_codec(const walk *w, const char *bytes, Py_ssize_t len) {
    PyObject *given = PyBytes_FromStringAndSize(bytes, len);
    PyObject *made = given == NULL ? NULL : PyCodec_Decode(given, w->encoding, w->errors);
    Py_XDECREF(given);
    if (made == NULL || PyUnicode_Check(made)) return made;
    PyErr_Format(PyExc_TypeError, "the encoding %s gave a %.100s and no str", w->encoding,
                 Py_TYPE(made)->tp_name);
    Py_DECREF(made);
    return NULL;
}

static PyObject *decoded(const walk *w, const char *bytes, Py_ssize_t len) {
    return w->decode == NULL ? by_codec(w, bytes, len) : w->decode(bytes, len, w->errors);
}

/* A real, a text, or a container. */
static PyObject *other_value(walk *w) {
    size_t at = w->at;
    double real;
    w->at += 2;
    switch (bser_tag_of(w->words[at])) {
    case BSER_REAL: memcpy(&real, &w->words[at + 1], sizeof real); return PyFloat_FromDouble(real);
    case BSER_TEXT: return text_of(string_at(w, at), count_at(w, at));
    case BSER_BYTES: return decoded(w, string_at(w, at), count_at(w, at));
    case BSER_ARRAY: return closed(w, array_of(w, count_at(w, at)));
    case BSER_OBJECT: return closed(w, object_of(w, count_at(w, at)));
    case BSER_TEMPLATE: return closed(w, rows_of(w, count_at(w, at)));
    default: PyErr_SetString(PyExc_SystemError, "a word of an unknown tag"); return NULL;
    }
}

/* There are bytes behind the message, which ends there. */
static void other_length(size_t end) {
    char text[64];
    PyOS_snprintf(text, sizeof text, "bser data len != header len, at byte %zu", end);
    raise_error(decode_error, text, BSER_BODY_LENGTH, end, 0);
}

/* The tape of the whole message, or an exception. */
static uint64_t *tape_of(const message *m, size_t *room) {
    bser_outcome found;
    uint64_t *words = words_of(m->bytes, m->len, room, &found);
    if (words == NULL) return NULL;
    if (found.code != BSER_OK)
        raise_outcome(m, found);
    else if (found.place != m->len)
        other_length(found.place - m->shift);
    else
        return words;
    keep_words(words, *room);
    return NULL;
}

static PyObject *value_of(const message *m, walk *w) {
    size_t room;
    uint64_t *words = tape_of(m, &room);
    if (words == NULL) return NULL;
    w->bytes = m->bytes;
    w->words = words;
    w->give_at = first_to_give(room);
    PyObject *made = value(w);
    keep_words(words, room);
    return made;
}

/* A text of the caller, or NULL for None and where it is left out. */
static int take_text(const char **text, PyObject *given) {
    *text = NULL;
    if (given == NULL || given == Py_None) return 0;
    if (!PyUnicode_Check(given)) {
        PyErr_Format(PyExc_TypeError, "an encoding has to be str or None, not %.100s", Py_TYPE(given)->tp_name);
        return -1;
    }
    Py_ssize_t len;
    *text = PyUnicode_AsUTF8AndSize(given, &len);
    if (*text == NULL) return -1;
    if (strlen(*text) == (size_t)len) return 0;
    PyErr_SetString(PyExc_ValueError, "a null character in the name of an encoding");
    return -1;
}

/* The function of Python's own that decodes without a codec of the registry, or NULL. */
static decoder *decoder_of(const char *encoding) {
    if (strcmp(encoding, "utf-8") == 0 || strcmp(encoding, "utf8") == 0) return PyUnicode_DecodeUTF8;
    if (strcmp(encoding, "latin-1") == 0) return PyUnicode_DecodeLatin1;
    return strcmp(encoding, "ascii") == 0 ? PyUnicode_DecodeASCII : NULL;
}

/* What the arguments behind the first one choose. */
static int take_choices(walk *w, PyObject *const *taken) {
    if (taken[1] != NULL && (w->mutable = PyObject_IsTrue(taken[1])) < 0) return -1;
    if (take_text(&w->encoding, taken[2]) < 0 || take_text(&w->errors, taken[3]) < 0) return -1;
    if (w->errors == NULL) w->errors = "strict";
    if (w->encoding != NULL) w->decode = decoder_of(w->encoding);
    return 0;
}

PyObject *loads(PyObject *module, PyObject *const *args, Py_ssize_t count, PyObject *names) {
    static const char *const parameters[] = {"buf", "mutable", "value_encoding", "value_errors", NULL};
    PyObject *taken[4] = {NULL, NULL, NULL, NULL};
    walk w = {NULL, NULL, 0, 0, 0, 1, NULL, "strict", NULL};
    message m;
    (void)module;
    if (take_arguments("loads", parameters, taken, args, count, names) < 0) return NULL;
    if ((count != 1 || names != NULL) && take_choices(&w, taken) < 0) return NULL;
    if (open_message(&m, taken[0]) < 0) return NULL;
    PyObject *made = value_of(&m, &w);
    close_message(&m);
    return made;
}
