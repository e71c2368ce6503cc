/* An object that cannot change: a tuple of values, each with a key. */
#include "internal.h"

typedef struct {
    PyObject_HEAD
    PyObject *keys;
    PyObject *values;
    int has_list;
} object;

/* A list of rows below the object may come to hold the object itself, which is a cycle that the collector
 * breaks at the list. Objects without one are none of the collector's, which takes less time. */
PyObject *new_object(PyObject *keys, PyObject *values, int has_list) {
    object *made = has_list ? PyObject_GC_New(object, &object_type) : PyObject_New(object, &object_type);
    if (made == NULL) return NULL;
    made->keys = Py_NewRef(keys);
    made->values = Py_NewRef(values);
    made->has_list = has_list;
    if (has_list) PyObject_GC_Track(made);
    return (PyObject *)made;
}

static int has_list(PyObject *self) { return ((object *)self)->has_list; }

static int traverse_object(PyObject *self, visitproc visit, void *arg) {
    Py_VISIT(((object *)self)->keys);
    Py_VISIT(((object *)self)->values);
    return 0;
}

static void free_object(PyObject *self) {
    object *o = (object *)self;
    if (o->has_list) PyObject_GC_UnTrack(self);
    Py_DECREF(o->keys);
    Py_DECREF(o->values);
    if (o->has_list)
        PyObject_GC_Del(self);
    else
        PyObject_Free(self);
}

static Py_ssize_t object_len(PyObject *self) { return PyTuple_GET_SIZE(((object *)self)->values); }

static PyObject *object_item(PyObject *self, Py_ssize_t at) {
    PyObject *values = ((object *)self)->values;
    if (at < 0 || at >= PyTuple_GET_SIZE(values)) {
        PyErr_SetString(PyExc_IndexError, "no such place in the object");
        return NULL;
    }
    return Py_NewRef(PyTuple_GET_ITEM(values, at));
}

/* The list of the object's keys, each with its value. */
PyObject *object_pairs(PyObject *self) {
    object *o = (object *)self;
    PyObject *pairs = PyList_New(0);
    for (Py_ssize_t i = 0; pairs != NULL && i < PyTuple_GET_SIZE(o->values); i++) {
        PyObject *pair = PyTuple_Pack(2, PyTuple_GET_ITEM(o->keys, i), PyTuple_GET_ITEM(o->values, i));
        if (pair == NULL || PyList_Append(pairs, pair) < 0) Py_CLEAR(pairs);
        Py_XDECREF(pair);
    }
    return pairs;
}

static PyObject *no_key(PyObject *key) {
    PyErr_Format(PyExc_AttributeError, "the object has no key '%U'", key);
    return NULL;
}

/* A str that is not UTF-8 is no key. */
static PyObject *no_utf8(PyObject *key) {
    if (!PyErr_ExceptionMatches(PyExc_UnicodeEncodeError)) return NULL;
    PyErr_Clear();
    return no_key(key);
}

/* The value under the key, which is a str. A key may be asked for as stat names it, as st_size. */
static PyObject *value_of(object *o, PyObject *key) {
    Py_ssize_t len, count = PyTuple_GET_SIZE(o->keys);
    const char *name = PyUnicode_AsUTF8AndSize(key, &len);
    if (name == NULL) return no_utf8(key);
    if (len > 3 && memcmp(name, "st_", 3) == 0) {
        name += 3;
        len -= 3;
    }
    for (Py_ssize_t i = count - 1; i >= 0; i--) {
        Py_ssize_t other_len;
        const char *other = PyUnicode_AsUTF8AndSize(PyTuple_GET_ITEM(o->keys, i), &other_len);
        if (other == NULL) return NULL;
        if (other_len == len && memcmp(name, other, (size_t)len) == 0)
            return Py_NewRef(PyTuple_GET_ITEM(o->values, i));
    }
    return no_key(key);
}

static PyObject *object_attribute(PyObject *self, PyObject *name) {
    PyObject *found = PyObject_GenericGetAttr(self, name);
    if (found != NULL || !PyErr_ExceptionMatches(PyExc_AttributeError)) return found;
    PyErr_Clear();
    return value_of((object *)self, name);
}

static PyObject *object_subscript(PyObject *self, PyObject *key) {
    if (PyUnicode_Check(key)) return value_of((object *)self, key);
    if (PyBytes_Check(key)) {
        PyObject *text = PyUnicode_FromEncodedObject(key, "utf-8", "strict");
        PyObject *found = text == NULL ? NULL : value_of((object *)self, text);
        Py_XDECREF(text);
        return found;
    }
    Py_ssize_t at = PyNumber_AsSsize_t(key, PyExc_IndexError);
    if (at == -1 && PyErr_Occurred()) return NULL;
    return object_item(self, at < 0 ? at + object_len(self) : at);
}

static PyObject *object_repr(PyObject *self) {
    object *o = (object *)self;
    return PyUnicode_FromFormat("BserObject(%R, %R)", o->keys, o->values);
}

static PySequenceMethods as_sequence = {.sq_length = object_len, .sq_item = object_item};
static PyMappingMethods as_mapping = {.mp_length = object_len, .mp_subscript = object_subscript};

PyTypeObject object_type = {
    PyVarObject_HEAD_INIT(NULL, 0)
    .tp_name = "kuvtsada_bser.BserObject",
    .tp_doc = "An object that cannot change: its values by key, by attribute and by place.",
    .tp_basicsize = sizeof(object),
    .tp_dealloc = free_object,
    .tp_traverse = traverse_object,
    .tp_is_gc = has_list,
    .tp_repr = object_repr,
    .tp_as_sequence = &as_sequence,
    .tp_as_mapping = &as_mapping,
    .tp_getattro = object_attribute,
    .tp_flags = Py_TPFLAGS_DEFAULT | Py_TPFLAGS_HAVE_GC,
};
