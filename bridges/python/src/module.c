/* The module kuvtsada_bser._bser. */
#include "internal.h"

typedef bser_outcome rewrite(const uint8_t *, size_t, uint8_t *, size_t);

static PyObject *rewritten_of(const message *m, rewrite *call) {
    uint8_t *out = NULL;
    bser_outcome done = {BSER_TOO_SMALL, 0, 0, m->len + 16};
    while (done.code == BSER_TOO_SMALL) {
        size_t room = done.length;
        PyMem_Free(out);
        out = PyMem_Calloc(room, 1);
        if (out == NULL) return PyErr_NoMemory();
        done = call(m->bytes, m->len, out, room);
    }
    PyObject *made = done.code == BSER_OK ? PyBytes_FromStringAndSize((char *)out, (Py_ssize_t)done.length)
                                          : raise_outcome(m, done);
    PyMem_Free(out);
    return made;
}

static PyObject *rewritten(PyObject *bytes, rewrite *call) {
    message m;
    if (open_message(&m, bytes) < 0) return NULL;
    PyObject *made = rewritten_of(&m, call);
    close_message(&m);
    return made;
}

static PyObject *canonical(PyObject *module, PyObject *bytes) {
    (void)module;
    return rewritten(bytes, bser_canonical);
}

static PyObject *compact(PyObject *module, PyObject *bytes) {
    (void)module;
    return rewritten(bytes, bser_compact);
}

static PyMethodDef methods[] = {
    {"loads", (PyCFunction)(void (*)(void))loads, METH_FASTCALL | METH_KEYWORDS, "The value of a message."},
    {"dumps", (PyCFunction)(void (*)(void))dumps, METH_FASTCALL | METH_KEYWORDS,
     "The message of a value. RuntimeError where a list or dict changes meanwhile."},
    {"pdu_info", pdu_info, METH_O, "The version, the capabilities and the length of a message."},
    {"pdu_len", pdu_len, METH_O, "The length of a message."},
    {"canonical", canonical, METH_O, "The canonical message of the value, of version 2."},
    {"compact", compact, METH_O, "The shortest message of the value, of version 2."},
    {NULL, NULL, 0, NULL},
};

static struct PyModuleDef definition = {
    .m_base = PyModuleDef_HEAD_INIT,
    .m_name = "kuvtsada_bser._bser",
    .m_doc = "Messages of BSER by the proved library.",
    .m_size = -1,
    .m_methods = methods,
};

PyMODINIT_FUNC PyInit__bser(void) {
    if (bser_abi_version() < BSER_ABI_VERSION) {
        PyErr_SetString(PyExc_ImportError, "the library is older than its header bser.h");
        return NULL;
    }
    if (PyType_Ready(&object_type) < 0) return NULL;
    PyObject *module = PyModule_Create(&definition);
    if (module == NULL) return NULL;
    Py_INCREF(&object_type);
    if (add_errors(module) < 0 || PyModule_AddObject(module, "BserObject", (PyObject *)&object_type) < 0)
        Py_CLEAR(module);
    return module;
}
