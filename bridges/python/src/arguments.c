/* The arguments of a call, which are given in order or by name. */
#include "internal.h"

/* Which of the names it is, or -1 where it is none. */
static Py_ssize_t name_at(const char *const *names, PyObject *name) {
    for (Py_ssize_t i = 0; names[i] != NULL; i++)
        if (PyUnicode_CompareWithASCIIString(name, names[i]) == 0) return i;
    return -1;
}

int take_all_arguments(const char *call, const char *const *names, PyObject **taken, PyObject *const *args,
                       Py_ssize_t count, PyObject *given) {
    Py_ssize_t most = 0, by_name = given == NULL ? 0 : PyTuple_GET_SIZE(given);
    while (names[most] != NULL) most++;
    if (count > most) {
        PyErr_Format(PyExc_TypeError, "%s() takes at most %zd arguments (%zd given)", call, most, count + by_name);
        return -1;
    }
    for (Py_ssize_t i = 0; i < count; i++) taken[i] = args[i];
    for (Py_ssize_t i = 0; i < by_name; i++) {
        PyObject *name = PyTuple_GET_ITEM(given, i);
        Py_ssize_t at = name_at(names, name);
        if (at < 0 || taken[at] != NULL) {
            PyErr_Format(PyExc_TypeError, "%s() got an unknown or a second argument '%U'", call, name);
            return -1;
        }
        taken[at] = args[count + i];
    }
    if (taken[0] != NULL) return 0;
    PyErr_Format(PyExc_TypeError, "%s() misses its argument '%s'", call, names[0]);
    return -1;
}
