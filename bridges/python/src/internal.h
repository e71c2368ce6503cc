/* What the files of the extension share. */
#ifndef KUVTSADA_INTERNAL_H
#define KUVTSADA_INTERNAL_H

#define PY_SSIZE_T_CLEAN
#include <Python.h>

#include "bser.h"

/* A short message is copied to the stack, and needs no allocation. */
enum { SHORT = 256 };

/* A message with a head of version 2: the caller's own bytes, or a copy of them where they have one
 * of version 1. The copy is `shift` bytes longer. */
typedef struct {
    const uint8_t *bytes;
    size_t len;
    size_t shift;
    Py_buffer buffer; /* of bytes that are no `bytes`: buffer.obj is NULL where there is none */
    uint8_t *copy;    /* NULL where there is none, or a short one */
    uint8_t small[SHORT];
} message;

/* errors.c */
extern PyObject *bser_error, *decode_error, *encode_error;
int add_errors(PyObject *module);
PyObject *raise_error(PyObject *type, const char *text, uint32_t code, size_t place, uint32_t byte);
PyObject *raise_outcome(const message *m, bser_outcome outcome);
/* An error of bser_message_length. It is told by the head alone: bser_describe reads on where that
 * announces too much. */
PyObject *raise_head(const message *m, bser_outcome outcome);

/* head.c */
int open_bytes(message *m, PyObject *bytes);
int open_message(message *m, PyObject *bytes);
void release_message(message *m);

static inline void close_message(message *m) {
    if (m->copy != NULL || m->buffer.obj != NULL) release_message(m);
}

PyObject *pdu_info(PyObject *module, PyObject *buffer);
PyObject *pdu_len(PyObject *module, PyObject *buffer);

/* object.c */
extern PyTypeObject object_type;
PyObject *new_object(PyObject *keys, PyObject *values, int has_list);
PyObject *object_pairs(PyObject *self);

/* arguments.c */
int take_all_arguments(const char *call, const char *const *names, PyObject **taken, PyObject *const *args,
                       Py_ssize_t count, PyObject *given);

/* Puts each argument to its name's place in `taken`, which begins as NULLs. The first is wanted. */
static inline int take_arguments(const char *call, const char *const *names, PyObject **taken,
                                 PyObject *const *args, Py_ssize_t count, PyObject *given) {
    if (count != 1 || given != NULL) return take_all_arguments(call, names, taken, args, count, given);
    taken[0] = args[0];
    return 0;
}

/* words.c */
enum { MOST_WORDS_KEPT = 1 << 18, GIVEN_AT_ONCE = 1 << 16 };
uint64_t *words_of(const uint8_t *bytes, size_t len, size_t *room, bser_outcome *found);
void keep_words(uint64_t *words, size_t room);
size_t give_back(uint64_t *words, size_t give_at, size_t at);

/* The word at which memory is given back first, where the tape is too long to be kept. */
static inline size_t first_to_give(size_t room) { return room > MOST_WORDS_KEPT ? GIVEN_AT_ONCE : SIZE_MAX; }

/* decode.c */
PyObject *loads(PyObject *module, PyObject *const *args, Py_ssize_t count, PyObject *names);

/* encode.c */
PyObject *dumps(PyObject *module, PyObject *const *args, Py_ssize_t count, PyObject *names);

#endif
