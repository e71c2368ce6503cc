/* The memory of a tape's words. */
#if defined(__linux__)
#define _DEFAULT_SOURCE
#include <sys/mman.h>
#include <unistd.h>
#endif

#include "internal.h"

/* Words that the last call left, so that not each call makes some. A call takes them away. */
static uint64_t *kept;
static size_t kept_room;

enum { LEAST_ROOM = 1024 };

void keep_words(uint64_t *words, size_t room) {
    if (kept == NULL && room <= MOST_WORDS_KEPT) {
        kept = words;
        kept_room = room;
    } else {
        PyMem_Free(words);
    }
}

/* What bser_tape answers, and the words that it wrote; or NULL and an exception. Most messages have at
 * most half as many words as bytes. */
uint64_t *words_of(const uint8_t *bytes, size_t len, size_t *room, bser_outcome *found) {
    uint64_t *words = kept;
    *room = words == NULL ? 0 : kept_room;
    *found = (bser_outcome){BSER_TOO_SMALL, 0, 0, len / 2 + LEAST_ROOM};
    kept = NULL;
    if (words != NULL) *found = bser_tape(bytes, len, words, *room);
    while (found->code == BSER_TOO_SMALL) {
        *room = found->length;
        PyMem_Free(words);
        words = PyMem_Calloc(*room, sizeof *words);
        if (words == NULL) {
            PyErr_NoMemory();
            return NULL;
        }
        *found = bser_tape(bytes, len, words, *room);
    }
    return words;
}

/* Gives the pages before a word back to the system, which are then zeros, from where the last call ended,
 * and answers at which word to call it next. So a long tape and the value that is made of it are never
 * there as a whole both. */
size_t give_back(uint64_t *words, size_t give_at, size_t at) {
#if defined(__linux__)
    uintptr_t page = (uintptr_t)sysconf(_SC_PAGESIZE);
    uintptr_t start = ((uintptr_t)(words + give_at - GIVEN_AT_ONCE) + page - 1) / page * page;
    uintptr_t end = (uintptr_t)(words + at) / page * page;
    if (start < end) madvise((void *)start, end - start, MADV_DONTNEED);
#else
    (void)words;
    (void)give_at;
#endif
    return at + GIVEN_AT_ONCE;
}
