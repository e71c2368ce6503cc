/* bser.h: messages of BSER, version 2, by the proved library. For C99 and C++.
 *
 * Each call reads its slices, writes its `out` or `words`, keeps nothing, and leaves nothing to free.
 * Calls may be made from several threads at once, and not from a signal handler. No input makes a
 * call fail otherwise than by its code: that is proved of the library's side.
 *
 * The caller owes, and nothing checks:
 *   - A slice is a pointer and a length in bytes or words. The memory is there for that length, and it
 *     is initialised. Where the length is 0 the pointer may be null. Words are aligned as uint64_t is.
 *   - What a call writes overlaps nothing that it reads, and no other thread writes either meanwhile.
 *   - malloc, realloc and free are those of one allocator.
 * A call takes at most 64 bytes of memory for each byte that it reads, or 16,384 for a short message,
 * and bser_compact 128, or 512,000.
 * bser_canonical, bser_compact and bser_describe call themselves at most 128 levels deep, and the calls
 * of tapes 8.
 */
#ifndef KUVTSADA_BSER_H
#define KUVTSADA_BSER_H

#include <stddef.h>
#include <stdint.h>

#ifdef __cplusplus
extern "C" {
#endif

/* The version of the release. */
#define BSER_VERSION "1.0.0"

/* The version of these calls. bser_abi_version() gives that of the library which is linked.
 *
 * What is promised: while the library is libkuvtsada_bser.so.1, no call goes, and no call, code, tag or word of a tape
 * changes its meaning. Calls and codes may be added, and then this number rises. So a program works with each library
 * whose number is not below that of the header that it was compiled with, if it takes a code that it does not know as
 * an error. A tape has no other tags than those of this header. */
#define BSER_ABI_VERSION 1

typedef struct {
    uint32_t code;   /* BSER_OK, or why nothing of use was written */
    uint32_t detail; /* the byte that an error is about, or 0; of a tape, the message's capabilities */
    size_t place;    /* how many bytes lie before the one that may not be there, or up to the end of the number,
                      * string or body that is refused; of a tape as input, how many words before what is wrong;
                      * of a tape that was written, the message's bytes */
    size_t length;   /* how many bytes or words were written, or are wanted */
} bser_outcome;

/* Codes never change their meaning. The library has numbers for its other errors too, which no call of
 * this header answers. */
enum bser_code {
    BSER_OK = 0,
    BSER_NOT_WHOLE = 1,     /* bser_message_length: more bytes are needed to tell */
    BSER_TOO_SMALL = 2,     /* length tells how many bytes or words are wanted: with that room this does not come again */
    BSER_NO_MEMORY = 3,     /* an allocation failed */
    BSER_TAPE_INVALID = 4,  /* bser_of_tape: place tells at which word */
    BSER_CONTRADICTION = 5, /* the library contradicts itself: a bug */

    /* a byte that cannot stand there: detail is the byte */
    BSER_BAD_VALUE_TAG = 16,
    BSER_BAD_LENGTH_TAG = 17,
    BSER_BAD_KEY_TAG = 18,
    BSER_BAD_TEMPLATE_KEYS = 19,
    BSER_BAD_TEMPLATE_KEY = 20,

    /* a number that cannot stand there */
    BSER_NEGATIVE_LENGTH = 32,
    BSER_NEGATIVE_COUNT = 33,
    BSER_ROWS_WITHOUT_KEYS = 38,
    BSER_COUNT_TOO_GREAT = 43,

    BSER_EARLY_END = 48,   /* the bytes end inside the message */
    BSER_NOT_UTF8 = 49,    /* a text or a key */
    BSER_TOO_DEEP = 52,    /* more than 128 levels */
    BSER_BODY_LENGTH = 53, /* the value has another length than the head announces */
    BSER_BAD_MAGIC = 54    /* the bytes do not begin with 00 02 */
};

/* BSER_ABI_VERSION of the library. */
uint32_t bser_abi_version(void);

/* How many bytes the message has that begins with these. What follows its head is not looked at, for an
 * error and its place neither, so 15 bytes are enough. */
bser_outcome bser_message_length(const uint8_t *bytes, size_t len);

/* Why the message at the start of the bytes cannot be read, where, and in which part of it: a line
 * of UTF-8 without an end. length is 0 where it can be read. */
bser_outcome bser_describe(const uint8_t *bytes, size_t len, uint8_t *out, size_t room);

/* The canonical message of the value: no templates, each number in its least width, keys in order
 * and once. Equal values have equal messages. */
bser_outcome bser_canonical(const uint8_t *bytes, size_t len, uint8_t *out, size_t room);

/* The compact message of the value, with templates. None is shorter, nor is the one that was read
 * shorter. The code is BSER_NO_MEMORY too where this may take more than 128 bytes of memory for each
 * byte of the message, and more than 512,000: so it is for a template of many skipped fields. */
bser_outcome bser_compact(const uint8_t *bytes, size_t len, uint8_t *out, size_t room);

/* ---- tapes
 *
 * A tape has two words for each part of a message, in the order of reading. The low eight bits of
 * the first are a tag, and the bits above them are a count. The second is
 *   - the number of an integer, or the 64 bits of a real;
 *   - of a string or a key, where its bytes begin in the input;
 *   - of any other part, where it stands in the input. */
enum bser_tag {
    BSER_ARRAY = 0x00,     /* count items follow, and BSER_CLOSE */
    BSER_OBJECT = 0x01,    /* count entries follow, each a key and a value, and BSER_CLOSE */
    BSER_BYTES = 0x02,     /* a byte string of count bytes */
    BSER_INT = 0x06,
    BSER_REAL = 0x07,
    BSER_TRUE = 0x08,
    BSER_FALSE = 0x09,
    BSER_NULL = 0x0a,
    BSER_TEMPLATE = 0x0b,  /* count keys follow, then BSER_ROWS */
    BSER_SKIP = 0x0c,      /* in a row: the row lacks this field */
    BSER_TEXT = 0x0d,      /* a text of count bytes, which are UTF-8 */
    BSER_KEY = 0x0e,       /* a key of count bytes, which are UTF-8 */
    BSER_BYTES_KEY = 0x0f, /* the same, and it is spelled as a byte string */
    BSER_ROWS = 0x10,      /* count rows follow, each a field for each key, and BSER_CLOSE */
    BSER_CLOSE = 0x11      /* the end of an array, an object or a template */
};

/* The tape of the message at the start of the bytes. A message has at most one part and one end for
 * each of its bytes, so 2 * len words are always enough, and mostly len / 2 are. */
bser_outcome bser_tape(const uint8_t *bytes, size_t len, uint64_t *words, size_t room);

/* The message of a tape whose strings stand in `strings`. A tape that bser_tape wrote is one over the
 * bytes that were read. The second word of a part that is no number and no string may be 0. */
bser_outcome bser_of_tape(const uint64_t *words, size_t count, const uint8_t *strings, size_t len,
                          uint8_t *out, size_t room);

/* The tag and the count of a part's first word, and the first word of a tag and a count. */
static inline unsigned bser_tag_of(uint64_t first) { return (unsigned)(first & 0xff); }
static inline uint64_t bser_count_of(uint64_t first) { return first >> 8; }
static inline uint64_t bser_word(unsigned tag, uint64_t count) { return count << 8 | tag; }

/* The index behind the value, the key or the skip whose first word is words[at]. */
static inline size_t bser_after(const uint64_t *words, size_t at) {
    size_t open = 0;
    do {
        unsigned tag = bser_tag_of(words[at]);
        if (tag == BSER_ARRAY || tag == BSER_OBJECT || tag == BSER_TEMPLATE) open++;
        if (tag == BSER_CLOSE) open--;
        at += 2;
    } while (open != 0);
    return at;
}

#ifdef __cplusplus
}
#endif
#endif
