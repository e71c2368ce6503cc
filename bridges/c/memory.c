/* Counts the memory that each export takes while it runs, beside what its caller gives it, and prints
 * the most bytes for each byte of input. The status is 1 where it is above what docs/BRIDGES.md says, or
 * where a message that announces much and holds little takes more than one that announces little.
 *
 * The arguments are files with a message each. Arrays of nulls and templates of short rows are made beside
 * them. What is counted are the sizes that can be used, which an allocator rounds up. Linked with --wrap for
 * malloc, realloc and free. */
#include "bser.h"

#include <malloc.h>
#include <stdio.h>
#include <stdlib.h>
#include <string.h>

/* What a call may take: so many bytes for a short input, and so many for each byte of a longer one. That
 * of bser_compact is what its comment in bser.h says. */
enum { FIXED = 16384, FOR_EACH = 64, SHORT = 1000 };
enum { FIXED_COMPACT = 512000, FOR_EACH_COMPACT = 128, SHORT_COMPACT = FIXED_COMPACT / FOR_EACH_COMPACT };

void *__real_malloc(size_t size);
void *__real_realloc(void *memory, size_t size);
void __real_free(void *memory);

static size_t held, most;

static void *count(void *memory) {
    if (memory != NULL) held += malloc_usable_size(memory);
    if (held > most) most = held;
    return memory;
}

void *__wrap_malloc(size_t size) { return count(__real_malloc(size)); }

void *__wrap_realloc(void *memory, size_t size) {
    if (memory != NULL) held -= malloc_usable_size(memory);
    return count(__real_realloc(memory, size));
}

void __wrap_free(void *memory) {
    if (memory != NULL) held -= malloc_usable_size(memory);
    __real_free(memory);
}

typedef struct {
    const char *name;
    double for_each; /* the most so far, where more than the fixed part was taken */
    size_t fixed;    /* the most that was taken for a short input */
} row;

static row rows[] = {{"bser_tape", 0, 0}, {"bser_of_tape", 0, 0}, {"bser_canonical", 0, 0},
                     {"bser_describe", 0, 0}, {"bser_message_length", 0, 0}, {"bser_compact", 0, 0}};
enum { TAPE, OF_TAPE, CANONICAL, DESCRIBE, LENGTH, COMPACT, ROWS };

static void begin(void) { held = most = 0; }

static void note(int at, size_t input) {
    double for_each = (double)most / (double)input;
    if (input < (at == COMPACT ? SHORT_COMPACT : SHORT)) {
        if (most > rows[at].fixed) rows[at].fixed = most;
    } else if (for_each > rows[at].for_each) {
        rows[at].for_each = for_each;
    }
}

typedef bser_outcome rewrite(const uint8_t *, size_t, uint8_t *, size_t);

static void measure(int at, rewrite *call, const uint8_t *bytes, size_t len) {
    size_t room = call(bytes, len, (uint8_t *)"", 0).length;
    uint8_t *out = calloc(room + 1, 1);
    if (out == NULL) exit(2);
    begin();
    call(bytes, len, out, room);
    note(at, len);
    free(out);
}

static void measure_all(const uint8_t *bytes, size_t len) {
    uint64_t *words = calloc(2 * len + 1, sizeof *words);
    uint8_t *out = calloc(len + 16, 1);
    if (words == NULL || out == NULL) exit(2);
    begin();
    bser_outcome found = bser_tape(bytes, len, words, 2 * len);
    note(TAPE, len);
    begin();
    bser_message_length(bytes, len);
    note(LENGTH, len);
    if (found.code == BSER_OK) {
        begin();
        bser_of_tape(words, found.length, bytes, len, out, len + 16);
        note(OF_TAPE, len);
    }
    measure(CANONICAL, bser_canonical, bytes, len);
    measure(DESCRIBE, bser_describe, bytes, len);
    measure(COMPACT, bser_compact, bytes, len);
    free(words);
    free(out);
}

/* Measures all calls on an array of so many nulls: the shortest parts that a message has. */
static void measure_nulls(uint32_t count) {
    static const uint8_t start[] = {0, 2, 0, 0, 0, 0, 5, 0, 0, 0, 0, 0, 5};
    size_t len = sizeof start + 4 + count, body = len - 11;
    uint8_t *bytes = calloc(len, 1);
    if (bytes == NULL) exit(2);
    memset(bytes, 0x0a, len);
    memcpy(bytes, start, sizeof start);
    for (int i = 0; i < 4; i++) {
        bytes[7 + i] = (uint8_t)(body >> 8 * i);
        bytes[sizeof start + i] = (uint8_t)(count >> 8 * i);
    }
    measure_all(bytes, len);
    free(bytes);
}

/* Measures bser_compact of a template with one key and so many rows, each a byte string of `width` bytes
 * or, where that is 0, a skip. */
static void measure_rows(size_t width, uint32_t count) {
    static const uint8_t start[] = {0, 2, 0, 0, 0, 0, 5, 0, 0, 0, 0, 0x0b, 0, 3, 1, 0x0d, 3, 1, 'a', 5};
    size_t row = width == 0 ? 1 : width + 3, len = sizeof start + 4 + row * count, body = len - 11;
    uint8_t *bytes = calloc(len, 1), *at = bytes + sizeof start + 4;
    if (bytes == NULL) exit(2);
    memcpy(bytes, start, sizeof start);
    for (int i = 0; i < 4; i++) {
        bytes[7 + i] = (uint8_t)(body >> 8 * i);
        bytes[sizeof start + i] = (uint8_t)(count >> 8 * i);
    }
    for (uint32_t i = 0; i < count; i++, at += row) {
        at[0] = width == 0 ? 0x0c : 2;
        if (width != 0) at[1] = 3, at[2] = (uint8_t)width;
    }
    measure(COMPACT, bser_compact, bytes, len);
    free(bytes);
}

static bser_outcome tape(const uint8_t *bytes, size_t len, uint8_t *out, size_t room) {
    static uint64_t words[64];
    (void)out, (void)room;
    return bser_tape(bytes, len, words, 64);
}

static bser_outcome message_length(const uint8_t *bytes, size_t len, uint8_t *out, size_t room) {
    (void)out, (void)room;
    return bser_message_length(bytes, len);
}

/* What stands in a body before a count and behind it, where it holds one of what it announces. */
typedef struct {
    const char *front;
    size_t front_len;
    const char *held;
    size_t held_len;
} part;

#define PART(front, held) {front, sizeof front - 1, held, sizeof held - 1}
static const part parts[] = {PART("\0", "\3\1"), PART("\1", "\x0d\3\1a\3\1"), PART("\x0b\0", "\x0d\3\1a"),
                             PART("\x0b\0\3\1\x0d\3\1a", "\3\1"), PART("\x0d", "a"), PART("\2", "a")};
enum { CONTAINERS = 4, PARTS = 6 };

/* The most that a call takes for a body of 400 bytes that announces so many, holds one, and behind it is
 * malformed or, of a string, ends. */
static size_t most_for(rewrite *call, const part *part, uint64_t count, int width) {
    enum { START = 9, LEN = START + 400 };
    static const uint8_t header[START] = {0, 2, 0, 0, 0, 0, 4, 400 & 255, 400 >> 8};
    static uint8_t bytes[LEN], out[4096];
    uint8_t *at = bytes + START;
    memcpy(bytes, header, START);
    memset(at, 0xff, LEN - START);
    memcpy(at, part->front, part->front_len), at += part->front_len;
    *at++ = width == 2 ? 4 : 6;
    for (int i = 0; i < width; i++) *at++ = (uint8_t)(count >> 8 * i);
    memcpy(at, part->held, part->held_len), at += part->held_len;
    begin();
    call(bytes, part < parts + CONTAINERS ? LEN : (size_t)(at - bytes), out, sizeof out);
    return most;
}

/* Whether it takes more where more is announced, what the body has room for as well. */
static int reserves(rewrite *call) {
    for (int i = 0; i < PARTS; i++) {
        if (most_for(call, &parts[i], (uint64_t)1 << 40, 8) > most_for(call, &parts[i], 2, 8)) return 1;
        if (most_for(call, &parts[i], 330, 2) > most_for(call, &parts[i], 2, 2)) return 1;
    }
    return 0;
}

static void read_file(const char *name) {
    FILE *file = fopen(name, "rb");
    if (file == NULL) exit(2);
    fseek(file, 0, SEEK_END);
    size_t len = (size_t)ftell(file);
    rewind(file);
    uint8_t *bytes = calloc(len + 1, 1);
    if (bytes == NULL || fread(bytes, 1, len, file) != len) exit(2);
    fclose(file);
    measure_all(bytes, len);
    if (len > 2) measure_all(bytes, len - 2);
    free(bytes);
}

int main(int argc, char **argv) {
    int status = 0;
    for (int i = 1; i < argc; i++) read_file(argv[i]);
    for (uint32_t count = 1024; count <= 131072; count *= 2)
        for (uint32_t more = 0; more < 2; more++) measure_nulls(count + more);
    for (size_t width = 0; width < 32; width++)
        for (uint32_t count = 1; count < 20000; count = 2 * count + 1) measure_rows(width, count);
    for (int at = 0; at < ROWS; at++) {
        printf("%s %.1f bytes for each, %zu for a short message; ", rows[at].name, rows[at].for_each, rows[at].fixed);
        size_t fixed = at == COMPACT ? FIXED_COMPACT : FIXED;
        double for_each = at == COMPACT ? FOR_EACH_COMPACT : FOR_EACH;
        if (rows[at].for_each > for_each || rows[at].fixed > fixed) status = 1;
    }
    rewrite *calls[] = {tape, message_length, bser_canonical, bser_describe, bser_compact};
    for (size_t i = 0; i < sizeof calls / sizeof *calls; i++) {
        if (reserves(calls[i])) status = 1, printf("call %zu reserves what is announced; ", i);
    }
    printf("%d files\n", argc - 1);
    return status;
}
