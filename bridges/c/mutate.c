/* Calls all exports on messages and on mutations of them, in buffers of just their size, and checks
 * that the answers fit together; on slices of no bytes that are null pointers; on heads that are refused;
 * and on the messages in several threads at once. Built with the sanitizers of addresses and of undefined
 * behaviour.
 *
 * The arguments are how many mutations to make in all, and files: a message each (.bser), or lines
 * whose second column is a message in hexadecimal (.tsv), which may come on standard input too (-). */
#include "bser.h"

#include <pthread.h>
#include <stdio.h>
#include <stdlib.h>
#include <string.h>

#define MOST_MESSAGES 20000
#define THREADS 8

typedef struct {
    uint8_t *bytes;
    size_t len;
} message;

static message messages[MOST_MESSAGES];
static size_t message_count;
static __thread unsigned long calls, told, refused;

static void fail(const char *what, const uint8_t *bytes, size_t len) {
    fprintf(stderr, "%s:", what);
    for (size_t i = 0; i < len && i < 4096; i++) fprintf(stderr, " %02x", bytes[i]);
    fprintf(stderr, "\n");
    exit(1);
}

#define CHECK(fact) do { if (!(fact)) fail(#fact, bytes, len); } while (0)

/* Memory of just this size, of which nothing is known. */
static void *fresh(size_t size) {
    void *memory = malloc(size == 0 ? 1 : size);
    if (memory == NULL) exit(2);
    memset(memory, 0xa5, size == 0 ? 1 : size);
    return memory;
}

typedef bser_outcome rewrite(const uint8_t *, size_t, uint8_t *, size_t);

static void check_outcome(const char *what, bser_outcome outcome, uint32_t code, size_t place, size_t length) {
    calls++;
    if (outcome.code == code && outcome.place == place && outcome.length == length) return;
    fprintf(stderr, "%s: code %u, place %zu, length %zu\n", what, (unsigned)outcome.code, outcome.place,
            outcome.length);
    exit(1);
}

#define NULLS(call, ...) check_outcome(#call, call, __VA_ARGS__)

/* A slice of no bytes or words may be a null pointer, in each call and in each place. */
static void check_nulls(void) {
    static const char early[] = "end of input, at byte 0";
    const uint8_t message[] = {0, 2, 0, 0, 0, 0, 3, 1, 8};
    const uint64_t tape[] = {BSER_TRUE, 0};
    size_t len = sizeof message, line = sizeof early - 1;
    uint64_t words[2];
    uint8_t out[32];
    NULLS(bser_message_length(NULL, 0), BSER_NOT_WHOLE, 0, 0);
    NULLS(bser_tape(NULL, 0, NULL, 0), BSER_EARLY_END, 0, 0);
    NULLS(bser_tape(NULL, 0, words, 2), BSER_EARLY_END, 0, 0);
    NULLS(bser_tape(message, len, NULL, 0), BSER_TOO_SMALL, 0, 2);
    NULLS(bser_of_tape(NULL, 0, NULL, 0, NULL, 0), BSER_TOO_SMALL, 0, len - 1);
    NULLS(bser_of_tape(NULL, 0, NULL, 0, out, len), BSER_TAPE_INVALID, 0, 0);
    NULLS(bser_of_tape(tape, 2, NULL, 0, NULL, 0), BSER_TOO_SMALL, 0, len);
    NULLS(bser_of_tape(tape, 2, NULL, 0, out, len), BSER_OK, 0, len);
    rewrite *const calls_of[] = {bser_canonical, bser_compact};
    for (size_t i = 0; i < 2; i++) {
        NULLS(calls_of[i](NULL, 0, NULL, 0), BSER_EARLY_END, 0, 0);
        NULLS(calls_of[i](NULL, 0, out, len), BSER_EARLY_END, 0, 0);
        NULLS(calls_of[i](message, len, NULL, 0), BSER_TOO_SMALL, 0, len);
    }
    NULLS(bser_describe(NULL, 0, NULL, 0), BSER_TOO_SMALL, 0, line);
    NULLS(bser_describe(NULL, 0, out, sizeof out), BSER_OK, 0, line);
    NULLS(bser_describe(message, len, NULL, 0), BSER_OK, 0, 0);
}

/* What follows a head is not looked at, for an error and its place neither. */
static void check_heads(void) {
    static const uint8_t great[][24] = {
        {0, 2, 0, 0, 0, 0, 6, 0xff, 0xff, 0xff, 0xff, 0xff, 0xff, 0xff, 0x7f, 0x0e},
        {0, 2, 0, 0, 0, 0, 6, 0xff, 0xff, 0xff, 0xff, 0xff, 0xff, 0xff, 0x7f, 0x0a},
        {0, 2, 0, 0, 0, 0, 6, 0xff, 0xff, 0xff, 0xff, 0xff, 0xff, 0xff, 0x7f, 6, 0, 0, 0, 0, 0, 0, 0, 0x80}};
    static const uint8_t magic[] = {'{', '}'}, tag[] = {0, 2, 0, 0, 0, 0, 0x0d};
    static const uint8_t negative[] = {0, 2, 0, 0, 0, 0, 4, 0xff, 0xff};
    for (size_t i = 0; i < sizeof great / sizeof *great; i++)
        for (size_t len = 15; len <= sizeof *great; len++)
            check_outcome("too great", bser_message_length(great[i], len), BSER_COUNT_TOO_GREAT, 15, 0);
    check_outcome("magic", bser_message_length(magic, sizeof magic), BSER_BAD_MAGIC, 2, 0);
    check_outcome("tag", bser_message_length(tag, sizeof tag), BSER_BAD_LENGTH_TAG, 6, 0);
    check_outcome("negative", bser_message_length(negative, sizeof negative), BSER_NEGATIVE_LENGTH, 9, 0);
}

/* Writes into no room, and then into just what is wanted. The memory is the caller's. */
static uint8_t *rewritten(rewrite *call, const uint8_t *bytes, size_t len, bser_outcome *done) {
    uint8_t *out = fresh(0);
    *done = call(bytes, len, out, 0);
    calls++;
    if (done->code == BSER_TOO_SMALL) {
        size_t wanted = done->length;
        free(out);
        if (wanted > 1 << 26) return NULL;
        if (wanted > 0) {
            out = fresh(wanted - 1);
            *done = call(bytes, len, out, wanted - 1);
            CHECK(done->code == BSER_TOO_SMALL && done->length == wanted);
            free(out);
        }
        out = fresh(wanted);
        *done = call(bytes, len, out, wanted);
        calls += 2;
        CHECK(done->code == BSER_OK && done->length == wanted);
    }
    return out;
}

static uint64_t *tape_of(const uint8_t *bytes, size_t len, bser_outcome *found) {
    uint64_t *words = fresh(0);
    *found = bser_tape(bytes, len, words, 0);
    calls++;
    if (found->code == BSER_TOO_SMALL) {
        size_t wanted = found->length;
        CHECK(wanted <= 2 * len);
        free(words);
        words = fresh(wanted * sizeof *words);
        *found = bser_tape(bytes, len, words, wanted);
        calls++;
        CHECK(found->code == BSER_OK && found->length == wanted);
    }
    return words;
}

/* Each string lies in the message. */
static void check_places(const uint8_t *bytes, size_t len, const uint64_t *words, bser_outcome found) {
    CHECK(found.place <= len && found.length % 2 == 0);
    for (size_t i = 0; i < found.length; i += 2) {
        unsigned tag = bser_tag_of(words[i]);
        size_t extent = 0;
        if (tag == BSER_INT || tag == BSER_REAL) continue;
        if (tag == BSER_BYTES || tag == BSER_TEXT || tag == BSER_KEY || tag == BSER_BYTES_KEY)
            extent = (size_t)bser_count_of(words[i]);
        CHECK(words[i + 1] <= found.place && extent <= found.place - words[i + 1]);
    }
    CHECK(bser_after(words, 0) == found.length);
}

/* The message of the tape has the same canonical message, and its tape has the same first words. */
static void check_back(const uint8_t *bytes, size_t len, const uint64_t *words, bser_outcome found) {
    uint8_t *none = fresh(0);
    bser_outcome back = bser_of_tape(words, found.length, bytes, len, none, 0);
    free(none);
    CHECK(back.code == BSER_TOO_SMALL);
    uint8_t *out = fresh(back.length);
    back = bser_of_tape(words, found.length, bytes, len, out, back.length);
    CHECK(back.code == BSER_OK);
    bser_outcome again, first, second;
    uint64_t *others = tape_of(out, back.length, &again);
    CHECK(again.code == BSER_OK && again.length == found.length && again.detail == 0);
    for (size_t i = 0; i < found.length; i += 2) CHECK(words[i] == others[i]);
    uint8_t *one = rewritten(bser_canonical, bytes, len, &first);
    uint8_t *two = rewritten(bser_canonical, out, back.length, &second);
    CHECK(first.code == second.code && first.length == second.length);
    if (one != NULL && two != NULL) CHECK(memcmp(one, two, first.length) == 0);
    calls += 2;
    free(one);
    free(two);
    free(others);
    free(out);
}

/* A tape with a wrong word has a message or none, and nothing else comes of it. */
static void check_wrong_tape(const uint8_t *bytes, size_t len, uint64_t *words, size_t count, uint64_t seed) {
    uint8_t *out = fresh(4 * len);
    uint64_t old = words[seed % count];
    words[seed % count] = seed % 3 == 0 ? seed : seed % 3 == 1 ? old ^ (seed >> 40 & 0xff) : old + 256;
    bser_outcome back = bser_of_tape(words, count - (seed >> 20 & 1), bytes, len, out, 4 * len);
    CHECK(back.code <= BSER_TAPE_INVALID && back.code != BSER_NOT_WHOLE);
    CHECK(back.code != BSER_TAPE_INVALID || back.place <= count);
    words[seed % count] = old;
    calls++;
    free(out);
}

static void check(const uint8_t *given, size_t len, uint64_t seed) {
    uint8_t *bytes = fresh(len);
    memcpy(bytes, given, len);
    bser_outcome found, line, compact, canonical;
    bser_outcome whole = bser_message_length(bytes, len);
    uint64_t *words = tape_of(bytes, len, &found);
    uint8_t *text = rewritten(bser_describe, bytes, len, &line);
    CHECK(found.code != BSER_CONTRADICTION);
    CHECK((found.code == BSER_OK) == (line.code == BSER_OK && line.length == 0));
    if (found.code == BSER_OK) {
        told++;
        CHECK(whole.code == BSER_OK && whole.length == found.place);
        check_places(bytes, len, words, found);
        check_back(bytes, len, words, found);
        check_wrong_tape(bytes, len, words, found.length, seed);
        uint8_t *small = rewritten(bser_compact, bytes, len, &compact);
        CHECK(compact.code == BSER_OK && compact.length <= found.place);
        free(small);
    } else {
        refused++;
        CHECK(found.place <= len);
        free(rewritten(bser_canonical, bytes, len, &canonical));
        CHECK(canonical.code == found.code && canonical.place == found.place);
    }
    calls++;
    free(text);
    free(words);
    free(bytes);
}

static uint64_t state = 88172645463325252u;

static uint64_t next(void) {
    state ^= state << 13;
    state ^= state >> 7;
    state ^= state << 17;
    return state;
}

/* A message with some bytes changed, or cut, or with a piece of another message. */
static void check_mutation(void) {
    message of = messages[next() % message_count], other = messages[next() % message_count];
    if (of.len > 20000) of.len = 20000;
    uint8_t *bytes = fresh(of.len + 16);
    memcpy(bytes, of.bytes, of.len);
    size_t len = of.len;
    for (uint64_t n = 1 + next() % 3; n != 0 && len != 0; n--) {
        size_t at = next() % 4 == 0 ? next() % len : 8 % len + next() % (len - 8 % len);
        switch (next() % 6) {
        case 0: bytes[at] = (uint8_t)next(); break;
        case 1: bytes[at] = (uint8_t)(next() % 15); break;
        case 2: bytes[at] ^= (uint8_t)(1u << next() % 8); break;
        case 3: len = at; break;
        case 4:
            memmove(bytes + at, bytes + at + 1, len - at - 1);
            len--;
            break;
        default:
            for (size_t i = 0; at + i < len && i < other.len && i < 8; i++) bytes[at + i] = other.bytes[other.len - 1 - i];
        }
    }
    check(bytes, len, next());
    free(bytes);
}

/* Checks each message, from the one that is given on. */
static void *check_from(void *first) {
    size_t at = (size_t)((message *)first - messages);
    for (size_t i = 0; i < message_count; i++) {
        const message *of = &messages[(at + i) % message_count];
        check(of->bytes, of->len, i);
    }
    return NULL;
}

static void check_threads(void) {
    pthread_t threads[THREADS];
    for (size_t i = 0; i < THREADS; i++)
        if (pthread_create(&threads[i], NULL, check_from, &messages[i * message_count / THREADS]) != 0) exit(2);
    for (size_t i = 0; i < THREADS; i++) pthread_join(threads[i], NULL);
}

static void add(uint8_t *bytes, size_t len) {
    if (message_count == MOST_MESSAGES) exit(2);
    messages[message_count].bytes = bytes;
    messages[message_count++].len = len;
}

/* Lines whose second column is a message. */
static void read_lines(FILE *file) {
    static char line[1 << 20];
    while (fgets(line, sizeof line, file) != NULL) {
        char *hex = strchr(line, '\t');
        if (hex == NULL) continue;
        size_t digits = strspn(++hex, "0123456789abcdef");
        uint8_t *bytes = fresh(digits / 2);
        for (size_t i = 0; i < digits / 2; i++) {
            char two[3] = {hex[2 * i], hex[2 * i + 1], 0};
            bytes[i] = (uint8_t)strtoul(two, NULL, 16);
        }
        add(bytes, digits / 2);
    }
}

static void read_file(const char *name) {
    size_t named = strlen(name);
    FILE *file = strcmp(name, "-") == 0 ? stdin : fopen(name, "rb");
    if (file == NULL) exit(2);
    if (file == stdin || (named > 4 && strcmp(name + named - 4, ".tsv") == 0)) {
        read_lines(file);
    } else {
        fseek(file, 0, SEEK_END);
        size_t len = (size_t)ftell(file);
        rewind(file);
        uint8_t *all = fresh(len);
        if (fread(all, 1, len, file) != len) exit(2);
        add(all, len);
    }
    fclose(file);
}

int main(int argc, char **argv) {
    if (argc < 3 || bser_abi_version() != BSER_ABI_VERSION) return 2;
    for (int i = 2; i < argc; i++) read_file(argv[i]);
    check_nulls();
    check_heads();
    check_threads();
    for (size_t i = 0; i < message_count; i++) check(messages[i].bytes, messages[i].len, next());
    unsigned long mutations = strtoul(argv[1], NULL, 10);
    for (unsigned long i = 0; i < mutations; i++) check_mutation();
    printf("%lu messages, %lu mutations: %lu read, %lu refused, %lu calls\n",
           (unsigned long)message_count, mutations, told, refused, calls);
    for (size_t i = 0; i < message_count; i++) free(messages[i].bytes);
    return 0;
}
