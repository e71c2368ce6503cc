/* Prints the message on standard input as JSON on one line. A byte string is printed as a text, with
 * a replacement character for each byte that is no UTF-8. */
#include "bser.h"

#include <inttypes.h>
#include <stdio.h>
#include <stdlib.h>
#include <string.h>

typedef struct {
    const uint8_t *bytes;
    const uint64_t *words;
    size_t at;
} walk;

/* How many bytes the character of UTF-8 has that begins here, and 0 where none does. */
static size_t character(const uint8_t *s, size_t len) {
    size_t n = s[0] < 0x80 ? 1 : s[0] < 0xc2 ? 0 : s[0] < 0xe0 ? 2 : s[0] < 0xf0 ? 3 : s[0] < 0xf5 ? 4 : 0;
    if (n > len) return 0;
    for (size_t i = 1; i < n; i++)
        if ((s[i] & 0xc0) != 0x80) return 0;
    if (n == 3 && ((s[0] == 0xe0 && s[1] < 0xa0) || (s[0] == 0xed && s[1] > 0x9f))) return 0;
    if (n == 4 && ((s[0] == 0xf0 && s[1] < 0x90) || (s[0] == 0xf4 && s[1] > 0x8f))) return 0;
    return n;
}

static void print_string(const uint8_t *s, size_t len) {
    putchar('"');
    while (len != 0) {
        size_t n = character(s, len);
        if (n == 0) {
            fputs("\\ufffd", stdout);
            n = 1;
        } else if (s[0] == '"' || s[0] == '\\') {
            printf("\\%c", s[0]);
        } else if (s[0] < 0x20) {
            printf("\\u%04x", s[0]);
        } else {
            fwrite(s, 1, n, stdout);
        }
        s += n;
        len -= n;
    }
    putchar('"');
}

static void print_real(uint64_t bits) {
    double real;
    memcpy(&real, &bits, sizeof real);
    if (real - real == 0)
        printf("%.17g", real);
    else
        fputs("null", stdout);
}

static void print_value(walk *w);

/* Prints a key, which stands at `key`, and the next value as its own. */
static void print_entry(walk *w, size_t key) {
    print_string(w->bytes + w->words[key + 1], (size_t)bser_count_of(w->words[key]));
    putchar(':');
    print_value(w);
}

static void print_rows(walk *w, size_t keys) {
    size_t first = w->at;
    w->at += 2 * keys;
    uint64_t rows = bser_count_of(w->words[w->at]);
    w->at += 2;
    putchar('[');
    for (uint64_t row = 0; row < rows; row++) {
        const char *between = row == 0 ? "{" : ",{";
        fputs(between, stdout);
        int printed = 0;
        for (size_t key = 0; key < keys; key++) {
            if (bser_tag_of(w->words[w->at]) == BSER_SKIP) {
                w->at += 2;
                continue;
            }
            if (printed) putchar(',');
            printed = 1;
            print_entry(w, first + 2 * key);
        }
        putchar('}');
    }
    putchar(']');
    w->at += 2;
}

static void print_parts(walk *w, uint64_t count, int is_object) {
    putchar(is_object ? '{' : '[');
    for (uint64_t i = 0; i < count; i++) {
        if (i != 0) putchar(',');
        if (is_object) {
            w->at += 2;
            print_entry(w, w->at - 2);
        } else {
            print_value(w);
        }
    }
    putchar(is_object ? '}' : ']');
    w->at += 2;
}

static void print_value(walk *w) {
    uint64_t first = w->words[w->at], second = w->words[w->at + 1], count = bser_count_of(first);
    w->at += 2;
    switch (bser_tag_of(first)) {
    case BSER_NULL: fputs("null", stdout); break;
    case BSER_TRUE: fputs("true", stdout); break;
    case BSER_FALSE: fputs("false", stdout); break;
    case BSER_INT: printf("%" PRId64, (int64_t)second); break;
    case BSER_REAL: print_real(second); break;
    case BSER_BYTES:
    case BSER_TEXT: print_string(w->bytes + second, (size_t)count); break;
    case BSER_ARRAY: print_parts(w, count, 0); break;
    case BSER_OBJECT: print_parts(w, count, 1); break;
    case BSER_TEMPLATE: print_rows(w, (size_t)count); break;
    default: break;
    }
}

/* All of the file, and its length. */
static uint8_t *read_all(FILE *file, size_t *len) {
    size_t room = 4096, have = 0, got;
    uint8_t *bytes = malloc(room);
    while (bytes != NULL && (got = fread(bytes + have, 1, room - have, file)) != 0) {
        have += got;
        if (have == room) {
            uint8_t *more = realloc(bytes, room *= 2);
            if (more == NULL) free(bytes);
            bytes = more;
        }
    }
    *len = have;
    return bytes;
}

int main(void) {
    size_t len, room;
    uint8_t *bytes = read_all(stdin, &len);
    if (bytes == NULL) return 2;
    uint64_t *words = NULL;
    bser_outcome found = {BSER_TOO_SMALL, 0, 0, len / 2 + 16};
    while (found.code == BSER_TOO_SMALL) {
        room = found.length;
        free(words);
        words = malloc(room * sizeof *words);
        if (words == NULL) return 2;
        found = bser_tape(bytes, len, words, room);
    }
    if (found.code == BSER_OK) {
        walk w = {bytes, words, 0};
        print_value(&w);
        putchar('\n');
    } else {
        char line[1024];
        bser_outcome why = bser_describe(bytes, len, (uint8_t *)line, sizeof line);
        fprintf(stderr, "%.*s\n", why.code == BSER_OK ? (int)why.length : 0, line);
    }
    free(words);
    free(bytes);
    return found.code == BSER_OK ? 0 : 1;
}
