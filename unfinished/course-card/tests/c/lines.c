/*
 * The functions of include/jsonb.h on lines of standard input: a function's name, what it takes in hexadecimal, with - where that has
 * no bytes, and behind it the length of the buffer where it takes one, each with a space in front. The answer is a line: `result HEX`,
 * `done N` of a function without a buffer, `absent` or `refused N`. Beside the answer every byte of the buffer is looked at: those
 * behind a result, and all where there is none, must be as they were. tests/card puts the recorded calls to it.
 */
#include <stdint.h>
#include <stdio.h>
#include <stdlib.h>
#include <string.h>

#include "jsonb.h"

/* Room for what a line has: a pointer may be longer than any record. */
#define ROOM (1 << 20)
#define WORD 64

/* What a buffer is filled with before a call. */
#define FILL 0xA5

typedef struct {
    uint8_t bytes[ROOM];
    size_t length;
} Bytes;

typedef uint64_t One(const uint8_t *, size_t);
typedef uint64_t OneInto(const uint8_t *, size_t, uint8_t *, size_t);
typedef uint64_t Two(const uint8_t *, size_t, const uint8_t *, size_t);
typedef uint64_t TwoInto(const uint8_t *, size_t, const uint8_t *, size_t, uint8_t *, size_t);

/* A function by what it takes: one of the four is there. */
typedef struct {
    const char *name;
    One *one;
    OneInto *one_into;
    Two *two;
    TwoInto *two_into;
} Function;

#define ONE(name) {#name, name, NULL, NULL, NULL}
#define ONE_INTO(name) {#name, NULL, name, NULL, NULL}
#define TWO(name) {#name, NULL, NULL, name, NULL}
#define TWO_INTO(name) {#name, NULL, NULL, NULL, name}

static const Function functions[] = {
    ONE(jsonb_check),
    ONE(jsonb_check_text),
    ONE(jsonb_flight_check),
    ONE(jsonb_preview_strip),
    ONE_INTO(jsonb_strip_nulls),
    ONE_INTO(jsonb_flight_strip),
    TWO(jsonb_preview_delete),
    TWO(jsonb_preview_concat),
    TWO(jsonb_preview_append),
    TWO(jsonb_preview_build),
    TWO_INTO(jsonb_get_by_keypath),
    TWO_INTO(jsonb_get_by_pointer),
    TWO_INTO(jsonb_delete_by_keypath),
    TWO_INTO(jsonb_concat),
    TWO_INTO(jsonb_append),
    TWO_INTO(jsonb_build_object),
    TWO_INTO(jsonb_flight_delete),
    TWO_INTO(jsonb_flight_concat),
};

static Bytes first, second, out;

static void stop(const char *why, const char *what) {
    fprintf(stderr, "%s %s\n", why, what);
    exit(1);
}

/* The next word of the line, without the space or the line's end behind it; whether there is one. */
static int take_word(char *word) {
    size_t n = 0;
    int c = getchar();
    while (c != ' ' && c != '\n' && c != EOF) {
        if (n + 1 == WORD)
            stop("a word is too long", "");
        word[n++] = (char)c;
        c = getchar();
    }
    word[n] = '\0';
    return n > 0;
}

static int digit(int c) {
    static const char digits[] = "0123456789abcdef";
    const char *at = c > 0 ? strchr(digits, c) : NULL;
    if (at == NULL)
        stop("this is no digit of a lower-case hexadecimal number", "");
    return (int)(at - digits);
}

/* What stands in hexadecimal next, with the space or the line's end behind it. */
static void take_bytes(Bytes *bytes) {
    int c = getchar();
    bytes->length = 0;
    if (c == '-') {
        getchar();
        return;
    }
    while (c != ' ' && c != '\n') {
        if (bytes->length == ROOM)
            stop("what the line has is too long", "");
        bytes->bytes[bytes->length] = (uint8_t)(digit(c) * 16);
        bytes->bytes[bytes->length++] += (uint8_t)digit(getchar());
        c = getchar();
    }
}

static void take_buffer(void) {
    char word[WORD];
    take_word(word);
    out.length = (size_t)strtoul(word, NULL, 10);
    if (out.length > ROOM)
        stop("the buffer is too long", word);
    memset(out.bytes, FILL, out.length);
}

/* Whether the buffer is as it was from a place on. */
static int is_kept(size_t from) {
    size_t i;
    for (i = from; i < out.length; i++)
        if (out.bytes[i] != FILL)
            return 0;
    return 1;
}

static void say_result(size_t length) {
    size_t i;
    printf("result ");
    for (i = 0; i < length; i++)
        printf("%02x", (unsigned)out.bytes[i]);
    printf("\n");
}

static void say(uint64_t answer, int has_buffer, const char *name) {
    size_t written = has_buffer && JSONB_IS_DONE(answer) ? (size_t)answer : 0;
    if (has_buffer && (written > out.length || !is_kept(written)))
        stop("a byte was changed that is not the result's, by", name);
    if (answer == JSONB_ABSENT)
        printf("absent\n");
    else if (!JSONB_IS_DONE(answer))
        printf("refused %d\n", JSONB_NUMBER_OF(answer));
    else if (has_buffer)
        say_result(written);
    else
        printf("done %llu\n", (unsigned long long)answer);
}

static void call(const Function *f) {
    int has_second = f->two != NULL || f->two_into != NULL;
    int has_buffer = f->one_into != NULL || f->two_into != NULL;
    uint64_t answer;
    take_bytes(&first);
    if (has_second)
        take_bytes(&second);
    if (has_buffer)
        take_buffer();
    if (f->one != NULL)
        answer = f->one(first.bytes, first.length);
    else if (f->one_into != NULL)
        answer = f->one_into(first.bytes, first.length, out.bytes, out.length);
    else if (f->two != NULL)
        answer = f->two(first.bytes, first.length, second.bytes, second.length);
    else
        answer = f->two_into(first.bytes, first.length, second.bytes, second.length, out.bytes, out.length);
    say(answer, has_buffer, f->name);
}

static const Function *find(const char *name) {
    size_t i;
    for (i = 0; i < sizeof functions / sizeof functions[0]; i++)
        if (strcmp(functions[i].name, name) == 0)
            return &functions[i];
    stop("there is no function", name);
    return NULL;
}

int main(void) {
    char word[WORD];
    while (take_word(word))
        call(find(word));
    return 0;
}
