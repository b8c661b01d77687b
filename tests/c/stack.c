/*
 * The stack that the functions of include/jsonb.h take: no more than the header says, on records of 64 levels, the deepest there
 * are, and of 8, the deepest that a flight edit takes. A call runs on a thread whose stack is painted beforehand; what is painted
 * over, less what a thread that calls nothing paints over, is the call's. The most of each function is printed, and the program
 * fails where it is above the header's figure.
 */
#define _XOPEN_SOURCE 700

#include <pthread.h>
#include <stdint.h>
#include <stdio.h>
#include <stdlib.h>
#include <string.h>

#include "jsonb.h"

#define LEVELS 64
#define FLIGHT_LEVELS 8
#define PAINT 0xA5
#define STACK (256 * 1024)

/* The header's figures. */
#define DELETE_MOST 61900
#define STRIP_MOST 33100
#define OTHERS_MOST 20000

static uint8_t stack[STACK] __attribute__((aligned(4096)));

/* The record, the path and the JSON Pointer of the call, and its buffer. */
static uint8_t record[JSONB_ROOM], path[JSONB_ROOM], pointer[JSONB_ROOM], out[JSONB_ROOM];
static size_t record_length, path_length, pointer_length, out_length;

/* ---- records */

/*
 * What a level is: an array of one item; an array with an item before and behind; an object whose names rise, whose names fall, or
 * one of whose names is not ASCII. The item at index 0 or 1, or the member "k", holds the level below.
 */
static const char kinds[] = "asrue";

/* Those of them that a flight record has: in the others names do not rise. */
static const char flight_kinds[] = "asr";

static void put_word(uint8_t *to, uint32_t word) {
    to[0] = (uint8_t)(word >> 24);
    to[1] = (uint8_t)(word >> 16);
    to[2] = (uint8_t)(word >> 8);
    to[3] = (uint8_t)word;
}

/* Puts bytes before those that `record` holds. */
static void put_front(const char *front, size_t length) {
    memmove(record + length, record, record_length);
    memcpy(record, front, length);
    record_length += length;
}

/* One level more, around what `record` holds: a payload with this type code. */
static void put_level(char kind, uint32_t code) {
    uint8_t word[4];
    char front[40];
    put_word(word, code << 28 | (uint32_t)record_length);
    switch (kind) {
    case 'a':
        memcpy(front, "\x80\0\0\1", 4);
        memcpy(front + 4, word, 4);
        put_front(front, 8);
        break;
    case 's':
        memcpy(front, "\x80\0\0\3\0\0\0\0", 8);
        memcpy(front + 8, word, 4);
        memcpy(front + 12, "\x40\0\0\0", 4);
        put_front(front, 16);
        break;
    case 'r':
        memcpy(front, "\x40\0\0\3\x10\0\0\1\x10\0\0\1\x10\0\0\1\0\0\0\0", 20);
        memcpy(front + 20, word, 4);
        memcpy(front + 24, "\x40\0\0\0akz", 7);
        put_front(front, 31);
        break;
    case 'u':
        memcpy(front, "\x40\0\0\3\x10\0\0\1\x10\0\0\1\x10\0\0\1\x40\0\0\0", 20);
        memcpy(front + 20, word, 4);
        memcpy(front + 24, "\0\0\0\0zka", 7);
        put_front(front, 31);
        break;
    default:
        memcpy(front, "\x40\0\0\2\x10\0\0\2\x10\0\0\1\x40\0\0\0", 16);
        memcpy(front + 16, word, 4);
        memcpy(front + 20, "\xc3\xa9k", 3);
        put_front(front, 23);
        break;
    }
}

/* So many levels, all of one kind but the innermost, of another, around a text; and the path and the pointer that lead to it. */
static void make(int levels, char outer, char inner, const char *text) {
    int level;
    record_length = strlen(text);
    memcpy(record, text, record_length);
    put_level(inner, 1);
    put_word(path, 0x80000000u | (uint32_t)levels);
    path_length = 4 + 4 * (size_t)levels;
    pointer_length = 2 * (size_t)levels;
    for (level = 0; level < levels; level++) {
        char kind = level + 1 == levels ? inner : outer;
        int is_name = kind != 'a' && kind != 's';
        const char *step = is_name ? "k" : kind == 'a' ? "\0" : "\x50\1";
        size_t length = kind == 's' ? 2 : 1;
        put_word(path + 4 + 4 * level, (is_name ? 0x10000000u : 0x20000000u) | (uint32_t)length);
        memcpy(path + path_length, step, length);
        path_length += length;
        pointer[2 * level] = '/';
        pointer[2 * level + 1] = is_name ? 'k' : kind == 'a' ? '0' : '1';
    }
    for (level = 1; level < levels; level++) {
        put_level(outer, 5);
    }
}

/* ---- calls */

static void nothing(void) {}
static void check(void) { jsonb_check(record, record_length); }
static void check_text(void) { jsonb_check_text(pointer, pointer_length); }
static void get(void) { jsonb_get_by_keypath(record, record_length, path, path_length, out, out_length); }
static void point(void) { jsonb_get_by_pointer(record, record_length, pointer, pointer_length, out, out_length); }
static void delete(void) { jsonb_delete_by_keypath(record, record_length, path, path_length, out, out_length); }
static void concat(void) { jsonb_concat(record, record_length, record, record_length, out, out_length); }
static void strip(void) { jsonb_strip_nulls(record, record_length, out, out_length); }
static void append(void) { jsonb_append(path, path_length, record, record_length, out, out_length); }
static void build(void) { jsonb_build_object(record, record_length, record, record_length, out, out_length); }
static void preview_delete(void) { jsonb_preview_delete(record, record_length, path, path_length); }
static void preview_concat(void) { jsonb_preview_concat(record, record_length, record, record_length); }
static void preview_strip(void) { jsonb_preview_strip(record, record_length); }
static void preview_append(void) { jsonb_preview_append(path, path_length, record, record_length); }
static void preview_build(void) { jsonb_preview_build(record, record_length, record, record_length); }
static void flight_check(void) { jsonb_flight_check(record, record_length); }
static void flight_delete(void) { jsonb_flight_delete(record, record_length, path, path_length, out, out_length); }
static void flight_concat(void) { jsonb_flight_concat(record, record_length, record, record_length, out, out_length); }
static void flight_join(void) { jsonb_flight_concat(record, record_length, path, path_length, out, out_length); }
static void flight_strip(void) { jsonb_flight_strip(record, record_length, out, out_length); }

typedef struct {
    const char *name;
    void (*call)(void);
    size_t figure;
    size_t most;
} Function;

static Function functions[] = {
    {"check", check, OTHERS_MOST, 0},
    {"text check", check_text, OTHERS_MOST, 0},
    {"get", get, OTHERS_MOST, 0},
    {"get by a pointer", point, OTHERS_MOST, 0},
    {"delete", delete, DELETE_MOST, 0},
    {"concat", concat, OTHERS_MOST, 0},
    {"strip", strip, STRIP_MOST, 0},
    {"append", append, OTHERS_MOST, 0},
    {"build", build, OTHERS_MOST, 0},
    {"preview of delete", preview_delete, DELETE_MOST, 0},
    {"preview of concat", preview_concat, OTHERS_MOST, 0},
    {"preview of strip", preview_strip, STRIP_MOST, 0},
    {"preview of append", preview_append, OTHERS_MOST, 0},
    {"preview of build", preview_build, OTHERS_MOST, 0},
    {"flight check", flight_check, OTHERS_MOST, 0},
    {"flight delete", flight_delete, OTHERS_MOST, 0},
    {"flight concat", flight_concat, OTHERS_MOST, 0},
    {"flight concat with an array", flight_join, OTHERS_MOST, 0},
    {"flight strip", flight_strip, OTHERS_MOST, 0},
};

#define FUNCTIONS (sizeof functions / sizeof functions[0])

static void *run(void *function) {
    (*(void (**)(void))function)();
    return NULL;
}

/* How much of the stack a call paints over. */
static size_t painted(void (*call)(void)) {
    pthread_attr_t attributes;
    pthread_t thread;
    size_t clean = 0;
    memset(stack, PAINT, STACK);
    if (pthread_attr_init(&attributes) || pthread_attr_setstack(&attributes, stack, STACK) ||
        pthread_create(&thread, &attributes, run, &call) || pthread_join(thread, NULL)) {
        printf("no thread on a stack of %d bytes\n", STACK);
        exit(2);
    }
    pthread_attr_destroy(&attributes);
    while (clean < STACK && stack[clean] == PAINT) {
        clean++;
    }
    return STACK - clean;
}

/* Every function on the record at hand, with a buffer that serves and with one that is a byte too short for the record. */
static void measure(size_t start) {
    size_t lengths[2];
    size_t i, j;
    lengths[0] = JSONB_ROOM;
    lengths[1] = record_length - 1;
    for (i = 0; i < FUNCTIONS; i++) {
        for (j = 0; j < 2; j++) {
            size_t used;
            out_length = lengths[j];
            used = painted(functions[i].call) - start;
            if (used > functions[i].most) {
                functions[i].most = used;
            }
        }
    }
}

/* The calls on records of so many levels, and on the same with a text that is none. Gives how many are not what they should be. */
static int run_all(int levels, char outer, char inner, size_t start) {
    int is_flight = levels <= FLIGHT_LEVELS && strchr(flight_kinds, outer) && strchr(flight_kinds, inner);
    int wrong = 0;
    make(levels, outer, inner, "\xc3\xa9");
    if (jsonb_check(record, record_length) != JSONB_READABLE) {
        printf("wrong: a record of %d levels that is made here is not readable\n", levels);
        wrong++;
    }
    if (jsonb_flight_check(record, record_length) != (is_flight ? JSONB_READABLE : JSONB_PROFILE)) {
        printf("wrong: a record of %d levels that is made here is %s flight record\n", levels, is_flight ? "no" : "a");
        wrong++;
    }
    out_length = JSONB_ROOM;
    if (jsonb_get_by_keypath(record, record_length, path, path_length, out, out_length) != 10) {
        printf("wrong: a path that is made here does not lead to the innermost text\n");
        wrong++;
    }
    if (jsonb_get_by_pointer(record, record_length, pointer, pointer_length, out, out_length) != 10) {
        printf("wrong: a pointer that is made here does not lead to the innermost text\n");
        wrong++;
    }
    measure(start);
    make(levels, outer, inner, "\xff");
    measure(start);
    return wrong;
}

int main(void) {
    size_t start = painted(nothing);
    int wrong = 0;
    size_t i;
    const char *outer, *inner;
    for (outer = kinds; *outer; outer++) {
        for (inner = kinds; *inner; inner++) {
            wrong += run_all(LEVELS, *outer, *inner, start);
            wrong += run_all(FLIGHT_LEVELS, *outer, *inner, start);
        }
    }
    for (i = 0; i < FUNCTIONS; i++) {
        printf("%s takes %zu bytes of stack\n", functions[i].name, functions[i].most);
        if (functions[i].most > functions[i].figure) {
            printf("wrong: %s takes more than the header's %zu\n", functions[i].name, functions[i].figure);
            wrong++;
        }
    }
    return wrong != 0;
}
