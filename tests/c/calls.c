/*
 * The functions of include/jsonb.h as a C program calls them, on the worked bytes of document 01 and on the limits that it names,
 * and on the pointers, the texts, the previews and the flight records of document 02 §1, §2, §3 and §5. The expectations are taken
 * from these documents by hand. A line is printed for each that does not hold, and at the end how many did.
 */
#include <stdint.h>
#include <stdio.h>
#include <string.h>

#include "jsonb.h"

/* Room for a record of one byte too many, and the bytes watched before and behind a buffer. */
#define ROOM (JSONB_ROOM + 1)
#define WATCHED 16

/* What a buffer is filled with before a call. */
#define FILL 0xA5

/* Some of document 01's records: A is {"a":1}, D has the name "a" twice, with null and true. */
#define A "40000001 10000001 20000002 61 5001"
#define D "40000002 10000001 10000001 00000000 40000000 61 61"
#define EMPTY_OBJECT "40000000"
#define EMPTY_ARRAY "80000000"
#define NULL_A "40000001 10000001 00000000 61"
#define TRUE_A "40000001 10000001 40000000 61"
#define TRUE_B "40000001 10000001 40000000 62"
#define A_AND_TRUE_B "40000002 10000001 10000001 20000002 40000000 61 62 5001"
#define NULLS "80000001 00000000"
#define TWO_NULLS "80000002 00000000 00000000"
#define ROOT_NULL "20000000 00000000"
#define ROOT_STRING "20000000 10000001 61"
#define ROOT_EXTENSION "20000000 60000001 AB"

/* Paths: the names "a" and "b", and the indexes 0, 1, -1 and -2. */
#define NAME_A "80000001 10000001 61"
#define NAME_B "80000001 10000001 62"
#define INDEX_0 "80000001 20000001 00"
#define INDEX_1 "80000001 20000002 5001"
#define INDEX_LAST "80000001 20000002 40FF"
#define INDEX_BEFORE "80000001 20000002 40FE"
#define NO_STEPS "80000000"

/* So many times the same bytes. */
#define TIMES_8(bytes) bytes bytes bytes bytes bytes bytes bytes bytes
#define TIMES_32(bytes) TIMES_8(bytes) TIMES_8(bytes) TIMES_8(bytes) TIMES_8(bytes)

/* A text as bytes: those before its last 0, so that a 0 may stand among them. */
#define TEXT(text) (text), sizeof(text) - 1

typedef struct {
    uint8_t bytes[ROOM];
    size_t length;
} Record;

typedef uint64_t Edit(const uint8_t *left, size_t left_length, const uint8_t *right, size_t right_length, uint8_t *out,
                      size_t out_length);

typedef uint64_t Preview(const uint8_t *left, size_t left_length, const uint8_t *right, size_t right_length);

static int right = 0;
static int wrong = 0;

static void expect(int holds, const char *what, const char *how) {
    if (holds) {
        right++;
    } else {
        wrong++;
        printf("wrong: %s: %s\n", what, how);
    }
}

static int digit(char c) {
    static const char digits[] = "0123456789ABCDEF";
    const char *at = strchr(digits, c);
    return (int)(at - digits);
}

/* The bytes that a text spells, in groups or not. */
static void spell(const char *text, Record *record) {
    record->length = 0;
    while (*text != '\0') {
        if (*text == ' ') {
            text++;
        } else {
            record->bytes[record->length++] = (uint8_t)(digit(text[0]) * 16 + digit(text[1]));
            text += 2;
        }
    }
}

static void store(uint8_t *at, uint32_t word) {
    at[0] = (uint8_t)(word >> 24);
    at[1] = (uint8_t)(word >> 16);
    at[2] = (uint8_t)(word >> 8);
    at[3] = (uint8_t)word;
}

/* Puts a container into so many arrays, one in another. */
static void wrap_in_arrays(uint32_t arrays, Record *record) {
    uint32_t i;
    for (i = 0; i < arrays; i++) {
        memmove(record->bytes + 8, record->bytes, record->length);
        store(record->bytes, 0x80000001);
        store(record->bytes + 4, 0x50000000 + (uint32_t)record->length);
        record->length += 8;
    }
}

/* Puts a container into so many objects, one in another, as the value of a name. */
static void wrap_in_objects(uint32_t objects, const char *name, Record *record) {
    size_t length = strlen(name);
    uint32_t i;
    for (i = 0; i < objects; i++) {
        memmove(record->bytes + 12 + length, record->bytes, record->length);
        store(record->bytes, 0x40000001);
        store(record->bytes + 4, 0x10000000 + (uint32_t)length);
        store(record->bytes + 8, 0x50000000 + (uint32_t)record->length);
        memcpy(record->bytes + 12, name, length);
        record->length += 12 + length;
    }
}

/* So many arrays, one in another, the innermost of them empty; so many objects; and so many whose names a flight record may have. */
static void nest(uint32_t arrays, Record *record) {
    spell(EMPTY_ARRAY, record);
    wrap_in_arrays(arrays - 1, record);
}

static void nest_objects(uint32_t objects, Record *record) {
    spell(EMPTY_OBJECT, record);
    wrap_in_objects(objects - 1, "", record);
}

static void nest_flights(uint32_t objects, Record *record) {
    spell(EMPTY_OBJECT, record);
    wrap_in_objects(objects - 1, "a", record);
}

/* A path of so many steps, each the index 0. */
static void descend(uint32_t steps, Record *record) {
    uint32_t i;
    store(record->bytes, 0x80000000 + steps);
    for (i = 0; i < steps; i++) {
        store(record->bytes + 4 + 4 * i, 0x20000001);
        record->bytes[4 + 4 * steps + i] = 0;
    }
    record->length = 4 + 5 * steps;
}

/* A record of a length: the bytes that a text spells, and behind them zeros, whose number goes into the entry at a place. */
static void fill(const char *text, size_t entry, size_t length, Record *record) {
    spell(text, record);
    memset(record->bytes + record->length, 0, length - record->length);
    record->bytes[entry + 2] = (uint8_t)((length - record->length) >> 8);
    record->bytes[entry + 3] = (uint8_t)(length - record->length);
    record->length = length;
}

/* An extension, as a scalar record of a length; one that is the value of "a" in an object; and one name as a path. */
static void extend(size_t length, Record *record) {
    fill("20000000 60000000", 4, length, record);
}

static void extend_a(size_t length, Record *record) {
    fill("40000001 10000001 60000000 61", 8, length, record);
}

static void long_name(size_t length, Record *record) {
    fill("80000001 10000000", 4, length, record);
}

/* A pointer of so many tokens, each the index 0. */
static void point_at_0(size_t tokens, Record *record) {
    for (record->length = 0; record->length < 2 * tokens; record->length += 2) {
        memcpy(record->bytes + record->length, "/0", 2);
    }
}

static Record left_record, right_record, wanted, kept_left, kept_right;
static uint8_t lent[WATCHED + ROOM + WATCHED];
static uint8_t *const buffer = lent + WATCHED;

static int all_filled(const uint8_t *from, const uint8_t *to) {
    while (from < to) {
        if (*from++ != FILL) {
            return 0;
        }
    }
    return 1;
}

/* Strip and its preview as calls of two records, of which they take the first. */
static uint64_t strip(const uint8_t *left, size_t left_length, const uint8_t *right, size_t right_length, uint8_t *out,
                      size_t out_length) {
    (void)right;
    (void)right_length;
    return jsonb_strip_nulls(left, left_length, out, out_length);
}

static uint64_t preview_strip(const uint8_t *left, size_t left_length, const uint8_t *right, size_t right_length) {
    (void)right;
    (void)right_length;
    return jsonb_preview_strip(left, left_length);
}

/* The edits that have previews, and how often each was foretold. */
static struct {
    const char *name;
    Edit *edit;
    Preview *preview;
    int foretold;
} previews[] = {
    {"preview of delete", jsonb_delete_by_keypath, jsonb_preview_delete, 0},
    {"preview of concat", jsonb_concat, jsonb_preview_concat, 0},
    {"preview of strip", strip, preview_strip, 0},
    {"preview of append", jsonb_append, jsonb_preview_append, 0},
    {"preview of build", jsonb_build_object, jsonb_preview_build, 0},
};

#define PREVIEWS (sizeof previews / sizeof previews[0])

/* The preview of an edit of the two records above tells what the edit answers with room for every result. */
static void foretells(const char *what, Edit *edit, uint64_t answer) {
    size_t i;
    for (i = 0; i < PREVIEWS; i++) {
        if (previews[i].edit == edit) {
            uint64_t got = previews[i].preview(left_record.bytes, left_record.length, right_record.bytes, right_record.length);
            expect(got == answer, what, previews[i].name);
            previews[i].foretold++;
        }
    }
}

/*
 * An edit of the two records above with a buffer of a length: its answer, and the bytes of the buffer and of the records; and what
 * its preview tells, which changes none of them either.
 */
static void run(const char *what, Edit *edit, size_t room, uint64_t answer) {
    size_t n = JSONB_IS_DONE(answer) ? wanted.length : 0;
    uint64_t got;
    kept_left = left_record;
    kept_right = right_record;
    memset(lent, FILL, sizeof lent);
    got = edit(left_record.bytes, left_record.length, right_record.bytes, right_record.length, buffer, room);
    expect(got == answer, what, "the answer");
    if (room == JSONB_ROOM) {
        foretells(what, edit, answer);
    }
    expect(memcmp(buffer, wanted.bytes, n) == 0, what, "the result");
    expect(all_filled(buffer + n, lent + sizeof lent), what, "the bytes behind the result");
    expect(all_filled(lent, buffer), what, "the bytes before the buffer");
    expect(memcmp(&left_record, &kept_left, sizeof kept_left) == 0, what, "the left record's bytes");
    expect(memcmp(&right_record, &kept_right, sizeof kept_right) == 0, what, "the right record's bytes");
}

/* "A buffer of exactly the result's length serves; one byte less: 10"; and a longer one. */
static void gives_made(const char *what, Edit *edit) {
    run(what, edit, JSONB_ROOM, wanted.length);
    run(what, edit, wanted.length, wanted.length);
    run(what, edit, wanted.length - 1, JSONB_BUFFER);
    run(what, edit, 0, JSONB_BUFFER);
}

static void gives(const char *what, Edit *edit, const char *left, const char *right, const char *result) {
    spell(left, &left_record);
    spell(right, &right_record);
    spell(result, &wanted);
    gives_made(what, edit);
}

/* An absence, or a number that stands before 10, with and without room. */
static void ends_made(const char *what, Edit *edit, uint64_t answer) {
    run(what, edit, JSONB_ROOM, answer);
    run(what, edit, 0, answer);
}

static void ends(const char *what, Edit *edit, const char *left, const char *right, uint64_t answer) {
    spell(left, &left_record);
    spell(right, &right_record);
    ends_made(what, edit, answer);
}

static void checks(const char *record, uint64_t answer) {
    spell(record, &left_record);
    expect(jsonb_check(left_record.bytes, left_record.length) == answer, record, "the check");
}

static void checks_made(const char *what, uint64_t answer) {
    expect(jsonb_check(left_record.bytes, left_record.length) == answer, what, "the check");
}

static void test_numbers(void) {
    expect(JSONB_NUMBER_OF(JSONB_ABSENT) == 0, "an absence", "its number");
    expect(JSONB_NUMBER_OF(JSONB_SHORT) == 1, "short", "its number");
    expect(JSONB_NUMBER_OF(JSONB_LAYOUT) == 2, "layout", "its number");
    expect(JSONB_NUMBER_OF(JSONB_TEXT) == 3, "text", "its number");
    expect(JSONB_NUMBER_OF(JSONB_NUMBER) == 4, "number", "its number");
    expect(JSONB_NUMBER_OF(JSONB_LIMIT) == 5, "too long or deep", "its number");
    expect(JSONB_NUMBER_OF(JSONB_PATH) == 6, "path", "its number");
    expect(JSONB_NUMBER_OF(JSONB_KIND) == 7, "kind", "its number");
    expect(JSONB_NUMBER_OF(JSONB_REPEATED) == 8, "repeated name", "its number");
    expect(JSONB_NUMBER_OF(JSONB_RESULT) == 9, "result too long or deep", "its number");
    expect(JSONB_NUMBER_OF(JSONB_BUFFER) == 10, "buffer too short", "its number");
    expect(JSONB_NUMBER_OF(JSONB_POINTER) == 11, "pointer", "its number");
    expect(JSONB_NUMBER_OF(JSONB_PROFILE) == 12, "outside the flight profile", "its number");
}

static void test_check(void) {
    checks(A, JSONB_READABLE);
    checks(D, JSONB_READABLE);
    checks("", JSONB_SHORT);
    checks("400000", JSONB_SHORT);
    checks("80000001", JSONB_SHORT);
    checks("80000000 00", JSONB_LAYOUT);
    checks("80000001 70000000", JSONB_LAYOUT);
    checks("80000001 80000000", JSONB_LAYOUT);
    checks("20000000 10000001 FF", JSONB_TEXT);
    checks("20000000 20000001 01", JSONB_NUMBER);
    nest(64, &left_record);
    checks_made("depth 64", JSONB_READABLE);
    nest(65, &left_record);
    checks_made("depth 65", JSONB_LIMIT);
    extend(65536, &left_record);
    checks_made("65,536 bytes", JSONB_READABLE);
    extend(65537, &left_record);
    checks_made("65,537 bytes", JSONB_LIMIT);
}

static void counts(const char *text, uint64_t answer) {
    spell(text, &left_record);
    expect(jsonb_check_text(left_record.bytes, left_record.length) == answer, text, "the text check");
}

/* A text of so many times the same bytes. */
static void repeat(const char *text, size_t times) {
    size_t i;
    spell(text, &right_record);
    for (i = 0; i < times; i++) {
        memcpy(left_record.bytes + i * right_record.length, right_record.bytes, right_record.length);
    }
    left_record.length = times * right_record.length;
}

static void counts_made(const char *what, uint64_t answer) {
    expect(jsonb_check_text(left_record.bytes, left_record.length) == answer, what, "the text check");
}

static void test_text(void) {
    counts("", 0);
    counts("61", 1);
    counts("C3A9", 1);
    counts("E282AC", 1);
    counts("F09F9A80", 1);
    counts("61 C3A9 E282AC F09F9A80", 4);
    counts("61CC81", 2);
    counts("EFBBBF", 1);
    counts("00", 1);
    counts("7A6F6E6531", 5);
    counts("FF", JSONB_TEXT);
    counts("80", JSONB_TEXT);
    counts("C3", JSONB_TEXT);
    counts("C380C3", JSONB_TEXT);
    counts("C0AF", JSONB_TEXT);
    counts("EDA080", JSONB_TEXT);
    counts("F4908080", JSONB_TEXT);
    expect(JSONB_IS_DONE(jsonb_check_text(left_record.bytes, 0)) != 0, "no bytes", "done");
    repeat("61", ROOM);
    counts_made("65,537 bytes of ASCII", ROOM);
    repeat("F09F9A80", ROOM / 4);
    counts_made("16,384 characters of four bytes", ROOM / 4);
    left_record.length--;
    counts_made("16,384 characters, the last cut short", JSONB_TEXT);
}

/* The records that document 01 turns down, by their numbers, and one of another kind of damage to stand beside each. */
static const struct {
    const char *record;
    uint64_t answer;
    const char *other;
} damaged[] = {
    {"", JSONB_SHORT, "80000000 00"},
    {"400000", JSONB_SHORT, "80000000 00"},
    {"80000001", JSONB_SHORT, "20000000 10000001 FF"},
    {"80000000 00", JSONB_LAYOUT, "400000"},
    {"80000001 70000000", JSONB_LAYOUT, "20000000 10000001 FF"},
    {"80000001 80000000", JSONB_LAYOUT, "20000000 20000001 01"},
    {"20000000 10000001 FF", JSONB_TEXT, "80000001 70000000"},
    {"20000000 20000001 01", JSONB_NUMBER, "20000000 10000001 FF"},
};

/*
 * An edit with a damaged record: the left one's number, also beside a right one that is damaged in another way, and then the right
 * one's, or 6 where that is a path. Beside it on the left stands an object: what append and object build have 7 for comes later.
 */
static void refuses(const char *what, Edit *edit, int is_path) {
    size_t i;
    for (i = 0; i < sizeof damaged / sizeof damaged[0]; i++) {
        ends(what, edit, damaged[i].record, NAME_A, damaged[i].answer);
        ends(what, edit, damaged[i].record, damaged[i].other, damaged[i].answer);
        ends(what, edit, A, damaged[i].record, is_path ? JSONB_PATH : damaged[i].answer);
    }
    spell("400000", &right_record);
    nest(65, &left_record);
    ends_made(what, edit, JSONB_LIMIT);
    extend(65537, &left_record);
    ends_made(what, edit, JSONB_LIMIT);
    spell(A, &left_record);
    nest(65, &right_record);
    ends_made(what, edit, is_path ? JSONB_PATH : JSONB_LIMIT);
    extend(65537, &right_record);
    ends_made(what, edit, is_path ? JSONB_PATH : JSONB_LIMIT);
}

/* The same of an edit of one record. */
static void refuses_one(const char *what, Edit *edit) {
    size_t i;
    for (i = 0; i < sizeof damaged / sizeof damaged[0]; i++) {
        ends(what, edit, damaged[i].record, "", damaged[i].answer);
    }
    nest(65, &left_record);
    ends_made(what, edit, JSONB_LIMIT);
    extend(65537, &left_record);
    ends_made(what, edit, JSONB_LIMIT);
}

static void test_get(void) {
    Edit *get = jsonb_get_by_keypath;
    refuses("get of a damaged record or by a damaged path", get, 1);
    gives("get \"a\" of A", get, A, NAME_A, "20000000 20000002 5001");
    gives("get \"a\" of D", get, D, NAME_A, ROOT_NULL);
    gives("get index 0", get, NULLS, INDEX_0, ROOT_NULL);
    gives("get index -1", get, NULLS, INDEX_LAST, ROOT_NULL);
    ends("get index 1", get, NULLS, INDEX_1, JSONB_ABSENT);
    ends("get index -2", get, NULLS, INDEX_BEFORE, JSONB_ABSENT);
    gives("get with an empty path", get, A, NO_STEPS, A);
    ends("get \"b\" of A", get, A, NAME_B, JSONB_ABSENT);
    ends("get a name of an array", get, NULLS, NAME_A, JSONB_ABSENT);
    ends("get in a scalar", get, ROOT_NULL, INDEX_0, JSONB_ABSENT);
    ends("get by a path that is no array", get, A, A, JSONB_PATH);
    ends("get by a path that is cut short", get, A, "400000", JSONB_PATH);
    ends("get by a path of a null", get, A, NULLS, JSONB_PATH);
    ends("get of a damaged record, by a damaged path", get, "20000000 10000001 FF", "400000", JSONB_TEXT);
    nest(64, &left_record);
    descend(63, &right_record);
    spell(EMPTY_ARRAY, &wanted);
    gives_made("get at depth 64", get);
    descend(64, &right_record);
    ends_made("get at depth 65", get, JSONB_ABSENT);
    spell(A, &left_record);
    long_name(65536, &right_record);
    ends_made("get by a path of 65,536 bytes", get, JSONB_ABSENT);
    long_name(65537, &right_record);
    ends_made("get by a path of 65,537 bytes", get, JSONB_PATH);
    extend(65536, &left_record);
    extend(65536, &wanted);
    spell(NO_STEPS, &right_record);
    gives_made("get of a record of 65,536 bytes", get);
}

/* The text of a pointer in the place of the right record. */
static void point(const char *text, size_t length) {
    memcpy(right_record.bytes, text, length);
    right_record.length = length;
}

/* Look-up by a pointer: a result; an absence, or a number that stands before 10. */
static void finds(const char *record, const char *text, size_t length, const char *result) {
    spell(record, &left_record);
    point(text, length);
    spell(result, &wanted);
    gives_made(text, jsonb_get_by_pointer);
}

static void points_to(const char *record, const char *text, size_t length, uint64_t answer) {
    spell(record, &left_record);
    point(text, length);
    ends_made(text, jsonb_get_by_pointer, answer);
}

static void test_pointer_names(void) {
    finds(A, TEXT("/a"), "20000000 20000002 5001");
    finds(D, TEXT("/a"), ROOT_NULL);
    finds("40000001 10000001 5000000F 61 " A, TEXT("/a"), A);
    finds("40000001 10000001 5000000F 61 " A, TEXT("/a/a"), "20000000 20000002 5001");
    points_to(A, TEXT("/b"), JSONB_ABSENT);
    points_to(A, TEXT("/aa"), JSONB_ABSENT);
    points_to(A, TEXT("/a/"), JSONB_ABSENT);
    points_to(A, TEXT("/a/a"), JSONB_ABSENT);
    points_to(EMPTY_OBJECT, TEXT("/a"), JSONB_ABSENT);
    /* An empty name; and names that would be indexes, or none, on an array. */
    finds("40000001 10000000 40000000", TEXT("/"), "20000000 40000000");
    points_to("40000001 10000000 40000000", TEXT("//"), JSONB_ABSENT);
    points_to(A, TEXT("/"), JSONB_ABSENT);
    finds("40000001 10000001 40000000 30", TEXT("/0"), "20000000 40000000");
    finds("40000001 10000002 40000000 3030", TEXT("/00"), "20000000 40000000");
    finds("40000001 10000001 40000000 2D", TEXT("/-"), "20000000 40000000");
    finds("40000001 10000002 40000000 C3A9", TEXT("/\xc3\xa9"), "20000000 40000000");
    /* Escapes: the names "/", "~", "~1" and "a/b~c". */
    finds("40000001 10000001 40000000 2F", TEXT("/~1"), "20000000 40000000");
    finds("40000001 10000001 40000000 7E", TEXT("/~0"), "20000000 40000000");
    finds("40000001 10000002 40000000 7E31", TEXT("/~01"), "20000000 40000000");
    points_to("40000001 10000001 40000000 2F", TEXT("/~01"), JSONB_ABSENT);
    finds("40000001 10000005 40000000 612F627E63", TEXT("/a~1b~0c"), "20000000 40000000");
    points_to("40000001 10000005 40000000 612F627E63", TEXT("/a/b~0c"), JSONB_ABSENT);
    /* A 0 is a character: "a" and then 0 is another name than "a". */
    finds("40000001 10000002 40000000 6100", TEXT("/a\0"), "20000000 40000000");
    finds("40000001 10000003 40000000 610062", TEXT("/a\0b"), "20000000 40000000");
    points_to(A, TEXT("/a\0"), JSONB_ABSENT);
    points_to("40000001 10000002 40000000 6100", TEXT("/a"), JSONB_ABSENT);
}

static void test_pointer_indexes(void) {
    static const char *const none[] = {
        "/1", "/2", "/10", "/-", "/-0", "/-1", "/+0", "/00", "/01", "/", "/a", "/0a", "/ 0", "/0 ", "/0.0", "/0/", "/0/0", "/~0",
        "/~10",
        /* 2^8, 2^29, 2^32 and 2^64, and a hundred digits: none may be taken for 0. */
        "/256", "/536870912", "/4294967296", "/18446744073709551616",
        "/1000000000000000000000000000000000000000000000000000000000000000000000000000000000000000000000000000",
    };
    size_t i;
    finds(NULLS, TEXT("/0"), ROOT_NULL);
    finds("80000002 00000000 40000000", TEXT("/1"), "20000000 40000000");
    finds("80000002 00000000 50000009 80000001 20000001 00", TEXT("/1/0"), "20000000 20000001 00");
    points_to(EMPTY_ARRAY, TEXT("/0"), JSONB_ABSENT);
    for (i = 0; i < sizeof none / sizeof none[0]; i++) {
        points_to(NULLS, none[i], strlen(none[i]), JSONB_ABSENT);
    }
    /* The eleventh of eleven, by two digits. */
    finds("8000000B 00000000 00000000 00000000 00000000 00000000 00000000 00000000 00000000 00000000 00000000 40000000",
          TEXT("/10"), "20000000 40000000");
}

/* Texts that are no pointers, by each cause: no slash in front, not UTF-8, a ~ with neither 0 nor 1 behind it. */
static const struct {
    const char *text;
    size_t length;
} no_pointers[] = {
    {TEXT("a")},        {TEXT("a/b")},          {TEXT("#/a")},         {TEXT(" /a")},
    {TEXT("\0/a")},     {TEXT("-")},            {TEXT("\xff")},        {TEXT("/\xff")},
    {TEXT("/a/\xc3")},  {TEXT("/\xc0\xaf")},    {TEXT("/\xed\xa0\x80")}, {TEXT("/\xf4\x90\x80\x80")},
    {TEXT("/~")},       {TEXT("/~2")},          {TEXT("/~/0")},        {TEXT("/~~0")},
    {TEXT("/a~")},      {TEXT("/~0~")},         {TEXT("/nothing/~a")}, {TEXT("/~\0")},
};

static void test_pointer_refusals(void) {
    size_t i, j;
    refuses_one("get by the empty pointer of a damaged record", jsonb_get_by_pointer);
    for (i = 0; i < sizeof no_pointers / sizeof no_pointers[0]; i++) {
        points_to(A, no_pointers[i].text, no_pointers[i].length, JSONB_POINTER);
        points_to(NULLS, no_pointers[i].text, no_pointers[i].length, JSONB_POINTER);
        points_to(ROOT_NULL, no_pointers[i].text, no_pointers[i].length, JSONB_POINTER);
        /* The record's own number stands before 11. */
        for (j = 0; j < sizeof damaged / sizeof damaged[0]; j++) {
            points_to(damaged[j].record, no_pointers[i].text, no_pointers[i].length, damaged[j].answer);
        }
    }
}

static void test_pointer(void) {
    Edit *get = jsonb_get_by_pointer;
    test_pointer_names();
    test_pointer_indexes();
    test_pointer_refusals();
    /* The empty pointer finds the record; any other finds nothing in a scalar. */
    finds(A, TEXT(""), A);
    finds(D, TEXT(""), D);
    finds(NULLS, TEXT(""), NULLS);
    finds(ROOT_EXTENSION, TEXT(""), ROOT_EXTENSION);
    points_to(ROOT_NULL, TEXT("/"), JSONB_ABSENT);
    points_to(ROOT_STRING, TEXT("/0"), JSONB_ABSENT);
    points_to(ROOT_EXTENSION, TEXT("/a"), JSONB_ABSENT);
    nest(64, &left_record);
    point_at_0(63, &right_record);
    spell(EMPTY_ARRAY, &wanted);
    gives_made("a pointer to depth 64", get);
    point_at_0(64, &right_record);
    ends_made("a pointer to depth 65", get, JSONB_ABSENT);
    extend(65536, &left_record);
    extend(65536, &wanted);
    point(TEXT(""));
    gives_made("the empty pointer in a record of 65,536 bytes", get);
    /* A pointer may be longer than a record: a slash and 32,768 times ~0, the name of as many ~; and a ~ more. */
    spell("40000001 10008000 40000000", &left_record);
    memset(left_record.bytes + left_record.length, '~', 32768);
    left_record.length += 32768;
    right_record.bytes[0] = '/';
    for (right_record.length = 1; right_record.length < 65537; right_record.length += 2) {
        memcpy(right_record.bytes + right_record.length, "~0", 2);
    }
    spell("20000000 40000000", &wanted);
    gives_made("a pointer of 65,537 bytes", get);
    spell(A, &left_record);
    ends_made("a pointer of 65,537 bytes that finds nothing", get, JSONB_ABSENT);
    right_record.length--;
    ends_made("a pointer of 65,536 bytes that ends with a ~", get, JSONB_POINTER);
}

static void test_delete(void) {
    Edit *delete = jsonb_delete_by_keypath;
    refuses("delete in a damaged record or by a damaged path", delete, 1);
    gives("delete index 0", delete, NULLS, INDEX_0, "80000000");
    gives("delete \"a\" of D", delete, D, NAME_A, TRUE_A);
    gives("delete \"a\" of A", delete, A, NAME_A, EMPTY_OBJECT);
    gives("delete \"b\" of A, which it has not", delete, A, NAME_B, A);
    gives("delete with an empty path", delete, D, NO_STEPS, D);
    gives("delete in a nested array", delete, "80000001 50000008 80000001 00000000", "80000002 20000001 20000001 00 00",
          "80000001 50000004 80000000");
    gives("delete in a root extension", delete, ROOT_EXTENSION, INDEX_0, ROOT_EXTENSION);
    ends("delete in a root null", delete, ROOT_NULL, INDEX_0, JSONB_KIND);
    ends("delete in a root null, by a path that is no array", delete, ROOT_NULL, A, JSONB_PATH);
    ends("delete in a root null, by a damaged path", delete, ROOT_NULL, "400000", JSONB_PATH);
    ends("delete in a root string, with an empty path", delete, ROOT_STRING, NO_STEPS, JSONB_KIND);
    nest(64, &left_record);
    descend(63, &right_record);
    nest(63, &wanted);
    gives_made("delete at depth 64", delete);
    descend(64, &right_record);
    nest(64, &wanted);
    gives_made("delete at depth 65, which finds nothing", delete);
    spell(A, &left_record);
    spell(A, &wanted);
    long_name(65536, &right_record);
    gives_made("delete by a path of 65,536 bytes", delete);
    long_name(65537, &right_record);
    ends_made("delete by a path of 65,537 bytes", delete, JSONB_PATH);
    extend_a(65536, &left_record);
    spell(NAME_A, &right_record);
    spell(EMPTY_OBJECT, &wanted);
    gives_made("delete in a record of 65,536 bytes", delete);
}

/* Concat of two objects. */
static void test_overlay(void) {
    Edit *concat = jsonb_concat;
    refuses("concat of a damaged record", concat, 0);
    gives("concat A, {\"b\":true}", concat, A, TRUE_B, A_AND_TRUE_B);
    gives("concat {\"b\":true}, A", concat, TRUE_B, A, A_AND_TRUE_B);
    gives("concat A, {}", concat, A, EMPTY_OBJECT, A);
    gives("concat {}, A", concat, EMPTY_OBJECT, A, A);
    gives("concat {}, {}", concat, EMPTY_OBJECT, EMPTY_OBJECT, EMPTY_OBJECT);
    gives("concat A, {\"a\":true}: a name on both sides", concat, A, TRUE_A, TRUE_A);
    gives("concat {\"a\":true}, A: a name on both sides", concat, TRUE_A, A, A);
    gives("concat A, {\"a\":null}: a null overlays too", concat, A, NULL_A, NULL_A);
    gives("concat D, {}: the first counts", concat, D, EMPTY_OBJECT, NULL_A);
    gives("concat D, A: a repeated name that is on both sides", concat, D, A, A);
    gives("concat {\"b\":1,\"a\":true,\"b\":false}, {\"aa\":null}", concat,
          "40000003 10000001 10000001 10000001 20000002 40000000 30000000 62 61 62 5001", "40000001 10000002 00000000 6161",
          "40000003 10000001 10000002 10000001 40000000 00000000 20000002 61 6161 62 5001");
    gives("concat {}, {\"a\":D}: what is inside is copied", concat, EMPTY_OBJECT, "40000001 10000001 50000016 61 " D,
          "40000001 10000001 50000016 61 " D);
    gives("concat {\"a\":D}, {\"b\":true}: what is inside is copied", concat, "40000001 10000001 50000016 61 " D, TRUE_B,
          "40000002 10000001 10000001 50000016 40000000 61 62 " D);
    ends("concat {}, D", concat, EMPTY_OBJECT, D, JSONB_REPEATED);
    ends("concat A, D", concat, A, D, JSONB_REPEATED);
    ends("concat D, D", concat, D, D, JSONB_REPEATED);
    ends("concat {}, {\"b\":1,\"a\":true,\"b\":false}", concat, EMPTY_OBJECT,
         "40000003 10000001 10000001 10000001 20000002 40000000 30000000 62 61 62 5001", JSONB_REPEATED);
    nest_objects(64, &left_record);
    nest_objects(64, &right_record);
    nest_objects(64, &wanted);
    gives_made("concat two objects of depth 64", concat);
    /* The extension's bytes behind 22 others. */
    extend_a(65527, &left_record);
    spell(TRUE_B, &right_record);
    fill("40000002 10000001 10000001 60000000 40000000 61 62", 12, 65536, &wanted);
    gives_made("concat two objects to 65,536 bytes", concat);
    extend_a(65528, &left_record);
    ends_made("concat two objects to 65,537 bytes", concat, JSONB_RESULT);
    spell(D, &right_record);
    ends_made("concat two objects, 8 before 9", concat, JSONB_REPEATED);
    spell(TRUE_A, &right_record);
    spell(TRUE_A, &wanted);
    gives_made("concat two objects that are long, to a short one", concat);
}

/* Concat of any other pair. */
static void test_join(void) {
    Edit *concat = jsonb_concat;
    gives("concat root null, root null", concat, ROOT_NULL, ROOT_NULL, TWO_NULLS);
    gives("concat [null], [null]", concat, NULLS, NULLS, TWO_NULLS);
    gives("concat [null], null", concat, NULLS, ROOT_NULL, TWO_NULLS);
    gives("concat null, [null]", concat, ROOT_NULL, NULLS, TWO_NULLS);
    gives("concat [], []", concat, EMPTY_ARRAY, EMPTY_ARRAY, EMPTY_ARRAY);
    gives("concat [], null", concat, EMPTY_ARRAY, ROOT_NULL, NULLS);
    gives("concat [1], [\"a\"]", concat, "80000001 20000002 5001", "80000001 10000001 61",
          "80000002 20000002 10000001 5001 61");
    gives("concat \"a\", an extension", concat, ROOT_STRING, ROOT_EXTENSION, "80000002 10000001 60000001 61 AB");
    gives("concat [[]], []", concat, "80000001 50000004 80000000", EMPTY_ARRAY, "80000001 50000004 80000000");
    gives("concat A, []", concat, A, EMPTY_ARRAY, "80000001 5000000F " A);
    gives("concat [], A", concat, EMPTY_ARRAY, A, "80000001 5000000F " A);
    gives("concat A, null", concat, A, ROOT_NULL, "80000002 5000000F 00000000 " A);
    gives("concat null, A", concat, ROOT_NULL, A, "80000002 00000000 5000000F " A);
    gives("concat [], D: 8 is for two objects", concat, EMPTY_ARRAY, D, "80000001 50000016 " D);
    gives("concat D, []", concat, D, EMPTY_ARRAY, "80000001 50000016 " D);
    gives("concat null, D", concat, ROOT_NULL, D, "80000002 00000000 50000016 " D);
    gives("concat [D], D", concat, "80000001 50000016 " D, D, "80000002 50000016 50000016 " D D);
    /* An array of depth 64 keeps it; an object is one deeper as an item. */
    spell(ROOT_NULL, &right_record);
    nest(64, &left_record);
    nest(63, &wanted);
    memmove(wanted.bytes + 12, wanted.bytes, wanted.length);
    store(wanted.bytes, 0x80000002);
    store(wanted.bytes + 4, 0x50000000 + (uint32_t)wanted.length);
    store(wanted.bytes + 8, 0x00000000);
    wanted.length += 12;
    gives_made("concat 64 arrays, null", concat);
    nest_objects(64, &left_record);
    ends_made("concat 64 objects, null", concat, JSONB_RESULT);
    spell(EMPTY_ARRAY, &right_record);
    ends_made("concat 64 objects, []", concat, JSONB_RESULT);
    nest_objects(63, &left_record);
    nest_objects(63, &wanted);
    wrap_in_arrays(1, &wanted);
    gives_made("concat 63 objects, []", concat);
    nest_objects(64, &right_record);
    spell(ROOT_NULL, &left_record);
    ends_made("concat null, 64 objects", concat, JSONB_RESULT);
    spell(EMPTY_ARRAY, &left_record);
    ends_made("concat [], 64 objects", concat, JSONB_RESULT);
    nest_objects(63, &right_record);
    gives_made("concat [], 63 objects", concat);
    nest(64, &left_record);
    nest_objects(64, &right_record);
    ends_made("concat 64 arrays, 64 objects", concat, JSONB_RESULT);
    nest(64, &right_record);
    nest(63, &wanted);
    memmove(wanted.bytes + 12 + wanted.length, wanted.bytes, wanted.length);
    memmove(wanted.bytes + 12, wanted.bytes, wanted.length);
    store(wanted.bytes, 0x80000002);
    store(wanted.bytes + 4, 0x50000000 + (uint32_t)wanted.length);
    store(wanted.bytes + 8, 0x50000000 + (uint32_t)wanted.length);
    wanted.length += 12 + wanted.length;
    gives_made("concat 64 arrays, 64 arrays", concat);
    /* The extension's bytes behind 12 others, where it had 8. */
    extend(65532, &left_record);
    spell(ROOT_NULL, &right_record);
    fill("80000002 60000000 00000000", 4, 65536, &wanted);
    gives_made("concat to 65,536 bytes", concat);
    extend(65533, &left_record);
    ends_made("concat to 65,537 bytes", concat, JSONB_RESULT);
    /* A deep record beside a long one: 9 for either. */
    nest_objects(64, &right_record);
    ends_made("concat to 65,537 bytes and more, too deep", concat, JSONB_RESULT);
    extend(65536, &left_record);
    fill("80000001 60000000", 4, 65536, &wanted);
    spell(EMPTY_ARRAY, &right_record);
    gives_made("concat an extension of 65,536 bytes, []", concat);
}

static void test_strip(void) {
    refuses_one("strip of a damaged record", strip);
    gives("strip [null]", strip, NULLS, "", NULLS);
    gives("strip D", strip, D, "", TRUE_A);
    gives("strip A", strip, A, "", A);
    gives("strip {\"a\":null}", strip, NULL_A, "", EMPTY_OBJECT);
    gives("strip {}", strip, EMPTY_OBJECT, "", EMPTY_OBJECT);
    gives("strip []", strip, EMPTY_ARRAY, "", EMPTY_ARRAY);
    gives("strip a root null", strip, ROOT_NULL, "", ROOT_NULL);
    gives("strip a root true", strip, "20000000 40000000", "", "20000000 40000000");
    gives("strip a root number", strip, "20000000 20000002 5001", "", "20000000 20000002 5001");
    gives("strip a root string", strip, ROOT_STRING, "", ROOT_STRING);
    gives("strip a root extension", strip, ROOT_EXTENSION, "", ROOT_EXTENSION);
    gives("strip two nulls of one name", strip, "40000002 10000001 10000001 00000000 00000000 61 61", "", EMPTY_OBJECT);
    gives("strip a member between two nulls of its name", strip,
          "40000003 10000001 10000001 10000001 00000000 40000000 00000000 61 61 61", "", TRUE_A);
    gives("strip {\"a\":{\"a\":1,\"b\":null}}", strip,
          "40000001 10000001 50000018 61 40000002 10000001 10000001 20000002 00000000 61 62 5001", "",
          "40000001 10000001 5000000F 61 " A);
    gives("strip [null,{\"a\":null}]: nulls in arrays stay", strip, "80000002 00000000 5000000D " NULL_A, "",
          "80000002 00000000 50000004 " EMPTY_OBJECT);
    gives("strip {\"a\":[null,[null]]}", strip, "40000001 10000001 50000014 61 80000002 00000000 50000008 " NULLS, "",
          "40000001 10000001 50000014 61 80000002 00000000 50000008 " NULLS);
    gives("strip {\"b\":{\"d\":true,\"c\":false},\"aa\":1}: names in order, at every level", strip,
          "40000002 10000001 10000002 50000016 20000002 62 6161"
          " 40000002 10000001 10000001 40000000 30000000 64 63 5001", "",
          "40000002 10000002 10000001 20000002 50000016 6161 62 5001"
          " 40000002 10000001 10000001 30000000 40000000 63 64");
    ends("strip {\"a\":1,\"a\":true}", strip, "40000002 10000001 10000001 20000002 40000000 61 61 5001", "", JSONB_REPEATED);
    ends("strip {\"b\":1,\"a\":true,\"b\":false}", strip,
         "40000003 10000001 10000001 10000001 20000002 40000000 30000000 62 61 62 5001", "", JSONB_REPEATED);
    ends("strip [{\"a\":true,\"a\":true}]: 8 at depth 2", strip,
         "80000001 50000016 40000002 10000001 10000001 40000000 40000000 61 61", "", JSONB_REPEATED);
    ends("strip {\"a\":{\"a\":true,\"a\":true},\"b\":null}: 8 at depth 2", strip,
         "40000002 10000001 10000001 50000016 00000000 61 62 40000002 10000001 10000001 40000000 40000000 61 61", "",
         JSONB_REPEATED);
    gives("strip [D]", strip, "80000001 50000016 " D, "", "80000001 5000000D " TRUE_A);
    spell(NULL_A, &left_record);
    spell(EMPTY_OBJECT, &wanted);
    wrap_in_objects(63, "", &left_record);
    wrap_in_objects(63, "", &wanted);
    gives_made("strip a null at depth 64", strip);
    spell(NULL_A, &left_record);
    spell(EMPTY_OBJECT, &wanted);
    wrap_in_arrays(63, &left_record);
    wrap_in_arrays(63, &wanted);
    gives_made("strip a null in 63 arrays", strip);
    spell("40000002 10000001 10000001 40000000 40000000 61 61", &left_record);
    wrap_in_objects(63, "", &left_record);
    ends_made("strip: 8 at depth 64", strip, JSONB_REPEATED);
    extend(65536, &left_record);
    extend(65536, &wanted);
    gives_made("strip a scalar of 65,536 bytes", strip);
    extend_a(65536, &left_record);
    extend_a(65536, &wanted);
    gives_made("strip an object of 65,536 bytes", strip);
}

static void test_append(void) {
    refuses("append to a damaged record, or of one", jsonb_append, 0);
    gives("append to an empty array", jsonb_append, "80000000", ROOT_NULL, NULLS);
    gives("append a string", jsonb_append, "80000001 20000002 5001", "20000000 10000001 61",
          "80000002 20000002 10000001 5001 61");
    gives("append an object", jsonb_append, "80000000", A, "80000001 5000000F 40000001 10000001 20000002 61 5001");
    ends("append to an object", jsonb_append, A, ROOT_NULL, JSONB_KIND);
    ends("append a damaged record to an object", jsonb_append, A, "20000000 20000001 01", JSONB_NUMBER);
    ends("append to a damaged record", jsonb_append, "80000001 80000000", "20000000 20000001 01", JSONB_LAYOUT);
    spell("80000000", &left_record);
    nest(63, &right_record);
    nest(64, &wanted);
    run("append 63 arrays", jsonb_append, JSONB_ROOM, wanted.length);
    nest(64, &right_record);
    run("append 64 arrays", jsonb_append, JSONB_ROOM, JSONB_RESULT);
    run("append 64 arrays, with no room", jsonb_append, 0, JSONB_RESULT);
    /* The extension's bytes behind another header: as long as the record was. */
    extend(65536, &right_record);
    extend(65536, &wanted);
    store(wanted.bytes, 0x80000001);
    run("append to a result of 65,536 bytes", jsonb_append, JSONB_ROOM, wanted.length);
    run("append to a result of 65,536 bytes, with a byte less", jsonb_append, JSONB_ROOM - 1, JSONB_BUFFER);
    spell(NULLS, &left_record);
    run("append to a result of 65,540 bytes", jsonb_append, JSONB_ROOM, JSONB_RESULT);
}

static void test_build(void) {
    refuses("build of damaged names or values", jsonb_build_object, 0);
    gives("build {}", jsonb_build_object, "80000000", "80000000", "40000000");
    gives("build A", jsonb_build_object, "80000001 10000001 61", "80000001 20000002 5001", A);
    gives("build {\"a\":1,\"b\":true}", jsonb_build_object, "80000002 10000001 10000001 61 62",
          "80000002 20000002 40000000 5001", A_AND_TRUE_B);
    gives("build it of names that fall", jsonb_build_object, "80000002 10000001 10000001 62 61",
          "80000002 40000000 20000002 5001", A_AND_TRUE_B);
    ends("build with a repeated name", jsonb_build_object, "80000002 10000001 10000001 61 61",
         "80000002 00000000 00000000", JSONB_REPEATED);
    ends("build with unequal counts", jsonb_build_object, "80000002 10000001 10000001 61 61", NULLS, JSONB_KIND);
    ends("build with a name that is no string", jsonb_build_object, NULLS, NULLS, JSONB_KIND);
    ends("build with an object for an array", jsonb_build_object, A, "80000000", JSONB_KIND);
    ends("build of damaged values", jsonb_build_object, A, "400000", JSONB_SHORT);
}

/* ---- flight records */

/* "At most 8 deep". */
#define LEVELS 8

/* So many bytes stand before the value of an object's one member, whose name has one byte. */
#define OBJECT_FRONT 13

static const char *const flights[] = {
    A,
    A_AND_TRUE_B,
    EMPTY_OBJECT,
    TWO_NULLS,
    EMPTY_ARRAY,
    ROOT_NULL,
    ROOT_STRING,
    /* A string, which unlike a name may be empty. */
    "20000000 10000000",
    /* Integers: 0, and of each width without a sign and with one. */
    "80000009 20000001 20000002 20000003 20000005 20000009 20000002 20000003 20000005 20000009"
    " 00 5001 500100 5000010000 500000000100000000 40FF 40FF00 40FFFF0000 40FFFFFFFF00000000",
    /* Names of 32 characters, of one byte, of two and of four. */
    "40000001 10000020 00000000" TIMES_32(" 61"),
    "40000001 10000040 00000000" TIMES_32(" C3A9"),
    "40000001 10000080 00000000" TIMES_32(" F09F9A80"),
};

/* Readable records that are none, for each cause. */
static const char *const no_flights[] = {
    /* Not sound: a repeated name, names that fall, and one of these inside another record. */
    D,
    "40000002 10000001 10000001 00000000 00000000 62 61",
    "80000001 50000016 " D,
    "40000001 10000001 50000016 61 " D,
    /* Names of no character and of 33, of one byte and of two; and a name below an array. */
    "40000001 10000000 00000000",
    "40000001 10000021 00000000 61" TIMES_32(" 61"),
    "40000001 10000042 00000000 C3A9" TIMES_32(" C3A9"),
    "80000001 5000000C 40000001 10000000 00000000",
    /* NaN, the infinities, a float, and a decimal of each width. */
    "20000000 20000001 10",
    "20000000 20000001 20",
    "20000000 20000001 30",
    "20000000 20000009 603FF8000000000000",
    "20000000 2000000A 70" TIMES_8(" 01") " 02",
    "20000000 20000012 70" TIMES_8(" 01") TIMES_8(" 01") " 02",
    "20000000 20000022 70" TIMES_32(" 01") " 02",
    "80000002 00000000 20000001 10",
    "40000001 10000001 50000009 61 80000001 20000001 10",
    /* Extensions. */
    ROOT_EXTENSION,
    "80000001 60000000",
    "40000001 10000001 60000001 61 AB",
};

#define FLIGHTS (sizeof flights / sizeof flights[0])
#define NO_FLIGHTS (sizeof no_flights / sizeof no_flights[0])

static void flies_made(const char *what, uint64_t answer) {
    expect(jsonb_flight_check(left_record.bytes, left_record.length) == answer, what, "the flight check");
}

static void flies(const char *record, uint64_t answer) {
    spell(record, &left_record);
    flies_made(record, answer);
}

static void test_flight_check(void) {
    size_t i;
    for (i = 0; i < FLIGHTS; i++) {
        flies(flights[i], JSONB_READABLE);
    }
    for (i = 0; i < NO_FLIGHTS; i++) {
        checks(no_flights[i], JSONB_READABLE);
        flies(no_flights[i], JSONB_PROFILE);
    }
    for (i = 0; i < sizeof damaged / sizeof damaged[0]; i++) {
        flies(damaged[i].record, damaged[i].answer);
    }
    flies("80000002 20000001 20000001 10 01", JSONB_NUMBER);
    flies("80000002 20000001 10000001 10 FF", JSONB_TEXT);
    nest(LEVELS, &left_record);
    flies_made("8 arrays", JSONB_READABLE);
    nest_flights(LEVELS, &left_record);
    flies_made("8 objects", JSONB_READABLE);
    nest(LEVELS + 1, &left_record);
    flies_made("9 arrays", JSONB_PROFILE);
    nest_flights(LEVELS + 1, &left_record);
    flies_made("9 objects", JSONB_PROFILE);
    nest(64, &left_record);
    flies_made("64 arrays", JSONB_PROFILE);
    nest(65, &left_record);
    flies_made("65 arrays", JSONB_LIMIT);
    long_name(65536, &left_record);
    flies_made("a string to 65,536 bytes", JSONB_READABLE);
    extend(65537, &left_record);
    flies_made("65,537 bytes", JSONB_LIMIT);
}

/* Flight strip as a call of two records. */
static uint64_t flight_strip(const uint8_t *left, size_t left_length, const uint8_t *right, size_t right_length, uint8_t *out,
                             size_t out_length) {
    (void)right;
    (void)right_length;
    return jsonb_flight_strip(left, left_length, out, out_length);
}

/* "An input's stands after 6 and before 7": behind a damaged record on either side, before 10. */
static void test_no_flights(void) {
    size_t i;
    for (i = 0; i < NO_FLIGHTS; i++) {
        const char *record = no_flights[i];
        ends("flight delete in no flight record", jsonb_flight_delete, record, NAME_A, JSONB_PROFILE);
        ends("flight delete in none, with an empty path", jsonb_flight_delete, record, NO_STEPS, JSONB_PROFILE);
        ends("flight delete in none, by a path that is no array", jsonb_flight_delete, record, A, JSONB_PATH);
        ends("flight delete in none, by a damaged path", jsonb_flight_delete, record, "400000", JSONB_PATH);
        ends("flight concat, none on the left", jsonb_flight_concat, record, A, JSONB_PROFILE);
        ends("flight concat, none on the right", jsonb_flight_concat, A, record, JSONB_PROFILE);
        ends("flight concat, none on both sides", jsonb_flight_concat, record, record, JSONB_PROFILE);
        ends("flight concat, none and a damaged one", jsonb_flight_concat, record, "400000", JSONB_SHORT);
        ends("flight concat, a damaged one and none", jsonb_flight_concat, "400000", record, JSONB_SHORT);
        ends("flight strip of none", flight_strip, record, "", JSONB_PROFILE);
    }
}

static void test_flight_delete(void) {
    Edit *delete = jsonb_flight_delete;
    refuses("flight delete in a damaged record or by a damaged path", delete, 1);
    gives("flight delete index 0", delete, NULLS, INDEX_0, EMPTY_ARRAY);
    gives("flight delete \"a\" of A", delete, A, NAME_A, EMPTY_OBJECT);
    gives("flight delete \"b\" of A, which it has not", delete, A, NAME_B, A);
    gives("flight delete with an empty path", delete, A, NO_STEPS, A);
    gives("flight delete in a nested array", delete, "80000001 50000008 80000001 00000000", "80000002 20000001 20000001 00 00",
          "80000001 50000004 80000000");
    ends("flight delete in a root null", delete, ROOT_NULL, INDEX_0, JSONB_KIND);
    ends("flight delete in a root null, by a path that is no array", delete, ROOT_NULL, A, JSONB_PATH);
    nest(LEVELS, &left_record);
    descend(LEVELS - 1, &right_record);
    nest(LEVELS - 1, &wanted);
    gives_made("flight delete at depth 8", delete);
    fill("40000001 10000001 10000000 61", 8, 65536, &left_record);
    spell(NAME_A, &right_record);
    spell(EMPTY_OBJECT, &wanted);
    gives_made("flight delete in a record of 65,536 bytes", delete);
}

/* A flight object of 8 levels and of a length: a long string in an array in seven objects. */
static void nest_long(size_t length, Record *record) {
    long_name(length - (LEVELS - 1) * OBJECT_FRONT, record);
    wrap_in_objects(LEVELS - 1, "a", record);
}

static void test_flight_concat(void) {
    Edit *concat = jsonb_flight_concat;
    refuses("flight concat of a damaged record", concat, 0);
    gives("flight concat A, {\"b\":true}", concat, A, TRUE_B, A_AND_TRUE_B);
    gives("flight concat A, {\"a\":true}: a name on both sides", concat, A, TRUE_A, TRUE_A);
    gives("flight concat A, {\"a\":null}: a null overlays too", concat, A, NULL_A, NULL_A);
    gives("flight concat root null, root null", concat, ROOT_NULL, ROOT_NULL, TWO_NULLS);
    gives("flight concat [null], [null]", concat, NULLS, NULLS, TWO_NULLS);
    gives("flight concat A, []", concat, A, EMPTY_ARRAY, "80000001 5000000F " A);
    gives("flight concat null, A", concat, ROOT_NULL, A, "80000002 00000000 5000000F " A);
    /* Arrays, and two objects, keep their depth; an object beside what is none is one deeper. */
    nest(LEVELS, &left_record);
    spell(EMPTY_ARRAY, &right_record);
    nest(LEVELS, &wanted);
    gives_made("flight concat 8 arrays, []", concat);
    nest_flights(LEVELS, &left_record);
    nest_flights(LEVELS, &right_record);
    nest_flights(LEVELS, &wanted);
    gives_made("flight concat 8 objects, 8 objects", concat);
    nest_flights(LEVELS - 1, &left_record);
    spell(EMPTY_ARRAY, &right_record);
    nest_flights(LEVELS - 1, &wanted);
    wrap_in_arrays(1, &wanted);
    gives_made("flight concat 7 objects, []", concat);
    nest_flights(LEVELS, &left_record);
    ends_made("flight concat 8 objects, []", concat, JSONB_PROFILE);
    spell(ROOT_NULL, &right_record);
    ends_made("flight concat 8 objects, null", concat, JSONB_PROFILE);
    nest_flights(LEVELS, &right_record);
    spell(ROOT_NULL, &left_record);
    ends_made("flight concat null, 8 objects", concat, JSONB_PROFILE);
    nest(LEVELS, &left_record);
    ends_made("flight concat 8 arrays, 8 objects", concat, JSONB_PROFILE);
    /* "A result's after 9": null behind the object takes 12 bytes more. */
    spell(ROOT_NULL, &right_record);
    nest_long(65524, &left_record);
    ends_made("flight concat to 65,536 bytes, too deep", concat, JSONB_PROFILE);
    nest_long(65525, &left_record);
    ends_made("flight concat to 65,537 bytes, too deep", concat, JSONB_RESULT);
}

static void test_flight_strip(void) {
    Edit *strip = flight_strip;
    refuses_one("flight strip of a damaged record", strip);
    gives("flight strip A", strip, A, "", A);
    gives("flight strip {\"a\":null}", strip, NULL_A, "", EMPTY_OBJECT);
    gives("flight strip [null]", strip, NULLS, "", NULLS);
    gives("flight strip a root null", strip, ROOT_NULL, "", ROOT_NULL);
    gives("flight strip {\"a\":{\"a\":1,\"b\":null}}", strip,
          "40000001 10000001 50000018 61 40000002 10000001 10000001 20000002 00000000 61 62 5001", "",
          "40000001 10000001 5000000F 61 " A);
    spell(NULL_A, &left_record);
    wrap_in_objects(LEVELS - 1, "a", &left_record);
    nest_flights(LEVELS, &wanted);
    gives_made("flight strip a null at depth 8", strip);
}

/*
 * Records and paths may be the same bytes: [0] looked up by itself, whose one step is the index 0, appended to itself and put
 * behind itself. A pointer may stand in its record: the name "/a" of {"/a":true,"a":1}.
 */
static void test_same_bytes(void) {
    spell("80000001 20000001 00", &left_record);
    spell("20000000 20000001 00", &wanted);
    uint64_t answer = jsonb_get_by_keypath(left_record.bytes, left_record.length, left_record.bytes, left_record.length, buffer, ROOM);
    expect(answer == wanted.length && memcmp(buffer, wanted.bytes, wanted.length) == 0, "get", "one slice as record and path");
    spell("80000002 20000001 50000009 00 80000001 20000001 00", &wanted);
    answer = jsonb_append(left_record.bytes, left_record.length, left_record.bytes, left_record.length, buffer, ROOM);
    expect(answer == wanted.length && memcmp(buffer, wanted.bytes, wanted.length) == 0, "append", "one slice as both records");
    spell("80000002 20000001 20000001 00 00", &wanted);
    answer = jsonb_concat(left_record.bytes, left_record.length, left_record.bytes, left_record.length, buffer, ROOM);
    expect(answer == wanted.length && memcmp(buffer, wanted.bytes, wanted.length) == 0, "concat", "one slice as both records");
    spell("40000002 10000002 10000001 40000000 20000002 2F61 61 5001", &left_record);
    spell("20000000 20000002 5001", &wanted);
    answer = jsonb_get_by_pointer(left_record.bytes, left_record.length, left_record.bytes + 20, 2, buffer, ROOM);
    expect(answer == wanted.length && memcmp(buffer, wanted.bytes, wanted.length) == 0, "get", "a pointer in its record");
}

/* Each preview was put to calls above, to all that have room for every result. */
static void test_previews(void) {
    size_t i;
    for (i = 0; i < PREVIEWS; i++) {
        expect(previews[i].foretold > 0, previews[i].name, "put to no call");
        printf("%s: %d calls\n", previews[i].name, previews[i].foretold);
    }
}

int main(void) {
    test_numbers();
    test_check();
    test_text();
    test_get();
    test_pointer();
    test_delete();
    test_overlay();
    test_join();
    test_strip();
    test_append();
    test_build();
    test_flight_check();
    test_no_flights();
    test_flight_delete();
    test_flight_concat();
    test_flight_strip();
    test_same_bytes();
    test_previews();
    printf("%d right, %d wrong\n", right, wrong);
    return wrong == 0 ? 0 : 1;
}
