/*
 * JSONB records for the flight computer: the check, the text check, the edits, what an edit would give, and the check and the edits of
 * flight records, which the board's loader takes.
 *
 * The functions are those of the static library that tools/library makes, target/staticlib/libjsonb.a, for x86-64 Linux.
 * Each is proved to end, and to answer what Path.antt, Concat.antt and Strip.antt of crates/edits/specs,
 * crates/builders/specs/Build.antt and crates/pointers/specs/Pointer.antt define (the check: crates/layout/specs/Read.antt; the text
 * check: crates/layout/specs/Text.antt; previews: crates/previews/specs/Preview.antt; flight records: crates/flight/specs/Flight.antt)
 * as a number by crates/jsonb/specs/C.antt, on every record, path, JSON Pointer, text and buffer. They keep nothing between calls,
 * take no memory but the stack, and may be called from several threads at once. 64 KiB of stack serve every call: measured at 64
 * levels, the deepest that a record can be, delete takes 61,900 bytes at the most, strip 33,100 and each of the others 20,000, with
 * the same figures for their previews; a flight edit takes 20,000 too, since it edits no record of more than 8 levels
 * (tests/c/stack.c).
 *
 * A record, a path, a text, that of a JSON Pointer too, and a buffer are each a C pointer and a length in bytes. What the caller owes:
 *
 *   - A C pointer is to as many bytes as its length says. It is never null, also where the length is 0.
 *   - The buffer overlaps nothing else of the call. Records, paths and texts may overlap each other, or be the same.
 *   - Nobody else changes a record, a path or a text, or uses the buffer, before the call returns.
 *
 * What the bytes are is owed by no one: any bytes at all may be given as a record, as a path, as a JSON Pointer or as a text.
 *
 * An answer is one number:
 *
 *   below JSONB_ABSENT      done. It is the length of the result, which fills that many first bytes of the buffer; the bytes
 *                           behind them are unchanged. No result is longer than JSONB_ROOM. The checks have no result and no
 *                           buffer: they answer JSONB_READABLE, that of a text the number of code points. A preview has no
 *                           buffer either: it answers the length that the result would have.
 *   JSONB_ABSENT            the path or the JSON Pointer finds nothing. No byte is changed.
 *   above JSONB_ABSENT      refused, with one of the numbers below. No byte is changed.
 *
 * Of several faults the first in this order is told: that of the first record, that of the second, that of the path or of the
 * JSON Pointer (6, 11), 12 of a record, 7, an absence, 8, 9, 12 of a result, 10.
 */
#ifndef JSONB_H
#define JSONB_H

#include <stddef.h>
#include <stdint.h>

#ifdef __cplusplus
extern "C" {
#endif

/*
 * The longest record, and so the longest result, in bytes: a buffer of this length serves every call. For look-up, delete and strip
 * one as long as the record serves.
 */
#define JSONB_ROOM 65536

#define JSONB_READABLE UINT64_C(0)
#define JSONB_ABSENT UINT64_C(0x100000000)

/* The answer that has a number; and the number of an answer that is no length, a refusal's own and 0 of an absence. */
#define JSONB_REFUSED(number) (JSONB_ABSENT + (number))
#define JSONB_NUMBER_OF(answer) ((int)((answer) - JSONB_ABSENT))

/* Whether the call was done, so that its answer is a length, or a number of code points. */
#define JSONB_IS_DONE(answer) ((answer) < JSONB_ABSENT)

/*
 * The numbers, and who can cause each.
 *
 *    1  the sender of a record         it is cut short
 *    2  the sender of a record         its layout is damaged: a header, an entry, or lengths that do not sum
 *    3  the sender of a record         a text or a name is not UTF-8; the text that is checked is not
 *    4  the sender of a record         a number is of no listed form
 *    5  the sender of a record         it is over 65,536 bytes, or nested deeper than 64
 *    6  the writer of a path           the path is unreadable, no array, or holds what is neither a name nor an index
 *    7  the author of an edit          delete on a root null, boolean, number or string; append to what is no array; object build
 *                                      with what is no array, a name that is no string, or unequal counts
 *    8  the author of an edit          a repeated name: in the right one of two objects of a concat, among the members that strip
 *                                      keeps, in an object build
 *    9  the author of an edit          the result would be over 65,536 bytes or deeper than 64: concat, append and object build
 *   10  the lender of the buffer       it is shorter than the result
 *   11  the writer of a JSON Pointer   the text is not UTF-8, is not empty and does not start with a slash, or has a ~ that is not
 *                                      followed by 0 or 1
 *   12  the sender of a record         the flight check, a flight edit: the record is readable and is no flight record
 *       the author of an edit          a flight concat: the result would be no flight record
 */
#define JSONB_SHORT JSONB_REFUSED(1)
#define JSONB_LAYOUT JSONB_REFUSED(2)
#define JSONB_TEXT JSONB_REFUSED(3)
#define JSONB_NUMBER JSONB_REFUSED(4)
#define JSONB_LIMIT JSONB_REFUSED(5)
#define JSONB_PATH JSONB_REFUSED(6)
#define JSONB_KIND JSONB_REFUSED(7)
#define JSONB_REPEATED JSONB_REFUSED(8)
#define JSONB_RESULT JSONB_REFUSED(9)
#define JSONB_BUFFER JSONB_REFUSED(10)
#define JSONB_POINTER JSONB_REFUSED(11)
#define JSONB_PROFILE JSONB_REFUSED(12)

/* Checks a record: JSONB_READABLE, or refused with 1 to 5. The edits check their records too. */
uint64_t jsonb_check(const uint8_t *record, size_t record_length);

/*
 * Checks a text, such as a name: the number of its code points by RFC 3629, or refused with 3 where the bytes are not UTF-8. A column
 * on a screen is set by it. A combining mark is a code point of its own, and so are a byte order mark and a 0; no 0 need stand behind
 * the text. A text of 2^32 - 1 code points, or of more, answers 2^32 - 1.
 */
uint64_t jsonb_check_text(const uint8_t *text, size_t text_length);

/*
 * Looks up what a path finds in a record. A path is an array record: its strings are names, its integers are indexes, of which
 * the negative ones count back from the end of an array. An index is from -2^31 to 2^31-1, any other number gives 6; on an object
 * it stands for its decimal text, and a name on an array finds nothing. A scalar that is found is written as a scalar record; an
 * empty path finds the record itself.
 */
uint64_t jsonb_get_by_keypath(const uint8_t *target, size_t target_length, const uint8_t *path, size_t path_length,
                              uint8_t *out, size_t out_length);

/*
 * Looks up what a JSON Pointer (RFC 6901) finds in a record: "/heater/0" is the first item of the array that the name "heater" has.
 * The pointer is its bytes, of any length: no 0 need stand behind them, and a 0 among them is a character like any other. The empty
 * pointer finds the record itself. Behind each slash stands a token. On an object it is a name, in which ~1 stands for a slash and
 * ~0 for a ~; of a repeated name the first member is found. On an array it is an index, 0 or digits that do not start with 0; an
 * index from the count on, however many digits it has, and any other token, "-" too, find nothing. So does a token on a scalar. A
 * scalar that is found is written as a scalar record. Text that is not UTF-8, that is not empty and does not start with a slash, or
 * that has a ~ not followed by 0 or 1 gives 11, wherever in the text that is.
 */
uint64_t jsonb_get_by_pointer(const uint8_t *target, size_t target_length, const uint8_t *pointer, size_t pointer_length,
                              uint8_t *out, size_t out_length);

/*
 * Deletes what a path finds in a record, of a repeated name the first member. An empty path, and one that finds nothing, give the
 * record as it is, and so does every path in a root extension. Every container above what is deleted is written anew, its objects
 * in byte order of the names; of names that are still repeated there the first is kept.
 */
uint64_t jsonb_delete_by_keypath(const uint8_t *target, size_t target_length, const uint8_t *path, size_t path_length,
                                 uint8_t *out, size_t out_length);

/*
 * Overlays a record with another. Two objects become one: the right one's members, and those of the left one whose names the right
 * one has not, in byte order of the names. Of a name that the left one has twice the first member counts; a name that the right
 * one has twice gives 8. Any other two become an array, the left one's items and then the right one's, where a record that is no
 * array is one item. Items and values are copied as they are.
 */
uint64_t jsonb_concat(const uint8_t *left, size_t left_length, const uint8_t *right, size_t right_length,
                      uint8_t *out, size_t out_length);

/*
 * Takes the members whose value is null out of a record, at every level. Nulls in arrays and at the root stay. Every container is
 * written anew, its objects in byte order of the names; a name that is repeated among the members kept gives 8.
 */
uint64_t jsonb_strip_nulls(const uint8_t *target, size_t target_length, uint8_t *out, size_t out_length);

/* Puts a record, as one item, at the end of an array record. */
uint64_t jsonb_append(const uint8_t *array, size_t array_length, const uint8_t *item, size_t item_length,
                      uint8_t *out, size_t out_length);

/* Builds an object from an array of names and an array of as many values. Its members stand in byte order of the names. */
uint64_t jsonb_build_object(const uint8_t *names, size_t names_length, const uint8_t *values, size_t values_length,
                            uint8_t *out, size_t out_length);

/*
 * Previews: what delete, concat, strip, append and object build would give, to fill a budget before anything is made. The answer is
 * the length, or the number, that the edit of the same records gives with a buffer of JSONB_ROOM bytes. A length is that of the
 * result in every buffer that has room for it, and a shorter buffer gives 10; a number is what every buffer gives. No buffer is lent
 * and nothing is written. There is no absence and no 10, and the numbers that there are stand beside each.
 */

/* Of jsonb_delete_by_keypath: 1 to 7. */
uint64_t jsonb_preview_delete(const uint8_t *target, size_t target_length, const uint8_t *path, size_t path_length);

/* Of jsonb_concat: 1 to 5, 8 and 9. */
uint64_t jsonb_preview_concat(const uint8_t *left, size_t left_length, const uint8_t *right, size_t right_length);

/* Of jsonb_strip_nulls: 1 to 5, and 8. */
uint64_t jsonb_preview_strip(const uint8_t *target, size_t target_length);

/* Of jsonb_append: 1 to 5, 7 and 9. */
uint64_t jsonb_preview_append(const uint8_t *array, size_t array_length, const uint8_t *item, size_t item_length);

/* Of jsonb_build_object: 1 to 5, and 7 to 9. */
uint64_t jsonb_preview_build(const uint8_t *names, size_t names_length, const uint8_t *values, size_t values_length);

/*
 * Flight records: the board's loader takes less than the layout allows. In a flight record the names of every object rise strictly in
 * byte order and have 1 to 32 characters each, that is code points; it is at most 8 levels deep, of which a scalar has none; and it
 * holds no extension, float, decimal, NaN or infinity. The edits below take flight records and give flight records: a result has the
 * bytes that the plain edit gives. The numbers that there are stand beside each, in their order; there is no absence.
 */

/* Checks a record for the loader: JSONB_READABLE where it is a flight record, or refused with 1 to 5, and then 12. */
uint64_t jsonb_flight_check(const uint8_t *record, size_t record_length);

/* As jsonb_delete_by_keypath: 1 to 5, 6, 12 where the record is no flight record, 7, 10. What is left of a flight record is one. */
uint64_t jsonb_flight_delete(const uint8_t *target, size_t target_length, const uint8_t *path, size_t path_length,
                             uint8_t *out, size_t out_length);

/*
 * As jsonb_concat: 1 to 5 of the left record, 1 to 5 of the right one, 12 where either is no flight record, 9, 12 where the result
 * would be none, 10. A result can only be too deep: an object of 8 levels beside a record that is no object becomes an item, which is
 * one level deeper.
 */
uint64_t jsonb_flight_concat(const uint8_t *left, size_t left_length, const uint8_t *right, size_t right_length,
                             uint8_t *out, size_t out_length);

/* As jsonb_strip_nulls: 1 to 5, 12 where the record is no flight record, 10. What is left of a flight record is one. */
uint64_t jsonb_flight_strip(const uint8_t *target, size_t target_length, uint8_t *out, size_t out_length);

/*
 * For example, the heater's limit of a table {"heater":40} (examples/c/overlay.c has more). Buffers of this length stand beside the
 * stack: the 64 KiB of it that serve a call have no room for them.
 *
 *     static const uint8_t path[] = {0x80, 0, 0, 1, 0x10, 0, 0, 6, 'h', 'e', 'a', 't', 'e', 'r'};
 *     static uint8_t found[JSONB_ROOM];
 *     uint64_t answer = jsonb_get_by_keypath(table, table_length, path, sizeof path, found, sizeof found);
 *     if (JSONB_IS_DONE(answer))
 *         use(found, (size_t)answer);
 *     else if (answer == JSONB_ABSENT)
 *         use_default();
 *     else
 *         report(JSONB_NUMBER_OF(answer));
 */

#ifdef __cplusplus
}
#endif

#endif
