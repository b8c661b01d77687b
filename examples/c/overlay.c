/*
 * An overlay as the flight computer's C code would take it: the table aboard is overlaid with a record that came up, members that
 * are null are stripped, and the heater limit of a zone is looked up in what results. A record that is damaged changes nothing: the
 * table aboard stays in use.
 *
 * No memory is allocated. Two buffers of the longest record hold the table aboard and the next one; they are exchanged once a whole
 * edit has been made.
 */
#include <stdio.h>
#include <string.h>

#include "jsonb.h"

typedef struct {
    uint8_t bytes[JSONB_ROOM];
    size_t length;
} Record;

static Record table;
static Record next;
static Record work;

/* {"switch":{"camera":false,"radio":true},"zone1":{"heater":40},"zone2":null} */
static const uint8_t TABLE[] = {
    0x40, 0, 0, 3,
    0x10, 0, 0, 6, 0x10, 0, 0, 5, 0x10, 0, 0, 5,
    0x50, 0, 0, 31, 0x50, 0, 0, 20, 0x00, 0, 0, 0,
    's', 'w', 'i', 't', 'c', 'h', 'z', 'o', 'n', 'e', '1', 'z', 'o', 'n', 'e', '2',
    /* its members: {"camera":false,"radio":true} and {"heater":40} */
    0x40, 0, 0, 2, 0x10, 0, 0, 6, 0x10, 0, 0, 5, 0x30, 0, 0, 0, 0x40, 0, 0, 0,
    'c', 'a', 'm', 'e', 'r', 'a', 'r', 'a', 'd', 'i', 'o',
    0x40, 0, 0, 1, 0x10, 0, 0, 6, 0x20, 0, 0, 2, 'h', 'e', 'a', 't', 'e', 'r', 0x50, 40,
};

/* {"zone1":{"heater":45}} */
static const uint8_t OVERLAY[] = {
    0x40, 0, 0, 1, 0x10, 0, 0, 5, 0x50, 0, 0, 20, 'z', 'o', 'n', 'e', '1',
    0x40, 0, 0, 1, 0x10, 0, 0, 6, 0x20, 0, 0, 2, 'h', 'e', 'a', 't', 'e', 'r', 0x50, 45,
};

/* Where the limit is, as a JSON Pointer: the bytes before the 0 that C puts behind them. */
static const char HEATER[] = "/zone1/heater";
#define HEATER_LENGTH (sizeof HEATER - 1)

static void print(const char *what, const Record *record) {
    printf("%s ", what);
    for (size_t i = 0; i < record->length; i++)
        printf("%02x", record->bytes[i]);
    printf("\n");
}

/* Overlays the table and strips it. Where either is refused, the table stays and the number is told. */
static uint64_t take_overlay(const uint8_t *overlay, size_t length) {
    uint64_t answer = jsonb_concat(table.bytes, table.length, overlay, length, work.bytes, sizeof work.bytes);
    if (!JSONB_IS_DONE(answer))
        return answer;
    work.length = (size_t)answer;
    answer = jsonb_strip_nulls(work.bytes, work.length, next.bytes, sizeof next.bytes);
    if (!JSONB_IS_DONE(answer))
        return answer;
    next.length = (size_t)answer;
    table = next;
    return answer;
}

static void report(uint64_t answer) {
    if (JSONB_IS_DONE(answer))
        print("table", &table);
    else
        printf("refused %d, the table stays\n", JSONB_NUMBER_OF(answer));
}

static void look_up(void) {
    uint64_t answer = jsonb_get_by_pointer(table.bytes, table.length, (const uint8_t *)HEATER, HEATER_LENGTH,
                                           work.bytes, sizeof work.bytes);
    if (JSONB_IS_DONE(answer)) {
        work.length = (size_t)answer;
        print("heater", &work);
    } else if (answer == JSONB_ABSENT) {
        printf("heater absent\n");
    } else {
        printf("refused %d\n", JSONB_NUMBER_OF(answer));
    }
}

int main(void) {
    memcpy(table.bytes, TABLE, sizeof TABLE);
    table.length = sizeof TABLE;
    look_up();
    report(take_overlay(OVERLAY, sizeof OVERLAY));
    look_up();
    /* The same overlay, its last byte lost on the way. */
    report(take_overlay(OVERLAY, sizeof OVERLAY - 1));
    look_up();
    return 0;
}
