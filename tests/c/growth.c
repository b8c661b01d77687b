/*
 * Document 02 §4: the check, and append, on an array of 16,000 nulls take less than eight times as long as on one of 4,000. Measured
 * are the functions themselves, by the processor's time: the least of several runs of many calls each, in which the two lengths take
 * turns. If each item's place were summed from the table, four times the items would take sixteen times as long.
 */
#define _XOPEN_SOURCE 700

#include <stdint.h>
#include <stdio.h>
#include <time.h>

#include "jsonb.h"

#define FEW 4000
#define MANY 16000
#define RUNS 21
#define CALLS 20
#define LIMIT 8.0

/* An array of so many nulls: a header, and an entry of zeros for each. */
struct nulls {
    uint8_t bytes[4 + 4 * MANY];
    size_t length;
    double least;
};

static const uint8_t null_record[] = {0x20, 0, 0, 0, 0, 0, 0, 0};
static struct nulls few, many;
static uint8_t out[JSONB_ROOM];

static void make(struct nulls *array, uint32_t count) {
    array->bytes[0] = 0x80;
    array->bytes[1] = (uint8_t)(count >> 16);
    array->bytes[2] = (uint8_t)(count >> 8);
    array->bytes[3] = (uint8_t)count;
    array->length = 4 + 4 * (size_t)count;
}

static uint64_t check(const struct nulls *array) {
    return jsonb_check(array->bytes, array->length);
}

static uint64_t append(const struct nulls *array) {
    return jsonb_append(array->bytes, array->length, null_record, sizeof null_record, out, sizeof out);
}

static double seconds(void) {
    struct timespec now;
    clock_gettime(CLOCK_PROCESS_CPUTIME_ID, &now);
    return (double)now.tv_sec + 1e-9 * (double)now.tv_nsec;
}

/* One run of calls, whose answer must be `wanted`; keeps the least time of all runs. Gives how many answers were others. */
static int run(uint64_t (*call)(const struct nulls *), struct nulls *array, uint64_t wanted) {
    double start = seconds(), taken;
    int i, wrong = 0;
    for (i = 0; i < CALLS; i++) {
        wrong += call(array) != wanted;
    }
    taken = seconds() - start;
    if (array->least == 0 || taken < array->least) {
        array->least = taken;
    }
    return wrong;
}

/* Whether a call answers as it must, and takes less than LIMIT times as long on many items as on few. */
static int grows(const char *name, uint64_t (*call)(const struct nulls *), uint64_t few_wanted, uint64_t many_wanted) {
    int i, wrong = 0;
    double factor;
    few.least = many.least = 0;
    for (i = 0; i < RUNS; i++) {
        wrong += run(call, &few, few_wanted);
        wrong += run(call, &many, many_wanted);
    }
    factor = many.least / few.least;
    printf("%s: %d nulls %.1f us, %d nulls %.1f us, %.1f times as long\n", name, FEW, few.least / CALLS * 1e6, MANY,
        many.least / CALLS * 1e6, factor);
    if (wrong) {
        printf("wrong: %s: %d answers\n", name, wrong);
    }
    if (!(factor < LIMIT)) {
        printf("wrong: %s: not less than %.0f times as long\n", name, LIMIT);
    }
    return !wrong && factor < LIMIT;
}

int main(void) {
    int checks, appends;
    make(&few, FEW);
    make(&many, MANY);
    checks = grows("check", check, JSONB_READABLE, JSONB_READABLE);
    appends = grows("append", append, 4 + 4 * (FEW + 1), 4 + 4 * (MANY + 1));
    return checks && appends ? 0 : 1;
}
