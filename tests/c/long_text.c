/*
 * The text check on texts that no record has room for: an answer tells up to 2^32 - 1 code points, and is below JSONB_ABSENT however
 * many more there are. The texts are zeros, which are code points like any other, in memory that nothing was written to.
 */
#define _DEFAULT_SOURCE

#include <inttypes.h>
#include <stdint.h>
#include <stdio.h>
#include <sys/mman.h>

#include "jsonb.h"

#define MOST UINT64_C(0xFFFFFFFF)

static const uint64_t lengths[] = {65536, MOST - 1, MOST, MOST + 1, MOST + 4};

int main(void) {
    uint8_t *zeros = mmap(NULL, MOST + 4, PROT_READ, MAP_PRIVATE | MAP_ANONYMOUS | MAP_NORESERVE, -1, 0);
    int wrong = 0;
    size_t i;
    if (zeros == MAP_FAILED) {
        perror("mmap");
        return 1;
    }
    for (i = 0; i < sizeof lengths / sizeof lengths[0]; i++) {
        uint64_t wanted = lengths[i] < MOST ? lengths[i] : MOST;
        uint64_t answer = jsonb_check_text(zeros, lengths[i]);
        if (answer != wanted) {
            printf("wrong: %" PRIu64 " zeros: %" PRIu64 "\n", lengths[i], answer);
            wrong = 1;
        }
    }
    if (!wrong) {
        printf("texts of up to %" PRIu64 " code points: no answer wrong\n", lengths[i - 1]);
    }
    return wrong;
}
