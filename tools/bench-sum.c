/* The turns of tools/bench-sum: ROUNDS prints the nanoseconds a value of chemstation_sum and of a loop written by hand, least of all
 * turns, over one column of 2^19 whole numbers. */
#include <math.h>
#include <stdio.h>
#include <stdlib.h>
#include <time.h>

#include "chemstation.h"

enum { VALUES = 1 << 19 };

static double column[VALUES];

/* The same sum, as one would write it in C. */
static uint8_t by_hand(const double *values, size_t length, int64_t *sum) {
    int64_t total = *sum;
    for (size_t i = 0; i < length; i++) {
        if (!(fabs(values[i]) < 9007199254740992.0))
            return CHEMSTATION_SUM_OUT_OF_RANGE;
        int64_t whole = (int64_t)values[i];
        if ((double)whole != values[i] || __builtin_add_overflow(total, whole, &total))
            return CHEMSTATION_SUM_OUT_OF_RANGE;
    }
    *sum = total;
    return CHEMSTATION_GIVEN;
}

static double nanoseconds(uint8_t (*add)(const double *, size_t, int64_t *), int64_t *sum) {
    struct timespec begin, end;
    *sum = 0;
    clock_gettime(CLOCK_MONOTONIC, &begin);
    add(column, VALUES, sum);
    clock_gettime(CLOCK_MONOTONIC, &end);
    return ((double)(end.tv_sec - begin.tv_sec) * 1e9 + (double)(end.tv_nsec - begin.tv_nsec)) / VALUES;
}

int main(int count, char **words) {
    double library = INFINITY, hand = INFINITY;
    int64_t theirs = 0, ours = 1;
    uint32_t next = 1;
    if (count != 2)
        return 1;
    for (size_t i = 0; i < VALUES; i++) {
        next = next * 1664525 + 1013904223;
        column[i] = (double)(int32_t)next;
    }
    for (int turn = atoi(words[1]); turn > 0; turn--) {
        library = fmin(library, nanoseconds(chemstation_sum, &ours));
        hand = fmin(hand, nanoseconds(by_hand, &theirs));
        if (ours != theirs)
            return 1;
    }
    printf("%.3f %.3f\n", library, hand);
    return 0;
}
