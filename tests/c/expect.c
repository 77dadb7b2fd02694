/* The checks and the lists that expect.h declares. */
#include "expect.h"

#include <stdio.h>

const uint16_t parents[ARCS] = {0, 1, 1, 0};
const uint32_t costs[ARCS] = {6, 1, 5, 4};
const uint16_t marks[ARCS] = {0, 1, 1, 1};
const uint16_t wrong_parents[ARCS] = {0, 2, 1, 0};
const uint32_t wrong_costs[ARCS] = {6, 1, 1000000001, 4};
const uint16_t wrong_marks[ARCS] = {0, 1, 65535, 1};
const uint16_t inner_marks[ARCS] = {1, 1, 1, 1};
const uint16_t no_marks[ARCS] = {0, 0, 0, 0};
const int64_t sample_proposal[MEMBERS] = {8, 4, 4};
int failures;

void expect(int holds, const char *file, int line) {
    if (!holds) {
        printf("%s:%d does not hold\n", file, line);
        failures++;
    }
}

int are(const uint64_t *list, uint64_t a, uint64_t b, uint64_t c) {
    return list[0] == a && list[1] == b && list[2] == c;
}
