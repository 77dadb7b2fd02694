/* The step from one parent list to the next. */
#include "expect.h"

#include <string.h>

#define MOST ZILQODUR_MOST_SMALL_ARCS

/* The entries of a list here: those that may be handed over, one too many, and one that never is. */
#define ROOM (MOST + 2)

/* An entry that no step writes. */
#define KEPT 77

static int is_step(ZilqodurStep found, uint32_t refusal, size_t place, uint32_t verdict) {
    return IS(found.refusal, refusal) && IS(found.place, place) && IS(found.verdict, verdict);
}

static int is_next(ZilqodurStep found) {
    return is_step(found, ZILQODUR_NO_REFUSAL, 0, ZILQODUR_STEP_NEXT);
}

static int is_end(ZilqodurStep found) {
    return is_step(found, ZILQODUR_NO_REFUSAL, 0, ZILQODUR_STEP_END);
}

/* All lists of 3 arcs, in their order. */
static void three_arcs(void) {
    static const uint16_t all[6][4] = {{0, 0, 0, KEPT}, {0, 0, 1, KEPT}, {0, 0, 2, KEPT},
                                       {0, 1, 0, KEPT}, {0, 1, 1, KEPT}, {0, 1, 2, KEPT}};
    uint16_t list[4] = {0, 0, 0, KEPT};
    size_t i;
    for (i = 1; i < 6; i++) {
        EXPECT(is_next(zilqodur_next_parents(list, 3)));
        EXPECT(memcmp(list, all[i], sizeof list) == 0);
    }
    EXPECT(is_end(zilqodur_next_parents(list, 3)));
    EXPECT(memcmp(list, all[5], sizeof list) == 0);
}

/* A parent list that stands behind the other one. */
static int rises(const uint16_t *before, const uint16_t *list, size_t arcs) {
    size_t first = 0, i;
    while (first < arcs && list[first] == before[first]) first++;
    for (i = 0; i < arcs; i++) {
        if (list[i] > i) {
            return 0;
        }
    }
    return first < arcs && list[first] > before[first];
}

/* From all zeros up to the end there are so many lists, each behind the one before it. */
static void walk(size_t arcs, size_t number) {
    uint16_t list[ROOM] = {0}, before[ROOM] = {0};
    size_t lists = 1;
    list[arcs] = before[arcs] = KEPT;
    while (is_next(zilqodur_next_parents(list, arcs)) && rises(before, list, arcs)) {
        memcpy(before, list, arcs * sizeof list[0]);
        lists++;
    }
    EXPECT(lists == number);
    EXPECT(memcmp(list, before, sizeof list) == 0);
    EXPECT(is_end(zilqodur_next_parents(list, arcs)));
    EXPECT(memcmp(list, before, sizeof list) == 0);
}

/* A step may start from any list. */
static void from_within(void) {
    static const uint16_t carried[4] = {0, 1, 0, 0}, raised[6] = {0, 1, 2, 0, 1, 4};
    uint16_t list[4] = {0, 0, 2, 3}, other[6] = {0, 1, 2, 0, 1, 3};
    EXPECT(is_next(zilqodur_next_parents(list, 4)));
    EXPECT(memcmp(list, carried, sizeof list) == 0);
    EXPECT(is_next(zilqodur_next_parents(other, 6)));
    EXPECT(memcmp(other, raised, sizeof other) == 0);
}

/* Lists that are refused. */
typedef struct Refused {
    int line;
    size_t arcs;
    uint16_t list[ROOM];
    uint32_t refusal;
    size_t place;
} Refused;

static const Refused refused[] = {
    {__LINE__, 0, {0}, ZILQODUR_SMALL_ARC_COUNT, 0},
    {__LINE__, 7, {0}, ZILQODUR_SMALL_ARC_COUNT, 0},
    {__LINE__, 7, {0, 1, 2, 3, 4, 5, 6}, ZILQODUR_SMALL_ARC_COUNT, 0},
    {__LINE__, 1, {1}, ZILQODUR_PARENT, 1},
    {__LINE__, 1, {65535}, ZILQODUR_PARENT, 1},
    {__LINE__, 2, {0, 65535}, ZILQODUR_PARENT, 2},
    {__LINE__, 3, {0, 0, 256}, ZILQODUR_PARENT, 3},
    {__LINE__, 5, {0, 0, 3, 0, 0}, ZILQODUR_PARENT, 3},
    {__LINE__, 6, {0, 1, 2, 3, 4, 6}, ZILQODUR_PARENT, 6},
    {__LINE__, 6, {0, 1, 2, 3, 4, 65535}, ZILQODUR_PARENT, 6},
    /* 31 where 3 stands too, and 3 at the lower of two arcs */
    {__LINE__, 0, {1}, ZILQODUR_SMALL_ARC_COUNT, 0},
    {__LINE__, 7, {1, 2, 3, 4, 5, 6, 7}, ZILQODUR_SMALL_ARC_COUNT, 0},
    {__LINE__, 7, {0, 0, 0, 0, 0, 0, 7}, ZILQODUR_SMALL_ARC_COUNT, 0},
    {__LINE__, 3, {0, 2, 3}, ZILQODUR_PARENT, 2},
    {__LINE__, 6, {1, 0, 0, 0, 0, 6}, ZILQODUR_PARENT, 1},
    {__LINE__, 6, {0, 1, 2, 65535, 5, 65535}, ZILQODUR_PARENT, 4},
};

static void refusals(void) {
    size_t i;
    for (i = 0; i < sizeof refused / sizeof refused[0]; i++) {
        const Refused *row = &refused[i];
        uint16_t list[ROOM];
        ZilqodurStep found;
        memcpy(list, row->list, sizeof list);
        found = zilqodur_next_parents(list, row->arcs);
        expect(is_step(found, row->refusal, row->place, ZILQODUR_NO_STEP), __FILE__, row->line);
        expect(memcmp(list, row->list, sizeof list) == 0, __FILE__, row->line);
    }
}

/* Lengths far above the limit, of which two have the lowest bits of a length that is accepted. */
static void long_lists(void) {
    static const size_t lengths[] = {256 + 3, ZILQODUR_MOST_ARCS, 65536 + 3};
    static const uint16_t zeros[65536 + 3] = {0};
    static uint16_t list[65536 + 3];
    size_t i;
    for (i = 0; i < sizeof lengths / sizeof lengths[0]; i++) {
        EXPECT(is_step(zilqodur_next_parents(list, lengths[i]), ZILQODUR_SMALL_ARC_COUNT, 0, ZILQODUR_NO_STEP));
        EXPECT(memcmp(list, zeros, sizeof list) == 0);
    }
}

void try_steps(void) {
    size_t arcs, number = 1;
    EXPECT(MOST == 6);
    three_arcs();
    for (arcs = 1; arcs <= MOST; arcs++) {
        number *= arcs;
        walk(arcs, number);
    }
    from_within();
    refusals();
    long_lists();
}
