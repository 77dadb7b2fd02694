/* The by-arc split of cost classes. */
#include "expect.h"

#include <string.h>

#define MOST ZILQODUR_MOST_CLASSES
#define LIMIT 1000000000

/* An entry of a list before a call, which no share here is. */
#define KEPT 77

/* The entries of an output here: the shares of T in all classes, and one that is never written. */
#define ROOM (MOST * MEMBERS + 1)

/* What a call is handed, and what comes of it. */
typedef struct Row {
    int line;
    size_t classes, arcs;
    uint16_t parents[ARCS], marks[ARCS];
    size_t marks_count, costs_count;
    uint32_t costs[MOST * ARCS];
    size_t out_count;
    uint32_t refusal;
    size_t place, members;
    uint64_t shares[MOST * MEMBERS], totals[2 * MOST];
} Row;

/* Arcs, parents and marks: T, T with nobody at vertex 3, U with two members below one arc, one arc, and no arc. */
#define OF_T ARCS, {0, 1, 1, 0}, {0, 1, 1, 1}, ARCS
#define OF_SPARE ARCS, {0, 1, 1, 0}, {0, 1, 0, 1}, ARCS
#define OF_U 3, {0, 1, 1}, {0, 1, 1}, 3
#define OF_ARC 1, {0}, {1}, 1
#define OF_NONE 0, {0}, {0}, 0

#define QUARTER (LIMIT / 4)
#define QUARTERS QUARTER, QUARTER, QUARTER, QUARTER
#define GIVEN(members) ZILQODUR_NO_REFUSAL, 0, members
#define REFUSED(refusal, place) refusal, place, 0, {0}, {0}

static const Row splits[] = {
    {__LINE__, 2, OF_T, 8, {1, 1, 0, 4, 5, 0, 5, 0}, 6, GIVEN(3), {2, 0, 4, 3, 7, 0}, {6, 10, 0, 0, 6, 10, 0, 0}},
    {__LINE__, 1, OF_T, 4, {6, 1, 5, 4}, 3, GIVEN(3), {4, 8, 4}, {16, 0, 0, 0, 16, 0, 0, 0}},
    {__LINE__, 3, OF_T, 12, {6, 1, 5, 4, 0, 0, 0, 0, 7, 0, 0, 1}, 9,
     GIVEN(3), {4, 8, 4, 0, 0, 0, 4, 3, 1}, {16, 0, 8, 0, 16, 0, 8, 0}},
    {__LINE__, 4, OF_T, 16, {0, 1, 0, 0, 0, 0, 2, 0, 0, 0, 0, 3, 5, 0, 0, 0}, 12,
     GIVEN(3), {1, 0, 0, 0, 2, 0, 0, 0, 3, 3, 2, 0}, {1, 2, 3, 5, 1, 2, 3, 5}},
    /* leftover units go by the tallies of their own class */
    {__LINE__, 2, OF_U, 6, {7, 0, 0, 7, 0, 0}, 4, GIVEN(2), {4, 3, 4, 3}, {7, 7, 0, 0, 7, 7, 0, 0}},
    {__LINE__, 4, OF_U, 12, {1, 0, 0, 1, 0, 0, 1, 0, 0, 1, 0, 0}, 8,
     GIVEN(2), {1, 0, 1, 0, 1, 0, 1, 0}, {1, 1, 1, 1, 1, 1, 1, 1}},
    /* nobody uses arc 3: its costs are in no total, whatever they are up to the limit */
    {__LINE__, 2, OF_SPARE, 8, {6, 1, 5, 4, 5, 0, 5, 0}, 4, GIVEN(2), {7, 4, 5, 0}, {11, 5, 0, 0, 11, 5, 0, 0}},
    {__LINE__, 2, OF_SPARE, 8, {6, 1, 1, 4, 5, 0, LIMIT - 1, 0}, 4, GIVEN(2), {7, 4, 5, 0}, {11, 5, 0, 0, 11, 5, 0, 0}},
    /* sums at the limit */
    {__LINE__, 4, OF_ARC, 4, {QUARTERS}, 4, GIVEN(1), {QUARTERS}, {QUARTERS, QUARTERS}},
    {__LINE__, 4, OF_ARC, 4, {0, 0, 0, LIMIT}, 4, GIVEN(1), {0, 0, 0, LIMIT}, {0, 0, 0, LIMIT, 0, 0, 0, LIMIT}},
    {__LINE__, 2, OF_ARC, 2, {LIMIT, 0}, 2, GIVEN(1), {LIMIT, 0}, {LIMIT, 0, 0, 0, LIMIT, 0, 0, 0}},
};

static const Row refused[] = {
    /* 4 on a sum that is a unit above the limit, also at an arc that nobody uses */
    {__LINE__, 4, OF_ARC, 4, {QUARTER + 1, QUARTER, QUARTER, QUARTER}, 4, REFUSED(ZILQODUR_COST, 1)},
    {__LINE__, 4, OF_ARC, 4, {QUARTER, QUARTER, QUARTER, QUARTER + 1}, 4, REFUSED(ZILQODUR_COST, 1)},
    {__LINE__, 2, OF_T, 8, {0, LIMIT, 0, 0, 0, 1, 0, 0}, 6, REFUSED(ZILQODUR_COST, 2)},
    {__LINE__, 2, OF_SPARE, 8, {6, 1, 2, 4, 5, 0, LIMIT - 1, 0}, 4, REFUSED(ZILQODUR_COST, 3)},
    /* on a class that is above it by itself, and on sums beyond 32 bits, of which two are 0 in their last 32 */
    {__LINE__, 2, OF_ARC, 2, {LIMIT + 1, 0}, 2, REFUSED(ZILQODUR_COST, 1)},
    {__LINE__, 2, OF_ARC, 2, {0, LIMIT + 1}, 2, REFUSED(ZILQODUR_COST, 1)},
    {__LINE__, 4, OF_ARC, 4, {UINT32_MAX, UINT32_MAX, UINT32_MAX, UINT32_MAX}, 4, REFUSED(ZILQODUR_COST, 1)},
    {__LINE__, 2, OF_ARC, 2, {UINT32_MAX, 1}, 2, REFUSED(ZILQODUR_COST, 1)},
    {__LINE__, 4, OF_ARC, 4, {1u << 30, 1u << 30, 1u << 30, 1u << 30}, 4, REFUSED(ZILQODUR_COST, 1)},
    /* 32, also before 1 and 2, and 1 before 2 */
    {__LINE__, 0, OF_T, 0, {0}, 0, REFUSED(ZILQODUR_CLASS_COUNT, 0)},
    {__LINE__, 5, OF_ARC, 5, {1, 1, 1, 1, 1}, 5, REFUSED(ZILQODUR_CLASS_COUNT, 0)},
    {__LINE__, 0, OF_NONE, 0, {0}, 0, REFUSED(ZILQODUR_CLASS_COUNT, 0)},
    {__LINE__, 5, OF_NONE, 0, {0}, 0, REFUSED(ZILQODUR_CLASS_COUNT, 0)},
    {__LINE__, SIZE_MAX, OF_NONE, 0, {0}, 0, REFUSED(ZILQODUR_CLASS_COUNT, 0)},
    {__LINE__, 65536 + 2, OF_T, 8, {0}, 6, REFUSED(ZILQODUR_CLASS_COUNT, 0)},
    {__LINE__, SIZE_MAX / 2 + 1 + 2, OF_T, 8, {0}, 6, REFUSED(ZILQODUR_CLASS_COUNT, 0)},
    {__LINE__, 1, OF_NONE, 0, {0}, 0, REFUSED(ZILQODUR_ARC_COUNT, 0)},
    {__LINE__, 4, OF_NONE, 1, {0}, 1, REFUSED(ZILQODUR_ARC_COUNT, 0)},
    /* 2 on costs of another number of classes or with an entry less or more, and on marks; before 3 */
    {__LINE__, 2, OF_T, 4, {0}, 6, REFUSED(ZILQODUR_TREE_LENGTHS, 0)},
    {__LINE__, 1, OF_T, 8, {0}, 3, REFUSED(ZILQODUR_TREE_LENGTHS, 0)},
    {__LINE__, 2, OF_T, 7, {0}, 6, REFUSED(ZILQODUR_TREE_LENGTHS, 0)},
    {__LINE__, 2, OF_T, 9, {0}, 6, REFUSED(ZILQODUR_TREE_LENGTHS, 0)},
    {__LINE__, 2, 4, {0, 1, 1, 0}, {0, 1, 1, 1}, 3, 8, {0}, 4, REFUSED(ZILQODUR_TREE_LENGTHS, 0)},
    {__LINE__, 2, 4, {1, 1, 1, 0}, {0, 1, 1, 1}, 4, 7, {0}, 6, REFUSED(ZILQODUR_TREE_LENGTHS, 0)},
    {__LINE__, 2, 4, {1, 1, 1, 0}, {0, 1, 1, 1}, 3, 8, {0}, 4, REFUSED(ZILQODUR_TREE_LENGTHS, 0)},
    /* at one arc 3 before 4, and 4 before 16 and 17; at an earlier arc 17 before 3 and 4, 16 before 4; 4 before 18 */
    {__LINE__, 2, 4, {0, 2, 1, 0}, {0, 1, 1, 1}, 4, 8, {0, LIMIT, 0, 0, 0, 1}, 6, REFUSED(ZILQODUR_PARENT, 2)},
    {__LINE__, 2, 4, {0, 1, 1, 0}, {0, 2, 1, 1}, 4, 8, {0, LIMIT, 0, 0, 0, 1}, 4, REFUSED(ZILQODUR_COST, 2)},
    {__LINE__, 2, 4, {0, 1, 1, 0}, {1, 1, 1, 1}, 4, 8, {1, 0, 0, 0, LIMIT}, 8, REFUSED(ZILQODUR_COST, 1)},
    {__LINE__, 2, 4, {0, 2, 1, 0}, {1, 1, 1, 1}, 4, 8, {0}, 8, REFUSED(ZILQODUR_MARK_CHILD, 1)},
    {__LINE__, 2, 4, {0, 1, 1, 0}, {1, 1, 1, 1}, 4, 8, {0, LIMIT, 0, 0, 0, 1}, 8, REFUSED(ZILQODUR_MARK_CHILD, 1)},
    {__LINE__, 2, 4, {0, 1, 1, 0}, {0, 2, 1, 1}, 4, 8, {0, 0, LIMIT, 0, 0, 0, 1}, 4, REFUSED(ZILQODUR_MARK, 2)},
    {__LINE__, 2, 4, {0, 1, 1, 0}, {0, 0, 0, 0}, 4, 8, {0, 0, 0, LIMIT, 0, 0, 0, 1}, 0, REFUSED(ZILQODUR_COST, 4)},
    /* on one class */
    {__LINE__, 1, 4, {0, 1, 3, 0}, {0, 1, 1, 1}, 4, 4, {0}, 3, REFUSED(ZILQODUR_PARENT, 3)},
    {__LINE__, 1, OF_T, 4, {6, 1, LIMIT + 1, 4}, 3, REFUSED(ZILQODUR_COST, 3)},
    {__LINE__, 1, 4, {0, 1, 1, 0}, {0, 1, 65535, 1}, 4, 4, {0}, 3, REFUSED(ZILQODUR_MARK, 3)},
    {__LINE__, 1, 4, {0, 1, 1, 0}, {1, 1, 1, 1}, 4, 4, {0}, 3, REFUSED(ZILQODUR_MARK_CHILD, 1)},
    /* 18 before 8; 8 on the shares of another number of classes, and with an entry less or more */
    {__LINE__, 2, 4, {0, 1, 1, 0}, {0, 0, 0, 0}, 4, 8, {0}, 6, REFUSED(ZILQODUR_NO_MARK, 0)},
    {__LINE__, 2, OF_T, 8, {0}, 3, REFUSED(ZILQODUR_OUTPUT_LENGTH, 0)},
    {__LINE__, 1, OF_T, 4, {0}, 6, REFUSED(ZILQODUR_OUTPUT_LENGTH, 0)},
    {__LINE__, 2, OF_T, 8, {0}, 5, REFUSED(ZILQODUR_OUTPUT_LENGTH, 0)},
    {__LINE__, 2, OF_T, 8, {0}, 7, REFUSED(ZILQODUR_OUTPUT_LENGTH, 0)},
    {__LINE__, 4, OF_T, 16, {0}, 0, REFUSED(ZILQODUR_OUTPUT_LENGTH, 0)},
};

static int is_class_split(ZilqodurClassSplit found, uint32_t refusal, size_t place, size_t members,
                          const uint64_t *totals) {
    return IS(found.refusal, refusal) && IS(found.place, place) && IS(found.members, members) &&
           sizeof found.totals == 2 * MOST * sizeof totals[0] && memcmp(found.totals, totals, sizeof found.totals) == 0;
}

/* The list of so many shares, and then entries that no call writes. */
static void fill(uint64_t *list, const uint64_t *shares, size_t count) {
    size_t i;
    for (i = 0; i < ROOM; i++) list[i] = i < count ? shares[i] : KEPT;
}

/* The row's answer, and its shares in the output, of which there are so many. */
static void try_row(const Row *row, size_t count) {
    uint64_t out[ROOM], expected[ROOM];
    ZilqodurClassSplit found;
    fill(out, NULL, 0);
    fill(expected, row->shares, count);
    found = zilqodur_split_classes(row->parents, row->arcs, row->costs, row->costs_count, row->marks, row->marks_count,
                                   row->classes, out, row->out_count);
    expect(is_class_split(found, row->refusal, row->place, row->members, row->totals), __FILE__, row->line);
    expect(memcmp(out, expected, sizeof out) == 0, __FILE__, row->line);
}

/* With one class, the answer and the list of the by-arc split, also where it refuses. */
static void try_one_class(const Row *row) {
    uint64_t out[ROOM], expected[ROOM];
    ZilqodurClassSplit found;
    ZilqodurMembers split;
    fill(out, NULL, 0);
    fill(expected, NULL, 0);
    found = zilqodur_split_classes(row->parents, row->arcs, row->costs, row->costs_count, row->marks, row->marks_count,
                                   1, out, row->out_count);
    split = zilqodur_split_by_arc(row->parents, row->arcs, row->costs, row->costs_count, row->marks, row->marks_count,
                                  expected, row->out_count);
    expect(found.refusal == split.refusal && found.place == split.place, __FILE__, row->line);
    expect(found.members == split.members && memcmp(out, expected, sizeof out) == 0, __FILE__, row->line);
}

/* Each class has the by-arc split of its own costs. */
static void try_each_class(const Row *row) {
    size_t c;
    for (c = 0; c < row->classes; c++) {
        const uint32_t *own = row->costs + c * row->arcs;
        uint64_t out[ROOM], expected[ROOM];
        fill(out, NULL, 0);
        fill(expected, row->shares + c * row->members, row->members);
        zilqodur_split_by_arc(row->parents, row->arcs, own, row->arcs, row->marks, row->marks_count, out, row->members);
        expect(memcmp(out, expected, sizeof out) == 0, __FILE__, row->line);
    }
}

/* The shares added over the classes pass the audit on the added costs. */
static void try_audit(const Row *row) {
    uint32_t sums[ARCS] = {0};
    int64_t added[MEMBERS] = {0};
    ZilqodurTotal total;
    ZilqodurSearch search;
    size_t i;
    for (i = 0; i < row->costs_count; i++) sums[i % row->arcs] += row->costs[i];
    for (i = 0; i < row->out_count; i++) added[i % row->members] += (int64_t)row->shares[i];
    total = zilqodur_check_total(row->parents, row->arcs, sums, row->arcs, row->marks, row->marks_count, added,
                                 row->members);
    search = zilqodur_find_group(row->parents, row->arcs, sums, row->arcs, row->marks, row->marks_count, added,
                                 row->members);
    expect(total.verdict == ZILQODUR_ADDS_UP && search.verdict == ZILQODUR_NO_GROUP, __FILE__, row->line);
}

static int all_are(const uint64_t *list, size_t from, size_t to, uint64_t entry) {
    size_t i = from;
    while (i < to && list[i] == entry) i++;
    return i == to;
}

/* A star with the greatest number of arcs, all of the greatest cost: in four equal classes, and in the last of four.
 * The totals are beyond 32 bits. */
static void largest(void) {
    static const uint64_t last[2 * MOST] = {0, 0, 0, 1023000000000, 0, 0, 0, 1023000000000};
    static uint16_t star[ZILQODUR_MOST_ARCS], all[ZILQODUR_MOST_ARCS];
    static uint32_t dear[MOST * ZILQODUR_MOST_ARCS];
    static uint64_t out[MOST * ZILQODUR_MOST_ARCS + 1];
    const size_t m = ZILQODUR_MOST_ARCS, before = (MOST - 1) * m, whole = MOST * m;
    uint64_t quarters[2 * MOST];
    size_t i;
    for (i = 0; i < 2 * MOST; i++) quarters[i] = 255750000000;
    for (i = 0; i < m; i++) all[i] = 1;
    for (i = 0; i < whole; i++) dear[i] = QUARTER;
    out[whole] = KEPT;
    EXPECT(is_class_split(zilqodur_split_classes(star, m, dear, whole, all, m, MOST, out, whole), ZILQODUR_NO_REFUSAL,
                          0, m, quarters));
    EXPECT(all_are(out, 0, whole, QUARTER) && out[whole] == KEPT);
    for (i = 0; i < whole; i++) dear[i] = i < before ? 0 : LIMIT;
    EXPECT(is_class_split(zilqodur_split_classes(star, m, dear, whole, all, m, MOST, out, whole), ZILQODUR_NO_REFUSAL,
                          0, m, last));
    EXPECT(all_are(out, 0, before, 0) && all_are(out, before, whole, LIMIT) && out[whole] == KEPT);
}

/* The same star with one arc more. */
static void too_large(void) {
    static const uint64_t none[2 * MOST] = {0};
    static uint16_t star[ZILQODUR_MOST_ARCS + 1], all[ZILQODUR_MOST_ARCS + 1];
    static uint32_t dear[MOST * (ZILQODUR_MOST_ARCS + 1)];
    static uint64_t out[MOST * (ZILQODUR_MOST_ARCS + 1)];
    const size_t m = ZILQODUR_MOST_ARCS + 1, whole = MOST * m;
    size_t i;
    for (i = 0; i < m; i++) all[i] = 1;
    for (i = 0; i < whole; i++) dear[i] = QUARTER;
    EXPECT(is_class_split(zilqodur_split_classes(star, m, dear, whole, all, m, MOST, out, whole), ZILQODUR_ARC_COUNT, 0,
                          0, none));
    EXPECT(all_are(out, 0, whole, 0));
}

void try_classes(void) {
    size_t i;
    EXPECT(MOST == 4);
    for (i = 0; i < sizeof splits / sizeof splits[0]; i++) {
        try_row(&splits[i], splits[i].out_count);
        try_one_class(&splits[i]);
        try_each_class(&splits[i]);
        try_audit(&splits[i]);
    }
    for (i = 0; i < sizeof refused / sizeof refused[0]; i++) {
        try_row(&refused[i], 0);
        try_one_class(&refused[i]);
    }
    largest();
    too_large();
}
