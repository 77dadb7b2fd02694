/* The level split under caps and floors. */
#include "expect.h"

/* An entry of a list before a call, which no share here is. */
#define KEPT 77

static int is_level(ZilqodurLevel found, uint32_t refusal, size_t place, uint64_t shortfall, size_t members) {
    return IS(found.refusal, refusal) && IS(found.place, place) && IS(found.shortfall, shortfall) &&
           IS(found.members, members);
}

static int is_split(ZilqodurLevel found, size_t members) {
    return is_level(found, ZILQODUR_NO_REFUSAL, 0, 0, members);
}

/* Without a shortfall. */
static int is_refused(ZilqodurLevel found, uint32_t refusal, size_t place) {
    return is_level(found, refusal, place, 0, 0);
}

/* Lists of T with the shares that are given, or with the refusal. */
typedef struct Row {
    int line;
    uint64_t caps[MEMBERS], floors[MEMBERS], shares[MEMBERS];
    uint32_t refusal;
    size_t place;
    uint64_t shortfall;
} Row;

#define GIVEN(a, b, c) {a, b, c}, ZILQODUR_NO_REFUSAL, 0, 0
#define SHORT(place, shortfall) {KEPT, KEPT, KEPT}, ZILQODUR_CAPS_SHORT, place, shortfall
#define REFUSED(refusal, place) {KEPT, KEPT, KEPT}, refusal, place, 0

static const Row rows[] = {
    {__LINE__, {100, 100, 100}, {0, 0, 0}, GIVEN(6, 6, 4)},
    {__LINE__, {3, 9, 4}, {0, 0, 0}, GIVEN(3, 9, 4)},
    {__LINE__, {100, 100, 100}, {7, 0, 0}, GIVEN(7, 5, 4)},
    {__LINE__, {100, 100, 100}, {0, 7, 0}, GIVEN(5, 7, 4)},
    {__LINE__, {4, 100, 100}, {0, 7, 0}, GIVEN(4, 8, 4)},
    /* floors that the shares keep anyway, floors that leave one list, and floors that are the caps */
    {__LINE__, {100, 100, 100}, {6, 6, 4}, GIVEN(6, 6, 4)},
    {__LINE__, {100, 100, 100}, {1, 11, 4}, GIVEN(1, 11, 4)},
    {__LINE__, {2, 10, 4}, {2, 10, 4}, GIVEN(2, 10, 4)},
    /* 9, also where the floor of one of the users is above 0, and at the later of two arcs */
    {__LINE__, {3, 6, 100}, {0, 0, 0}, SHORT(1, 3)},
    {__LINE__, {4, 7, 4}, {0, 7, 0}, SHORT(1, 1)},
    {__LINE__, {100, 4, 100}, {0, 4, 0}, SHORT(3, 1)},
    {__LINE__, {0, 3, 4}, {0, 3, 4}, SHORT(3, 2)},
    /* 28: on an arc with two users, on one with one user, on the later of two arcs, where the floors are the caps */
    {__LINE__, {100, 100, 100}, {8, 0, 0}, REFUSED(ZILQODUR_FLOORS_ABOVE_NEED, 1)},
    {__LINE__, {100, 100, 100}, {0, 12, 0}, REFUSED(ZILQODUR_FLOORS_ABOVE_NEED, 1)},
    {__LINE__, {100, 100, 100}, {6, 7, 0}, REFUSED(ZILQODUR_FLOORS_ABOVE_NEED, 1)},
    {__LINE__, {100, 100, 100}, {0, 0, 5}, REFUSED(ZILQODUR_FLOORS_ABOVE_NEED, 4)},
    {__LINE__, {100, 100, 100}, {8, 0, 5}, REFUSED(ZILQODUR_FLOORS_ABOVE_NEED, 4)},
    {__LINE__, {7, 6, 4}, {7, 6, 4}, REFUSED(ZILQODUR_FLOORS_ABOVE_NEED, 1)},
    {__LINE__, {2000000000000, 100, 4}, {2000000000000, 0, 4}, REFUSED(ZILQODUR_FLOORS_ABOVE_NEED, 1)},
    /* 28 on a later arc before 9 on an earlier one, and 9 on a later arc before 28 */
    {__LINE__, {0, 0, 5}, {0, 0, 5}, REFUSED(ZILQODUR_FLOORS_ABOVE_NEED, 4)},
    {__LINE__, {100, 100, 3}, {8, 0, 0}, SHORT(4, 1)},
    {__LINE__, {100, 4, 100}, {9, 0, 0}, SHORT(3, 1)},
    /* 27, also before 9 and 28 */
    {__LINE__, {2, 100, 100}, {3, 0, 0}, REFUSED(ZILQODUR_FLOOR_ABOVE_CAP, 0)},
    {__LINE__, {2, 2, 4}, {0, 3, 5}, REFUSED(ZILQODUR_FLOOR_ABOVE_CAP, 1)},
    {__LINE__, {100, 100, 4}, {0, 0, 5}, REFUSED(ZILQODUR_FLOOR_ABOVE_CAP, 2)},
    {__LINE__, {0, 0, 5}, {1, 0, 5}, REFUSED(ZILQODUR_FLOOR_ABOVE_CAP, 0)},
};

static int is_row(const Row *row, size_t length, uint32_t refusal, size_t place, uint64_t shortfall,
                  const uint64_t *shares) {
    uint64_t out[MEMBERS] = {KEPT, KEPT, KEPT};
    ZilqodurLevel found = zilqodur_split_level(T(marks), row->caps, MEMBERS, row->floors, MEMBERS, out, length);
    size_t members = refusal == ZILQODUR_NO_REFUSAL ? MEMBERS : 0;
    return is_level(found, refusal, place, shortfall, members) && are(out, shares[0], shares[1], shares[2]);
}

/* All rows, and the same written to a list that is too short: 8 comes after 27 and before 9 and 28. */
static void levels(void) {
    static const uint64_t kept[MEMBERS] = {KEPT, KEPT, KEPT};
    size_t i;
    for (i = 0; i < sizeof rows / sizeof rows[0]; i++) {
        const Row *row = &rows[i];
        int first = row->refusal == ZILQODUR_FLOOR_ABOVE_CAP ? is_row(row, 2, row->refusal, row->place, 0, kept)
                                                             : is_row(row, 2, ZILQODUR_OUTPUT_LENGTH, 0, 0, kept);
        expect(first, __FILE__, row->line);
        expect(is_row(row, MEMBERS, row->refusal, row->place, row->shortfall, row->shares), __FILE__, row->line);
    }
}

/* The caps and the floors of T with so many entries, and a list that is too short. */
static ZilqodurLevel split(const uint64_t *caps, size_t caps_count, const uint64_t *floors, size_t floors_count) {
    static uint64_t out[MEMBERS] = {KEPT, KEPT, KEPT};
    ZilqodurLevel found = zilqodur_split_level(T(marks), caps, caps_count, floors, floors_count, out, 2);
    EXPECT(are(out, KEPT, KEPT, KEPT));
    return found;
}

/* 6 and 7, on lists that also have the fault that is next in the order. */
static void refused_lists(void) {
    static const uint64_t low[MEMBERS + 1] = {2, 100, 100, 100};
    static const uint64_t high[MEMBERS + 1] = {3, 2000000000001, UINT64_MAX, 3};
    EXPECT(is_refused(split(high, 0, high, MEMBERS), ZILQODUR_LIST_LENGTH, 0));
    EXPECT(is_refused(split(high, 2, high, MEMBERS), ZILQODUR_LIST_LENGTH, 0));
    EXPECT(is_refused(split(high, MEMBERS + 1, high, MEMBERS), ZILQODUR_LIST_LENGTH, 0));
    EXPECT(is_refused(split(high, MEMBERS, low, 2), ZILQODUR_LIST_RANGE, 1));
    EXPECT(is_refused(split(low, MEMBERS, high, 0), ZILQODUR_LIST_LENGTH, 0));
    EXPECT(is_refused(split(low, MEMBERS, high, 2), ZILQODUR_LIST_LENGTH, 0));
    EXPECT(is_refused(split(low, MEMBERS, high, MEMBERS + 1), ZILQODUR_LIST_LENGTH, 0));
    EXPECT(is_refused(split(low, MEMBERS, high, MEMBERS), ZILQODUR_LIST_RANGE, 1));
    EXPECT(is_refused(split(low, MEMBERS, low, MEMBERS), ZILQODUR_OUTPUT_LENGTH, 0));
}

/* The tree's refusals, before 6 on the caps. */
static void refused_trees(void) {
    static const uint64_t list[2] = {0, 0};
    uint64_t out[MEMBERS] = {KEPT, KEPT, KEPT};
    EXPECT(is_refused(zilqodur_split_level(wrong_parents, ARCS, costs, ARCS, marks, ARCS, list, 2, list, 2, out, 2),
                      ZILQODUR_PARENT, 2));
    EXPECT(is_refused(zilqodur_split_level(T(wrong_marks), list, 2, list, 2, out, 2), ZILQODUR_MARK, 3));
    EXPECT(is_refused(zilqodur_split_level(T(no_marks), list, 2, list, 2, out, 2), ZILQODUR_NO_MARK, 0));
    EXPECT(are(out, KEPT, KEPT, KEPT));
}

/* T with nobody at vertex 3: two members, and nobody pays for arc 3. */
static void spare(void) {
    static const uint16_t some[ARCS] = {0, 1, 0, 1};
    static const uint64_t caps[2] = {100, 100}, low[2] = {6, 100};
    static const uint64_t none[2] = {0, 0}, fair[2] = {7, 4}, above[2] = {8, 0};
    uint64_t out[MEMBERS] = {KEPT, KEPT, KEPT};
    EXPECT(is_level(zilqodur_split_level(T(some), low, 2, none, 2, out, 2), ZILQODUR_CAPS_SHORT, 1, 1, 0));
    EXPECT(is_refused(zilqodur_split_level(T(some), caps, 2, above, 2, out, 2), ZILQODUR_FLOORS_ABOVE_NEED, 1));
    EXPECT(is_refused(zilqodur_split_level(T(some), low, 2, above, 2, out, 2), ZILQODUR_FLOOR_ABOVE_CAP, 0));
    EXPECT(are(out, KEPT, KEPT, KEPT));
    EXPECT(is_split(zilqodur_split_level(T(some), caps, 2, none, 2, out, 2), 2));
    EXPECT(are(out, 7, 4, KEPT));
    out[0] = out[1] = KEPT;
    EXPECT(is_split(zilqodur_split_level(T(some), fair, 2, fair, 2, out, 2), 2));
    EXPECT(are(out, 7, 4, KEPT));
}

#define PATH line, m, dear, m, ends, m
#define STAR arcs, m, dear, m, all, m

/* A path of arcs of the greatest cost that ends in two members, of whom the first is to pay all but the other's own
 * arc: amounts beyond 32 bits, and a floor that is the greatest that can be kept. */
static void path(void) {
    static uint16_t line[ZILQODUR_MOST_ARCS], ends[ZILQODUR_MOST_ARCS];
    static uint32_t dear[ZILQODUR_MOST_ARCS];
    static const uint64_t caps[2] = {2000000000000, 2000000000000}, low[2] = {1022000000000, 999999999};
    static const uint64_t kept[2] = {1022000000000, 0}, above[2] = {1022000000001, 0};
    const size_t m = ZILQODUR_MOST_ARCS;
    uint64_t out[MEMBERS] = {KEPT, KEPT, KEPT};
    size_t i;
    for (i = 0; i < m; i++) {
        line[i] = (uint16_t)i;
        dear[i] = 1000000000;
    }
    line[m - 1] = (uint16_t)(m - 2);
    ends[m - 2] = ends[m - 1] = 1;
    EXPECT(is_level(zilqodur_split_level(PATH, low, 2, kept, 2, out, 2), ZILQODUR_CAPS_SHORT, m, 1, 0));
    EXPECT(is_refused(zilqodur_split_level(PATH, caps, 2, above, 2, out, 2), ZILQODUR_FLOORS_ABOVE_NEED, 1));
    EXPECT(is_refused(zilqodur_split_level(PATH, caps, 2, caps, 2, out, 2), ZILQODUR_FLOORS_ABOVE_NEED, 1));
    EXPECT(is_refused(zilqodur_split_level(PATH, low, 2, above, 2, out, 2), ZILQODUR_FLOOR_ABOVE_CAP, 0));
    EXPECT(are(out, KEPT, KEPT, KEPT));
    EXPECT(is_split(zilqodur_split_level(PATH, caps, 2, kept, 2, out, 2), 2));
    EXPECT(are(out, 1022000000000, 1000000000, KEPT));
}

/* A star in which each floor is what the arc costs; then the last is above it, and then outside the range. */
static void star(void) {
    static uint16_t arcs[ZILQODUR_MOST_ARCS], all[ZILQODUR_MOST_ARCS];
    static uint32_t dear[ZILQODUR_MOST_ARCS];
    static uint64_t caps[ZILQODUR_MOST_ARCS], floors[ZILQODUR_MOST_ARCS], out[ZILQODUR_MOST_ARCS];
    const size_t m = ZILQODUR_MOST_ARCS;
    size_t i;
    for (i = 0; i < m; i++) {
        all[i] = 1;
        dear[i] = 1000000000;
        caps[i] = 2000000000000;
        floors[i] = 1000000000;
    }
    EXPECT(is_split(zilqodur_split_level(STAR, caps, m, floors, m, out, m), m));
    EXPECT(out[0] == 1000000000 && out[m - 1] == 1000000000);
    floors[m - 1]++;
    EXPECT(is_refused(zilqodur_split_level(STAR, caps, m, floors, m, out, m), ZILQODUR_FLOORS_ABOVE_NEED, m));
    floors[m - 1] = 2000000000001;
    EXPECT(is_refused(zilqodur_split_level(STAR, caps, m, floors, m, out, m), ZILQODUR_LIST_RANGE, m - 1));
}

void try_levels(void) {
    levels();
    refused_lists();
    refused_trees();
    spare();
    path();
    star();
}
