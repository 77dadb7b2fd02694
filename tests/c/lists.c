/* The functions over lists: the tree, its members, needs and groups, the audit of a proposal, and the splits but the level split. */
#include "expect.h"

#include <string.h>

static int is_check(ZilqodurCheck found, uint32_t refusal, size_t place) {
    return IS(found.refusal, refusal) && IS(found.place, place);
}

static int is_members(ZilqodurMembers found, uint32_t refusal, size_t place, size_t members) {
    return IS(found.refusal, refusal) && IS(found.place, place) && IS(found.members, members);
}

static int is_needs(ZilqodurNeeds found, uint32_t refusal, size_t place, uint64_t whole, size_t members) {
    return IS(found.refusal, refusal) && IS(found.place, place) && IS(found.whole, whole) && IS(found.members, members);
}

static int is_group(ZilqodurGroup found, uint32_t refusal, size_t place, size_t size, uint64_t cost) {
    return IS(found.refusal, refusal) && IS(found.place, place) && IS(found.size, size) && IS(found.cost, cost);
}

static int is_total(ZilqodurTotal found, uint32_t refusal, size_t place, uint32_t verdict, int64_t difference) {
    return IS(found.refusal, refusal) && IS(found.place, place) && IS(found.verdict, verdict) && IS(found.difference, difference);
}

/* A group with these bits in one word, and no others. */
static const uint64_t *bits_in(size_t word, uint64_t bits) {
    static uint64_t group[16];
    memset(group, 0, sizeof group);
    group[word] = bits;
    return group;
}

static int is_search(ZilqodurSearch found, uint32_t refusal, size_t place, uint32_t verdict, uint64_t amount, size_t size,
                     const uint64_t *group) {
    return IS(found.refusal, refusal) && IS(found.place, place) && IS(found.verdict, verdict) && IS(found.amount, amount) &&
           IS(found.size, size) && sizeof found.group == 16 * sizeof group[0] && memcmp(found.group, group, sizeof found.group) == 0;
}

static int is_no_group(ZilqodurSearch found) {
    return is_search(found, ZILQODUR_NO_REFUSAL, 0, ZILQODUR_NO_GROUP, 0, 0, bits_in(0, 0));
}

/* The group stands in the first word. */
static int is_found(ZilqodurSearch found, uint64_t amount, size_t size, uint64_t bits) {
    return is_search(found, ZILQODUR_NO_REFUSAL, 0, ZILQODUR_GROUP, amount, size, bits_in(0, bits));
}

static int is_cap_sums(ZilqodurCapSums found, uint32_t refusal, size_t place, uint64_t total) {
    return IS(found.refusal, refusal) && IS(found.place, place) && IS(found.total, total);
}

static int is_margin(ZilqodurMargin found, uint32_t refusal, size_t place, uint64_t margin, size_t users) {
    return IS(found.refusal, refusal) && IS(found.place, place) && IS(found.margin, margin) && IS(found.users, users);
}

static void trees(void) {
    EXPECT(is_check(zilqodur_check_tree(T(marks)), ZILQODUR_NO_REFUSAL, 0));
    EXPECT(is_check(zilqodur_check_tree(parents, 0, costs, ARCS, marks, ARCS), ZILQODUR_ARC_COUNT, 0));
    EXPECT(is_check(zilqodur_check_tree(parents, ARCS, costs, ARCS - 1, marks, ARCS), ZILQODUR_TREE_LENGTHS, 0));
    EXPECT(is_check(zilqodur_check_tree(parents, ARCS, costs, ARCS, marks, ARCS - 1), ZILQODUR_TREE_LENGTHS, 0));
    EXPECT(is_check(zilqodur_check_tree(wrong_parents, ARCS, costs, ARCS, marks, ARCS), ZILQODUR_PARENT, 2));
    EXPECT(is_check(zilqodur_check_tree(parents, ARCS, wrong_costs, ARCS, marks, ARCS), ZILQODUR_COST, 3));
    EXPECT(is_check(zilqodur_check_tree(T(wrong_marks)), ZILQODUR_MARK, 3));
    EXPECT(is_check(zilqodur_check_tree(T(inner_marks)), ZILQODUR_MARK_CHILD, 1));
    EXPECT(is_check(zilqodur_check_tree(T(no_marks)), ZILQODUR_NO_MARK, 0));
}

/* Faults that stand in one tree: the first of them in the order of the refusals is told. */
static void order(void) {
    static const uint16_t last_child[ARCS] = {0, 1, 1, 3}, two[ARCS] = {0, 0, 2, 0};
    static const uint32_t dear[ARCS] = {6, 1, 5, 1000000001};
    EXPECT(is_check(zilqodur_check_tree(parents, ARCS, wrong_costs, ARCS, wrong_marks, ARCS), ZILQODUR_COST, 3));
    EXPECT(is_check(zilqodur_check_tree(last_child, ARCS, wrong_costs, ARCS, marks, ARCS), ZILQODUR_COST, 3));
    EXPECT(is_check(zilqodur_check_tree(last_child, ARCS, dear, ARCS, marks, ARCS), ZILQODUR_MARK_CHILD, 3));
    EXPECT(is_check(zilqodur_check_tree(parents, ARCS, dear, ARCS, wrong_marks, ARCS), ZILQODUR_MARK, 3));
    EXPECT(is_check(zilqodur_check_tree(parents, ARCS, dear, ARCS, no_marks, ARCS), ZILQODUR_COST, 4));
    EXPECT(is_check(zilqodur_check_tree(T(two)), ZILQODUR_MARK, 3));
    EXPECT(is_check(zilqodur_check_tree(parents, ARCS - 1, costs, ARCS - 1, no_marks, ARCS), ZILQODUR_TREE_LENGTHS, 0));
}

static void lists(void) {
    static const uint64_t caps[MEMBERS] = {0, 2000000000000, 2000000000001};
    static const int64_t proposal[MEMBERS] = {2000000000000, -2000000000000, -2000000000001};
    EXPECT(is_check(zilqodur_check_caps(2, caps, 2), ZILQODUR_NO_REFUSAL, 0));
    EXPECT(is_check(zilqodur_check_caps(2, caps, MEMBERS), ZILQODUR_LIST_LENGTH, 0));
    EXPECT(is_check(zilqodur_check_caps(MEMBERS, caps, MEMBERS), ZILQODUR_LIST_RANGE, 2));
    EXPECT(is_check(zilqodur_check_proposal(2, proposal, 2), ZILQODUR_NO_REFUSAL, 0));
    EXPECT(is_check(zilqodur_check_proposal(MEMBERS, proposal, 2), ZILQODUR_LIST_LENGTH, 0));
    EXPECT(is_check(zilqodur_check_proposal(MEMBERS, proposal, MEMBERS), ZILQODUR_LIST_RANGE, 2));
}

static void dead_ends(void) {
    uint16_t out[ARCS] = {7, 7, 7, 7};
    EXPECT(is_members(zilqodur_mark_dead_ends(parents, 0, costs, 0, out, ARCS), ZILQODUR_ARC_COUNT, 0, 0));
    EXPECT(is_members(zilqodur_mark_dead_ends(parents, ARCS, costs, ARCS - 1, out, ARCS), ZILQODUR_TREE_LENGTHS, 0, 0));
    EXPECT(is_members(zilqodur_mark_dead_ends(wrong_parents, ARCS, costs, ARCS, out, ARCS), ZILQODUR_PARENT, 2, 0));
    EXPECT(is_members(zilqodur_mark_dead_ends(parents, ARCS, wrong_costs, ARCS, out, ARCS - 1), ZILQODUR_COST, 3, 0));
    EXPECT(is_members(zilqodur_mark_dead_ends(parents, ARCS, costs, ARCS, out, ARCS - 1), ZILQODUR_OUTPUT_LENGTH, 0, 0));
    EXPECT(out[0] == 7 && out[1] == 7 && out[2] == 7 && out[3] == 7);
    EXPECT(is_members(zilqodur_mark_dead_ends(parents, ARCS, costs, ARCS, out, ARCS), ZILQODUR_NO_REFUSAL, 0, MEMBERS));
    EXPECT(memcmp(out, marks, sizeof marks) == 0);
}

static void members(void) {
    uint16_t out[MEMBERS] = {7, 7, 7};
    EXPECT(is_members(zilqodur_count_members(T(marks)), ZILQODUR_NO_REFUSAL, 0, MEMBERS));
    EXPECT(is_members(zilqodur_count_members(wrong_parents, ARCS, costs, ARCS, marks, ARCS), ZILQODUR_PARENT, 2, 0));
    EXPECT(is_members(zilqodur_list_members(T(marks), out, 2), ZILQODUR_OUTPUT_LENGTH, 0, 0));
    EXPECT(is_members(zilqodur_list_members(T(wrong_marks), out, MEMBERS), ZILQODUR_MARK, 3, 0));
    EXPECT(is_members(zilqodur_list_members(T(inner_marks), out, MEMBERS), ZILQODUR_MARK_CHILD, 1, 0));
    EXPECT(is_members(zilqodur_list_members(T(no_marks), out, MEMBERS), ZILQODUR_NO_MARK, 0, 0));
    EXPECT(out[0] == 7 && out[1] == 7 && out[2] == 7);
    EXPECT(is_members(zilqodur_list_members(T(marks), out, MEMBERS), ZILQODUR_NO_REFUSAL, 0, MEMBERS));
    EXPECT(out[0] == 2 && out[1] == 3 && out[2] == 4);
}

static void needs(void) {
    uint64_t out[ARCS] = {7, 7, 7, 7};
    EXPECT(is_needs(zilqodur_list_needs(parents, ARCS, wrong_costs, ARCS, marks, ARCS, out, ARCS), ZILQODUR_COST, 3, 0, 0));
    EXPECT(is_needs(zilqodur_list_needs(T(inner_marks), out, ARCS), ZILQODUR_MARK_CHILD, 1, 0, 0));
    EXPECT(are(out, 7, 7, 7) && out[3] == 7);
    EXPECT(is_needs(zilqodur_list_needs(T(marks), out, ARCS), ZILQODUR_NO_REFUSAL, 0, 16, MEMBERS));
    EXPECT(are(out, 12, 1, 5) && out[3] == 4);
}

static void groups(void) {
    uint64_t group[16] = {6};
    EXPECT(is_group(zilqodur_group_cost(T(marks), group), ZILQODUR_NO_REFUSAL, 0, 2, 15));
    group[0] = 8;
    EXPECT(is_group(zilqodur_group_cost(T(marks), group), ZILQODUR_GROUP_BIT, 3, 0, 0));
    EXPECT(is_group(zilqodur_group_cost(T(no_marks), group), ZILQODUR_NO_MARK, 0, 0, 0));
}

/* Both functions refuse the tree and the proposal. */
#define EXPECT_NO_VERDICT(refusal, place, ...)                                                  \
    EXPECT(is_total(zilqodur_check_total(__VA_ARGS__), refusal, place, ZILQODUR_NO_TOTAL, 0) && \
           is_search(zilqodur_find_group(__VA_ARGS__), refusal, place, ZILQODUR_NO_SEARCH, 0, 0, bits_in(0, 0)))

/* Each kind of refusal, on lists that also have the fault that is next in the order. */
static void refused_proposals(void) {
    static const int64_t outside[MEMBERS] = {7, 2000000000001, -2000000000001};
    EXPECT_NO_VERDICT(ZILQODUR_PARENT, 2, wrong_parents, ARCS, wrong_costs, ARCS, marks, ARCS, outside, 2);
    EXPECT_NO_VERDICT(ZILQODUR_NO_MARK, 0, T(no_marks), outside, 2);
    EXPECT_NO_VERDICT(ZILQODUR_LIST_LENGTH, 0, T(marks), outside, 2);
    EXPECT_NO_VERDICT(ZILQODUR_LIST_RANGE, 1, T(marks), outside, MEMBERS);
}

static void totals(void) {
    static const int64_t fair[MEMBERS] = {7, 5, 4}, more[MEMBERS] = {8, 4, 5}, low[MEMBERS] = {7, 5, -30000000000};
    EXPECT(is_total(zilqodur_check_total(T(marks), fair, MEMBERS), ZILQODUR_NO_REFUSAL, 0, ZILQODUR_ADDS_UP, 0));
    EXPECT(is_total(zilqodur_check_total(T(marks), sample_proposal, MEMBERS), ZILQODUR_NO_REFUSAL, 0, ZILQODUR_ADDS_UP, 0));
    EXPECT(is_total(zilqodur_check_total(T(marks), more, MEMBERS), ZILQODUR_NO_REFUSAL, 0, ZILQODUR_OFF, 1));
    EXPECT(is_total(zilqodur_check_total(T(marks), low, MEMBERS), ZILQODUR_NO_REFUSAL, 0, ZILQODUR_OFF, -30000000004));
}

/* The total of two proposals is right, of two it is too high, of two too low. */
static void searches(void) {
    static const int64_t fair[MEMBERS] = {7, 5, 4}, unfair[MEMBERS] = {3, 4, 9}, more[MEMBERS] = {8, 4, 5}, all_more[MEMBERS] = {9, 9, 9};
    static const int64_t low[MEMBERS] = {7, 5, -30000000000}, one_more[MEMBERS] = {-30000000000, 13, 4};
    EXPECT(is_no_group(zilqodur_find_group(T(marks), fair, MEMBERS)));
    EXPECT(is_found(zilqodur_find_group(T(marks), unfair, MEMBERS), 5, 1, 4));
    EXPECT(is_found(zilqodur_find_group(T(marks), more, MEMBERS), 2, 2, 5));
    EXPECT(is_found(zilqodur_find_group(T(marks), all_more, MEMBERS), 11, 3, 7));
    EXPECT(is_no_group(zilqodur_find_group(T(marks), low, MEMBERS)));
    EXPECT(is_found(zilqodur_find_group(T(marks), one_more, MEMBERS), 2, 1, 2));
}

static void cap_sums(void) {
    static const uint64_t caps[MEMBERS] = {3, 9, 4}, high[MEMBERS] = {3, 2000000000001, 2000000000001};
    uint64_t out[ARCS] = {7, 7, 7, 7};
    EXPECT(is_cap_sums(zilqodur_list_cap_sums(parents, ARCS, wrong_costs, ARCS, marks, ARCS, caps, MEMBERS, out, ARCS), ZILQODUR_COST, 3,
                       0));
    EXPECT(is_cap_sums(zilqodur_list_cap_sums(T(no_marks), high, 2, out, MEMBERS), ZILQODUR_NO_MARK, 0, 0));
    EXPECT(is_cap_sums(zilqodur_list_cap_sums(T(marks), high, 2, out, MEMBERS), ZILQODUR_LIST_LENGTH, 0, 0));
    EXPECT(is_cap_sums(zilqodur_list_cap_sums(T(marks), high, MEMBERS, out, MEMBERS), ZILQODUR_LIST_RANGE, 1, 0));
    EXPECT(is_cap_sums(zilqodur_list_cap_sums(T(marks), caps, MEMBERS, out, MEMBERS), ZILQODUR_OUTPUT_LENGTH, 0, 0));
    EXPECT(are(out, 7, 7, 7) && out[3] == 7);
    EXPECT(is_cap_sums(zilqodur_list_cap_sums(T(marks), caps, MEMBERS, out, ARCS), ZILQODUR_NO_REFUSAL, 0, 16));
    EXPECT(are(out, 12, 3, 9) && out[3] == 4);
}

static void by_arc_splits(void) {
    uint64_t out[MEMBERS] = {7, 7, 7};
    EXPECT(is_members(zilqodur_split_by_arc(T(marks), out, MEMBERS - 1), ZILQODUR_OUTPUT_LENGTH, 0, 0));
    EXPECT(is_members(zilqodur_split_by_arc(T(inner_marks), out, MEMBERS), ZILQODUR_MARK_CHILD, 1, 0));
    EXPECT(are(out, 7, 7, 7));
    EXPECT(is_members(zilqodur_split_by_arc(T(marks), out, MEMBERS), ZILQODUR_NO_REFUSAL, 0, MEMBERS));
    EXPECT(are(out, 4, 8, 4));
}

/* Each kind of refusal, on a list and an arc that also have the fault that is next in the order. The place is the number as handed over. */
static void refused_margins(void) {
    static const size_t no_branch[] = {0, 2, 3, ARCS + 1, ZILQODUR_MOST_ARCS + 1, 65537, UINT32_MAX, SIZE_MAX};
    uint64_t out[MEMBERS] = {7, 7, 7};
    size_t i;
    EXPECT(is_margin(zilqodur_split_margin(wrong_parents, ARCS, costs, ARCS, marks, ARCS, 0, out, 1), ZILQODUR_PARENT, 2, 0, 0));
    EXPECT(is_margin(zilqodur_split_margin(T(no_marks), SIZE_MAX, out, 1), ZILQODUR_NO_MARK, 0, 0, 0));
    for (i = 0; i < sizeof no_branch / sizeof no_branch[0]; i++) {
        EXPECT(is_margin(zilqodur_split_margin(T(marks), no_branch[i], out, 2), ZILQODUR_BRANCH_ARC, no_branch[i], 0, 0));
    }
    EXPECT(is_margin(zilqodur_split_margin(T(marks), 4, out, 2), ZILQODUR_BRANCH_USERS, 4, 0, 0));
    EXPECT(is_margin(zilqodur_split_margin(T(marks), 4, out, 1), ZILQODUR_BRANCH_USERS, 4, 0, 0));
    EXPECT(is_margin(zilqodur_split_margin(T(marks), 1, out, 1), ZILQODUR_OUTPUT_LENGTH, 0, 0, 0));
    EXPECT(is_margin(zilqodur_split_margin(T(marks), 1, out, MEMBERS), ZILQODUR_OUTPUT_LENGTH, 0, 0, 0));
    EXPECT(are(out, 7, 7, 7));
}

/* In the second tree arc 2 has all users too, and arc 4 has one arc below it. */
static void margins(void) {
    static const uint16_t run[6] = {0, 1, 2, 2, 4, 2}, ends[6] = {0, 0, 1, 0, 1, 1};
    static const uint32_t priced[6] = {2, 5, 1, 2, 1, 3};
    uint64_t out[MEMBERS] = {7, 7, 7};
    EXPECT(is_margin(zilqodur_split_margin(T(marks), 1, out, 2), ZILQODUR_NO_REFUSAL, 0, 3, 2));
    EXPECT(are(out, 4, 8, 7));
    EXPECT(is_margin(zilqodur_split_margin(run, 6, priced, 6, ends, 6, 1, out, MEMBERS), ZILQODUR_NO_REFUSAL, 0, 2, MEMBERS));
    EXPECT(are(out, 4, 5, 5));
}

/* A path of arcs of the greatest cost that ends in two members: a margin and shares beyond 32 bits. */
static void widest(void) {
    static uint16_t path[ZILQODUR_MOST_ARCS], ends[ZILQODUR_MOST_ARCS];
    static uint32_t dear[ZILQODUR_MOST_ARCS];
    const size_t m = ZILQODUR_MOST_ARCS;
    uint64_t out[MEMBERS] = {7, 7, 7};
    size_t i;
    for (i = 0; i < m; i++) {
        path[i] = (uint16_t)i;
        dear[i] = 1000000000;
    }
    path[m - 1] = (uint16_t)(m - 2);
    ends[m - 2] = ends[m - 1] = 1;
    EXPECT(is_margin(zilqodur_split_margin(path, m, dear, m, ends, m, 1, out, 2), ZILQODUR_NO_REFUSAL, 0, 510500000000, 2));
    EXPECT(are(out, 511500000000, 511500000000, 7));
}

/* T with nobody at vertex 3: two members, and nobody pays for arc 3. */
static void spare(void) {
    static const uint16_t some[ARCS] = {0, 1, 0, 1};
    static const int64_t fair[2] = {7, 4}, whole[2] = {12, 4};
    static const uint64_t caps[2] = {6, 100};
    const uint64_t group[16] = {1}, beyond[16] = {4};
    uint16_t vertices[2];
    uint64_t out[ARCS], sums[ARCS] = {7, 7, 7, 7};
    EXPECT(is_members(zilqodur_count_members(T(some)), ZILQODUR_NO_REFUSAL, 0, 2));
    EXPECT(is_members(zilqodur_list_members(T(some), vertices, 2), ZILQODUR_NO_REFUSAL, 0, 2));
    EXPECT(vertices[0] == 2 && vertices[1] == 4);
    EXPECT(is_needs(zilqodur_list_needs(T(some), out, ARCS), ZILQODUR_NO_REFUSAL, 0, 11, 2));
    EXPECT(are(out, 7, 1, 0) && out[3] == 4);
    EXPECT(is_group(zilqodur_group_cost(T(some), group), ZILQODUR_NO_REFUSAL, 0, 1, 7));
    EXPECT(is_group(zilqodur_group_cost(T(some), beyond), ZILQODUR_GROUP_BIT, 2, 0, 0));
    EXPECT(is_total(zilqodur_check_total(T(some), fair, 2), ZILQODUR_NO_REFUSAL, 0, ZILQODUR_ADDS_UP, 0));
    EXPECT(is_total(zilqodur_check_total(T(some), whole, 2), ZILQODUR_NO_REFUSAL, 0, ZILQODUR_OFF, 5));
    EXPECT(is_no_group(zilqodur_find_group(T(some), fair, 2)));
    EXPECT(is_found(zilqodur_find_group(T(some), whole, 2), 5, 1, 1));
    EXPECT(is_cap_sums(zilqodur_list_cap_sums(T(some), caps, 2, sums, ARCS), ZILQODUR_NO_REFUSAL, 0, 106));
    EXPECT(are(sums, 6, 6, 0) && sums[3] == 100);
    out[0] = out[1] = 0;
    EXPECT(is_members(zilqodur_split_by_arc(T(some), out, 2), ZILQODUR_NO_REFUSAL, 0, 2));
    EXPECT(are(out, 7, 4, 0) && out[3] == 4);
    EXPECT(is_margin(zilqodur_split_margin(T(some), 1, out, 1), ZILQODUR_BRANCH_USERS, 1, 0, 0));
}

/* A star of arcs of the greatest cost, with the greatest caps: sums beyond 32 bits, and the last word of a group. */
static void largest(void) {
    static uint16_t star[ZILQODUR_MOST_ARCS + 1], all[ZILQODUR_MOST_ARCS + 1];
    static uint32_t dear[ZILQODUR_MOST_ARCS + 1];
    static int64_t proposal[ZILQODUR_MOST_ARCS];
    static uint64_t caps[ZILQODUR_MOST_ARCS], out[ZILQODUR_MOST_ARCS];
    const size_t m = ZILQODUR_MOST_ARCS;
    uint64_t group[16] = {0};
    size_t i;
    for (i = 0; i < m; i++) {
        dear[i] = 1000000000;
        proposal[i] = 1000000000;
        caps[i] = 2000000000000;
        group[i / 64] |= UINT64_C(1) << (i % 64);
    }
    proposal[0] -= 900000000000;
    proposal[m - 1] += 900000000000;
    EXPECT(m == 1023);
    EXPECT(is_members(zilqodur_mark_dead_ends(star, m, dear, m, all, m), ZILQODUR_NO_REFUSAL, 0, m));
    EXPECT(all[0] == 1 && all[m - 1] == 1 && all[m] == 0);
    EXPECT(is_check(zilqodur_check_tree(star, m + 1, dear, m + 1, all, m + 1), ZILQODUR_ARC_COUNT, 0));
    EXPECT(is_needs(zilqodur_list_needs(star, m, dear, m, all, m, out, m), ZILQODUR_NO_REFUSAL, 0, 1023000000000, m));
    EXPECT(is_group(zilqodur_group_cost(star, m, dear, m, all, m, group), ZILQODUR_NO_REFUSAL, 0, m, 1023000000000));
    EXPECT(is_total(zilqodur_check_total(star, m, dear, m, all, m, proposal, m), ZILQODUR_NO_REFUSAL, 0, ZILQODUR_ADDS_UP, 0));
    EXPECT(is_search(zilqodur_find_group(star, m, dear, m, all, m, proposal, m), ZILQODUR_NO_REFUSAL, 0, ZILQODUR_GROUP, 900000000000, 1,
                     bits_in(15, UINT64_C(1) << 62)));
    EXPECT(is_cap_sums(zilqodur_list_cap_sums(star, m, dear, m, all, m, caps, m, out, m), ZILQODUR_NO_REFUSAL, 0, 2046000000000000));
    EXPECT(out[0] == 2000000000000 && out[m - 1] == 2000000000000);
}

/* The same star with all shares at one end of their range: all members together overpay, or nobody does. */
static void ends_of_range(void) {
    static uint16_t star[ZILQODUR_MOST_ARCS], all[ZILQODUR_MOST_ARCS];
    static uint32_t dear[ZILQODUR_MOST_ARCS];
    static int64_t high[ZILQODUR_MOST_ARCS], low[ZILQODUR_MOST_ARCS];
    const size_t m = ZILQODUR_MOST_ARCS;
    uint64_t group[16] = {0};
    size_t i;
    for (i = 0; i < m; i++) {
        all[i] = 1;
        dear[i] = 1000000000;
        high[i] = 2000000000000;
        low[i] = -2000000000000;
        group[i / 64] |= UINT64_C(1) << (i % 64);
    }
    EXPECT(is_total(zilqodur_check_total(star, m, dear, m, all, m, high, m), ZILQODUR_NO_REFUSAL, 0, ZILQODUR_OFF, 2044977000000000));
    EXPECT(is_total(zilqodur_check_total(star, m, dear, m, all, m, low, m), ZILQODUR_NO_REFUSAL, 0, ZILQODUR_OFF, -2047023000000000));
    EXPECT(is_search(zilqodur_find_group(star, m, dear, m, all, m, high, m), ZILQODUR_NO_REFUSAL, 0, ZILQODUR_GROUP, 2044977000000000, m,
                     group));
    EXPECT(is_no_group(zilqodur_find_group(star, m, dear, m, all, m, low, m)));
}

void try_lists(void) {
    trees();
    order();
    lists();
    dead_ends();
    members();
    needs();
    groups();
    refused_proposals();
    totals();
    searches();
    cap_sums();
    by_arc_splits();
    refused_margins();
    margins();
    widest();
    spare();
    largest();
    ends_of_range();
}
