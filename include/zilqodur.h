/* Zilqodur: sharing the cost of a rooted pipe tree among its members. All amounts are whole units, exactly.
 *
 * Tree. Vertex 0 is the source. Arc k, for k from 1 to m, enters vertex k from its parent, a vertex numbered below k. m is 1 to 1,023.
 * Entry 0 of `parents` and of `costs` belongs to arc 1, entry 0 of `marks` to vertex 1. A cost is 0 to 1,000,000,000. A mark is 1 where a
 * member lives and 0 elsewhere; at least one is 1, and a vertex with a child has 0. Members are the marked vertices, numbered from 0 in
 * rising vertex number. An arc's users are the members at or below the vertex that it enters. An arc that nobody uses costs nothing:
 * its cost counts as 0.
 *
 * Group. Sixteen 64-bit words: member j is bit j % 64 of word j / 64, bit 0 being the least significant.
 *
 * State. A tree, its by-arc split and the number of events committed so far, by value, as the caller keeps them from one event to the next:
 * struct ZilqodurState.
 *
 * Quote. An event is asked for first and its quote committed then. zilqodur_ask changes nothing: it gives the members and the shares that
 * the event would lead to, and the quote. zilqodur_commit carries the quote's event out. Committed after nothing but askings and refused
 * commits, a quote gives the members and the shares that came with it, or is refused 24. Once an event is carried out, every quote given
 * before it is refused 23 on the state after it and on all that follow. From a state that was made, arrive, where it is carried out, and
 * then leave at the same vertex gives the tree and the shares from before, and so does leave and then arrive; the second of the two is
 * refused at most 24.
 *
 * Answer. Each function answers a struct. `refusal` is 0 where there is none, else one of enum ZilqodurRefusal; `place` is the arc, vertex,
 * member or bit where the fault stands, 0 for a number without a place. A field for which the answer has no value is 0. So after a refusal
 * every field but `refusal` and `place` is 0, `group`, `totals`, `quote` and `shares` throughout, except `shortfall` with refusal 9, and
 * `state` after a refused commit, which is as it came.
 *
 * Lists. A list is a pointer and the number of its elements. A function writes only to its lists without `const`, and to none of them
 * when it refuses. Any numbers may stand in a list; what a function cannot use it refuses.
 *
 * What a caller must see to, since no function can test it:
 *   - every pointer is non-null and aligned for its type, also where the number of elements is 0;
 *   - a list has at least as many elements as its number says, `group` sixteen words, a report's `out` ZILQODUR_REPORT_ROOM bytes;
 *   - no two lists of one call overlap;
 *   - nobody else writes to the lists during the call;
 *   - 240,000 bytes of the stack are free for zilqodur_commit, zilqodur_ask and zilqodur_make_state, which take 214,000, 197,000 and
 *     140,000 of them, 190,000 for zilqodur_report, which takes 173,000, 150,000 for zilqodur_split_margin and zilqodur_split_level,
 *     which take 123,000 and 113,000, and 100,000 for the others, of which zilqodur_job_to_1 takes 43,000 and every other one at most
 *     40,000. A state is 16,392 bytes, wherever it is handed over or comes back; those bytes are counted in.
 *
 * No function keeps anything between calls, allocates memory or does input or output; calls from several threads are safe. Link with
 * target/staticlib/libcapi.a (x86-64 Linux). */
#ifndef ZILQODUR_H
#define ZILQODUR_H

#include <stddef.h>
#include <stdint.h>

#ifdef __cplusplus
extern "C" {
#endif

/* What each refusal says: zilqodur_refusal_text. The place in brackets; without one it is 0. */
enum ZilqodurRefusal {
    ZILQODUR_NO_REFUSAL = 0,
    ZILQODUR_ARC_COUNT = 1,
    ZILQODUR_TREE_LENGTHS = 2,
    ZILQODUR_PARENT = 3, /* [arc] */
    ZILQODUR_COST = 4, /* [arc] */
    ZILQODUR_GROUP_BIT = 5, /* [lowest such bit] */
    ZILQODUR_LIST_LENGTH = 6,
    ZILQODUR_LIST_RANGE = 7, /* [lowest such member] */
    ZILQODUR_OUTPUT_LENGTH = 8,
    ZILQODUR_CAPS_SHORT = 9, /* [arc, and the shortfall] */
    ZILQODUR_JOB_ROOM = 10,
    ZILQODUR_JOB_SIZE = 11,
    ZILQODUR_JOB_SIGNATURE = 12,
    ZILQODUR_JOB_LAYOUT = 13,
    ZILQODUR_JOB_FILLER = 14, /* [arc] */
    ZILQODUR_JOB_MEMBERS = 15,
    ZILQODUR_MARK = 16, /* [arc] */
    ZILQODUR_MARK_CHILD = 17, /* [arc] */
    ZILQODUR_NO_MARK = 18,
    ZILQODUR_NOTE_LENGTH = 19,
    ZILQODUR_JOB_SPACE = 20,
    ZILQODUR_EVENT_VERTEX = 21, /* [vertex] */
    ZILQODUR_EVENT_MARK = 22, /* [vertex] */
    ZILQODUR_QUOTE_NUMBER = 23,
    ZILQODUR_EVENT_COUNT = 24,
    ZILQODUR_BRANCH_ARC = 25, /* [arc] */
    ZILQODUR_BRANCH_USERS = 26, /* [arc] */
    ZILQODUR_FLOOR_ABOVE_CAP = 27, /* [lowest such member] */
    ZILQODUR_FLOORS_ABOVE_NEED = 28, /* [arc] */
    ZILQODUR_UNMARKED_DEAD_END = 29, /* [lowest such vertex] */
    ZILQODUR_FLOOR_ABOVE_ZERO = 30, /* [lowest such member] */
    ZILQODUR_SMALL_ARC_COUNT = 31,
    ZILQODUR_CLASS_COUNT = 32
};

/* What a refusal's number says, as a sentence for a person. The strings are constants; nobody frees them. */
static inline const char *zilqodur_refusal_text(uint32_t refusal) {
    switch (refusal) {
        case ZILQODUR_NO_REFUSAL: return "no refusal";
        case ZILQODUR_ARC_COUNT: return "the parent list has no entry, or more than 1,023";
        case ZILQODUR_TREE_LENGTHS: return "the cost list or the mark list does not have the length that goes with the parent list";
        case ZILQODUR_PARENT: return "a parent is not below its arc's number";
        case ZILQODUR_COST: return "a cost, or what an arc's costs add up to over the classes, is above 1,000,000,000";
        case ZILQODUR_GROUP_BIT: return "the group has a bit at or beyond the number of members";
        case ZILQODUR_LIST_LENGTH: return "the caps, the floors or the proposal do not have one entry a member";
        case ZILQODUR_LIST_RANGE: return "a cap, a floor or a proposed share is outside its range";
        case ZILQODUR_OUTPUT_LENGTH: return "the output list is not exactly as long as what is written";
        case ZILQODUR_CAPS_SHORT: return "the caps of an arc's users add up to less than its adjusted need";
        case ZILQODUR_JOB_ROOM: return "a list for the job's values has fewer than 1,023 entries";
        case ZILQODUR_JOB_SIZE: return "the job has fewer than 16 bytes, or more than 24,823 (33,007 in version 2)";
        case ZILQODUR_JOB_SIGNATURE: return "the job's version or closing bytes are wrong";
        case ZILQODUR_JOB_LAYOUT: return "the job's note is longer than 255 bytes, or its parts do not meet and end exactly";
        case ZILQODUR_JOB_FILLER: return "a filler in the job is not zero";
        case ZILQODUR_JOB_MEMBERS: return "the job's number of members is not its tree's";
        case ZILQODUR_MARK: return "a mark is neither 0 nor 1";
        case ZILQODUR_MARK_CHILD: return "a marked vertex has a child";
        case ZILQODUR_NO_MARK: return "no vertex is marked";
        case ZILQODUR_NOTE_LENGTH: return "the note is longer than 255 bytes";
        case ZILQODUR_JOB_SPACE: return "the output is shorter than the job";
        case ZILQODUR_EVENT_VERTEX: return "the event's vertex is 0, or above the number of arcs";
        case ZILQODUR_EVENT_MARK: return "arrive at a vertex whose mark is 1, or leave at one whose mark is 0";
        case ZILQODUR_QUOTE_NUMBER: return "the quote's number is not that of the events committed so far";
        case ZILQODUR_EVENT_COUNT: return "1,000,000 events or more are committed";
        case ZILQODUR_BRANCH_ARC: return "the arc is not one that leaves the source";
        case ZILQODUR_BRANCH_USERS: return "the arc has fewer than two users";
        case ZILQODUR_FLOOR_ABOVE_CAP: return "a floor is above its cap";
        case ZILQODUR_FLOORS_ABOVE_NEED: return "the adjusted need of an arc from the source is above its need";
        case ZILQODUR_UNMARKED_DEAD_END: return "a dead end is not marked";
        case ZILQODUR_FLOOR_ABOVE_ZERO: return "a floor is above 0";
        case ZILQODUR_SMALL_ARC_COUNT: return "the list to step from has no entry, or more than 6";
        case ZILQODUR_CLASS_COUNT: return "the number of classes is 0, or above 4";
        default: return "no refusal has this number";
    }
}

/* The greatest number of arcs, and so of members, of a tree: the entries of each list of a state, and those that zilqodur_read_job and
 * zilqodur_read_job2 ask of each list that they fill. */
#define ZILQODUR_MOST_ARCS 1023

/* The greatest number of arcs of the parent lists that zilqodur_next_parents steps through. */
#define ZILQODUR_MOST_SMALL_ARCS 6

/* The greatest number of cost classes of zilqodur_split_classes. */
#define ZILQODUR_MOST_CLASSES 4

/* The greatest number of events that are committed one after another on a state that was made: where so many are, or more,
 * zilqodur_commit refuses. */
#define ZILQODUR_MOST_EVENTS 1000000

/* The number of bytes of the longest job of version 1: in `out` of zilqodur_write_job and zilqodur_job_to_1 they are room for every job. */
#define ZILQODUR_MOST_JOB_BYTES 24823

/* The same of version 2: in `out` of zilqodur_job_to_2 they are room for every job. */
#define ZILQODUR_MOST_JOB2_BYTES 33007

/* The number of bytes that zilqodur_report asks of its `out`: room for the longest report. */
#define ZILQODUR_REPORT_ROOM 196608

typedef struct ZilqodurCheck {
    uint32_t refusal;
    size_t place;
} ZilqodurCheck;

typedef struct ZilqodurMembers {
    uint32_t refusal;
    size_t place;
    size_t members; /* the number of members */
} ZilqodurMembers;

typedef struct ZilqodurNeeds {
    uint32_t refusal;
    size_t place;
    uint64_t whole; /* the whole cost: the sum of the costs of all arcs that have a user */
    size_t members; /* the number of members */
} ZilqodurNeeds;

typedef struct ZilqodurGroup {
    uint32_t refusal;
    size_t place;
    size_t size;   /* the number of members in the group */
    uint64_t cost; /* the sum of the costs of all arcs that at least one of them uses */
} ZilqodurGroup;

enum ZilqodurTotalVerdict {
    ZILQODUR_NO_TOTAL = 0, /* the check is refused */
    ZILQODUR_ADDS_UP = 1,  /* the shares add up to the whole cost */
    ZILQODUR_OFF = 2       /* they do not */
};

typedef struct ZilqodurTotal {
    uint32_t refusal;
    size_t place;
    uint32_t verdict;   /* one of enum ZilqodurTotalVerdict: 0 exactly where `refusal` is not 0 */
    int64_t difference; /* sum of the shares less the whole cost; 0 where they add up, and in a refusal */
} ZilqodurTotal;

enum ZilqodurSearchVerdict {
    ZILQODUR_NO_SEARCH = 0, /* the search is refused */
    ZILQODUR_NO_GROUP = 1,  /* no group pays more than its cost */
    ZILQODUR_GROUP = 2      /* some group pays more than its cost */
};

typedef struct ZilqodurSearch {
    uint32_t refusal;
    size_t place;
    uint32_t verdict;   /* one of enum ZilqodurSearchVerdict: 0 exactly where `refusal` is not 0 */
    uint64_t amount;    /* where a group is found: the greatest overpayment of a group */
    size_t size;        /* the number of members in `group` */
    uint64_t group[16]; /* of the groups that overpay the amount, the one with fewest members; all 0 where none is found */
} ZilqodurSearch;

typedef struct ZilqodurCapSums {
    uint32_t refusal;
    size_t place;
    uint64_t total; /* what all caps add up to */
} ZilqodurCapSums;

typedef struct ZilqodurLevel {
    uint32_t refusal;
    size_t place;
    uint64_t shortfall; /* refusal 9: the arc's need less what the caps of its users add up to */
    size_t members;     /* the number of members */
} ZilqodurLevel;

typedef struct ZilqodurMargin {
    uint32_t refusal;
    size_t place;
    uint64_t margin; /* the greatest that all proper nonempty groups of the arc's users can have together */
    size_t users;    /* the number of the arc's users: entries written to `out` */
} ZilqodurMargin;

typedef struct ZilqodurClassSplit {
    uint32_t refusal;
    size_t place;
    size_t members; /* the number of members */
    /* what the shares of each class add up to, then what each class costs, arcs without users left out: entry c and entry
     * ZILQODUR_MOST_CLASSES + c are those of class c, and are equal; 0 for a class that is not in use */
    uint64_t totals[2 * ZILQODUR_MOST_CLASSES];
} ZilqodurClassSplit;

enum ZilqodurStepVerdict {
    ZILQODUR_NO_STEP = 0,   /* the step is refused */
    ZILQODUR_STEP_NEXT = 1, /* the next list is written */
    ZILQODUR_STEP_END = 2   /* the list is the last one, and is as it came */
};

typedef struct ZilqodurStep {
    uint32_t refusal;
    size_t place;
    uint32_t verdict; /* one of enum ZilqodurStepVerdict: 0 exactly where `refusal` is not 0 */
} ZilqodurStep;

/* A tree, its by-arc split and the number of events committed. zilqodur_make_state makes one, and zilqodur_commit makes the next one of it.
 * The tree is the first `arcs` entries of `parents`, `costs` and `marks`; `shares` has one share a member. All other entries of a state
 * that was made are 0. The bytes between two fields and after the last say nothing: states are compared field by field. */
typedef struct ZilqodurState {
    size_t arcs; /* the number of arcs */
    uint16_t parents[ZILQODUR_MOST_ARCS];
    uint32_t costs[ZILQODUR_MOST_ARCS];
    uint16_t marks[ZILQODUR_MOST_ARCS];
    uint64_t shares[ZILQODUR_MOST_ARCS]; /* entry 0 is the share of member 0 */
    uint32_t committed;                  /* the number of events committed so far, 0 in the state that zilqodur_make_state makes */
} ZilqodurState;

enum ZilqodurEventKind {
    ZILQODUR_ARRIVE = 0,  /* sets the vertex's mark to 1 */
    ZILQODUR_LEAVE = 1,   /* sets it to 0 */
    ZILQODUR_NEW_COST = 2 /* replaces the cost of the arc that enters the vertex by `amount` */
};

typedef struct ZilqodurEvent {
    size_t vertex;
    uint32_t kind;   /* one of enum ZilqodurEventKind; every other number is a new cost too */
    uint32_t amount; /* the new cost; not looked at where the kind is arrive or leave */
} ZilqodurEvent;

typedef struct ZilqodurStateAnswer {
    uint32_t refusal;
    size_t place;
    size_t members; /* the number of members of `state`; 0 in a refusal */
    ZilqodurState state;
} ZilqodurStateAnswer;

typedef struct ZilqodurQuote {
    ZilqodurEvent event;
    uint32_t committed; /* that of the state on which the event was asked for */
} ZilqodurQuote;

typedef struct ZilqodurQuoteAnswer {
    uint32_t refusal;
    size_t place;
    size_t members; /* the number of members after the event */
    ZilqodurQuote quote;
    uint64_t shares[ZILQODUR_MOST_ARCS]; /* their shares after it, entry 0 that of member 0; all other entries are 0 */
} ZilqodurQuoteAnswer;

typedef struct ZilqodurJob {
    uint32_t refusal;
    size_t place;
    size_t arcs;    /* the number of arcs: entries written to `parents`, `costs` and `marks` */
    size_t members; /* the number of members: entries written to `caps`, `proposals` and `floors` */
    size_t note;    /* the length of the note, which stands at the job's start */
} ZilqodurJob;

typedef struct ZilqodurJobLength {
    uint32_t refusal;
    size_t place;
    size_t length; /* the number of bytes of the job */
} ZilqodurJobLength;

typedef struct ZilqodurReport {
    uint32_t refusal; /* always 0 */
    size_t place;     /* always 0 */
    size_t length;    /* the number of bytes of the report */
} ZilqodurReport;

/* Whether the lists describe a tree. Refusals 1, 2, then 3, 4, 16 and 17 arc by arc, then 18: the tree's refusals. */
ZilqodurCheck zilqodur_check_tree(const uint16_t *parents, size_t parents_count, const uint32_t *costs, size_t costs_count,
                                  const uint16_t *marks, size_t marks_count);

/* Whether there is one cap for each of so many members, each from 0 to 2,000,000,000,000. Refusals 6, 7. */
ZilqodurCheck zilqodur_check_caps(size_t members, const uint64_t *caps, size_t caps_count);

/* Whether there is one share for each of so many members, each from -2,000,000,000,000 to 2,000,000,000,000. Refusals 6, 7. */
ZilqodurCheck zilqodur_check_proposal(size_t members, const int64_t *proposal, size_t proposal_count);

/* Writes the marks of a tree with a member at every dead end: 1 for a vertex without a child, else 0. `out` has one entry an arc, entry
 * 0 for vertex 1. Refusals: 1, 2 on the costs alone, then 3 and 4 arc by arc, then 8. */
ZilqodurMembers zilqodur_mark_dead_ends(const uint16_t *parents, size_t parents_count, const uint32_t *costs, size_t costs_count,
                                        uint16_t *out, size_t out_count);

/* The number of members. Refusals: the tree's. */
ZilqodurMembers zilqodur_count_members(const uint16_t *parents, size_t parents_count, const uint32_t *costs, size_t costs_count,
                                       const uint16_t *marks, size_t marks_count);

/* Writes the members' vertices, in rising order. `out` has one entry a member. Refusals: the tree's, 8. */
ZilqodurMembers zilqodur_list_members(const uint16_t *parents, size_t parents_count, const uint32_t *costs, size_t costs_count,
                                      const uint16_t *marks, size_t marks_count, uint16_t *out, size_t out_count);

/* Writes each arc's need: its cost plus the costs of all arcs below it, so 0 where it has no user. `out` has one entry an arc, entry 0 for
 * arc 1. Refusals: the tree's, 8. */
ZilqodurNeeds zilqodur_list_needs(const uint16_t *parents, size_t parents_count, const uint32_t *costs, size_t costs_count,
                                  const uint16_t *marks, size_t marks_count, uint64_t *out, size_t out_count);

/* The size and the cost of a group, which is sixteen words. Refusals: the tree's, 5. */
ZilqodurGroup zilqodur_group_cost(const uint16_t *parents, size_t parents_count, const uint32_t *costs, size_t costs_count,
                                  const uint16_t *marks, size_t marks_count, const uint64_t group[16]);

/* Whether the shares of the proposal add up to the whole cost, and the difference. `proposal` has one share a member, each from
 * -2,000,000,000,000 to 2,000,000,000,000. Refusals: the tree's, 6, 7. */
ZilqodurTotal zilqodur_check_total(const uint16_t *parents, size_t parents_count, const uint32_t *costs, size_t costs_count,
                                   const uint16_t *marks, size_t marks_count, const int64_t *proposal, size_t proposal_count);

/* Whether some group pays more than its cost, and the group. A group's overpayment is what its members pay less its cost. The search runs
 * whatever the total is, and may name all members together. A proposal passes where zilqodur_check_total says that it adds up and this
 * function says that there is no group. The lists are those of zilqodur_check_total. Refusals: the tree's, 6, 7. */
ZilqodurSearch zilqodur_find_group(const uint16_t *parents, size_t parents_count, const uint32_t *costs, size_t costs_count,
                                   const uint16_t *marks, size_t marks_count, const int64_t *proposal, size_t proposal_count);

/* Writes for each arc what the caps of its users add up to: at a member's arc its cap, elsewhere the sums of its child arcs added up, so 0
 * where it has no user. `caps` has one cap a member, each from 0 to 2,000,000,000,000; `out` has one entry an arc, entry 0 for arc 1.
 * Refusals: the tree's, 6, 7, 8. */
ZilqodurCapSums zilqodur_list_cap_sums(const uint16_t *parents, size_t parents_count, const uint32_t *costs, size_t costs_count,
                                       const uint16_t *marks, size_t marks_count, const uint64_t *caps, size_t caps_count,
                                       uint64_t *out, size_t out_count);

/* Writes the level split under caps and floors: no share is above its member's cap or below its floor. An arc's adjusted need is, at a
 * member's arc, its cost or the member's floor, elsewhere its need or what the adjusted needs of its child arcs add up to, whichever is
 * larger, and 0 where nobody uses it. From arc m down to 1, each arc gives out what its adjusted need exceeds that sum by, so its cost
 * where all floors are 0, each unit to the user with the smallest share among users below their cap, ties to the lowest member number.
 * `caps` and `floors` have one entry a member, each from 0 to 2,000,000,000,000; `out` has one entry a member. Refusals: the tree's, 6 and
 * 7 on caps, 6 and 7 on floors, 27, 8, and then, at the first arc from m down to 1 where one of them stands, 9 or 28. 9 stands where the
 * caps of an arc's users add up to less than its adjusted need, which at the first such arc is its need; 28 where an arc leaves the source
 * and its adjusted need is above its need. Where one arc that has users costs d more, and the split is given before and after under the same
 * caps and floors, no share falls, none rises by more than d, the rises add up to d, and who does not use the arc from the source at or
 * above that arc has the same share. */
ZilqodurLevel zilqodur_split_level(const uint16_t *parents, size_t parents_count, const uint32_t *costs, size_t costs_count,
                                   const uint16_t *marks, size_t marks_count, const uint64_t *caps, size_t caps_count,
                                   const uint64_t *floors, size_t floors_count, uint64_t *out, size_t out_count);

/* Writes the by-arc split: from arc m down to 1, an arc with k users and cost c gives each user c / k, and the c % k units left over one
 * each to those of its users who have had the fewest leftover units so far, ties to the lowest member number; an arc without users is
 * passed over. `out` has one entry a member. Refusals: the tree's, 8. */
ZilqodurMembers zilqodur_split_by_arc(const uint16_t *parents, size_t parents_count, const uint32_t *costs, size_t costs_count,
                                      const uint16_t *marks, size_t marks_count, uint64_t *out, size_t out_count);

/* Writes the split with the widest margin in the branch of `arc`, an arc that leaves the source and has at least two users. They split its
 * need: its cost plus the costs of all arcs below it. A group's margin is what its members pay less the costs of those of these arcs that
 * nobody else uses. No whole split of the need gives every group that is neither empty nor all users more than `margin`; this one gives
 * each of them at least that. An arc's raised need is its need, with the margin added where not all users use it, or what the raised needs
 * of its child arcs add up to, whichever is larger, and 0 where nobody uses it. From arc m down to 1, each arc of the branch gives out what
 * its raised need exceeds that sum by, each unit to the user with the smallest share, ties to the lowest member number. `out` has one entry
 * for each user of the arc, in rising member number. Any number may be handed over as `arc`. Refusals: the tree's, 25, 26, 8; 25 is also
 * that of a number outside 1 to m, and the place of 25 and 26 is the number handed over. */
ZilqodurMargin zilqodur_split_margin(const uint16_t *parents, size_t parents_count, const uint32_t *costs, size_t costs_count,
                                     const uint16_t *marks, size_t marks_count, size_t arc, uint64_t *out, size_t out_count);

/* Writes the by-arc split of each of so many cost classes, 1 to ZILQODUR_MOST_CLASSES of them, numbered from 0. An arc has a cost in every
 * class; what its costs add up to over the classes is at most 1,000,000,000, also where nobody uses it. Each class is split by itself: its
 * shares are those that zilqodur_split_by_arc writes for the tree with the costs of that class, and leftover units of another class do not
 * count. `costs` has the costs of class after class: one entry an arc and class, entry c * m + k - 1 for class c and arc k. `out` has the
 * shares of class after class: one entry a member and class, entry c * n + j for class c and member j of n. Each member's shares added over
 * the classes pass zilqodur_check_total and zilqodur_find_group on the tree with each arc's costs added over the classes. With one class
 * the refusal, `members` and `out` are those of zilqodur_split_by_arc. Any number may be handed over as `classes`. Refusals: 32, 1, 2 where
 * `costs` does not have one entry an arc and class or `marks` one an arc, then 3, 4 on what the arc's costs add up to, 16 and 17 arc by
 * arc, 18, 8. */
ZilqodurClassSplit zilqodur_split_classes(const uint16_t *parents, size_t parents_count, const uint32_t *costs, size_t costs_count,
                                          const uint16_t *marks, size_t marks_count, size_t classes, uint64_t *out, size_t out_count);

/* Steps from a parent list of m arcs to the next one, m being 1 to ZILQODUR_MOST_SMALL_ARCS. A parent list has for each arc a number below
 * the arc's own, entry 0 for arc 1; there are m! of them. They stand in rising order, their entries being compared from arc 1 on: those of
 * 3 arcs are 0 0 0, 0 0 1, 0 0 2, 0 1 0, 0 1 1 and 0 1 2. Where a list follows it is written to `parents`; at the last one, 0 1 .. m - 1,
 * the verdict says so and `parents` is as it came. From m zeros m! - 1 steps show every parent list of m arcs once, and so every shape
 * that a tree of m arcs can have. Refusals: 31, then 3 at the lowest such arc. */
ZilqodurStep zilqodur_next_parents(uint16_t *parents, size_t parents_count);

/* Makes the state of a tree, with the shares that zilqodur_split_by_arc writes and with no event committed. Where the tree is refused,
 * `state` is 0 throughout. Refusals: the tree's. */
ZilqodurStateAnswer zilqodur_make_state(const uint16_t *parents, size_t parents_count, const uint32_t *costs, size_t costs_count,
                                        const uint16_t *marks, size_t marks_count);

/* Asks for an event: `members` and `shares` are those of the state that zilqodur_make_state makes of the tree that the event reaches, and
 * `quote` is the event with `committed` of the state. The quote's kind is 0, 1 or 2, and its amount 0 unless that is a new cost. Any state,
 * vertex, kind and amount may be handed over; entries past the first `arcs` are not looked at, and the shares never. In a refusal `quote`
 * is 0 throughout, and a quote of vertex 0 is never carried out. Refusals, in this order: of the state's tree 1 on `arcs`, then 3, 4, 16
 * and 17 arc by arc, then 18; then 21, 22; then of the tree that the event would reach 17, 18 and 4, of these 17 and 4 at the vertex. */
ZilqodurQuoteAnswer zilqodur_ask(ZilqodurState state, ZilqodurEvent event);

/* Commits a quote: `state` is the one that zilqodur_make_state makes of the tree that the quote's event reaches, but with `committed` one
 * more than in the state handed over. Any state and any quote may be handed over, also a quote that zilqodur_ask gave on another state or
 * never gave. A refused commit changes nothing: `state` is as it came, every entry of it and `committed`, also where it was not made by
 * these functions. Refusals, in this order: 23, 24, then those of zilqodur_ask. */
ZilqodurStateAnswer zilqodur_commit(ZilqodurState state, ZilqodurQuote quote);

/* Reads the bytes of a job of version 1 into the front of the four lists and keeps their other entries. Each list has at least
 * ZILQODUR_MOST_ARCS entries. A job has four parts, each beginning where the one before it ends. Numbers are little-endian; their widths in
 * bytes stand in brackets.
 *     note           0 to 255 bytes of any content
 *     arc rows       a row an arc, from arc 1 on: its parent (2), a filler of 0 (2), its cost (4)
 *     member rows    a row a member, from member 0 on: its cap (8), its proposed share (8, two's complement)
 *     trailer        how many bytes stand before the arc rows (4) and how many before the member rows (4), the number of arc rows (2) and
 *                    of member rows (2), the version, which is 1 (2), and last the two closing bytes 0x54 and 0x4A
 * A job of version 1 marks every dead end: zilqodur_mark_dead_ends writes the marks for its parents and costs. With them no function
 * refuses the entries written here by the tree's refusals, 6 or 7. Refusals, in this order: 10 to 14, 1, 3, 4, 15, 7 on caps, 7 on
 * proposals. */
ZilqodurJob zilqodur_read_job(const uint8_t *bytes, size_t bytes_count, uint16_t *parents, size_t parents_count, uint32_t *costs,
                              size_t costs_count, uint64_t *caps, size_t caps_count, int64_t *proposals, size_t proposals_count);

/* The number of bytes of the job that zilqodur_write_job writes from the same note and lists: the note's, 8 an arc, 16 a member and 16.
 * `note` has 0 to 255 bytes of any content; its pointer is non-null also where it has none. The members are all dead ends: `caps` has one
 * cap a member, each from 0 to 2,000,000,000,000, and `proposals` one share a member, each from -2,000,000,000,000 to 2,000,000,000,000.
 * Refusals, in this order: 1, 2 on the costs alone, then 3 and 4 arc by arc, 6 and 7 on caps, 6 and 7 on proposals, 19. */
ZilqodurJobLength zilqodur_job_length(const uint8_t *note, size_t note_count, const uint16_t *parents, size_t parents_count,
                                      const uint32_t *costs, size_t costs_count, const uint64_t *caps, size_t caps_count,
                                      const int64_t *proposals, size_t proposals_count);

/* Writes a job of version 1 to the front of `out` and keeps the other bytes of `out`. The note and the lists are those of
 * zilqodur_job_length; `out` has at least as many bytes as the job, whose length is answered. zilqodur_read_job accepts the job and gives
 * back its note and values; any job that it accepts, written again from its note and values, has the same bytes. Refusals: those of
 * zilqodur_job_length, then 20. */
ZilqodurJobLength zilqodur_write_job(const uint8_t *note, size_t note_count, const uint16_t *parents, size_t parents_count,
                                     const uint32_t *costs, size_t costs_count, const uint64_t *caps, size_t caps_count,
                                     const int64_t *proposals, size_t proposals_count, uint8_t *out, size_t out_count);

/* Reads the bytes of a job of version 2 into the front of the six lists and keeps their other entries. Each list has at least
 * ZILQODUR_MOST_ARCS entries. A job of version 2 is as zilqodur_read_job tells of version 1, but for
 *     arc rows       the mark of the vertex that the arc enters (2) stands in the filler's place
 *     member rows    the member's floor (8) follows its proposed share
 *     trailer        the version is 2
 * No function refuses the entries written here by the tree's refusals, 6, 7 or 27. Refusals, in this order: 10 to 13, 16 on all arc rows,
 * 1, then 3, 4 and 17 arc by arc, 18, 15, 7 on caps, 7 on proposals, 7 on floors, 27. A job that one of the two readers accepts the other
 * refuses, where its lists have the entries: zilqodur_read_job by 11 or 12, this function by 12. */
ZilqodurJob zilqodur_read_job2(const uint8_t *bytes, size_t bytes_count, uint16_t *parents, size_t parents_count, uint32_t *costs,
                               size_t costs_count, uint16_t *marks, size_t marks_count, uint64_t *caps, size_t caps_count,
                               int64_t *proposals, size_t proposals_count, uint64_t *floors, size_t floors_count);

/* Writes a job of version 1 as one of version 2 to the front of `out` and keeps the other bytes of `out`. Note, parents, costs, caps and
 * proposals are carried over, every dead end is marked, and every floor is 0. `out` has at least as many bytes as the new job, whose length
 * is answered: 8 a member more than `bytes`. zilqodur_job_to_1 makes the same bytes of it again. Refusals: those of zilqodur_read_job but
 * 10, then 20. */
ZilqodurJobLength zilqodur_job_to_2(const uint8_t *bytes, size_t bytes_count, uint8_t *out, size_t out_count);

/* Writes a job of version 2, in which every dead end is marked and every floor is 0, as one of version 1 to the front of `out` and keeps
 * the other bytes of `out`. Note, parents, costs, caps and proposals are carried over. `out` has at least as many bytes as the new job,
 * whose length is answered: 8 a member fewer than `bytes`. zilqodur_job_to_2 makes the same bytes of it again. Refusals: those of
 * zilqodur_read_job2 but 10, then 29, 30, 20. */
ZilqodurJobLength zilqodur_job_to_1(const uint8_t *bytes, size_t bytes_count, uint8_t *out, size_t out_count);

/* Writes the report on a job's bytes to the front of `out`, as ASCII text; each line ends in a newline and no zero byte follows the last.
 * The other bytes of `out` keep their content. Nothing is refused: on a job that zilqodur_read_job refuses by 11 to 15, 1, 3, 4 or 7, as
 * it does every job of version 2, the report is the line `refused N at PLACE`. Otherwise its lines are
 *     cost C members N                       the whole cost, the number of members
 *     audit total D                          the difference; only where the shares do not add up
 *     audit group A of S: J J J              amount, size and members of the group; only where one is found
 *     audit pass                             only where the shares add up and no group is found
 *     level ok                               or `level refused 9 at ARC short D`
 *     J at V: proposed P by-arc B level L    one line a member: number, vertex, three shares; L is `-` where the level split is refused */
ZilqodurReport zilqodur_report(const uint8_t *bytes, size_t bytes_count, uint8_t out[ZILQODUR_REPORT_ROOM]);

#ifdef __cplusplus
}
#endif

#endif
