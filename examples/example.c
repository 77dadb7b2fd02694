/* Audits and splits the tree T of docs/SPECIFICATION.md, §10, with a member at every dead end, then with one spare; then
 * somebody asks what arriving there would cost, and arrives. At the end, all parent lists of three arcs. */
#include "zilqodur.h"

#include <inttypes.h>
#include <stdio.h>

#define ARCS 4
#define MEMBERS 3
#define SMALL 3

static const uint16_t parents[ARCS] = {0, 1, 1, 0};
static const uint32_t costs[ARCS] = {6, 1, 5, 4};
static uint16_t marks[ARCS];

static void print_refusal(const char *name, uint32_t refusal, size_t place) {
    printf("%s refused %" PRIu32 " at %zu", name, refusal, place);
}

static void print_group(const ZilqodurSearch *s) {
    printf("audit group %" PRIu64 " of %zu:", s->amount, s->size);
    for (size_t j = 0; j < MEMBERS; j++) {
        if ((s->group[j / 64] >> (j % 64)) & 1) {
            printf(" %zu", j);
        }
    }
    printf("\n");
}

/* The two functions refuse the same lists by the same numbers. */
static void audit(const int64_t proposal[MEMBERS]) {
    ZilqodurTotal t = zilqodur_check_total(parents, ARCS, costs, ARCS, marks, ARCS, proposal, MEMBERS);
    ZilqodurSearch s = zilqodur_find_group(parents, ARCS, costs, ARCS, marks, ARCS, proposal, MEMBERS);
    if (t.refusal != ZILQODUR_NO_REFUSAL) {
        print_refusal("audit", t.refusal, t.place);
        printf("\n");
    }
    if (t.verdict == ZILQODUR_OFF) {
        printf("audit total %" PRId64 "\n", t.difference);
    }
    if (s.verdict == ZILQODUR_GROUP) {
        print_group(&s);
    }
    if (t.verdict == ZILQODUR_ADDS_UP && s.verdict == ZILQODUR_NO_GROUP) {
        printf("audit pass\n");
    }
}

static void print_shares(const char *name, const uint64_t *shares, size_t members) {
    printf("%s", name);
    for (size_t j = 0; j < members; j++) {
        printf(" %" PRIu64, shares[j]);
    }
}

static void level(const uint64_t caps[MEMBERS], const uint64_t floors[MEMBERS]) {
    uint64_t shares[MEMBERS] = {0};
    ZilqodurLevel l = zilqodur_split_level(parents, ARCS, costs, ARCS, marks, ARCS, caps, MEMBERS, floors, MEMBERS,
                                           shares, MEMBERS);
    if (l.refusal != ZILQODUR_NO_REFUSAL) {
        print_refusal("level", l.refusal, l.place);
        printf(" short %" PRIu64, l.shortfall);
    } else {
        print_shares("level", shares, l.members);
    }
    printf("\n");
}

static void by_arc(size_t members) {
    uint64_t shares[MEMBERS] = {0};
    ZilqodurMembers m = zilqodur_split_by_arc(parents, ARCS, costs, ARCS, marks, ARCS, shares, members);
    if (m.refusal != ZILQODUR_NO_REFUSAL) {
        print_refusal("by-arc", m.refusal, m.place);
    } else {
        print_shares("by-arc", shares, m.members);
    }
    printf("\n");
}

/* The shares that an arrival would lead to; the state stays as it is. */
static ZilqodurQuote ask(const ZilqodurState *state, size_t vertex) {
    const ZilqodurEvent event = {vertex, ZILQODUR_ARRIVE, 0};
    ZilqodurQuoteAnswer q = zilqodur_ask(*state, event);
    if (q.refusal != ZILQODUR_NO_REFUSAL) {
        print_refusal("ask", q.refusal, q.place);
    } else {
        print_shares("ask", q.shares, q.members);
    }
    printf("\n");
    return q.quote;
}

/* The shares after the quote's event; a refused commit leaves the state as it is. */
static void commit(ZilqodurState *state, ZilqodurQuote quote) {
    ZilqodurStateAnswer a = zilqodur_commit(*state, quote);
    if (a.refusal != ZILQODUR_NO_REFUSAL) {
        print_refusal("commit", a.refusal, a.place);
    } else {
        print_shares("commit", a.state.shares, a.members);
    }
    printf("\n");
    *state = a.state;
}

/* From all zeros to the last list. */
static void small_networks(void) {
    uint16_t list[SMALL] = {0};
    printf("networks");
    do {
        printf(" ");
        for (size_t i = 0; i < SMALL; i++) {
            printf("%" PRIu16, list[i]);
        }
    } while (zilqodur_next_parents(list, SMALL).verdict == ZILQODUR_STEP_NEXT);
    printf("\n");
}

int main(void) {
    ZilqodurMembers m = zilqodur_mark_dead_ends(parents, ARCS, costs, ARCS, marks, ARCS);
    if (m.refusal != ZILQODUR_NO_REFUSAL) {
        print_refusal("tree", m.refusal, m.place);
        printf("\n");
        return 1;
    }
    audit((const int64_t[MEMBERS]){7, 5, 4});
    audit((const int64_t[MEMBERS]){8, 4, 4});
    audit((const int64_t[MEMBERS]){8, 4, 5});
    audit((const int64_t[MEMBERS]){8, 4, 2000000000001});
    const uint64_t no_floors[MEMBERS] = {0};
    level((const uint64_t[MEMBERS]){100, 100, 100}, no_floors);
    level((const uint64_t[MEMBERS]){3, 8, 100}, no_floors);
    level((const uint64_t[MEMBERS]){100, 100, 100}, (const uint64_t[MEMBERS]){0, 7, 0}); /* member 1 pays at least 7 */
    by_arc(m.members);
    marks[2] = 0; /* vertex 3 is a plot that is not yet sold: nobody pays for its arc */
    by_arc(m.members - 1);
    ZilqodurState state = zilqodur_make_state(parents, ARCS, costs, ARCS, marks, ARCS).state;
    ZilqodurQuote quote = ask(&state, 3);
    commit(&state, quote); /* the plot is sold */
    commit(&state, quote); /* a quote is carried out once */
    ask(&state, 3);
    small_networks();
    return 0;
}
