/* States, the events that are asked for and committed on them, and quotes. */
#include "expect.h"

#include <string.h>

static int same_states(const ZilqodurState *a, const ZilqodurState *b) {
    return IS(a->arcs, b->arcs) && memcmp(a->parents, b->parents, sizeof a->parents) == 0 &&
           memcmp(a->costs, b->costs, sizeof a->costs) == 0 && memcmp(a->marks, b->marks, sizeof a->marks) == 0 &&
           memcmp(a->shares, b->shares, sizeof a->shares) == 0 && a->committed == b->committed;
}

static int is_state(ZilqodurStateAnswer found, uint32_t refusal, size_t place, size_t members, ZilqodurState state) {
    return IS(found.refusal, refusal) && IS(found.place, place) && IS(found.members, members) && same_states(&found.state, &state);
}

static ZilqodurQuote quote_of(size_t vertex, uint32_t kind, uint32_t amount, uint32_t committed) {
    ZilqodurQuote quote;
    quote.event.vertex = vertex, quote.event.kind = kind, quote.event.amount = amount;
    quote.committed = committed;
    return quote;
}

static int same_quotes(ZilqodurQuote a, ZilqodurQuote b) {
    return a.event.vertex == b.event.vertex && a.event.kind == b.event.kind && a.event.amount == b.event.amount &&
           a.committed == b.committed;
}

static int is_asked(ZilqodurQuoteAnswer found, uint32_t refusal, size_t place, size_t members, ZilqodurQuote quote,
                    const uint64_t *shares) {
    return IS(found.refusal, refusal) && IS(found.place, place) && IS(found.members, members) && same_quotes(found.quote, quote) &&
           memcmp(found.shares, shares, sizeof found.shares) == 0;
}

/* The state of T with these costs and marks, and with these shares. */
static ZilqodurState t_state(const uint32_t *own_costs, const uint16_t *own_marks, uint64_t a, uint64_t b, uint64_t c) {
    static ZilqodurState state;
    state.arcs = ARCS;
    memcpy(state.parents, parents, sizeof parents);
    memcpy(state.costs, own_costs, sizeof costs);
    memcpy(state.marks, own_marks, sizeof marks);
    state.shares[0] = a, state.shares[1] = b, state.shares[2] = c;
    return state;
}

/* A refused tree gives a state that is 0 throughout. */
static void states(void) {
    static ZilqodurState none;
    EXPECT(is_state(zilqodur_make_state(T(marks)), ZILQODUR_NO_REFUSAL, 0, MEMBERS, t_state(costs, marks, 4, 8, 4)));
    EXPECT(is_state(zilqodur_make_state(parents, 0, costs, 0, marks, ARCS), ZILQODUR_ARC_COUNT, 0, 0, none));
    EXPECT(is_state(zilqodur_make_state(parents, ARCS, costs, ARCS, marks, ARCS - 1), ZILQODUR_TREE_LENGTHS, 0, 0, none));
    EXPECT(is_state(zilqodur_make_state(wrong_parents, ARCS, costs, ARCS, marks, ARCS), ZILQODUR_PARENT, 2, 0, none));
    EXPECT(is_state(zilqodur_make_state(parents, ARCS, wrong_costs, ARCS, marks, ARCS), ZILQODUR_COST, 3, 0, none));
    EXPECT(is_state(zilqodur_make_state(T(wrong_marks)), ZILQODUR_MARK, 3, 0, none));
    EXPECT(is_state(zilqodur_make_state(T(inner_marks)), ZILQODUR_MARK_CHILD, 1, 0, none));
    EXPECT(is_state(zilqodur_make_state(T(no_marks)), ZILQODUR_NO_MARK, 0, 0, none));
}

/* The state with another number of events committed. */
static ZilqodurState numbered(ZilqodurState state, uint32_t committed) {
    state.committed = committed;
    return state;
}

/* The event is asked for, and its quote committed; so is the event as it was asked for. The number of `next` is not looked at. */
static int is_carried_out(ZilqodurState state, size_t vertex, uint32_t kind, uint32_t amount, size_t members, ZilqodurState next) {
    const ZilqodurQuote own = quote_of(vertex, kind, amount, state.committed);
    const ZilqodurQuote told = quote_of(vertex, kind < 2 ? kind : 2, kind < 2 ? 0 : amount, state.committed);
    const ZilqodurQuoteAnswer asked = zilqodur_ask(state, own.event);
    const ZilqodurState after = numbered(next, state.committed + 1);
    return is_asked(asked, ZILQODUR_NO_REFUSAL, 0, members, told, next.shares) &&
           is_state(zilqodur_commit(state, asked.quote), ZILQODUR_NO_REFUSAL, 0, members, after) &&
           is_state(zilqodur_commit(state, own), ZILQODUR_NO_REFUSAL, 0, members, after);
}

/* The amount matters to a new cost alone, which every kind is but two. */
static void events(void) {
    static const uint16_t spare_marks[ARCS] = {0, 1, 0, 1};
    static const uint32_t dear[ARCS] = {6, 1, 1000000000, 4}, dearer[ARCS] = {13, 1, 5, 4};
    const ZilqodurState whole = t_state(costs, marks, 4, 8, 4), spare = t_state(costs, spare_marks, 7, 4, 0);
    EXPECT(is_carried_out(whole, 3, ZILQODUR_LEAVE, UINT32_MAX, 2, spare));
    EXPECT(is_carried_out(spare, 3, ZILQODUR_ARRIVE, UINT32_MAX, MEMBERS, whole));
    EXPECT(is_carried_out(spare, 3, ZILQODUR_NEW_COST, 1000000000, 2, t_state(dear, spare_marks, 7, 4, 0)));
    EXPECT(is_carried_out(whole, 1, ZILQODUR_NEW_COST, 13, MEMBERS, t_state(dearer, marks, 8, 11, 4)));
    EXPECT(is_carried_out(whole, 1, UINT32_MAX, 13, MEMBERS, t_state(dearer, marks, 8, 11, 4)));
    EXPECT(is_carried_out(whole, 1, ZILQODUR_NEW_COST, 6, MEMBERS, whole));
    EXPECT(is_carried_out(numbered(whole, 255), 3, ZILQODUR_LEAVE, 0, 2, spare));
    EXPECT(is_carried_out(numbered(whole, ZILQODUR_MOST_EVENTS - 1), 3, ZILQODUR_LEAVE, 0, 2, spare));
}

/* The quote is refused, and the state is given back as it is. */
#define EXPECT_UNCOMMITTED(state, quote, refusal, place) EXPECT(is_state(zilqodur_commit(state, quote), refusal, place, 0, state))

/* The event is refused both where it is asked for and where it is committed. */
static int is_refused(ZilqodurState state, size_t vertex, uint32_t kind, uint32_t amount, uint32_t refusal, size_t place) {
    static uint64_t none[ZILQODUR_MOST_ARCS];
    const ZilqodurQuote own = quote_of(vertex, kind, amount, state.committed);
    return is_asked(zilqodur_ask(state, own.event), refusal, place, 0, quote_of(0, 0, 0, 0), none) &&
           is_state(zilqodur_commit(state, own), refusal, place, 0, state);
}

static void refused_events(void) {
    static const uint16_t one[ARCS] = {0, 0, 0, 1};
    const ZilqodurState whole = t_state(costs, marks, 4, 8, 4), last = t_state(costs, one, 4, 0, 0);
    EXPECT(is_refused(whole, 0, ZILQODUR_NEW_COST, 1000000001, ZILQODUR_EVENT_VERTEX, 0));
    EXPECT(is_refused(whole, 5, ZILQODUR_LEAVE, 0, ZILQODUR_EVENT_VERTEX, 5));
    EXPECT(is_refused(whole, SIZE_MAX, ZILQODUR_ARRIVE, 0, ZILQODUR_EVENT_VERTEX, SIZE_MAX));
    EXPECT(is_refused(whole, 2, ZILQODUR_ARRIVE, 0, ZILQODUR_EVENT_MARK, 2));
    EXPECT(is_refused(whole, 1, ZILQODUR_LEAVE, 0, ZILQODUR_EVENT_MARK, 1));
    EXPECT(is_refused(whole, 1, ZILQODUR_ARRIVE, 0, ZILQODUR_MARK_CHILD, 1));
    EXPECT(is_refused(numbered(last, 3), 4, ZILQODUR_LEAVE, 0, ZILQODUR_NO_MARK, 0));
    EXPECT(is_refused(numbered(whole, 7), 2, ZILQODUR_NEW_COST, 1000000001, ZILQODUR_COST, 2));
}

/* A quote is committed once. One of another number, lower or higher, is refused, and so is the one of a refused asking. */
static void quotes(void) {
    const ZilqodurState whole = t_state(costs, marks, 4, 8, 4);
    const ZilqodurQuote left = zilqodur_ask(whole, quote_of(3, ZILQODUR_LEAVE, 0, 0).event).quote;
    const ZilqodurState spare = zilqodur_commit(whole, left).state;
    const ZilqodurQuote back = zilqodur_ask(spare, quote_of(3, ZILQODUR_ARRIVE, 0, 0).event).quote;
    const ZilqodurQuote none = zilqodur_ask(whole, quote_of(1, ZILQODUR_ARRIVE, 0, 0).event).quote;
    EXPECT(same_quotes(left, quote_of(3, ZILQODUR_LEAVE, 0, 0)) && same_quotes(back, quote_of(3, ZILQODUR_ARRIVE, 0, 1)));
    EXPECT_UNCOMMITTED(spare, left, ZILQODUR_QUOTE_NUMBER, 0);
    EXPECT(is_state(zilqodur_commit(spare, back), ZILQODUR_NO_REFUSAL, 0, MEMBERS, numbered(whole, 2)));
    EXPECT_UNCOMMITTED(numbered(whole, 2), left, ZILQODUR_QUOTE_NUMBER, 0);
    EXPECT_UNCOMMITTED(whole, back, ZILQODUR_QUOTE_NUMBER, 0);
    EXPECT_UNCOMMITTED(whole, quote_of(3, ZILQODUR_LEAVE, 0, UINT32_MAX), ZILQODUR_QUOTE_NUMBER, 0);
    EXPECT_UNCOMMITTED(whole, none, ZILQODUR_EVENT_VERTEX, 0);
}

/* The numbers are looked at before everything else, and 23 comes before 24. An asking does not look at them. */
static void most_events(void) {
    static const uint32_t numbers[] = {ZILQODUR_MOST_EVENTS, ZILQODUR_MOST_EVENTS + 1, UINT32_MAX};
    static uint64_t left[ZILQODUR_MOST_ARCS] = {7, 4};
    size_t i;
    for (i = 0; i < sizeof numbers / sizeof numbers[0]; i++) {
        ZilqodurState full = numbered(t_state(costs, marks, 4, 8, 4), numbers[i]);
        const ZilqodurQuote quote = quote_of(3, ZILQODUR_LEAVE, 0, numbers[i]);
        EXPECT(is_asked(zilqodur_ask(full, quote.event), ZILQODUR_NO_REFUSAL, 0, 2, quote, left));
        EXPECT_UNCOMMITTED(full, quote, ZILQODUR_EVENT_COUNT, 0);
        EXPECT_UNCOMMITTED(full, quote_of(5, ZILQODUR_LEAVE, 0, numbers[i]), ZILQODUR_EVENT_COUNT, 0);
        EXPECT_UNCOMMITTED(full, quote_of(3, ZILQODUR_LEAVE, 0, numbers[i] - 1), ZILQODUR_QUOTE_NUMBER, 0);
        full.arcs = 0;
        EXPECT_UNCOMMITTED(full, quote, ZILQODUR_EVENT_COUNT, 0);
        EXPECT_UNCOMMITTED(full, quote_of(3, ZILQODUR_LEAVE, 0, 0), ZILQODUR_QUOTE_NUMBER, 0);
    }
    EXPECT(ZILQODUR_MOST_EVENTS == 1000000);
}

/* States that no function made. Each event has a fault too, which comes after those of the state. */
static void raw_states(void) {
    static const size_t counts[] = {0, ZILQODUR_MOST_ARCS + 1, SIZE_MAX};
    const ZilqodurState whole = t_state(costs, marks, 4, 8, 4);
    ZilqodurState raw;
    size_t i;
    memset(&raw, 0xEE, sizeof raw);
    EXPECT_UNCOMMITTED(raw, quote_of(0, ZILQODUR_ARRIVE, 0, raw.committed), ZILQODUR_EVENT_COUNT, 0);
    raw.committed = 999;
    for (i = 0; i < sizeof counts / sizeof counts[0]; i++) {
        raw.arcs = counts[i];
        EXPECT(is_refused(raw, 0, ZILQODUR_ARRIVE, 0, ZILQODUR_ARC_COUNT, 0));
    }
    raw.arcs = ARCS;
    memcpy(raw.costs, wrong_costs, sizeof costs);
    memcpy(raw.marks, wrong_marks, sizeof marks);
    EXPECT(is_refused(raw, 0, ZILQODUR_ARRIVE, 0, ZILQODUR_PARENT, 1));
    memcpy(raw.parents, parents, sizeof parents);
    EXPECT(is_refused(raw, 0, ZILQODUR_ARRIVE, 0, ZILQODUR_COST, 3));
    memcpy(raw.costs, costs, sizeof costs);
    EXPECT(is_refused(raw, 0, ZILQODUR_ARRIVE, 0, ZILQODUR_MARK, 3));
    memcpy(raw.marks, inner_marks, sizeof marks);
    EXPECT(is_refused(raw, 1, ZILQODUR_ARRIVE, 0, ZILQODUR_MARK_CHILD, 1));
    memcpy(raw.marks, no_marks, sizeof marks);
    EXPECT(is_refused(raw, 1, ZILQODUR_LEAVE, 0, ZILQODUR_NO_MARK, 0));
    memcpy(raw.marks, marks, sizeof marks);
    EXPECT(is_refused(raw, 5, ZILQODUR_NEW_COST, 6, ZILQODUR_EVENT_VERTEX, 5));
    EXPECT(is_carried_out(raw, 1, ZILQODUR_NEW_COST, 6, MEMBERS, whole));
}

/* A star of arcs of the greatest cost fills every list of its state. */
static void largest_state(void) {
    static ZilqodurState star;
    const size_t m = ZILQODUR_MOST_ARCS;
    ZilqodurState less;
    size_t i;
    star.arcs = m;
    for (i = 0; i < m; i++) {
        star.costs[i] = 1000000000;
        star.marks[i] = 1;
        star.shares[i] = 1000000000;
    }
    less = star;
    less.marks[m - 1] = 0;
    less.shares[m - 1] = 0;
    EXPECT(is_state(zilqodur_make_state(star.parents, m, star.costs, m, star.marks, m), ZILQODUR_NO_REFUSAL, 0, m, star));
    EXPECT(is_carried_out(star, m, ZILQODUR_LEAVE, 0, m - 1, less));
    EXPECT(is_carried_out(less, m, ZILQODUR_ARRIVE, 0, m, star));
    EXPECT(is_refused(star, m + 1, ZILQODUR_LEAVE, 0, ZILQODUR_EVENT_VERTEX, m + 1));
}

void try_states(void) {
    states();
    events();
    refused_events();
    quotes();
    most_events();
    raw_states();
    largest_state();
}
