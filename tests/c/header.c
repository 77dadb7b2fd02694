/* Calls every function of zilqodur.h on the tree T of the specification, and some on the largest trees, and looks at every field, list and
 * refusal: here the sizes and the texts, in lists.c, levels.c, classes.c, steps.c, states.c, jobs.c and jobs2.c the functions. It is
 * compiled as C99 and as C++11: where the header is not the archive's it does not compile, does not link, or names the lines that do not
 * hold. Its argument is the file with the sample job, which is to hold what is written for T. */
#include "expect.h"

#include <string.h>

/* No struct is larger than the archive's. */
static void sizes(void) {
    EXPECT(sizeof(ZilqodurCheck) == 16 && sizeof(ZilqodurMembers) == 24 && sizeof(ZilqodurNeeds) == 32 && sizeof(ZilqodurGroup) == 32);
    EXPECT(sizeof(ZilqodurTotal) == 32 && sizeof(ZilqodurSearch) == 168 && sizeof(ZilqodurCapSums) == 24 && sizeof(ZilqodurLevel) == 32);
    EXPECT(sizeof(ZilqodurMargin) == 32 && sizeof(ZilqodurStep) == 24);
    EXPECT(sizeof(ZilqodurClassSplit) == 88 && offsetof(ZilqodurClassSplit, members) == 16 && offsetof(ZilqodurClassSplit, totals) == 24);
    EXPECT(sizeof(ZilqodurJob) == 40 && sizeof(ZilqodurJobLength) == 24 && sizeof(ZilqodurReport) == 24);
    EXPECT(sizeof(ZilqodurState) == 16392 && sizeof(ZilqodurEvent) == 16 && sizeof(ZilqodurStateAnswer) == 16392 + 24);
    EXPECT(offsetof(ZilqodurState, parents) == 8 && offsetof(ZilqodurState, costs) == 2056 && offsetof(ZilqodurState, marks) == 6148 &&
           offsetof(ZilqodurState, shares) == 8200 && offsetof(ZilqodurState, committed) == 16384);
    EXPECT(sizeof(ZilqodurQuote) == 24 && offsetof(ZilqodurQuote, committed) == 16);
    EXPECT(sizeof(ZilqodurQuoteAnswer) == 8232 && offsetof(ZilqodurQuoteAnswer, quote) == 24 &&
           offsetof(ZilqodurQuoteAnswer, shares) == 48);
    EXPECT(sizeof(((ZilqodurState *)0)->committed) == 4 && sizeof(((ZilqodurQuote *)0)->committed) == 4);
}

/* Each number has a sentence of its own, and every other number the same one. */
static void texts(void) {
    const char *other = zilqodur_refusal_text(UINT32_MAX);
    uint32_t a, b;
    for (a = ZILQODUR_NO_REFUSAL; a <= ZILQODUR_CLASS_COUNT; a++) {
        EXPECT(strcmp(zilqodur_refusal_text(a), other) != 0);
        for (b = ZILQODUR_NO_REFUSAL; b < a; b++) EXPECT(strcmp(zilqodur_refusal_text(a), zilqodur_refusal_text(b)) != 0);
    }
    EXPECT(strcmp(zilqodur_refusal_text(ZILQODUR_CLASS_COUNT + 1), other) == 0);
    EXPECT(strcmp(zilqodur_refusal_text(ZILQODUR_PARENT), "a parent is not below its arc's number") == 0);
}

int main(int argc, char **argv) {
    texts();
    sizes();
    try_lists();
    try_levels();
    try_classes();
    try_steps();
    try_states();
    try_jobs(argc == 2 ? argv[1] : "");
    try_jobs2();
    return failures > 0;
}
