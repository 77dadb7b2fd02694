/* What the files of the header's test share: its checks, the lists of the tree T, and what main calls. */
#ifndef EXPECT_H
#define EXPECT_H

#include "zilqodur.h"

#define ARCS 4
#define MEMBERS 3

/* The parents, costs and marks of T, the same with a fault, and the proposal of the sample job. */
extern const uint16_t parents[ARCS];
extern const uint32_t costs[ARCS];
extern const uint16_t marks[ARCS];
extern const uint16_t wrong_parents[ARCS];
extern const uint32_t wrong_costs[ARCS];
extern const uint16_t wrong_marks[ARCS];
extern const uint16_t inner_marks[ARCS];
extern const uint16_t no_marks[ARCS];
extern const int64_t sample_proposal[MEMBERS];

/* The lists of T with the given marks. */
#define T(marks) parents, ARCS, costs, ARCS, marks, ARCS

/* How many checks did not hold. */
extern int failures;

/* Names the line where the check does not hold. */
#define EXPECT(holds) expect(holds, __FILE__, __LINE__)

void expect(int holds, const char *file, int line);

/* A field has the value, and the width that the archive gives it, which is that of `wanted`. */
#define IS(field, wanted) (sizeof(field) == sizeof(wanted) && (field) == (wanted))

/* The list begins with these three. */
int are(const uint64_t *list, uint64_t a, uint64_t b, uint64_t c);

/* All tests of the file of that name. The path is the sample job's. */
void try_lists(void);
void try_levels(void);
void try_classes(void);
void try_steps(void);
void try_states(void);
void try_jobs(const char *path);
void try_jobs2(void);

#endif
