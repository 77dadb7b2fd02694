/* Jobs of version 2 that are read, and jobs that are written in the other version. */
#include "sample.h"

#include <string.h>

static struct {
    uint16_t parents[ZILQODUR_MOST_ARCS];
    uint32_t costs[ZILQODUR_MOST_ARCS];
    uint16_t marks[ZILQODUR_MOST_ARCS];
    uint64_t caps[ZILQODUR_MOST_ARCS];
    int64_t proposals[ZILQODUR_MOST_ARCS];
    uint64_t floors[ZILQODUR_MOST_ARCS];
} lists;

/* Every list has entries enough. */
#define NONE_SMALL (-1)

/* Into lists that are cleared first; the list of the given number has an entry too few. */
static ZilqodurJob read_job2(const uint8_t *job, size_t size, int small) {
    const size_t m = ZILQODUR_MOST_ARCS;
    memset(&lists, UNWRITTEN, sizeof lists);
    return zilqodur_read_job2(job, size, lists.parents, m - (small == 0), lists.costs, m - (small == 1), lists.marks,
                              m - (small == 2), lists.caps, m - (small == 3), lists.proposals, m - (small == 4), lists.floors,
                              m - (small == 5));
}

/* So many entries of the list are the expected ones, and those behind are kept. */
#define BEGINS(list, expected, count) \
    (memcmp(list, expected, (count) * sizeof list[0]) == 0 && kept(list, (count) * sizeof list[0], sizeof list))

static int filled(const uint16_t *vertices, const uint64_t *floors, size_t members) {
    return BEGINS(lists.parents, parents, ARCS) && BEGINS(lists.costs, costs, ARCS) && BEGINS(lists.marks, vertices, ARCS) &&
           BEGINS(lists.caps, sample_caps, members) && BEGINS(lists.proposals, sample_proposal, members) &&
           BEGINS(lists.floors, floors, members);
}

/* Jobs that are read: with every dead end marked, and with a spare plot and floors up to the caps. */
static void jobs2(void) {
    static const uint16_t spare[ARCS] = {0, 1, 0, 1};
    static const uint64_t floors[2] = {99, 100};
    uint8_t job[MOST_NOTE + JOB2_BYTES];
    size_t size = put_job2(job, 5, spare, floors, 2);
    int small;
    for (small = 0; small < 6; small++) {
        EXPECT(is_job(read_job2(job, 15, small), ZILQODUR_JOB_ROOM, 0, 0, 0, 0) && kept(&lists, 0, sizeof lists));
        EXPECT(is_job(read_job2(job, size, small), ZILQODUR_JOB_ROOM, 0, 0, 0, 0) && kept(&lists, 0, sizeof lists));
    }
    EXPECT(is_job(read_job2(job, size, NONE_SMALL), ZILQODUR_NO_REFUSAL, 0, ARCS, 2, 5) && filled(spare, floors, 2));
    size = put_job2(job, MOST_NOTE, marks, no_floors, MEMBERS);
    EXPECT(is_job(read_job2(job, size, NONE_SMALL), ZILQODUR_NO_REFUSAL, 0, ARCS, MEMBERS, MOST_NOTE) && filled(marks, no_floors, MEMBERS));
}

/* The reader and the conversion refuse the job and write nothing, also where the output is too short. */
static int is_refused2(const uint8_t *job, size_t size, uint32_t refusal, size_t place) {
    int read = is_job(read_job2(job, size, NONE_SMALL), refusal, place, 0, 0, 0) && kept(&lists, 0, sizeof lists);
    memset(written, UNWRITTEN, sizeof written);
    return read && is_job_length(zilqodur_job_to_1(job, size, written, 0), refusal, place, 0) &&
           is_job_length(zilqodur_job_to_1(job, size, written, sizeof written), refusal, place, 0) && kept_from(0);
}

static int is_refused1(const uint8_t *job, size_t size, uint32_t refusal, size_t place) {
    const size_t m = ZILQODUR_MOST_ARCS;
    ZilqodurJob read;
    memset(&lists, UNWRITTEN, sizeof lists);
    memset(written, UNWRITTEN, sizeof written);
    read = zilqodur_read_job(job, size, lists.parents, m, lists.costs, m, lists.caps, m, lists.proposals, m);
    return is_job(read, refusal, place, 0, 0, 0) && kept(&lists, 0, sizeof lists) &&
           is_job_length(zilqodur_job_to_2(job, size, written, 0), refusal, place, 0) &&
           is_job_length(zilqodur_job_to_2(job, size, written, sizeof written), refusal, place, 0) && kept_from(0);
}

/* A number put at a place. */
typedef struct Change {
    size_t at;
    uint64_t number;
    int width;
} Change;

/* The sample job with two changes: the refusal is that of the first, which comes before that of the second. */
typedef struct Fault {
    int line;
    Change first, second;
    uint32_t refusal;
    size_t place;
} Fault;

#define NONE {0, 0, 0}
#define ABOVE UINT64_C(2000000000001)
#define BELOW ((uint64_t) - INT64_C(2000000000001))

static const Fault faults2[] = {
    {__LINE__, {TRAILER2 + 12, 1, 2}, {TRAILER2 + 4, 40, 4}, ZILQODUR_JOB_SIGNATURE, 0},
    {__LINE__, {TRAILER2 + 12, 0x102, 2}, {TRAILER2 + 4, 40, 4}, ZILQODUR_JOB_SIGNATURE, 0},
    {__LINE__, {TRAILER2 + 14, 0x544A, 2}, {TRAILER2 + 4, 40, 4}, ZILQODUR_JOB_SIGNATURE, 0},
    {__LINE__, {TRAILER2 + 4, 40, 4}, {MARK(1), 2, 2}, ZILQODUR_JOB_LAYOUT, 0},
    {__LINE__, {TRAILER2 + 10, MEMBERS + 1, 2}, {MARK(1), 2, 2}, ZILQODUR_JOB_LAYOUT, 0},
    /* 16 on all arcs before 3, 4 and 17 on the first */
    {__LINE__, {MARK(4), 2, 2}, {PARENT(1), 1, 2}, ZILQODUR_MARK, 4},
    {__LINE__, {MARK(4), 0x100, 2}, {COST(1), 1000000001, 4}, ZILQODUR_MARK, 4},
    {__LINE__, {MARK(4), 65535, 2}, {MARK(1), 1, 2}, ZILQODUR_MARK, 4},
    {__LINE__, {MARK(2), 2, 2}, {MARK(3), 2, 2}, ZILQODUR_MARK, 2},
    /* 3, 4 and 17 at one arc, and at an earlier one first */
    {__LINE__, {PARENT(1), 1, 2}, {COST(1), 1000000001, 4}, ZILQODUR_PARENT, 1},
    {__LINE__, {COST(1), 1000000001, 4}, {MARK(1), 1, 2}, ZILQODUR_COST, 1},
    {__LINE__, {MARK(1), 1, 2}, {PARENT(2), 2, 2}, ZILQODUR_MARK_CHILD, 1},
    {__LINE__, {COST(2), 1000000001, 4}, {PARENT(3), 3, 2}, ZILQODUR_COST, 2},
    {__LINE__, {PARENT(4), 3, 2}, NONE, ZILQODUR_MARK_CHILD, 3},
    {__LINE__, {MARK(2), 0, 2}, {CAP2(0), ABOVE, 8}, ZILQODUR_JOB_MEMBERS, 0},
    {__LINE__, {CAP2(2), ABOVE, 8}, {PROPOSAL2(0), ABOVE, 8}, ZILQODUR_LIST_RANGE, 2},
    {__LINE__, {PROPOSAL2(2), BELOW, 8}, {FLOOR2(0), ABOVE, 8}, ZILQODUR_LIST_RANGE, 2},
    {__LINE__, {FLOOR2(2), ABOVE, 8}, {FLOOR2(0), 101, 8}, ZILQODUR_LIST_RANGE, 2},
    {__LINE__, {FLOOR2(1), UINT64_MAX, 8}, {FLOOR2(0), 101, 8}, ZILQODUR_LIST_RANGE, 1},
    {__LINE__, {FLOOR2(1), 101, 8}, {FLOOR2(2), 101, 8}, ZILQODUR_FLOOR_ABOVE_CAP, 1},
    {__LINE__, {FLOOR2(2), 2000000000000, 8}, {FLOOR2(0), 1, 8}, ZILQODUR_FLOOR_ABOVE_CAP, 2},
};

static const Fault faults1[] = {
    {__LINE__, {TRAILER + 12, 2, 2}, {TRAILER + 4, 40, 4}, ZILQODUR_JOB_SIGNATURE, 0},
    {__LINE__, {TRAILER + 4, 40, 4}, {MARK(1), 1, 2}, ZILQODUR_JOB_LAYOUT, 0},
    {__LINE__, {MARK(4), 1, 2}, {PARENT(1), 1, 2}, ZILQODUR_JOB_FILLER, 4},
    {__LINE__, {PARENT(1), 1, 2}, {COST(1), 1000000001, 4}, ZILQODUR_PARENT, 1},
    {__LINE__, {COST(2), 1000000001, 4}, {PARENT(3), 3, 2}, ZILQODUR_COST, 2},
    {__LINE__, {PARENT(4), 3, 2}, {CAP(0), ABOVE, 8}, ZILQODUR_JOB_MEMBERS, 0},
    {__LINE__, {CAP(2), ABOVE, 8}, {PROPOSAL(0), ABOVE, 8}, ZILQODUR_LIST_RANGE, 2},
    {__LINE__, {PROPOSAL(2), BELOW, 8}, NONE, ZILQODUR_LIST_RANGE, 2},
};

static void put_changes(uint8_t *job, const Fault *fault) {
    put(job + fault->first.at, fault->first.number, fault->first.width);
    put(job + fault->second.at, fault->second.number, fault->second.width);
}

static void wrong_jobs(void) {
    uint8_t job[JOB2_BYTES];
    const Fault *fault;
    for (fault = faults2; fault < faults2 + sizeof faults2 / sizeof faults2[0]; fault++) {
        size_t size = put_job2(job, 0, marks, no_floors, MEMBERS);
        put_changes(job, fault);
        expect(is_refused2(job, size, fault->refusal, fault->place), __FILE__, fault->line);
    }
    for (fault = faults1; fault < faults1 + sizeof faults1 / sizeof faults1[0]; fault++) {
        size_t size = put_job(job, 0);
        put_changes(job, fault);
        expect(is_refused1(job, size, fault->refusal, fault->place), __FILE__, fault->line);
    }
}

/* 18 before 15, and jobs of some few bytes: 11, and 1 on a job that is a trailer alone. */
static void small_jobs(void) {
    uint8_t job[JOB2_BYTES];
    size_t i, size = put_job2(job, 0, no_marks, no_floors, MEMBERS);
    EXPECT(is_refused2(job, size, ZILQODUR_NO_MARK, 0));
    size = put_job2(job, 0, marks, no_floors, MEMBERS);
    for (i = 0; i < 16; i++) {
        EXPECT(is_refused2(job + size - i, i, ZILQODUR_JOB_SIZE, 0) && is_refused1(job + size - i, i, ZILQODUR_JOB_SIZE, 0));
    }
    put_trailer(job, 0, 0, 0, 2);
    EXPECT(is_refused2(job, 16, ZILQODUR_ARC_COUNT, 0) && is_refused1(job, 16, ZILQODUR_JOB_SIGNATURE, 0));
    put_trailer(job, 0, 0, 0, 1);
    EXPECT(is_refused2(job, 16, ZILQODUR_JOB_SIGNATURE, 0) && is_refused1(job, 16, ZILQODUR_ARC_COUNT, 0));
}

typedef ZilqodurJobLength Convert(const uint8_t *bytes, size_t bytes_count, uint8_t *out, size_t out_count);

/* The output a byte short, exactly as long as the new job, and longer. */
static void converted(Convert *convert, const uint8_t *job, size_t size, const uint8_t *other, size_t length) {
    memset(written, UNWRITTEN, sizeof written);
    EXPECT(is_job_length(convert(job, size, written, 0), ZILQODUR_JOB_SPACE, 0, 0));
    EXPECT(is_job_length(convert(job, size, written, length - 1), ZILQODUR_JOB_SPACE, 0, 0) && kept_from(0));
    EXPECT(is_job_length(convert(job, size, written, length), ZILQODUR_NO_REFUSAL, 0, length));
    EXPECT(memcmp(written, other, length) == 0 && kept_from(length));
    memset(written, UNWRITTEN, sizeof written);
    EXPECT(is_job_length(convert(job, size, written, sizeof written), ZILQODUR_NO_REFUSAL, 0, length));
    EXPECT(memcmp(written, other, length) == 0 && kept_from(length));
}

/* The sample job after so many bytes of the note, from either version to the other; each reader refuses the other's. */
static void there_and_back(size_t note_count) {
    uint8_t job[MOST_NOTE + JOB_BYTES], job2[MOST_NOTE + JOB2_BYTES];
    size_t size = put_job(job, note_count), size2 = put_job2(job2, note_count, marks, no_floors, MEMBERS);
    converted(zilqodur_job_to_2, job, size, job2, size2);
    converted(zilqodur_job_to_1, job2, size2, job, size);
    EXPECT(is_refused2(job, size, ZILQODUR_JOB_SIGNATURE, 0) && is_refused1(job2, size2, ZILQODUR_JOB_SIGNATURE, 0));
    EXPECT(is_reported(job2, size2, "refused 12 at 0\n"));
}

/* Jobs that are read, but have no other version: 29 before 30 before 20. */
static void no_way_back(void) {
    static const uint16_t first[ARCS] = {0, 0, 0, 1}, last[ARCS] = {0, 1, 1, 0};
    static const uint64_t floors[MEMBERS] = {0, 1, 100};
    static const struct {
        int line;
        const uint16_t *marks;
        const uint64_t *floors;
        size_t members;
        uint32_t refusal;
        size_t place;
    } rows[] = {
        {__LINE__, first, no_floors, 1, ZILQODUR_UNMARKED_DEAD_END, 2},
        {__LINE__, last, no_floors, 2, ZILQODUR_UNMARKED_DEAD_END, 4},
        {__LINE__, last, floors, 2, ZILQODUR_UNMARKED_DEAD_END, 4},
        {__LINE__, marks, floors, MEMBERS, ZILQODUR_FLOOR_ABOVE_ZERO, 1},
        {__LINE__, marks, sample_caps, MEMBERS, ZILQODUR_FLOOR_ABOVE_ZERO, 0},
    };
    uint8_t job[JOB2_BYTES];
    size_t i;
    memset(written, UNWRITTEN, sizeof written);
    for (i = 0; i < sizeof rows / sizeof rows[0]; i++) {
        size_t n = rows[i].members, size = put_job2(job, 0, rows[i].marks, rows[i].floors, n), place = rows[i].place;
        int read = is_job(read_job2(job, size, NONE_SMALL), ZILQODUR_NO_REFUSAL, 0, ARCS, n, 0) && filled(rows[i].marks, rows[i].floors, n);
        expect(read, __FILE__, rows[i].line);
        expect(is_job_length(zilqodur_job_to_1(job, size, written, 0), rows[i].refusal, place, 0) &&
                   is_job_length(zilqodur_job_to_1(job, size, written, sizeof written), rows[i].refusal, place, 0) && kept_from(0),
               __FILE__, rows[i].line);
    }
}

/* The longest jobs, there and back; then with the last floor at its limit and past it, and with a byte more. */
static void longest_jobs(void) {
    static uint8_t job[ZILQODUR_MOST_JOB_BYTES], job2[ZILQODUR_MOST_JOB2_BYTES + 1];
    static uint16_t star[ZILQODUR_MOST_ARCS];
    static uint32_t dear[ZILQODUR_MOST_ARCS];
    static uint64_t caps[ZILQODUR_MOST_ARCS];
    static int64_t proposals[ZILQODUR_MOST_ARCS];
    const size_t m = ZILQODUR_MOST_ARCS, size = sizeof job, size2 = ZILQODUR_MOST_JOB2_BYTES;
    size_t i;
    for (i = 0; i < m; i++) {
        dear[i] = 1000000000 - (uint32_t)i;
        caps[i] = 2000000000000;
        proposals[i] = i % 2 == 0 ? -2000000000000 : 2000000000000;
    }
    EXPECT(zilqodur_write_job(note(), MOST_NOTE, star, m, dear, m, caps, m, proposals, m, job, size).length == size);
    EXPECT(zilqodur_job_to_2(job, size, job2, size2).length == size2 && size2 == 33007);
    converted(zilqodur_job_to_2, job, size, job2, size2);
    converted(zilqodur_job_to_1, job2, size2, job, size);
    EXPECT(is_refused1(job2, size2, ZILQODUR_JOB_SIZE, 0) && is_reported(job2, size2, "refused 11 at 0\n"));
    EXPECT(is_refused2(job, size, ZILQODUR_JOB_SIGNATURE, 0) && is_refused2(job2, size2 + 1, ZILQODUR_JOB_SIZE, 0));
    put(job2 + size2 - 24, 2000000000000, 8);
    EXPECT(is_job(read_job2(job2, size2, NONE_SMALL), ZILQODUR_NO_REFUSAL, 0, m, m, MOST_NOTE));
    EXPECT(memcmp(lists.parents, star, sizeof star) == 0 && memcmp(lists.costs, dear, sizeof dear) == 0);
    EXPECT(memcmp(lists.caps, caps, sizeof caps) == 0 && memcmp(lists.proposals, proposals, sizeof proposals) == 0);
    EXPECT(lists.marks[0] == 1 && lists.marks[m - 1] == 1 && lists.floors[m - 2] == 0 && lists.floors[m - 1] == 2000000000000);
    EXPECT(is_job_length(zilqodur_job_to_1(job2, size2, written, sizeof written), ZILQODUR_FLOOR_ABOVE_ZERO, m - 1, 0));
    put(job2 + size2 - 24, ABOVE, 8);
    EXPECT(is_refused2(job2, size2, ZILQODUR_LIST_RANGE, m - 1));
}

/* As many arc rows as a job has room for: 16 on the last of them, then 1. */
static void most_rows(void) {
    static uint8_t job[ZILQODUR_MOST_JOB2_BYTES];
    const size_t rows = 4123, before = 7;
    put_trailer(job + before + PARENT(rows + 1), before, rows, 0, 2);
    put(job + before + MARK(rows), 2, 2);
    EXPECT(before + PARENT(rows + 1) + 16 == sizeof job);
    EXPECT(is_refused2(job, sizeof job, ZILQODUR_MARK, rows));
    put(job + before + MARK(rows), 1, 2);
    EXPECT(is_refused2(job, sizeof job, ZILQODUR_ARC_COUNT, 0));
}

void try_jobs2(void) {
    jobs2();
    wrong_jobs();
    small_jobs();
    there_and_back(0);
    there_and_back(1);
    there_and_back(MOST_NOTE);
    no_way_back();
    longest_jobs();
    most_rows();
}
