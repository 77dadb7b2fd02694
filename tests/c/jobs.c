/* Jobs of version 1 that are read and written, and the report on a job. */
#include "sample.h"

#include <stdio.h>
#include <string.h>

static uint16_t job_parents[ZILQODUR_MOST_ARCS];
static uint32_t job_costs[ZILQODUR_MOST_ARCS];
static uint64_t job_caps[ZILQODUR_MOST_ARCS];
static int64_t job_proposals[ZILQODUR_MOST_ARCS];

/* The last list with the given number of entries. */
static ZilqodurJob read_job(const uint8_t *job, size_t size, size_t proposals) {
    return zilqodur_read_job(job, size, job_parents, ZILQODUR_MOST_ARCS, job_costs, ZILQODUR_MOST_ARCS, job_caps, ZILQODUR_MOST_ARCS,
                             job_proposals, proposals);
}

static void jobs(void) {
    uint8_t job[JOB_BYTES + 5];
    size_t size = put_job(job, 5);
    job_parents[ARCS] = 7, job_costs[ARCS] = 7, job_caps[MEMBERS] = 7, job_proposals[MEMBERS] = 7;
    EXPECT(is_job(read_job(job, size, ZILQODUR_MOST_ARCS - 1), ZILQODUR_JOB_ROOM, 0, 0, 0, 0));
    EXPECT(is_job(read_job(job, 15, ZILQODUR_MOST_ARCS), ZILQODUR_JOB_SIZE, 0, 0, 0, 0));
    EXPECT(job_parents[1] == 0 && job_costs[0] == 0 && job_caps[0] == 0 && job_proposals[0] == 0);
    EXPECT(is_job(read_job(job, size, ZILQODUR_MOST_ARCS), ZILQODUR_NO_REFUSAL, 0, ARCS, MEMBERS, 5));
    EXPECT(memcmp(job_parents, parents, sizeof parents) == 0 && memcmp(job_costs, costs, sizeof costs) == 0);
    EXPECT(are(job_caps, 100, 100, 100) && job_proposals[0] == 8 && job_proposals[1] == 4 && job_proposals[2] == 4);
    EXPECT(job_parents[ARCS] == 7 && job_costs[ARCS] == 7 && job_caps[MEMBERS] == 7 && job_proposals[MEMBERS] == 7);
}

static void wrong_jobs(void) {
    uint8_t job[JOB_BYTES];
    size_t size = put_job(job, 0);
    job[size - 1] = 0x4B;
    EXPECT(is_job(read_job(job, size, ZILQODUR_MOST_ARCS), ZILQODUR_JOB_SIGNATURE, 0, 0, 0, 0));
    put_job(job, 0);
    put(job + size - 12, 8 * ARCS + 8, 4);
    EXPECT(is_job(read_job(job, size, ZILQODUR_MOST_ARCS), ZILQODUR_JOB_LAYOUT, 0, 0, 0, 0));
    put_job(job, 0);
    put(job + 8 + 2, 1, 2);
    EXPECT(is_job(read_job(job, size, ZILQODUR_MOST_ARCS), ZILQODUR_JOB_FILLER, 2, 0, 0, 0));
    put_job(job, 0);
    put(job + 8, 0, 2);
    put(job + 16, 0, 2);
    EXPECT(is_job(read_job(job, size, ZILQODUR_MOST_ARCS), ZILQODUR_JOB_MEMBERS, 0, 0, 0, 0));
}

/* The sample job after so many bytes of the note: the output a byte short, exactly as long as the job, and longer. */
static void written_job(size_t note_count) {
    uint8_t job[MOST_NOTE + JOB_BYTES];
    size_t size = put_job(job, note_count);
    memset(written, UNWRITTEN, sizeof written);
    EXPECT(is_job_length(zilqodur_job_length(note(), note_count, SAMPLE), ZILQODUR_NO_REFUSAL, 0, size));
    EXPECT(is_job_length(zilqodur_write_job(note(), note_count, SAMPLE, written, size - 1), ZILQODUR_JOB_SPACE, 0, 0));
    EXPECT(kept_from(0));
    EXPECT(is_job_length(zilqodur_write_job(note(), note_count, SAMPLE, written, size), ZILQODUR_NO_REFUSAL, 0, size));
    EXPECT(memcmp(written, job, size) == 0 && kept_from(size));
    memset(written, UNWRITTEN, size);
    EXPECT(is_job_length(zilqodur_write_job(note(), note_count, SAMPLE, written, sizeof written), ZILQODUR_NO_REFUSAL, 0, size));
    EXPECT(memcmp(written, job, size) == 0 && kept_from(size));
}

/* Both functions refuse the note and the lists. */
#define EXPECT_NO_JOB(refusal, place, ...)                                       \
    EXPECT(is_job_length(zilqodur_job_length(__VA_ARGS__), refusal, place, 0) && \
           is_job_length(zilqodur_write_job(__VA_ARGS__, written, sizeof written), refusal, place, 0))

/* Each refusal, on a job that also has the fault that is next in the order. */
static void unwritten_jobs(void) {
    static const uint32_t dear[ARCS] = {6, 1000000001, 5, 4};
    static const uint64_t high[MEMBERS] = {100, 2000000000001, 100};
    static const int64_t low[MEMBERS] = {8, -2000000000001, 4}, above[MEMBERS] = {8, 4, 2000000000001};
    const uint8_t *n = note();
    memset(written, UNWRITTEN, sizeof written);
    EXPECT_NO_JOB(ZILQODUR_ARC_COUNT, 0, n, 0, parents, 0, costs, ARCS, SAMPLE_CAPS, SAMPLE_PROPOSAL);
    EXPECT_NO_JOB(ZILQODUR_TREE_LENGTHS, 0, n, 0, wrong_parents, ARCS, costs, ARCS - 1, SAMPLE_CAPS, SAMPLE_PROPOSAL);
    EXPECT_NO_JOB(ZILQODUR_PARENT, 2, n, 0, wrong_parents, ARCS, dear, ARCS, SAMPLE_CAPS, SAMPLE_PROPOSAL);
    EXPECT_NO_JOB(ZILQODUR_COST, 3, n, 0, parents, ARCS, wrong_costs, ARCS, sample_caps, 2, SAMPLE_PROPOSAL);
    EXPECT_NO_JOB(ZILQODUR_LIST_LENGTH, 0, n, 0, SAMPLE_ARCS, high, 2, SAMPLE_PROPOSAL);
    EXPECT_NO_JOB(ZILQODUR_LIST_RANGE, 1, n, 0, SAMPLE_ARCS, high, MEMBERS, sample_proposal, 2);
    EXPECT_NO_JOB(ZILQODUR_LIST_LENGTH, 0, n, 0, SAMPLE_ARCS, SAMPLE_CAPS, low, 2);
    EXPECT_NO_JOB(ZILQODUR_LIST_RANGE, 1, n, MOST_NOTE + 1, SAMPLE_ARCS, SAMPLE_CAPS, low, MEMBERS);
    EXPECT_NO_JOB(ZILQODUR_LIST_RANGE, 2, n, MOST_NOTE + 1, SAMPLE_ARCS, SAMPLE_CAPS, above, MEMBERS);
    EXPECT_NO_JOB(ZILQODUR_NOTE_LENGTH, 0, n, MOST_NOTE + 1, SAMPLE);
    EXPECT(is_job_length(zilqodur_write_job(n, MOST_NOTE + 1, SAMPLE, written, 0), ZILQODUR_NOTE_LENGTH, 0, 0));
    EXPECT(is_job_length(zilqodur_write_job(n, 0, SAMPLE, written, 0), ZILQODUR_JOB_SPACE, 0, 0));
    EXPECT(kept_from(0));
}

/* The longest job, with shares at both ends of their range, is written and read back. */
static void longest_job(void) {
    static uint16_t star[ZILQODUR_MOST_ARCS];
    static uint32_t dear[ZILQODUR_MOST_ARCS];
    static uint64_t caps[ZILQODUR_MOST_ARCS];
    static int64_t proposals[ZILQODUR_MOST_ARCS];
    const size_t m = ZILQODUR_MOST_ARCS, size = ZILQODUR_MOST_JOB_BYTES;
    size_t i;
    for (i = 0; i < m; i++) {
        dear[i] = 1000000000;
        caps[i] = 2000000000000;
        proposals[i] = i % 2 == 0 ? -2000000000000 : 2000000000000;
    }
    memset(written, UNWRITTEN, sizeof written);
    EXPECT(is_job_length(zilqodur_write_job(note(), MOST_NOTE, star, m, dear, m, caps, m, proposals, m, written, sizeof written),
                         ZILQODUR_NO_REFUSAL, 0, size));
    EXPECT(size == 24823 && memcmp(written, note(), MOST_NOTE) == 0 && kept_from(size));
    EXPECT(is_job(read_job(written, size, m), ZILQODUR_NO_REFUSAL, 0, m, m, MOST_NOTE));
    EXPECT(memcmp(job_parents, star, sizeof star) == 0 && memcmp(job_costs, dear, sizeof dear) == 0);
    EXPECT(memcmp(job_caps, caps, sizeof caps) == 0 && memcmp(job_proposals, proposals, sizeof proposals) == 0);
}

/* The file holds what is written for the sample job, and no more. */
static void sample_file(const char *path) {
    uint8_t held[JOB_BYTES + 1];
    FILE *file = fopen(path, "rb");
    size_t size = 0;
    if (file != NULL) {
        size = fread(held, 1, sizeof held, file);
        fclose(file);
    }
    EXPECT(is_job_length(zilqodur_write_job(note(), 0, SAMPLE, written, JOB_BYTES), ZILQODUR_NO_REFUSAL, 0, JOB_BYTES));
    EXPECT(size == JOB_BYTES && memcmp(held, written, JOB_BYTES) == 0);
}

/* The report on the sample job with this proposal. */
static void report_of(int64_t a, int64_t b, int64_t c, const char *text) {
    uint8_t job[JOB_BYTES];
    size_t size = put_job(job, 0);
    put(job + PROPOSAL(0), (uint64_t)a, 8);
    put(job + PROPOSAL(1), (uint64_t)b, 8);
    put(job + PROPOSAL(2), (uint64_t)c, 8);
    EXPECT(is_reported(job, size, text));
}

/* Each of the lines that the audit may have. */
static void reports(void) {
    report_of(8, 4, 4,
              "cost 16 members 3\naudit group 1 of 1: 0\nlevel ok\n0 at 2: proposed 8 by-arc 4 level 6\n"
              "1 at 3: proposed 4 by-arc 8 level 6\n2 at 4: proposed 4 by-arc 4 level 4\n");
    report_of(7, 5, 4,
              "cost 16 members 3\naudit pass\nlevel ok\n0 at 2: proposed 7 by-arc 4 level 6\n"
              "1 at 3: proposed 5 by-arc 8 level 6\n2 at 4: proposed 4 by-arc 4 level 4\n");
    report_of(8, 4, 5,
              "cost 16 members 3\naudit total 1\naudit group 2 of 2: 0 2\nlevel ok\n0 at 2: proposed 8 by-arc 4 level 6\n"
              "1 at 3: proposed 4 by-arc 8 level 6\n2 at 4: proposed 5 by-arc 4 level 4\n");
    report_of(-1, -1, -1,
              "cost 16 members 3\naudit total -19\nlevel ok\n0 at 2: proposed -1 by-arc 4 level 6\n"
              "1 at 3: proposed -1 by-arc 8 level 6\n2 at 4: proposed -1 by-arc 4 level 4\n");
}

void try_jobs(const char *path) {
    jobs();
    wrong_jobs();
    written_job(0);
    written_job(1);
    written_job(MOST_NOTE);
    unwritten_jobs();
    longest_job();
    sample_file(path);
    reports();
}
