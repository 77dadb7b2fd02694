/* Calls every function of zilqodur.h on a stack that has no more bytes free than the header names, on trees of 1,023
 * arcs, on their jobs, of which the star's are the longest that are read, and on a list of as many arcs as are stepped
 * through. Each call is made in a child process, which ends by a signal where the function takes more. Exit status 1,
 * and a line for each such call. */
#include "zilqodur.h"

#include <alloca.h>
#include <stdio.h>
#include <string.h>
#include <sys/mman.h>
#include <sys/wait.h>
#include <ucontext.h>
#include <unistd.h>

#define ARCS ZILQODUR_MOST_ARCS
#define CLASSES ZILQODUR_MOST_CLASSES
#define NOTE 255

/* What the header asks a caller to have free, and what it says of single functions and of every other. */
#define ASKED 240000
#define COMMIT 214000
#define ASK 197000
#define MAKE 140000
#define REPORT 173000
#define LEVEL 113000
#define MARGIN 123000
#define TO_1 43000
#define OTHER 40000

/* The bytes below the stack, which may not be touched, are more than a frame has, so that none reaches past them. */
#define GUARD (1 << 20)
#define STACK (1 << 18)

static uint16_t parents[ARCS], marks[ARCS], vertices[ARCS], branch[ARCS], branch_marks[ARCS];
static uint16_t small[ZILQODUR_MOST_SMALL_ARCS] = {0, 0, 2, 3, 4, 5};
static uint32_t costs[ARCS], class_costs[CLASSES * ARCS];
static uint64_t caps[ARCS], floors[ARCS], out[CLASSES * ARCS], group[16];
static int64_t proposal[ARCS];
static ZilqodurState state;
static const ZilqodurQuote cheaper = {{1, ZILQODUR_NEW_COST, 999999999}, 0};
static uint8_t note[NOTE], job[ZILQODUR_MOST_JOB_BYTES], job2[ZILQODUR_MOST_JOB2_BYTES], text[ZILQODUR_REPORT_ROOM];
static size_t members, branch_members, job_bytes, job2_bytes;

static uint32_t check_tree(void) {
    return zilqodur_check_tree(parents, ARCS, costs, ARCS, marks, ARCS).refusal;
}

static uint32_t check_caps(void) {
    return zilqodur_check_caps(members, caps, members).refusal;
}

static uint32_t check_proposal(void) {
    return zilqodur_check_proposal(members, proposal, members).refusal;
}

static uint32_t mark_dead_ends(void) {
    return zilqodur_mark_dead_ends(parents, ARCS, costs, ARCS, marks, ARCS).refusal;
}

static uint32_t count_members(void) {
    return zilqodur_count_members(parents, ARCS, costs, ARCS, marks, ARCS).refusal;
}

static uint32_t list_members(void) {
    return zilqodur_list_members(parents, ARCS, costs, ARCS, marks, ARCS, vertices, members).refusal;
}

static uint32_t list_needs(void) {
    return zilqodur_list_needs(parents, ARCS, costs, ARCS, marks, ARCS, out, ARCS).refusal;
}

static uint32_t group_cost(void) {
    return zilqodur_group_cost(parents, ARCS, costs, ARCS, marks, ARCS, group).refusal;
}

static uint32_t check_total(void) {
    return zilqodur_check_total(parents, ARCS, costs, ARCS, marks, ARCS, proposal, members).refusal;
}

static uint32_t find_group(void) {
    return zilqodur_find_group(parents, ARCS, costs, ARCS, marks, ARCS, proposal, members).refusal;
}

static uint32_t list_cap_sums(void) {
    return zilqodur_list_cap_sums(parents, ARCS, costs, ARCS, marks, ARCS, caps, members, out, ARCS).refusal;
}

static uint32_t split_level(void) {
    return zilqodur_split_level(parents, ARCS, costs, ARCS, marks, ARCS, caps, members, floors, members, out, members)
        .refusal;
}

static uint32_t split_by_arc(void) {
    return zilqodur_split_by_arc(parents, ARCS, costs, ARCS, marks, ARCS, out, members).refusal;
}

static uint32_t split_margin(void) {
    return zilqodur_split_margin(branch, ARCS, costs, ARCS, branch_marks, ARCS, 1, out, branch_members).refusal;
}

static uint32_t split_classes(void) {
    return zilqodur_split_classes(parents, ARCS, class_costs, CLASSES * ARCS, marks, ARCS, CLASSES, out,
                                  CLASSES * members)
        .refusal;
}

static uint32_t next_parents(void) {
    return zilqodur_next_parents(small, ZILQODUR_MOST_SMALL_ARCS).refusal;
}

static uint32_t make_state(void) {
    return zilqodur_make_state(parents, ARCS, costs, ARCS, marks, ARCS).refusal;
}

static uint32_t ask(void) {
    return zilqodur_ask(state, cheaper.event).refusal;
}

static uint32_t commit(void) {
    return zilqodur_commit(state, cheaper).refusal;
}

static uint32_t read_job(void) {
    return zilqodur_read_job(job, job_bytes, parents, ARCS, costs, ARCS, caps, ARCS, proposal, ARCS).refusal;
}

static uint32_t job_length(void) {
    return zilqodur_job_length(note, NOTE, parents, ARCS, costs, ARCS, caps, members, proposal, members).refusal;
}

static uint32_t write_job(void) {
    ZilqodurJobLength written = zilqodur_write_job(note, NOTE, parents, ARCS, costs, ARCS, caps, members, proposal,
                                                   members, job, sizeof job);
    job_bytes = written.length;
    return written.refusal;
}

static uint32_t read_job2(void) {
    return zilqodur_read_job2(job2, job2_bytes, parents, ARCS, costs, ARCS, marks, ARCS, caps, ARCS, proposal, ARCS, floors,
                              ARCS)
        .refusal;
}

static uint32_t job_to_2(void) {
    ZilqodurJobLength written = zilqodur_job_to_2(job, job_bytes, job2, sizeof job2);
    job2_bytes = written.length;
    return written.refusal;
}

static uint32_t job_to_1(void) {
    return zilqodur_job_to_1(job2, job2_bytes, job, sizeof job).refusal;
}

/* A refused job has a short report. */
static uint32_t report(void) {
    return zilqodur_report(job, job_bytes, text).length < 100;
}

static const struct {
    const char *name;
    uint32_t (*call)(void);
    size_t bytes;
} functions[] = {
    {"zilqodur_check_tree", check_tree, OTHER},
    {"zilqodur_check_caps", check_caps, OTHER},
    {"zilqodur_check_proposal", check_proposal, OTHER},
    {"zilqodur_mark_dead_ends", mark_dead_ends, OTHER},
    {"zilqodur_count_members", count_members, OTHER},
    {"zilqodur_list_members", list_members, OTHER},
    {"zilqodur_list_needs", list_needs, OTHER},
    {"zilqodur_group_cost", group_cost, OTHER},
    {"zilqodur_check_total", check_total, OTHER},
    {"zilqodur_find_group", find_group, OTHER},
    {"zilqodur_list_cap_sums", list_cap_sums, OTHER},
    {"zilqodur_split_level", split_level, LEVEL},
    {"zilqodur_split_by_arc", split_by_arc, OTHER},
    {"zilqodur_split_margin", split_margin, MARGIN},
    {"zilqodur_split_classes", split_classes, OTHER},
    {"zilqodur_next_parents", next_parents, OTHER},
    {"zilqodur_make_state", make_state, MAKE},
    {"zilqodur_ask", ask, ASK},
    {"zilqodur_commit", commit, COMMIT},
    {"zilqodur_read_job", read_job, OTHER},
    {"zilqodur_job_length", job_length, OTHER},
    {"zilqodur_write_job", write_job, OTHER},
    {"zilqodur_read_job2", read_job2, OTHER},
    {"zilqodur_job_to_2", job_to_2, OTHER},
    {"zilqodur_job_to_1", job_to_1, TO_1},
    {"zilqodur_report", report, REPORT},
};

static char *lowest;
static size_t free_bytes;
static uint32_t (*call)(void);
static uint32_t refusal;

/* Runs on the stack whose lowest byte is known, and takes all of it but the free bytes. What this function and the one
 * that it calls put there comes out of these, at most some 250 bytes besides the states that are handed over and come
 * back, so that no more is free when the archive is called. */
static void call_with_free_bytes(void) {
    char here;
    volatile char *taken = alloca((size_t)(&here - lowest) - free_bytes);
    *taken = 0;
    refusal = call();
}

static int run(void) {
    ucontext_t before, after;
    char *area = mmap(NULL, GUARD + STACK, PROT_READ | PROT_WRITE, MAP_PRIVATE | MAP_ANONYMOUS, -1, 0);
    if (area == MAP_FAILED || mprotect(area, GUARD, PROT_NONE) != 0 || getcontext(&after) != 0) {
        return 1;
    }
    lowest = area + GUARD;
    after.uc_stack.ss_sp = lowest;
    after.uc_stack.ss_size = STACK;
    after.uc_link = &before;
    makecontext(&after, call_with_free_bytes, 0);
    return swapcontext(&before, &after) != 0 || refusal != 0;
}

/* Whether so many bytes are enough for the call. */
static int enough(const char *name, size_t bytes) {
    int status = 0;
    pid_t child = fork();
    if (child == 0) {
        free_bytes = bytes;
        _exit(run());
    }
    if (child < 0 || waitpid(child, &status, 0) != child || (WIFEXITED(status) && WEXITSTATUS(status) != 0)) {
        printf("%s was not run or refused\n", name);
        return 0;
    }
    if (WIFSIGNALED(status)) {
        printf("%s takes more than %zu bytes of the stack\n", name, bytes);
        return 0;
    }
    return 1;
}

/* The tree with all of it below arc 1, and with two members there at least: its last two arcs leave one vertex. */
static void write_branch(void) {
    size_t k;
    for (k = 1; k < ARCS; k++) {
        branch[k] = parents[k] == 0 ? 1 : parents[k];
    }
    branch[ARCS - 1] = branch[ARCS - 2];
    branch_members = zilqodur_mark_dead_ends(branch, ARCS, costs, ARCS, branch_marks, ARCS).members;
}

/* Equal costs in all classes, caps and floors that can be kept, the group of all members, and a first member who pays
 * a unit more than the whole tree costs: the total is off and a group overpays. */
static void write_lists(void) {
    size_t i;
    for (i = 0; i < ARCS; i++) {
        costs[i] = 1000000000;
        caps[i] = 2000000000000;
        floors[i] = 1000000000;
    }
    for (i = 0; i < CLASSES * ARCS; i++) class_costs[i] = 1000000000 / CLASSES;
    members = zilqodur_mark_dead_ends(parents, ARCS, costs, ARCS, marks, ARCS).members;
    proposal[0] = INT64_C(1000000000) * ARCS + 1;
    memset(group, 0, sizeof group);
    for (i = 0; i < members; i++) {
        group[i / 64] |= UINT64_C(1) << (i % 64);
    }
    write_branch();
    state = zilqodur_make_state(parents, ARCS, costs, ARCS, marks, ARCS).state;
    write_job();
    job_to_2();
}

/* How many functions failed on the tree. */
static int try_all(void) {
    int failed = 0;
    size_t i;
    write_lists();
    for (i = 0; i < sizeof functions / sizeof functions[0]; i++) {
        call = functions[i].call;
        failed += !enough(functions[i].name, functions[i].bytes) || !enough(functions[i].name, ASKED);
    }
    return failed;
}

/* A star, a path, and a path with a dead end at each of its vertices. */
int main(void) {
    int failed = try_all();
    uint16_t k;
    for (k = 0; k < ARCS; k++) {
        parents[k] = k;
    }
    failed += try_all();
    for (k = 2; k < ARCS; k += 2) {
        parents[k] = (uint16_t)(k - 1);
    }
    failed += try_all();
    return failed > 0;
}
