/* The sample job and the checks that sample.h declares. */
#include "sample.h"

#include <string.h>

const uint64_t sample_caps[MEMBERS] = {100, 100, 100};
const uint64_t no_floors[MEMBERS] = {0, 0, 0};
uint8_t written[ZILQODUR_MOST_JOB2_BYTES + 1];

int is_job(ZilqodurJob found, uint32_t refusal, size_t place, size_t arcs, size_t members, size_t note) {
    return IS(found.refusal, refusal) && IS(found.place, place) && IS(found.arcs, arcs) && IS(found.members, members) &&
           IS(found.note, note);
}

int is_job_length(ZilqodurJobLength found, uint32_t refusal, size_t place, size_t length) {
    return IS(found.refusal, refusal) && IS(found.place, place) && IS(found.length, length);
}

void put(uint8_t *at, uint64_t number, int width) {
    int i;
    for (i = 0; i < width; i++) {
        at[i] = (uint8_t)(number >> (8 * i));
    }
}

const uint8_t *note(void) {
    static uint8_t bytes[MOST_NOTE + 1];
    size_t i;
    for (i = 0; i < sizeof bytes; i++) {
        bytes[i] = (uint8_t)(i + 1);
    }
    return bytes;
}

void put_trailer(uint8_t *at, size_t note_count, size_t arcs, size_t members, int version) {
    put(at, note_count, 4);
    put(at + 4, note_count + 8 * arcs, 4);
    put(at + 8, arcs, 2);
    put(at + 10, members, 2);
    put(at + 12, (uint64_t)version, 2);
    at[14] = 0x54;
    at[15] = 0x4A;
}

size_t put_job(uint8_t *job, size_t note_count) {
    uint8_t *rows = job + note_count;
    size_t i;
    memset(job, 0, note_count + JOB_BYTES);
    memcpy(job, note(), note_count);
    for (i = 0; i < ARCS; i++) {
        put(rows + PARENT(i + 1), parents[i], 2);
        put(rows + COST(i + 1), costs[i], 4);
    }
    for (i = 0; i < MEMBERS; i++) {
        put(rows + CAP(i), sample_caps[i], 8);
        put(rows + PROPOSAL(i), (uint64_t)sample_proposal[i], 8);
    }
    put_trailer(rows + TRAILER, note_count, ARCS, MEMBERS, 1);
    return note_count + JOB_BYTES;
}

size_t put_job2(uint8_t *job, size_t note_count, const uint16_t *vertices, const uint64_t *floors, size_t members) {
    uint8_t *rows = job + note_count;
    size_t i;
    memcpy(job, note(), note_count);
    for (i = 0; i < ARCS; i++) {
        put(rows + PARENT(i + 1), parents[i], 2);
        put(rows + MARK(i + 1), vertices[i], 2);
        put(rows + COST(i + 1), costs[i], 4);
    }
    for (i = 0; i < members; i++) {
        put(rows + CAP2(i), sample_caps[i], 8);
        put(rows + PROPOSAL2(i), (uint64_t)sample_proposal[i], 8);
        put(rows + FLOOR2(i), floors[i], 8);
    }
    put_trailer(rows + CAP2(members), note_count, ARCS, members, 2);
    return note_count + CAP2(members) + 16;
}

int kept(const void *list, size_t from, size_t size) {
    const uint8_t *bytes = (const uint8_t *)list;
    size_t i;
    for (i = from; i < size; i++) {
        if (bytes[i] != UNWRITTEN) {
            return 0;
        }
    }
    return 1;
}

int kept_from(size_t from) {
    return kept(written, from, sizeof written);
}

/* Two fields of a report are 0 in every one: where they stand tells them apart. */
static int is_report(ZilqodurReport found, uint32_t refusal, size_t place, size_t length) {
    return IS(found.refusal, refusal) && IS(found.place, place) && IS(found.length, length) && offsetof(ZilqodurReport, refusal) == 0 &&
           offsetof(ZilqodurReport, place) == 8;
}

int is_reported(const uint8_t *job, size_t size, const char *text) {
    static uint8_t out[ZILQODUR_REPORT_ROOM];
    size_t length = strlen(text);
    memset(out, UNWRITTEN, sizeof out);
    return sizeof out == 196608 && is_report(zilqodur_report(job, size, out), ZILQODUR_NO_REFUSAL, 0, length) &&
           memcmp(out, text, length) == 0 && kept(out, length, sizeof out);
}
