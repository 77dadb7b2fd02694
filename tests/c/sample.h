/* What the files on jobs share: the sample job as lists and as bytes, the checks of an answer, and an output. */
#ifndef SAMPLE_H
#define SAMPLE_H

#include "expect.h"

#define MOST_NOTE 255

/* Where the numbers of a job of T that has no note stand: those of an arc, and those of a member in either version. */
#define PARENT(arc) (8 * ((arc) - 1))
#define MARK(arc) (PARENT(arc) + 2)
#define COST(arc) (PARENT(arc) + 4)
#define CAP(member) (8 * ARCS + 16 * (member))
#define PROPOSAL(member) (CAP(member) + 8)
#define TRAILER CAP(MEMBERS)
#define CAP2(member) (8 * ARCS + 24 * (member))
#define PROPOSAL2(member) (CAP2(member) + 8)
#define FLOOR2(member) (CAP2(member) + 16)
#define TRAILER2 CAP2(MEMBERS)

/* The number of bytes of the sample job, which has no note, in either version. */
#define JOB_BYTES 96
#define JOB2_BYTES 120

/* The lists of the sample job: T with caps 100 and the proposal 8 4 4. */
extern const uint64_t sample_caps[MEMBERS];
extern const uint64_t no_floors[MEMBERS];
#define SAMPLE_ARCS parents, ARCS, costs, ARCS
#define SAMPLE_CAPS sample_caps, MEMBERS
#define SAMPLE_PROPOSAL sample_proposal, MEMBERS
#define SAMPLE SAMPLE_ARCS, SAMPLE_CAPS, SAMPLE_PROPOSAL

int is_job(ZilqodurJob found, uint32_t refusal, size_t place, size_t arcs, size_t members, size_t note);
int is_job_length(ZilqodurJobLength found, uint32_t refusal, size_t place, size_t length);

/* Writes the lowest bytes of a number, the least significant first. */
void put(uint8_t *at, uint64_t number, int width);

/* One byte more than a note may have, no two of them the same. */
const uint8_t *note(void);

/* The trailer of a job of the version, with so many bytes of the note before so many arc rows. */
void put_trailer(uint8_t *at, size_t note_count, size_t arcs, size_t members, int version);

/* The sample job after so many bytes of the note; answers the number of bytes. */
size_t put_job(uint8_t *job, size_t note_count);

/* The same as one of version 2, with these marks and, one a member, the first of its caps and shares and of the floors. */
size_t put_job2(uint8_t *job, size_t note_count, const uint16_t *vertices, const uint64_t *floors, size_t members);

/* What every byte of a list or an output is set to before a call. */
#define UNWRITTEN '#'

/* From so many bytes on the list is as it was before the call. */
int kept(const void *list, size_t from, size_t size);

/* An output that is longer than every job. */
extern uint8_t written[ZILQODUR_MOST_JOB2_BYTES + 1];

int kept_from(size_t from);

/* The report on the job is this text. */
int is_reported(const uint8_t *job, size_t size, const char *text);

#endif
