/* The archive's calls, each with the memory that it wants. */
#ifndef AFS_CALLS_H
#define AFS_CALLS_H

#include "../afshtruni.h"
#include "files.h"
#include "record.h"

enum { WORK_PER_COEFFICIENT = AFS_WORK(1, 1) };

/* What came of a call. Where it refused, all but number and place is 0. */
typedef struct {
    uint64_t number, place;
    Bytes bytes;                        /* the record or pyramid that was made; the caller frees it */
    uint64_t tail;                      /* bytes of an incomplete part at the end of the record that was read */
    uint64_t reached[AFS_LEVEL_PLACES]; /* from decoding: the reached plane of each level, level 1 first */
    uint64_t skipped[AFS_LEVEL_PLACES]; /* from decoding: its parts that are there and not usable */
    uint64_t clipped;                   /* from printing: pixels that were set to the nearer end */
    uint64_t plane, farthest;           /* from serving within a distance: the plane, and how far a printed pixel may be */
} Outcome;

/* A pyramid in a file is a row of 32-bit numbers, lowest byte first. */
Outcome code(Bytes pyramid, uint64_t width, uint64_t height, uint64_t decompositions);

Outcome serve(Bytes record, uint64_t level, uint64_t plane);

Outcome join(Bytes first, Bytes second);

Outcome decode(Bytes record);

/* The same on numbers instead of a file's bytes. A pyramid that was decoded is for the caller to free, and NULL where it was refused. */
Outcome code_numbers(const int32_t *pyramid, size_t count, uint64_t width, uint64_t height, uint64_t decompositions);
Outcome decode_numbers(Bytes record, int32_t **pyramid, Header *header);

/* Whether serving and joining can read it. */
bool is_record(Bytes record);

/* Whether a record may begin with a header of these numbers. */
bool is_legal_header(Header header);

/* One of its numbers. */
int32_t coefficient_at(const uint8_t *at);

/* The name that goes with a number. */
const char *name_of(uint64_t number);

#endif
