/* Which parts a record holds, and how far decoding came with them. */
#ifndef AFS_HOLDING_H
#define AFS_HOLDING_H

#include "calls.h"
#include "options.h"
#include "record.h"

/* A level's entry is at level - 1. */
typedef struct {
    Header header;
    uint32_t levels;
    uint32_t there[AFS_LEVEL_PLACES];   /* bit n is set if the level's part of plane n is there */
    const uint64_t *reached, *skipped; /* where it was decoded */
    uint64_t tail;
    Part cut;              /* the part that the tail is of, where its head is whole */
    uint64_t there_of_cut; /* bytes of its body that are there */
    bool has_cut;
} Holding;

/* The parts stand between the header and the tail. */
const uint8_t *end_of_parts(Bytes record, const Outcome *outcome);

/* Of a record that the call with this outcome accepted. */
Holding holding_of(Bytes record, const Outcome *outcome);

bool is_there(const Holding *holding, uint32_t plane, uint32_t level);

/* Usable planes run without a gap from the top down to the reached one. */
bool is_used(const Holding *holding, uint32_t plane, uint32_t level);

/* Whether the part that the tail is of can be decoded, as far as its bits go: it lies just below what its level reached, and all that it builds on is used;
   and whether any of its bits is there. */
bool is_cut_used(const Holding *holding);
bool is_tail_used(const Holding *holding);

uint32_t count_parts(const Holding *holding, bool (*counts)(const Holding *, uint32_t plane, uint32_t level));

uint32_t parts_of_whole(const Holding *holding);
bool is_whole(const Holding *holding);

/* The lowest plane to be expected of a level in what is served for a request of a whole record; the number of planes where nothing of it is. */
uint64_t expected_plane(const Request *request, const Holding *holding, uint32_t level);

/* Whether anything lacks of what was to be expected, which is all of the record, without a tail, where nothing else was said. */
bool lacks(const Request *request, const Holding *holding);

#endif
