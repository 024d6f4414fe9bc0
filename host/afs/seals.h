/* Seals: of each record its name, its header's numbers, and for each part its plane, level, bit count and SHA-256. */
#ifndef AFS_SEALS_H
#define AFS_SEALS_H

#include "digest.h"
#include "record.h"
#include "text.h"

/* Digested is the whole part, head and body. */
typedef struct {
    Part part;
    Digest digest;
} SealedPart;

typedef struct {
    char *name;
    Header header;
    SealedPart *parts; /* in the order of a record */
    size_t count;
} Seal;

typedef struct {
    Seal *of;
    size_t count, room;
} Seals;

/* Of a record without a tail that a call of the archive has found good; the caller frees it. */
Seal seal_of(const char *name, Bytes record);
void free_seal(Seal *seal);

/* The part of a plane and level, or NULL. */
const SealedPart *part_of(const Seal *seal, uint32_t plane, uint32_t level);

/* Digest of what is sealed of a record, its name left out. */
Digest digest_of_seal(const Seal *seal);

/* Takes the seal over. */
void add_seal(Seals *seals, Seal seal);
void free_seals(Seals *seals);

/* Sorts them by name. A name that two of them have, or NULL. */
const char *sort_seals(Seals *seals);

/* Of sorted seals, the only form that there is. */
void write_seals(Text *text, const Seals *seals);

/* From just that form. 0, and the caller frees the seals; or the number of the first line that is other. */
size_t read_seals(Bytes text, Seals *seals);

#endif
