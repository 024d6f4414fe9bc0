/* A file held against a seal: which parts are as they were sealed, and which aren't. */
#ifndef AFS_VERIFYING_H
#define AFS_VERIFYING_H

#include "calls.h"
#include "matching.h"

/* What can be read of a file that may be a record: its parts up to a fault or to the tail. */
typedef struct {
    const char *name;
    Bytes file;
    Outcome outcome; /* of serving all of it */
    bool has_header;
    Seal found;    /* of what can be read */
    size_t behind; /* where it ends */
} Reading;

Reading read_file(const char *name, Bytes file);
void free_reading(Reading *reading);

typedef struct {
    const Reading *reading;
    const Seal *seal;
    bool is_changed; /* anything that is there isn't as it was sealed */
    bool has_tail;   /* bytes behind the last part that may be the beginning of the next one */
    bool is_whole;   /* every byte is as it was sealed, and all are there */
} Comparison;

Comparison compare_with(const Seal *seal, const Reading *reading);

typedef enum { AS_SEALED, IS_MISSING, IS_OTHER, IS_FOREIGN, STANDS_ELSEWHERE } Standing;

/* How a sealed part stands in the file. Elsewhere is where the walk over the parts didn't come to. */
Standing standing_of(const Comparison *comparison, const SealedPart *sealed);

/* How a part of the file stands to the seal. */
Standing standing_in_seal(const Comparison *comparison, const SealedPart *found);

#endif
