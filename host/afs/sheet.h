/* The sheet that goes with a record: one page of HTML that needs nothing beside it. */
#ifndef AFS_SHEET_H
#define AFS_SHEET_H

#include "asking.h"
#include "nearness.h"
#include "scales.h"
#include "sentence.h"
#include "verdicts.h"

#include <stdio.h>

/* What came of holding the record against seals. */
typedef struct {
    const char *seals;      /* their file's name */
    const char *signatures; /* names of files beside them that may be signatures; or nothing */
    const char *found;      /* whole, or which selection; or what changed, a line for each fact */
    const Verdict *verdict;
} Held;

typedef struct {
    const char *name, *date;           /* of the file; no date is NULL */
    const char *title, *note, *device; /* as given, or NULL */
    const Scale *scale;
    Bytes record;
    const Outcome *printed; /* what print_picture() made of it */
    uint32_t halvings;
    Holding holding;
    Asked asked;
    uint64_t outside; /* over 0 where it was changed, or made of no picture */
    const Held *held; /* NULL where it isn't held against seals */
    Digest of_file;
} Sheet;

void write_sheet(FILE *out, const Sheet *sheet);

/* Nothing is claimed of what isn't as it was sealed, nor of what contradicts its bound. */
bool makes_claims(const Sheet *sheet);

/* Its parts, and their words. */
Sentence how_often(uint32_t halvings);
extern const char sheet_style[];
void write_alarm(FILE *out, const Sheet *sheet);
void write_held(FILE *out, const Sheet *sheet);
void write_answers(FILE *out, const Sheet *sheet);
void write_grid(FILE *out, const Sheet *sheet);

#endif
