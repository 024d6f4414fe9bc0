/* What is told of a file that is held against seals. */
#ifndef AFS_VERDICTS_H
#define AFS_VERDICTS_H

#include "options.h"
#include "verifying.h"

#include <stdio.h>

/* A file is to be the sealed record that is asked for, or else the one of its name. Where its name isn't sealed, where it may stand for several, or where the
   file is unchanged of another one, it is held against the one that it is most like. */
typedef struct {
    const Seal *wanted;    /* the record that it is to be, NULL if nobody says so */
    size_t namesakes;      /* how many it may be by its name, where that doesn't tell it; else 0 */
    Comparison comparison; /* its seal is NULL where the file isn't of any sealed record */
    int status;
} Verdict;

/* The status is 0 for a selection unless the whole record is wanted. */
Verdict verdict_on(Matcher *matcher, const Request *request, const Reading *reading);

/* Whether every part that is there is as it was sealed, of the record that it is to be. */
bool is_as_sealed(const Verdict *verdict);

/* Whether it is unchanged of another record than it is to be. */
bool is_another(const Verdict *verdict);

/* whole, selection, changed, another (another record than it is to be, as that was sealed), ambiguous (its name may be that of several) or unknown. */
const char *verdict_in_a_word(const Verdict *verdict);

/* Lines about the file, with its name before each; of one that is as it was sealed none where it is to be quiet. */
void tell_verdict(FILE *out, Matcher *matcher, const Verdict *verdict, bool quiet);

/* Of one that isn't changed: whole, or which selection. Of one that is: what changed, a line for each fact, with no name before it. */
void tell_unchanged(FILE *out, const Comparison *comparison);
void tell_changes(FILE *out, Matcher *matcher, const Verdict *verdict);

#endif
