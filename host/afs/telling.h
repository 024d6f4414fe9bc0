/* What is told of a record, in lines of text. Each is for a record that the call named was given and accepted. */
#ifndef AFS_TELLING_H
#define AFS_TELLING_H

#include "asking.h"
#include "holding.h"

#include <stdio.h>

/* The header, each part and the tail, a line each; for a record accepted by serve(). */
void list_parts(FILE *out, Bytes record, const Outcome *served);

/* The assessor's questions about a record, answered in sentences; for a record that print_picture() made a picture of. */
void explain(FILE *out, Bytes record, const Outcome *printed);

/* Which planes a level lacks that were asked for, as bits; and told, downward, neighbours as one stretch. */
uint32_t lacking_planes(const Holding *holding, uint32_t level, const Asked *asked);
void tell_missing_planes(FILE *out, const Holding *holding, uint32_t level, const Asked *asked);

#endif
