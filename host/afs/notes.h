/* Lines on standard error about what lacks, unless it is to be quiet. */
#ifndef AFS_NOTES_H
#define AFS_NOTES_H

#include "holding.h"

/* What lacks of a record accepted by decode(), beside what was to be expected. */
void note_decoded(const Request *request, const char *name, const Holding *holding);

/* Pixels of a printed picture that were under 0 or over 255; and that the record was changed, or made of no picture, where that is so. */
void note_clipped(const Request *request, const char *name, uint64_t clipped);
void note_no_picture(const Request *request, const char *name);

/* Of a picture that was coded with as many decompositions as its sides allow: how many, where that is few. */
void note_coded(const Request *request, const char *name, uint64_t decompositions);

/* Of a record accepted by serve(): with -e a line for the plane and how far a pixel may be, one for the parts that were asked for and aren't there, and one
   for a tail that was left out. */
void note_served(const Request *request, const char *name, const Outcome *served);

#endif
