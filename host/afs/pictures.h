/* Grey files in and out, by the archive's calls. */
#ifndef AFS_PICTURES_H
#define AFS_PICTURES_H

#include "calls.h"

typedef struct {
    uint64_t width, height, decompositions;
} PictureSizes;

/* What a file that is a picture tells, and the number of decompositions that was asked for; where that is NULL, the greatest legal one for these sides,
   or 1 if none is. */
PictureSizes sizes_of(Bytes file, const uint64_t *asked);

/* A PNG picture that can be taken becomes a grey file of Netpbm's; all else stays as it is, for the call to judge. */
void take_as_grey_file(Bytes *file);

Outcome code_picture(Bytes file, const uint64_t *asked);

/* The picture of what is there of a record, halved so many times. */
Outcome print_picture(Bytes record, uint64_t halvings);

#endif
