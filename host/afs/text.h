/* Text that grows as it is printed to. */
#ifndef AFS_TEXT_H
#define AFS_TEXT_H

#include "files.h"

#include <stdio.h>

typedef struct {
    FILE *stream;
    char *at;
    size_t length;
} Text;

void begin_text(Text *text);

/* What was printed; the caller frees the bytes. */
Bytes end_text(Text *text);

#endif
