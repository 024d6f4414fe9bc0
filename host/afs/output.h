/* Where results go. A file takes its place only when it is whole and on the disk; until then, and if anything fails, what stood there stands.
   Whatever fails here ends the program. */
#ifndef AFS_OUTPUT_H
#define AFS_OUTPUT_H

#include "files.h"

#include <stdio.h>
#include <sys/stat.h>

typedef enum {
    TO_DESCRIPTOR, /* one that is open, such as standard output */
    TO_DEVICE,     /* a pipe, a terminal: what isn't a regular file is written to as it stands */
    TO_FILE
} Way;

typedef struct {
    const char *name; /* as messages call it */
    bool is_text, force;
    Way way;
    int descriptor;       /* the open one */
    char *target;         /* the device or file, links followed */
    bool is_there;        /* the file is, and will be replaced */
    struct stat replaced; /* what it was like */
    FILE *stream;         /* NULL until there is something to write */
} Output;

/* Looks at the path before any work is done. A file that is there is replaced, and a terminal gets what is no text, only where `force` says so. */
Output output_to(const char *path, bool is_text, bool force);

void put_out(Output *output, const void *from, size_t length);

/* Lets be seen what was put out so far, unless it goes to a file. */
void show_output(Output *output);

/* Where nothing was put out, nothing is made. */
void finish_output(Output *output);

#endif
