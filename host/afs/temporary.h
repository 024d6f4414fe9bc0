/* A file under a name of its own that later takes another's place. Whatever ends the program before that removes it, a signal too; but nothing
   can catch SIGKILL. */
#ifndef AFS_TEMPORARY_H
#define AFS_TEMPORARY_H

#include <stdbool.h>
#include <sys/stat.h>

/* Makes one in the folder of `target`, with the mode, and where it can the owner, of the file that it will replace, or as a new file where that is NULL.
   Its descriptor, or -1 with errno set. There is one at a time. */
int begin_temporary(const char *target, const struct stat *replaced);

/* Puts it in the target's place: over what is there, or only if nothing is. 0, or the error that kept it from that. */
int place_temporary(const char *target, bool over);

#endif
