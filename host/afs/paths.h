/* Names of files as paths, taken by their words: no link is followed. */
#ifndef AFS_PATHS_H
#define AFS_PATHS_H

#include <stddef.h>

/* Without empty components and '.', and without a component before '..'; the caller frees both. The second is from the root on, where the working folder has
   a name. */
char *plain_path(const char *path);
char *full_path(const char *path);

/* Of plain paths, by their last components first; one that has no more stands before one that has. */
int compare_from_end(const char *one, const char *other);

/* How many components at their ends are the same, and how many there are. */
size_t same_at_end(const char *one, const char *other);
size_t count_components(const char *path);

#endif
