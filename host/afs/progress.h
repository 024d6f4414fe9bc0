/* A line on standard error that tells how far the work is. */
#ifndef AFS_PROGRESS_H
#define AFS_PROGRESS_H

#include <stdbool.h>
#include <stddef.h>

/* Shows it if the work has taken more than a second, a person looks on, and nothing else is printed to the terminal: standard output gets nothing, or is
   another thing. */
void show_progress(size_t done, size_t all, bool prints_nothing);

/* For a process beside others: there may be a line at any time. */
void share_progress_line(void);

/* Takes the line away, if there is one. */
void clear_progress(void);

#endif
