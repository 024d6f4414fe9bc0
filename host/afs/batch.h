/* Many files, each written to a folder under the name that it has, by processes of their own: what goes wrong with one stops no other. */
#ifndef AFS_BATCH_H
#define AFS_BATCH_H

#include "options.h"

/* Does one of the files, and gives the status. */
typedef int Job(const Request *request, void *with);

/* The greatest status. Two files that would get one name end the program before anything is written. */
int run_batch(const Request *request, Job *job, void *with);

#endif
