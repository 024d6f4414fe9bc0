/* Two records made one. */
#ifndef AFS_JOINING_H
#define AFS_JOINING_H

#include "options.h"

/* Joins the two files that were asked for. The status. */
int run_join(const Request *request);

#endif
