/* What each command does with a file. */
#ifndef AFS_COMMANDS_H
#define AFS_COMMANDS_H

#include "options.h"

/* Does what was asked for with each file. The greatest status that was met. */
int run(const Request *request);

#endif
