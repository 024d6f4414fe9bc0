/* What --help prints. */
#ifndef AFS_HELP_H
#define AFS_HELP_H

#include <stdio.h>

/* For each command of these bits how it is used, what it does, and its options; with what holds for all of them. */
void print_help(FILE *out, unsigned commands);

#endif
